//! Vertices ordered by cost, lowest first, or a base and its companions. Place 1 stands at index 0.

use crate::types::{Vertex, MAX_AXES, MAX_COST};

/// Vertices that a simplex has at most.
pub(crate) const MAX_VERTICES: usize = MAX_AXES + 1;

/// The points, in one flat run of 72 numbers, and the costs and the readings' numbers of nine places; those past its vertices are zeros.
#[derive(Clone, Debug, PartialEq)]
pub(crate) struct Simplex {
    /// Coordinates, eight for each vertex.
    pub(crate) points: [f64; MAX_VERTICES * MAX_AXES],
    /// Costs in place order.
    pub(crate) costs: [u64; MAX_VERTICES],
    /// The numbers of the readings that gave the costs, in place order.
    pub(crate) numbers: [u64; MAX_VERTICES],
    /// The places from this index on are known to be zeros.
    used: usize,
}

impl Simplex {
    /// The empty simplex.
    pub(crate) const EMPTY: Simplex = Simplex {
        points: [0.0; MAX_VERTICES * MAX_AXES],
        costs: [0; MAX_VERTICES],
        numbers: [0; MAX_VERTICES],
        used: 0,
    };

    /// The eight coordinates of the vertex at an index.
    pub(crate) fn point(&self, index: usize) -> &[f64] {
        &self.points[index * MAX_AXES..(index + 1) * MAX_AXES]
    }

    /// The vertex at an index.
    pub(crate) fn vertex(&self, index: usize) -> Vertex {
        let mut vertex = Vertex::ZERO;
        vertex.point.copy_from_slice(self.point(index));
        vertex.cost = self.costs[index];
        vertex.number = self.numbers[index];
        vertex
    }

    /// A newcomer joins the first so many vertices, and zeros follow.
    pub(crate) fn enter(&mut self, vertices: usize, newcomer: &Vertex) {
        self.clear_from(vertices);
        self.insert(vertices, newcomer);
        self.used = vertices + 1;
    }

    /// A vertex stands after the first so many, whatever their costs, and zeros follow.
    pub(crate) fn place(&mut self, vertices: usize, vertex: &Vertex) {
        self.clear_from(vertices);
        self.put(vertices, vertex);
    }

    /// Only the first so many vertices stay, and zeros follow.
    pub(crate) fn clear_from(&mut self, vertices: usize) {
        if vertices < self.used {
            self.points[vertices * MAX_AXES..self.used * MAX_AXES].fill(0.0);
            self.costs[vertices..self.used].fill(0);
            self.numbers[vertices..self.used].fill(0);
            self.used = vertices;
        }
    }

    /// Writes a cost, in order or not.
    pub(crate) fn put_cost(&mut self, index: usize, cost: u64) {
        self.costs[index] = cost;
        self.used = self.used.max(index + 1);
    }

    /// Writes a reading's number, of one that there was or not.
    pub(crate) fn put_number(&mut self, index: usize, number: u64) {
        self.numbers[index] = number;
        self.used = self.used.max(index + 1);
    }

    /// Inserts a newcomer among the first `left` vertices, after all of equal cost; the index `left` is free.
    fn insert(&mut self, left: usize, newcomer: &Vertex) {
        if left == 0 || self.costs[left - 1] <= newcomer.cost {
            self.put(left, newcomer);
        } else {
            self.make_room(left);
            self.insert(left - 1, newcomer);
        }
    }

    /// Writes a vertex at an index.
    pub(crate) fn put(&mut self, index: usize, vertex: &Vertex) {
        let first = index * MAX_AXES;
        self.points[first..first + MAX_AXES].copy_from_slice(&vertex.point);
        self.costs[index] = vertex.cost;
        self.numbers[index] = vertex.number;
        self.used = self.used.max(index + 1);
    }

    /// Moves the vertex before a free index to that index.
    fn make_room(&mut self, index: usize) {
        let first = index * MAX_AXES;
        self.points.copy_within(first - MAX_AXES..first, first);
        self.costs[index] = self.costs[index - 1];
        self.numbers[index] = self.numbers[index - 1];
    }

    /// Whether the first so many vertices stand in cost order.
    #[inline]
    pub(crate) fn is_ordered(&self, vertices: usize) -> bool {
        let costs = &self.costs[..vertices];
        costs.is_sorted()
    }

    /// Whether no cost is above 16,777,215, whose bits are all 1, at any of the nine places.
    #[inline]
    pub(crate) fn costs_hold(&self) -> bool {
        self.costs.iter().fold(0, |bits, cost| bits | cost) <= MAX_COST
    }
}
