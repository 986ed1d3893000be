//! Runs a program on an input and takes what it prints.

use std::ffi::OsStr;
use std::io::{Read, Write};
use std::process::{Child, Command, Stdio};
use std::sync::mpsc;
use std::thread;
use std::time::{Duration, Instant};

const PATIENCE: Duration = Duration::from_secs(30);

/// Why a program has no output that can be compared.
pub enum Fault {
    /// It had to be stopped.
    Hung(String),
    /// It could not start, or ended with a status other than 0.
    Failed(String),
}

/// What the program prints for the input, read up to `most` bytes.
pub fn output(program: &OsStr, input: &[u8], most: u64) -> Result<Vec<u8>, Fault> {
    let until = Instant::now() + PATIENCE;
    let mut child = start(program)?;
    feed(&mut child, input.to_vec());
    let printed = listen(&mut child, most).recv_timeout(PATIENCE);
    let ended = wait(&mut child, until);
    match (printed, ended) {
        (Ok(printed), Some(status)) if status.success() => Ok(printed),
        (_, Some(status)) => Err(Fault::Failed(format!(
            "{} ended with {status}",
            program.to_string_lossy()
        ))),
        (_, None) => Err(Fault::Hung(format!(
            "{} did not end within {} s",
            program.to_string_lossy(),
            PATIENCE.as_secs()
        ))),
    }
}

fn start(program: &OsStr) -> Result<Child, Fault> {
    let mut command = Command::new(program);
    command
        .stdin(Stdio::piped())
        .stdout(Stdio::piped())
        .stderr(Stdio::null());
    command
        .spawn()
        .map_err(|error| Fault::Failed(format!("{}: {error}", program.to_string_lossy())))
}

/// Writes the input from a thread of its own. A program need not read it all, so an error here is none.
fn feed(child: &mut Child, input: Vec<u8>) {
    if let Some(mut stdin) = child.stdin.take() {
        thread::spawn(move || stdin.write_all(&input));
    }
}

/// Reads what is printed in a thread of its own.
fn listen(child: &mut Child, most: u64) -> mpsc::Receiver<Vec<u8>> {
    let (sender, receiver) = mpsc::channel();
    if let Some(stdout) = child.stdout.take() {
        thread::spawn(move || {
            let mut printed = Vec::new();
            let read = stdout.take(most).read_to_end(&mut printed);
            let _ = read.map(|_| sender.send(printed));
        });
    }
    receiver
}

/// The program's status, or none if it had to be stopped.
fn wait(child: &mut Child, until: Instant) -> Option<std::process::ExitStatus> {
    while Instant::now() < until {
        if let Ok(Some(status)) = child.try_wait() {
            return Some(status);
        }
        thread::sleep(Duration::from_micros(100));
    }
    let _ = child.kill();
    let _ = child.wait();
    None
}
