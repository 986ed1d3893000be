/* Times nmsimplex2 of the GNU Scientific Library on the series: `gsl AXES EVALUATIONS`. Without arguments it prints the
   library's version.

   GSL has no limits on the axes, so these searches are unbounded. A search can only be left between two iterations, so the last
   one may run a few evaluations past the wanted number; they are counted. On the flat floor of the bowl its size often stays
   above SMALL: such a search runs to the limit on evaluations. */
#define HAVE_INLINE
#define GSL_RANGE_CHECK_OFF
#include <gsl/gsl_errno.h>
#include <gsl/gsl_multimin.h>
#include <gsl/gsl_version.h>

#include "series.h"

struct minimizer {
    gsl_multimin_fminimizer *inner;
    gsl_multimin_function function;
    gsl_vector *start;
    gsl_vector *step;
};

/* a gsl_vector may have gaps between its numbers, so they are copied */
static double objective(const gsl_vector *x, void *given)
{
    struct series *s = given;
    double point[MOST_AXES];
    for (size_t a = 0; a < s->axes; a++)
        point[a] = gsl_vector_get(x, a);
    return evaluate(s, point);
}

static void search(struct series *s, void *given)
{
    struct minimizer *m = given;
    uint64_t before = s->done;
    int status = gsl_multimin_fminimizer_set(m->inner, &m->function, m->start, m->step);
    while (status == GSL_SUCCESS && s->done < s->wanted && s->done - before < LONGEST) {
        status = gsl_multimin_fminimizer_iterate(m->inner);
        if (status == GSL_SUCCESS && gsl_multimin_test_size(gsl_multimin_fminimizer_size(m->inner), SMALL) == GSL_SUCCESS)
            return;
    }
}

int main(int count, char **words)
{
    if (count != 3) {
        printf("GSL %s\n", gsl_version);
        return 0;
    }
    struct series s = series_of(words);
    gsl_set_error_handler_off();
    struct minimizer m = {
        .inner = gsl_multimin_fminimizer_alloc(gsl_multimin_fminimizer_nmsimplex2, s.axes),
        .function = {.f = objective, .n = s.axes, .params = &s},
        .start = gsl_vector_alloc(s.axes),
        .step = gsl_vector_alloc(s.axes),
    };
    if (!m.inner || !m.start || !m.step)
        return 2;
    gsl_vector_set_all(m.start, START);
    gsl_vector_set_all(m.step, STEP);
    run_series(&s, search, &m);
    gsl_multimin_fminimizer_free(m.inner);
    gsl_vector_free(m.start);
    gsl_vector_free(m.step);
    return 0;
}
