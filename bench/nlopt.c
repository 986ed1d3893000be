/* Times LN_NELDERMEAD of NLopt on the series: `nlopt AXES EVALUATIONS`. Without arguments it prints the library's version. */
#include <nlopt.h>

#include "series.h"

static double objective(unsigned axes, const double *x, double *gradient, void *given)
{
    (void)axes;
    (void)gradient;
    return evaluate(given, x);
}

/* NLopt stops at exactly the number of evaluations it is given, so the series ends at the wanted number */
static void search(struct series *s, void *given)
{
    nlopt_opt inner = given;
    uint64_t left = s->wanted - s->done;
    double x[MOST_AXES], cost;
    for (size_t a = 0; a < s->axes; a++)
        x[a] = START;
    nlopt_set_maxeval(inner, left < LONGEST ? (int)left : LONGEST);
    nlopt_optimize(inner, x, &cost);
}

int main(int count, char **words)
{
    if (count != 3) {
        int major, minor, fix;
        nlopt_version(&major, &minor, &fix);
        printf("NLopt %d.%d.%d\n", major, minor, fix);
        return 0;
    }
    struct series s = series_of(words);
    nlopt_opt inner = nlopt_create(NLOPT_LN_NELDERMEAD, (unsigned)s.axes);
    if (!inner || nlopt_set_min_objective(inner, objective, &s) < 0 || nlopt_set_lower_bounds1(inner, LOW) < 0
        || nlopt_set_upper_bounds1(inner, HIGH) < 0 || nlopt_set_initial_step1(inner, STEP) < 0
        || nlopt_set_xtol_abs1(inner, SMALL) < 0)
        return 2;
    run_series(&s, search, inner);
    nlopt_destroy(inner);
    return 0;
}
