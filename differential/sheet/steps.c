/* A plan's steps, as quoting.advance takes them: document 01's series, and the division by the largest weight.
 *
 *     cc -O2 -ffp-contract=off -shared -fPIC -o steps.so steps.c
 *
 * Each +, -, * and / rounds once: a double is binary64, and no product is joined to a sum. */
#include <float.h>
#include <math.h>

enum { MOST_ROWS = 401, MOST_TERMS = 100, REFUSED = -1 };

_Static_assert(FLT_RADIX == 2 && DBL_MANT_DIG == 53 && FLT_EVAL_METHOD == 0, "a double is not binary64");

struct plan {
    int rows;
    const double *diagonal, *left, *right;
    double eta_dt;
};

/* The operator on x, times share. Before and after its rows x holds 0.0. */
static void operate(const struct plan *p, const double *x, double share, double *out)
{
    for (int i = 0; i < p->rows; i++) {
        double y = p->eta_dt * (p->left[i] * x[i - 1] + p->right[i] * x[i + 1]) - p->diagonal[i] * x[i];
        out[i] = y * share;
    }
}

/* Adds a term to the sum: whether both are finite, and in *small whether each entry's term is small. */
static int add(int rows, const double *term, double *sum, int *small)
{
    int finite = 1;
    *small = 1;
    for (int i = 0; i < rows; i++) {
        sum[i] = sum[i] + term[i];
        finite &= isfinite(term[i]) && isfinite(sum[i]);
        *small &= fabs(term[i]) <= 1e-16 * fabs(sum[i]);
    }
    return finite;
}

static int positive(int rows, const double *sum)
{
    for (int i = 0; i < rows; i++)
        if (!(sum[i] > 0.0))
            return 0;
    return 1;
}

/* The weights become the series' sum: whether it ends, finite and positive. */
static int series(const struct plan *p, double *weights)
{
    double terms[2][MOST_ROWS + 2] = {{0.0}};
    int small;
    for (int i = 0; i < p->rows; i++)
        terms[0][i + 1] = weights[i];
    for (int j = 1; j <= MOST_TERMS; j++) {
        double *term = terms[j % 2] + 1;
        operate(p, terms[(j - 1) % 2] + 1, 1.0 / j, term);
        if (!add(p->rows, term, weights, &small))
            return 0;
        if (small)
            return positive(p->rows, weights);
    }
    return 0;
}

/* Divides by the largest weight: the smallest afterwards. */
static double divide(int rows, double *weights)
{
    double largest = weights[0], smallest = INFINITY;
    for (int i = 1; i < rows; i++)
        largest = weights[i] > largest ? weights[i] : largest;
    for (int i = 0; i < rows; i++) {
        weights[i] = weights[i] / largest;
        smallest = weights[i] < smallest ? weights[i] : smallest;
    }
    return smallest;
}

/* The steps that remain, where they end or a weight is below 1e-200; REFUSED for 11. */
int advance(int rows, double *weights, const double *diagonal, double eta_dt, const double *left,
            const double *right, int steps)
{
    struct plan p = {rows, diagonal, left, right, eta_dt};
    while (steps > 0) {
        if (!series(&p, weights))
            return REFUSED;
        steps--;
        if (divide(rows, weights) < 1e-200)
            break;
    }
    return steps;
}
