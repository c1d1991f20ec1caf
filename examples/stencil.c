/*
 * Heat on a square plate: sweeps of the five-point stencil until the largest change of a cell is small.
 *
 * One source for four platforms, chosen by the names that the compiler is given:
 *
 *   GPU      loops run on an accelerator, and both plates stay there between the sweeps
 *   OPENMP   the rows of a sweep are shared among threads
 *   SIMD     four cells at a time, in the vector types of GCC and Clang
 *   (none)   portable C
 *
 * OPENMP and SIMD go together. GPU stands alone, and puts both aside.
 */
#define VERBOSE

#ifdef GPU
#define OFFLOAD
#undef OPENMP
#undef SIMD
#else
#define HOST
#endif

#ifdef HOST
#ifdef SIMD
typedef double lanes __attribute__((vector_size(32), aligned(8), may_alias));
#endif
#endif

enum { SIDE = 130, SWEEPS = 10000 };

int printf(const char *format, ...);

static double plates[2][SIDE][SIDE];

/* The new value of one cell: the mean of its four neighbours. */
static inline double relaxed(const double *above, const double *row, const double *below, int column)
{
    return 0.25 * (above[column] + below[column] + row[column - 1] + row[column + 1]);
}

#ifdef HOST
/* Relaxes one row and returns the largest change in it. */
static double sweep_row(const double *above, const double *row, const double *below, double *into)
{
    int column = 1;
#ifdef SIMD
    for (; column + 4 < SIDE; column += 4) {
        lanes sum = *(const lanes *)(above + column) + *(const lanes *)(below + column);
        sum += *(const lanes *)(row + column - 1) + *(const lanes *)(row + column + 1);
        *(lanes *)(into + column) = sum * 0.25;
    }
#endif
    for (; column < SIDE - 1; column++) /* what fills no vector, or the whole row */
        into[column] = relaxed(above, row, below, column);

    double most = 0.0;
    for (column = 1; column < SIDE - 1; column++) {
        double change = into[column] - row[column];
        change = change < 0.0 ? -change : change;
        most = change > most ? change : most;
    }
    return most;
}
#endif

/* One sweep over the inner cells of the plate; returns the largest change. */
static double sweep(double (*from)[SIDE], double (*to)[SIDE])
{
    double most = 0.0;
#ifdef OFFLOAD
#pragma omp target teams distribute parallel for collapse(2) reduction(max : most)
    for (int y = 1; y < SIDE - 1; y++)
        for (int x = 1; x < SIDE - 1; x++) {
            to[y][x] = relaxed(from[y - 1], from[y], from[y + 1], x);
            most = __builtin_fmax(most, __builtin_fabs(to[y][x] - from[y][x]));
        }
#else
#ifdef OPENMP
#pragma omp parallel for schedule(static) reduction(max : most)
#endif
    for (int y = 1; y < SIDE - 1; y++) {
        double change = sweep_row(from[y - 1], from[y], from[y + 1], to[y]);
        most = change > most ? change : most;
    }
#endif
    return most;
}

int main(void)
{
    int done = 0;
    double most = 1.0;
    for (int x = 0; x < SIDE; x++)
        plates[0][0][x] = plates[1][0][x] = 100.0; /* the hot edge */
#ifdef OFFLOAD
#pragma omp target data map(tofrom : plates)
#endif
    for (; done < SWEEPS && most > 0.001; done++)
        most = sweep(plates[done % 2], plates[(done + 1) % 2]);
#ifdef VERBOSE
    printf("%d sweeps, largest change %g, middle %g\n", done, most, plates[done % 2][SIDE / 2][SIDE / 2]);
#endif
    return 0;
}
