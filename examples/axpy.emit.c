#include <stdint.h>
static int64_t pp_floord(int64_t n, int64_t d) { return n < 0 ? -((-n + d - 1) / d) : n / d; }
static int64_t pp_ceild(int64_t n, int64_t d) { return n < 0 ? -((-n) / d) : (n + d - 1) / d; }
static int64_t pp_max(int64_t a, int64_t b) { return a > b ? a : b; }
static int64_t pp_min(int64_t a, int64_t b) { return a < b ? a : b; }
void axpy(int64_t N, int64_t stride, uint64_t a[1], uint64_t x[N], uint64_t y[N]) {
  #pragma omp parallel for
  for (int64_t pp_1 = 0; pp_1 <= pp_floord(N - 1, 32); pp_1++) {
    for (int64_t pp_2 = 32*pp_1; pp_2 <= pp_min(N - 1, 32*pp_1 + 31); pp_2++) {
      { /* S1 */ const int64_t i = pp_2; y[i] += (a[0] * x[i]); }
    }
  }
}
