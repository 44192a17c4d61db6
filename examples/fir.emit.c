#include <stdint.h>
static int64_t pp_floord(int64_t n, int64_t d) { return n < 0 ? -((-n + d - 1) / d) : n / d; }
static int64_t pp_ceild(int64_t n, int64_t d) { return n < 0 ? -((-n) / d) : (n + d - 1) / d; }
static int64_t pp_max(int64_t a, int64_t b) { return a > b ? a : b; }
static int64_t pp_min(int64_t a, int64_t b) { return a < b ? a : b; }
void fir(int64_t N, int64_t K, uint64_t x[N], uint64_t h[K], uint64_t y[N]) {
  for (int64_t pp_1 = 0; pp_1 <= pp_min(pp_floord(K - 1, 32), pp_floord(N - 1, 32)); pp_1++) {
    #pragma omp parallel for
    for (int64_t pp_2 = pp_1; pp_2 <= pp_floord(N - 1, 32); pp_2++) {
      for (int64_t pp_3 = 32*pp_2; pp_3 <= pp_min(N - 1, 32*pp_2 + 31); pp_3++) {
        for (int64_t pp_4 = 32*pp_1; pp_4 <= pp_min(K - 1, pp_min(32*pp_1 + 31, pp_3)); pp_4++) {
          { /* S1 */ const int64_t n = pp_3; const int64_t k = pp_4; y[n] += (h[k] * x[n - k]); }
        }
      }
    }
  }
}
