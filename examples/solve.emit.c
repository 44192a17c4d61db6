#include <stdint.h>
static int64_t pp_floord(int64_t n, int64_t d) { return n < 0 ? -((-n + d - 1) / d) : n / d; }
static int64_t pp_ceild(int64_t n, int64_t d) { return n < 0 ? -((-n) / d) : (n + d - 1) / d; }
static int64_t pp_max(int64_t a, int64_t b) { return a > b ? a : b; }
static int64_t pp_min(int64_t a, int64_t b) { return a < b ? a : b; }
void solve(int64_t N, uint64_t L[N][N], uint64_t b[N], uint64_t x[N]) {
  for (int64_t pp_1 = 0; pp_1 <= pp_floord(N - 1, 16); pp_1++) {
    #pragma omp parallel for
    for (int64_t pp_2 = pp_ceild(pp_1, 2); pp_2 <= pp_min(pp_floord(N - 1, 32), pp_1); pp_2++) {
      if (-pp_2 >= 0) {
        { /* S1 */ const int64_t i = 0; x[i] = b[i]; }
      }
      for (int64_t pp_3 = pp_max(32*pp_2, 32*pp_1 - 32*pp_2 + 1); pp_3 <= pp_min(N - 1, 32*pp_2 + 31); pp_3++) {
        if (-pp_1 + pp_2 >= 0) {
          { /* S1 */ const int64_t i = pp_3; x[i] = b[i]; }
          { /* S2 */ const int64_t i = pp_3; const int64_t j = 0; x[i] -= (L[i][j] * x[j]); }
        }
        for (int64_t pp_4 = pp_max(1, 32*pp_1 - 32*pp_2); pp_4 <= pp_min(32*pp_1 - 32*pp_2 + 31, pp_3 - 1); pp_4++) {
          { /* S2 */ const int64_t i = pp_3; const int64_t j = pp_4; x[i] -= (L[i][j] * x[j]); }
        }
      }
    }
  }
}
