#include <stdint.h>
static int64_t pp_floord(int64_t n, int64_t d) { return n < 0 ? -((-n + d - 1) / d) : n / d; }
static int64_t pp_ceild(int64_t n, int64_t d) { return n < 0 ? -((-n) / d) : (n + d - 1) / d; }
static int64_t pp_max(int64_t a, int64_t b) { return a > b ? a : b; }
static int64_t pp_min(int64_t a, int64_t b) { return a < b ? a : b; }
void lu(int64_t N, uint64_t A[N][N]) {
  for (int64_t pp_1 = 0; pp_1 <= pp_floord(3*N - 6, 32); pp_1++) {
    #pragma omp parallel for
    for (int64_t pp_2 = pp_max(0, pp_ceild(-N + 16*pp_1 + 2, 16)); pp_2 <= pp_min(pp_floord(N - 2, 32), pp_floord(pp_1 + 1, 3)); pp_2++) {
      for (int64_t pp_3 = pp_max(pp_2, pp_ceild(-N + 32*pp_1 - 32*pp_2 + 2, 32)); pp_3 <= pp_min(pp_floord(N - 2, 32), pp_1 - 2*pp_2); pp_3++) {
        for (int64_t pp_4 = 32*pp_2; pp_4 <= pp_min(N - 2, 32*pp_2 + 31); pp_4++) {
          for (int64_t pp_5 = pp_max(32*pp_3, pp_4); pp_5 <= pp_min(N - 2, 32*pp_3 + 31); pp_5++) {
            for (int64_t pp_6 = pp_max(32*pp_1 - 32*pp_2 - 32*pp_3, pp_4); pp_6 <= pp_min(N - 2, 32*pp_1 - 32*pp_2 - 32*pp_3 + 31); pp_6++) {
              { /* S1 */ const int64_t k = pp_4; const int64_t i = -pp_4 + pp_5 + k + 1; const int64_t j = -pp_4 + pp_6 + k + 1; A[i][j] -= (A[i][k] * A[k][j]); }
            }
          }
        }
      }
    }
  }
}
