#include <stdint.h>
static int64_t pp_floord(int64_t n, int64_t d) { return n < 0 ? -((-n + d - 1) / d) : n / d; }
static int64_t pp_ceild(int64_t n, int64_t d) { return n < 0 ? -((-n) / d) : (n + d - 1) / d; }
static int64_t pp_max(int64_t a, int64_t b) { return a > b ? a : b; }
static int64_t pp_min(int64_t a, int64_t b) { return a < b ? a : b; }
void seidel(int64_t T, int64_t N, uint64_t A[N]) {
  for (int64_t pp_1 = 0; pp_1 <= pp_floord(2*T + N - 5, 32); pp_1++) {
    #pragma omp parallel for
    for (int64_t pp_2 = pp_max(0, pp_max(pp_ceild(-T - N + 32*pp_1 + 4, 32), pp_ceild(-N + 32*pp_1 - 28, 64))); pp_2 <= pp_min(pp_floord(T - 1, 32), pp_floord(pp_1, 2)); pp_2++) {
      for (int64_t pp_3 = pp_max(32*pp_2, -N + 32*pp_1 - 32*pp_2 + 3); pp_3 <= pp_min(T - 1, 32*pp_2 + 31); pp_3++) {
        for (int64_t pp_4 = pp_max(32*pp_1 - 32*pp_2, pp_3); pp_4 <= pp_min(32*pp_1 - 32*pp_2 + 31, N + pp_3 - 3); pp_4++) {
          { /* S1 */ const int64_t t = pp_3; const int64_t i = -pp_3 + pp_4 + 1; A[i] = ((A[i - 1] + A[i]) + A[i + 1]); }
        }
      }
    }
  }
}
