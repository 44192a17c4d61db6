#include <stdint.h>
static int64_t pp_floord(int64_t n, int64_t d) { return n < 0 ? -((-n + d - 1) / d) : n / d; }
static int64_t pp_ceild(int64_t n, int64_t d) { return n < 0 ? -((-n) / d) : (n + d - 1) / d; }
static int64_t pp_max(int64_t a, int64_t b) { return a > b ? a : b; }
static int64_t pp_min(int64_t a, int64_t b) { return a < b ? a : b; }
void prefix(int64_t N, uint64_t A[N], uint64_t S[N]) {
  for (int64_t pp_1 = 0; pp_1 <= pp_min(2047, pp_floord(N, 32)); pp_1++) {
    #pragma omp parallel for
    for (int64_t pp_2 = pp_1; pp_2 <= pp_1; pp_2++) {
      for (int64_t pp_3 = 32*pp_2; pp_3 <= pp_min(0, N - 2); pp_3++) {
        { /* S1 */ S[0] = A[0]; }
        { /* S2 */ const int64_t i = pp_3 + 1; S[i] = (S[i - 1] + A[i]); }
      }
      for (int64_t pp_3 = pp_max(0, N - 1); pp_3 <= 0; pp_3++) {
        { /* S1 */ S[0] = A[0]; }
      }
      for (int64_t pp_3 = pp_max(1, 32*pp_2); pp_3 <= pp_min(N - 2, 32*pp_2 + 31); pp_3++) {
        { /* S2 */ const int64_t i = pp_3 + 1; S[i] = (S[i - 1] + A[i]); }
      }
    }
  }
}
