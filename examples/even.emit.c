#include <stdint.h>
static int64_t pp_floord(int64_t n, int64_t d) { return n < 0 ? -((-n + d - 1) / d) : n / d; }
static int64_t pp_ceild(int64_t n, int64_t d) { return n < 0 ? -((-n) / d) : (n + d - 1) / d; }
static int64_t pp_max(int64_t a, int64_t b) { return a > b ? a : b; }
static int64_t pp_min(int64_t a, int64_t b) { return a < b ? a : b; }
void even(int64_t N, uint64_t A[2*N], uint64_t B[2*N]) {
  #pragma omp parallel for
  for (int64_t pp_1 = 0; pp_1 <= pp_floord(N - 1, 16); pp_1++) {
    for (int64_t pp_2 = 16*pp_1; pp_2 <= pp_min(16*pp_1 + 15, N - 1); pp_2++) {
      { /* S1 */ const int64_t j = pp_2; A[2*j] = 7ULL; }
      { /* S2 */ const int64_t i = 2*pp_2; B[i] = A[i]; }
      if (N - pp_2 - 2 >= 0) {
        { /* S2 */ const int64_t i = 2*pp_2 + 1; B[i] = A[i]; }
      }
    }
    for (int64_t pp_2 = 2*N - 1; pp_2 <= pp_min(2*N - 1, 32*pp_1 + 31); pp_2++) {
      { /* S2 */ const int64_t i = pp_2; B[i] = A[i]; }
    }
  }
}
