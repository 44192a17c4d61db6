#include <stdint.h>
static int64_t pp_floord(int64_t n, int64_t d) { return n < 0 ? -((-n + d - 1) / d) : n / d; }
static int64_t pp_ceild(int64_t n, int64_t d) { return n < 0 ? -((-n) / d) : (n + d - 1) / d; }
static int64_t pp_max(int64_t a, int64_t b) { return a > b ? a : b; }
static int64_t pp_min(int64_t a, int64_t b) { return a < b ? a : b; }
void transpose(int64_t N, uint64_t A[N][N], uint64_t C[1]) {
  for (int64_t pp_1 = 0; pp_1 <= pp_floord(N - 2, 32); pp_1++) {
    #pragma omp parallel for
    for (int64_t pp_2 = pp_1; pp_2 <= pp_1; pp_2++) {
      for (int64_t pp_3 = 32*pp_2; pp_3 <= pp_min(N - 2, 32*pp_2 + 31); pp_3++) {
        for (int64_t pp_4 = 0; pp_4 <= pp_3; pp_4++) {
          { /* S1 */ const int64_t i = pp_3 + 1; const int64_t j = pp_4; C[0] = A[i][j]; }
          { /* S2 */ const int64_t i = pp_3 + 1; const int64_t j = pp_4; A[i][j] = A[j][i]; }
          { /* S3 */ const int64_t i = pp_3 + 1; const int64_t j = pp_4; A[j][i] = C[0]; }
        }
      }
    }
  }
}
