#include <stdint.h>
static int64_t pp_floord(int64_t n, int64_t d) { return n < 0 ? -((-n + d - 1) / d) : n / d; }
static int64_t pp_ceild(int64_t n, int64_t d) { return n < 0 ? -((-n) / d) : (n + d - 1) / d; }
static int64_t pp_max(int64_t a, int64_t b) { return a > b ? a : b; }
static int64_t pp_min(int64_t a, int64_t b) { return a < b ? a : b; }
void jacobi(int64_t T, int64_t N, uint64_t A[N][N], uint64_t B[N][N]) {
  for (int64_t pp_1 = 0; pp_1 <= pp_floord(5*T + 2*N - 9, 32); pp_1++) {
    #pragma omp parallel for
    for (int64_t pp_2 = pp_max(0, pp_max(pp_ceild(-2*T - N + 16*pp_1 + 4, 16), pp_ceild(-N + 16*pp_1 - 60, 80))); pp_2 <= pp_min(pp_floord(T - 1, 32), pp_floord(pp_1 + 1, 5)); pp_2++) {
      for (int64_t pp_3 = pp_max(pp_ceild(-2*T - N + 32*pp_1 - 32*pp_2 + 4, 32), pp_max(pp_ceild(-N + 32*pp_1 - 96*pp_2 - 60, 32), pp_max(pp_ceild(-N + 32*pp_1 - 32*pp_2 - 28, 64), 2*pp_2))); pp_3 <= pp_min(pp_floord(2*T + N - 4, 32), pp_min(pp_floord(N + 64*pp_2 + 60, 32), pp_min(pp_floord(N + 32*pp_1 - 32*pp_2 + 28, 64), pp_1 - 3*pp_2))); pp_3++) {
        for (int64_t pp_4 = pp_max(32*pp_2, pp_max(pp_ceild(-N + 32*pp_3 + 2, 2), pp_ceild(-N + 32*pp_1 - 32*pp_2 - 32*pp_3 + 3, 2))); pp_4 <= pp_floord(-N + 32*pp_3 + 2, 2); pp_4++) {
          for (int64_t pp_5 = 32*pp_3; pp_5 <= N + 2*pp_4 - 2; pp_5++) {
            for (int64_t pp_6 = pp_max(32*pp_1 - 32*pp_2 - 32*pp_3, 2*pp_4 + 1); pp_6 <= 32*pp_1 - 32*pp_2 - 32*pp_3 + 31; pp_6++) {
              { /* S2 */ const int64_t t = pp_4; const int64_t i = -2*pp_4 + pp_5; const int64_t j = -2*pp_4 + pp_6; A[i][j] = B[i][j]; }
            }
          }
        }
        for (int64_t pp_4 = pp_max(32*pp_2, pp_max(pp_ceild(-N + 32*pp_1 - 32*pp_2 - 32*pp_3 + 2, 2), pp_ceild(-N + 32*pp_3 + 2, 2))); pp_4 <= pp_floord(-N + 32*pp_1 - 32*pp_2 - 32*pp_3 + 2, 2); pp_4++) {
          for (int64_t pp_5 = pp_max(32*pp_3, 2*pp_4 + 1); pp_5 <= pp_min(32*pp_3 + 31, N + 2*pp_4 - 2); pp_5++) {
            for (int64_t pp_6 = 32*pp_1 - 32*pp_2 - 32*pp_3; pp_6 <= N + 2*pp_4 - 2; pp_6++) {
              { /* S2 */ const int64_t t = pp_4; const int64_t i = -2*pp_4 + pp_5; const int64_t j = -2*pp_4 + pp_6; A[i][j] = B[i][j]; }
            }
          }
        }
        for (int64_t pp_4 = pp_max(32*pp_2, pp_max(pp_ceild(-N + 32*pp_1 - 32*pp_2 - 32*pp_3 + 3, 2), pp_ceild(-N + 32*pp_3 + 3, 2))); pp_4 <= pp_min(T - 1, pp_min(32*pp_2 + 31, pp_min(16*pp_1 - 16*pp_2 - 16*pp_3 + 15, 16*pp_3 + 15))); pp_4++) {
          if (-16*pp_3 + pp_4 >= 0 && N - 3 >= 0) {
            for (int64_t pp_5 = pp_max(32*pp_1 - 32*pp_2 - 32*pp_3, 2*pp_4); pp_5 <= pp_min(32*pp_1 - 32*pp_2 - 32*pp_3 + 31, N + 2*pp_4 - 3); pp_5++) {
              { /* S1 */ const int64_t t = pp_4; const int64_t i = 1; const int64_t j = -2*pp_4 + pp_5 + 1; B[i][j] = (((((((4ULL * A[i][j]) + (2ULL * (((A[i - 1][j] + A[i + 1][j]) + A[i][j - 1]) + A[i][j + 1]))) + A[i - 1][j - 1]) + A[i - 1][j + 1]) + A[i + 1][j - 1]) + A[i + 1][j + 1]) >> 4ULL); }
            }
          }
          for (int64_t pp_5 = pp_max(32*pp_3, 2*pp_4 + 1); pp_5 <= pp_min(32*pp_3 + 31, N + 2*pp_4 - 3); pp_5++) {
            if (-16*pp_1 + 16*pp_2 + 16*pp_3 + pp_4 >= 0) {
              { /* S1 */ const int64_t t = pp_4; const int64_t i = -2*pp_4 + pp_5 + 1; const int64_t j = 1; B[i][j] = (((((((4ULL * A[i][j]) + (2ULL * (((A[i - 1][j] + A[i + 1][j]) + A[i][j - 1]) + A[i][j + 1]))) + A[i - 1][j - 1]) + A[i - 1][j + 1]) + A[i + 1][j - 1]) + A[i + 1][j + 1]) >> 4ULL); }
            }
            for (int64_t pp_6 = pp_max(32*pp_1 - 32*pp_2 - 32*pp_3, 2*pp_4 + 1); pp_6 <= pp_min(32*pp_1 - 32*pp_2 - 32*pp_3 + 31, N + 2*pp_4 - 3); pp_6++) {
              { /* S1 */ const int64_t t = pp_4; const int64_t i = -2*pp_4 + pp_5 + 1; const int64_t j = -2*pp_4 + pp_6 + 1; B[i][j] = (((((((4ULL * A[i][j]) + (2ULL * (((A[i - 1][j] + A[i + 1][j]) + A[i][j - 1]) + A[i][j + 1]))) + A[i - 1][j - 1]) + A[i - 1][j + 1]) + A[i + 1][j - 1]) + A[i + 1][j + 1]) >> 4ULL); }
              { /* S2 */ const int64_t t = pp_4; const int64_t i = -2*pp_4 + pp_5; const int64_t j = -2*pp_4 + pp_6; A[i][j] = B[i][j]; }
            }
            if (-N + 32*pp_1 - 32*pp_2 - 32*pp_3 - 2*pp_4 + 33 >= 0) {
              { /* S2 */ const int64_t t = pp_4; const int64_t i = -2*pp_4 + pp_5; const int64_t j = N - 2; A[i][j] = B[i][j]; }
            }
          }
          if (N - 3 >= 0 && -N + 32*pp_3 - 2*pp_4 + 33 >= 0) {
            for (int64_t pp_5 = pp_max(32*pp_1 - 32*pp_2 - 32*pp_3, 2*pp_4 + 1); pp_5 <= pp_min(32*pp_1 - 32*pp_2 - 32*pp_3 + 31, N + 2*pp_4 - 2); pp_5++) {
              { /* S2 */ const int64_t t = pp_4; const int64_t i = N - 2; const int64_t j = -2*pp_4 + pp_5; A[i][j] = B[i][j]; }
            }
          }
        }
      }
    }
  }
}
