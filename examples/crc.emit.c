#include <stdint.h>
static int64_t pp_floord(int64_t n, int64_t d) { return n < 0 ? -((-n + d - 1) / d) : n / d; }
static int64_t pp_ceild(int64_t n, int64_t d) { return n < 0 ? -((-n) / d) : (n + d - 1) / d; }
static int64_t pp_max(int64_t a, int64_t b) { return a > b ? a : b; }
static int64_t pp_min(int64_t a, int64_t b) { return a < b ? a : b; }
void crc(int64_t N, int64_t L, uint32_t M[N][L], uint32_t P[N], uint32_t C[N]) {
  for (int64_t pp_1 = 0; pp_1 <= pp_floord(L - 1, 32); pp_1++) {
    #pragma omp parallel for
    for (int64_t pp_2 = 0; pp_2 <= pp_floord(N - 1, 32); pp_2++) {
      for (int64_t pp_3 = 32*pp_2; pp_3 <= pp_min(N - 1, 32*pp_2 + 31); pp_3++) {
        for (int64_t pp_4 = 32*pp_1; pp_4 <= pp_min(L - 1, 32*pp_1 + 31); pp_4++) {
          { /* S1 */ const int64_t i = pp_3; const int64_t j = pp_4; C[i] = ((C[i] >> 1ULL) ^ (P[i] & (-((C[i] ^ M[i][j]) & (uint32_t)(1))))); }
        }
      }
    }
  }
}
