#include <stdint.h>
static int64_t pp_floord(int64_t n, int64_t d) { return n < 0 ? -((-n + d - 1) / d) : n / d; }
static int64_t pp_ceild(int64_t n, int64_t d) { return n < 0 ? -((-n) / d) : (n + d - 1) / d; }
static int64_t pp_max(int64_t a, int64_t b) { return a > b ? a : b; }
static int64_t pp_min(int64_t a, int64_t b) { return a < b ? a : b; }
void fixed(int64_t N, int64_t K, uint32_t x[N], uint32_t h[K], uint64_t s[N], uint32_t y[N]) {
  #pragma omp parallel for
  for (int64_t pp_1 = 0; pp_1 <= pp_floord(N - K, 32); pp_1++) {
    for (int64_t pp_2 = 32*pp_1; pp_2 <= pp_min(N - K, 32*pp_1 + 31); pp_2++) {
      { /* S1 */ const int64_t n = K + pp_2 - 1; s[n] = 32768ULL; }
      for (int64_t pp_3 = 0; pp_3 <= K - 1; pp_3++) {
        { /* S2 */ const int64_t n = K + pp_2 - 1; const int64_t k = pp_3; s[n] += ((uint64_t)h[k] * x[n - k]); }
      }
      { /* S3 */ const int64_t n = K + pp_2 - 1; y[n] = (s[n] >> 16ULL); }
    }
  }
}
