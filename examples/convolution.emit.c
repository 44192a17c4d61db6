#include <stdint.h>
static int64_t pp_floord(int64_t n, int64_t d) { return n < 0 ? -((-n + d - 1) / d) : n / d; }
static int64_t pp_ceild(int64_t n, int64_t d) { return n < 0 ? -((-n) / d) : (n + d - 1) / d; }
static int64_t pp_max(int64_t a, int64_t b) { return a > b ? a : b; }
static int64_t pp_min(int64_t a, int64_t b) { return a < b ? a : b; }
void convolution(int64_t H, int64_t W, int64_t K, uint64_t image[H][W], uint64_t weight[K][K], uint64_t out[H][W]) {
  for (int64_t pp_1 = 0; pp_1 <= pp_floord(K - 1, 32); pp_1++) {
    #pragma omp parallel for
    for (int64_t pp_2 = 0; pp_2 <= pp_floord(H - K, 32); pp_2++) {
      for (int64_t pp_3 = 0; pp_3 <= pp_floord(W - K, 32); pp_3++) {
        for (int64_t pp_4 = 32*pp_2; pp_4 <= pp_min(H - K, 32*pp_2 + 31); pp_4++) {
          for (int64_t pp_5 = 32*pp_3; pp_5 <= pp_min(W - K, 32*pp_3 + 31); pp_5++) {
            for (int64_t pp_6 = 32*pp_1; pp_6 <= pp_min(K - 1, 32*pp_1 + 31); pp_6++) {
              for (int64_t pp_7 = 0; pp_7 <= K - 1; pp_7++) {
                { /* S1 */ const int64_t y = pp_4; const int64_t x = pp_5; const int64_t v = pp_6; const int64_t u = pp_7; out[y][x] += (weight[v][u] * image[y + v][x + u]); }
              }
            }
          }
        }
      }
    }
  }
}
