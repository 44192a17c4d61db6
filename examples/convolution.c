/* A picture under a kernel of K by K weights, where it lies inside. */
#include <stdint.h>

void convolution(int64_t H, int64_t W, int64_t K, uint64_t image[H][W],
                 uint64_t weight[K][K], uint64_t out[H][W]) {
  for (int64_t y = 0; y <= H - K; y++)
    for (int64_t x = 0; x <= W - K; x++)
      for (int64_t v = 0; v < K; v++)
        for (int64_t u = 0; u < K; u++)
          out[y][x] += weight[v][u] * image[y + v][x + u];
}
%%
H = 3
W = 4
K = 2
image = 1 2 3 4 5 6 7 8 9 10 11 12
weight = 1 0 0 1
