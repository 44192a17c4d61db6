/* A filter of finite response: y[n] is the sum of the last K samples, each by its
   weight. */
#include <stdint.h>

void fir(int64_t N, int64_t K, uint64_t x[N], uint64_t h[K], uint64_t y[N]) {
  for (int64_t n = 0; n < N; n++)
    for (int64_t k = 0; k < K; k++)
      if (k <= n)
        y[n] += h[k] * x[n - k];
}
%%
N = 6
K = 3
x = 1 2 3 4 5 6
h = 1 10 100
