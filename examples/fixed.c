/* A filter of samples of 32 bits by weights of which 65536 is one: products are summed
   in 64 bits, and rounded. */
#include <stdint.h>

void fixed(int64_t N, int64_t K, uint32_t x[N], uint32_t h[K], uint64_t s[N], uint32_t y[N]) {
  for (int64_t n = K - 1; n < N; n++) {
    s[n] = 0x8000;
    for (int64_t k = 0; k < K; k++)
      s[n] += (uint64_t)h[k] * x[n - k];
    y[n] = s[n] >> 16;
  }
}
%%
N = 6
K = 3
x = 0 4294967295 4294967295 4294967295 3 1
h = 16384 32768 16384
