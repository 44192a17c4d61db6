/* A vector and a times another (y := a x + y). The stride that callers of this
   interface give is always 1, and is not looked at. */
#include <stdint.h>

void axpy(int64_t N, int64_t stride, uint64_t a[1], uint64_t x[N], uint64_t y[N]) {
  for (int64_t i = 0; i < N; i++)
    y[i] += a[0] * x[i];
}
%%
N = 4
stride = 1
a = 10
x = 1 2 3 4
y = 4 3 2 1
