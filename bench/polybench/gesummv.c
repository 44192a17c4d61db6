/* gesummv: y becomes alpha A x + beta B x.
   Differs: alpha and beta are cells. */
#include <stdint.h>

void gesummv(int64_t N, uint64_t alpha[1], uint64_t beta[1], uint64_t A[N][N], uint64_t B[N][N], uint64_t tmp[N],
             uint64_t x[N], uint64_t y[N]) {
  for (int64_t i = 0; i < N; i++) {
    tmp[i] = 0;
    y[i] = 0;
    for (int64_t j = 0; j < N; j++) {
      tmp[i] += A[i][j] * x[j];
      y[i] += B[i][j] * x[j];
    }
    y[i] = alpha[0] * tmp[i] + beta[0] * y[i];
  }
}
%%
N = 9
alpha = 3
beta = 2
A = seed 1
B = seed 2
x = seed 3
