/* gemm: C becomes alpha A B + beta C.
   Differs: alpha and beta are cells. */
#include <stdint.h>

void gemm(int64_t NI, int64_t NJ, int64_t NK, uint64_t alpha[1], uint64_t beta[1], uint64_t C[NI][NJ],
          uint64_t A[NI][NK], uint64_t B[NK][NJ]) {
  for (int64_t i = 0; i < NI; i++) {
    for (int64_t j = 0; j < NJ; j++)
      C[i][j] *= beta[0];
    for (int64_t k = 0; k < NK; k++)
      for (int64_t j = 0; j < NJ; j++)
        C[i][j] += alpha[0] * A[i][k] * B[k][j];
  }
}
%%
NI = 7
NJ = 8
NK = 9
alpha = 3
beta = 2
C = seed 1
A = seed 2
B = seed 3
