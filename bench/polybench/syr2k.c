/* syr2k: C becomes alpha A B^T + alpha B A^T + beta C, up to its diagonal.
   Differs: alpha and beta are cells. */
#include <stdint.h>

void syr2k(int64_t N, int64_t M, uint64_t alpha[1], uint64_t beta[1], uint64_t C[N][N], uint64_t A[N][M],
           uint64_t B[N][M]) {
  for (int64_t i = 0; i < N; i++) {
    for (int64_t j = 0; j <= i; j++)
      C[i][j] *= beta[0];
    for (int64_t k = 0; k < M; k++)
      for (int64_t j = 0; j <= i; j++)
        C[i][j] += A[j][k] * alpha[0] * B[i][k] + B[j][k] * alpha[0] * A[i][k];
  }
}
%%
N = 8
M = 7
alpha = 3
beta = 2
C = seed 1
A = seed 2
B = seed 3
