/* symm: C becomes alpha A B + beta C, of a symmetric A that is stored up to its diagonal.
   Differs: alpha, beta and the scalar temp2 are cells. */
#include <stdint.h>

void symm(int64_t M, int64_t N, uint64_t alpha[1], uint64_t beta[1], uint64_t C[M][N], uint64_t A[M][M],
          uint64_t B[M][N], uint64_t temp2[1]) {
  for (int64_t i = 0; i < M; i++)
    for (int64_t j = 0; j < N; j++) {
      temp2[0] = 0;
      for (int64_t k = 0; k < i; k++) {
        C[k][j] += alpha[0] * B[i][j] * A[i][k];
        temp2[0] += B[k][j] * A[i][k];
      }
      C[i][j] = beta[0] * C[i][j] + alpha[0] * B[i][j] * A[i][i] + alpha[0] * temp2[0];
    }
}
%%
M = 8
N = 7
alpha = 3
beta = 2
C = seed 1
A = seed 2
B = seed 3
