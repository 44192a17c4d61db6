/* trmm: B becomes alpha A^T B, of a lower triangle A with ones on its diagonal.
   Differs: alpha is a cell. */
#include <stdint.h>

void trmm(int64_t M, int64_t N, uint64_t alpha[1], uint64_t A[M][M], uint64_t B[M][N]) {
  for (int64_t i = 0; i < M; i++)
    for (int64_t j = 0; j < N; j++) {
      for (int64_t k = i + 1; k < M; k++)
        B[i][j] += A[k][i] * B[k][j];
      B[i][j] *= alpha[0];
    }
}
%%
M = 8
N = 7
alpha = 3
A = seed 1
B = seed 2
