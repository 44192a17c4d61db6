/* gramschmidt: the columns of Q become orthogonal, and span what those of A do (Gram and Schmidt).
   Differs: no column is divided by its length: the diagonal of R has the squares of the lengths, and a column of A is
   multiplied by such a square before its part along Q is taken from it.
   Refused: R[k][k] = sqrt(nrm[0]);
   Refused: Q[i][k] = A[i][k] / R[k][k]; */
#include <stdint.h>

void gramschmidt(int64_t M, int64_t N, uint64_t A[M][N], uint64_t R[N][N], uint64_t Q[M][N], uint64_t nrm[1]) {
  for (int64_t k = 0; k < N; k++) {
    nrm[0] = 0;
    for (int64_t i = 0; i < M; i++)
      nrm[0] += A[i][k] * A[i][k];
    R[k][k] = nrm[0];
    for (int64_t i = 0; i < M; i++)
      Q[i][k] = A[i][k];
    for (int64_t j = k + 1; j < N; j++) {
      R[k][j] = 0;
      for (int64_t i = 0; i < M; i++)
        R[k][j] += Q[i][k] * A[i][j];
      for (int64_t i = 0; i < M; i++)
        A[i][j] = R[k][k] * A[i][j] - Q[i][k] * R[k][j];
    }
  }
}
%%
M = 4
N = 3
A = 1 2 0 0 1 3 2 0 1 1 1 1
