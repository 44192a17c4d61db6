/* cholesky: the factors of a symmetric A = L D L^T, in place: D on the diagonal, L below it.
   Differs: with D no square root is taken, and a division by D[j] is a product with R[j], its reciprocal modulo 2^64,
   which an odd number has and steps of Newton find, of 5 bits first, then of 20, then of 64.
   Refused: A[i][j] /= A[j][j];
   Refused: A[i][i] = sqrt(A[i][i]); */
#include <stdint.h>

void cholesky(int64_t N, uint64_t A[N][N], uint64_t R[N]) {
  for (int64_t i = 0; i < N; i++) {
    for (int64_t j = 0; j < i; j++) {
      for (int64_t k = 0; k < j; k++)
        A[i][j] -= A[i][k] * A[k][k] * A[j][k];
      A[i][j] *= R[j];
    }
    for (int64_t k = 0; k < i; k++)
      A[i][i] -= A[i][k] * A[k][k] * A[i][k];
    R[i] = (3 * A[i][i]) ^ 2;
    R[i] *= (2 - A[i][i] * R[i]) * (2 - A[i][i] * R[i] * (2 - A[i][i] * R[i]));
    R[i] *= (2 - A[i][i] * R[i]) * (2 - A[i][i] * R[i] * (2 - A[i][i] * R[i]));
  }
}
%%
N = 4
A = 3 6 9 3 6 17 23 16 9 23 39 26 3 16 26 39
