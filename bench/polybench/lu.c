/* lu: the factors of A, in place: L with ones on its diagonal below it, U on it and above.
   Differs: a division by the pivot A[j][j] is a product with R[j], its reciprocal modulo 2^64, which an odd number has
   and steps of Newton find, of 5 bits first, then of 20, then of 64.
   Refused: A[i][j] /= A[j][j]; */
#include <stdint.h>

void lu(int64_t N, uint64_t A[N][N], uint64_t R[N]) {
  for (int64_t i = 0; i < N; i++) {
    for (int64_t j = 0; j < i; j++) {
      for (int64_t k = 0; k < j; k++)
        A[i][j] -= A[i][k] * A[k][j];
      A[i][j] *= R[j];
    }
    for (int64_t j = i; j < N; j++)
      for (int64_t k = 0; k < i; k++)
        A[i][j] -= A[i][k] * A[k][j];
    R[i] = (3 * A[i][i]) ^ 2;
    R[i] *= (2 - A[i][i] * R[i]) * (2 - A[i][i] * R[i] * (2 - A[i][i] * R[i]));
    R[i] *= (2 - A[i][i] * R[i]) * (2 - A[i][i] * R[i] * (2 - A[i][i] * R[i]));
  }
}
%%
N = 4
A = 3 1 4 2 6 7 9 7 9 8 20 10 3 11 13 18
