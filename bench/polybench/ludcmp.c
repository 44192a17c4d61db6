/* ludcmp: x solves A x = b by the factors of A, which take its place, and y.
   Differs: a division by the pivot A[j][j] is a product with R[j], its reciprocal modulo 2^64, which an odd number has
   and steps of Newton find, of 5 bits first, then of 20, then of 64; the scalar w is a cell.
   Refused: A[i][j] = w[0] / A[j][j]; */
#include <stdint.h>

void ludcmp(int64_t N, uint64_t A[N][N], uint64_t b[N], uint64_t x[N], uint64_t y[N], uint64_t R[N], uint64_t w[1]) {
  for (int64_t i = 0; i < N; i++) {
    for (int64_t j = 0; j < i; j++) {
      w[0] = A[i][j];
      for (int64_t k = 0; k < j; k++)
        w[0] -= A[i][k] * A[k][j];
      A[i][j] = w[0] * R[j];
    }
    for (int64_t j = i; j < N; j++) {
      w[0] = A[i][j];
      for (int64_t k = 0; k < i; k++)
        w[0] -= A[i][k] * A[k][j];
      A[i][j] = w[0];
    }
    R[i] = (3 * A[i][i]) ^ 2;
    R[i] *= (2 - A[i][i] * R[i]) * (2 - A[i][i] * R[i] * (2 - A[i][i] * R[i]));
    R[i] *= (2 - A[i][i] * R[i]) * (2 - A[i][i] * R[i] * (2 - A[i][i] * R[i]));
  }
  for (int64_t i = 0; i < N; i++) {
    w[0] = b[i];
    for (int64_t j = 0; j < i; j++)
      w[0] -= A[i][j] * y[j];
    y[i] = w[0];
  }
  for (int64_t i = N - 1; i >= 0; i--) {
    w[0] = y[i];
    for (int64_t j = i + 1; j < N; j++)
      w[0] -= A[i][j] * x[j];
    x[i] = w[0] * R[i];
  }
}
%%
N = 4
A = 3 1 4 2 6 7 9 7 9 8 20 10 3 11 13 18
b = 25 75 125 136
