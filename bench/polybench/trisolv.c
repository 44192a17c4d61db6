/* trisolv: x solves L x = b, of a lower triangle L.
   Differs: a division by L[i][i] is a product, since the diagonal of L has reciprocals modulo 2^64, which odd numbers
   have.
   Refused: x[i] = x[i] / L[i][i]; */
#include <stdint.h>

void trisolv(int64_t N, uint64_t L[N][N], uint64_t x[N], uint64_t b[N]) {
  for (int64_t i = 0; i < N; i++) {
    x[i] = b[i];
    for (int64_t j = 0; j < i; j++)
      x[i] -= L[i][j] * x[j];
    x[i] *= L[i][i];
  }
}
%%
N = 3
L = 12297829382473034411 0 0 2 1 0 3 4 14757395258967641293
b = 3 4 26
