/* durbin: y solves the equations of Yule and Walker, T y = -r, of the symmetric matrix T with r along its diagonals.
   Differs: the division by beta is a product with its reciprocal modulo 2^64, which an odd number has and steps of
   Newton find, of 5 bits first, then of 20, then of 64; scalars are cells.
   Refused: alpha[0] = -(r[k] + sum[0]) / beta[0]; */
#include <stdint.h>

void durbin(int64_t N, uint64_t r[N], uint64_t y[N], uint64_t z[N], uint64_t alpha[1], uint64_t beta[1],
            uint64_t sum[1], uint64_t inverse[1]) {
  y[0] = -r[0];
  beta[0] = 1;
  alpha[0] = -r[0];
  for (int64_t k = 1; k < N; k++) {
    beta[0] *= 1 - alpha[0] * alpha[0];
    sum[0] = 0;
    for (int64_t i = 0; i < k; i++)
      sum[0] += r[k - i - 1] * y[i];
    inverse[0] = (3 * beta[0]) ^ 2;
    inverse[0] *= (2 - beta[0] * inverse[0]) * (2 - beta[0] * inverse[0] * (2 - beta[0] * inverse[0]));
    inverse[0] *= (2 - beta[0] * inverse[0]) * (2 - beta[0] * inverse[0] * (2 - beta[0] * inverse[0]));
    alpha[0] = -(r[k] + sum[0]) * inverse[0];
    for (int64_t i = 0; i < k; i++)
      z[i] = y[i] + alpha[0] * y[k - i - 1];
    for (int64_t i = 0; i < k; i++)
      y[i] = z[i];
    y[k] = alpha[0];
  }
}
%%
N = 7
r = 2 4 6 10 14 22 26
