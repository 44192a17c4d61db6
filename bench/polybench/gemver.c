/* gemver: A gains u1 v1^T + u2 v2^T, then x gains beta A^T y + z, and w gains alpha A x.
   Differs: alpha and beta are cells. */
#include <stdint.h>

void gemver(int64_t N, uint64_t alpha[1], uint64_t beta[1], uint64_t A[N][N], uint64_t u1[N], uint64_t v1[N],
            uint64_t u2[N], uint64_t v2[N], uint64_t w[N], uint64_t x[N], uint64_t y[N], uint64_t z[N]) {
  for (int64_t i = 0; i < N; i++)
    for (int64_t j = 0; j < N; j++)
      A[i][j] += u1[i] * v1[j] + u2[i] * v2[j];
  for (int64_t i = 0; i < N; i++)
    for (int64_t j = 0; j < N; j++)
      x[i] += beta[0] * A[j][i] * y[j];
  for (int64_t i = 0; i < N; i++)
    x[i] += z[i];
  for (int64_t i = 0; i < N; i++)
    for (int64_t j = 0; j < N; j++)
      w[i] += alpha[0] * A[i][j] * x[j];
}
%%
N = 9
alpha = 3
beta = 2
A = seed 1
u1 = seed 2
v1 = seed 3
u2 = seed 4
v2 = seed 5
w = seed 6
x = seed 7
y = seed 8
z = seed 9
