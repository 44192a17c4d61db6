/* atax: y becomes A^T (A x).
   Differs: in nothing but the type of the cells. */
#include <stdint.h>

void atax(int64_t M, int64_t N, uint64_t A[M][N], uint64_t x[N], uint64_t y[N], uint64_t tmp[M]) {
  for (int64_t i = 0; i < N; i++)
    y[i] = 0;
  for (int64_t i = 0; i < M; i++) {
    tmp[i] = 0;
    for (int64_t j = 0; j < N; j++)
      tmp[i] += A[i][j] * x[j];
    for (int64_t j = 0; j < N; j++)
      y[j] += A[i][j] * tmp[i];
  }
}
%%
M = 8
N = 10
A = seed 1
x = seed 2
