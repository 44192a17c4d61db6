/* mvt: x1 gains A y_1, and x2 gains A^T y_2.
   Differs: in nothing but the type of the cells. */
#include <stdint.h>

void mvt(int64_t N, uint64_t x1[N], uint64_t x2[N], uint64_t y_1[N], uint64_t y_2[N], uint64_t A[N][N]) {
  for (int64_t i = 0; i < N; i++)
    for (int64_t j = 0; j < N; j++)
      x1[i] += A[i][j] * y_1[j];
  for (int64_t i = 0; i < N; i++)
    for (int64_t j = 0; j < N; j++)
      x2[i] += A[j][i] * y_2[j];
}
%%
N = 9
x1 = seed 1
x2 = seed 2
y_1 = seed 3
y_2 = seed 4
A = seed 5
