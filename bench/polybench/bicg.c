/* bicg: s becomes A^T r, and q becomes A p: the two products of a step of BiCG.
   Differs: in nothing but the type of the cells. */
#include <stdint.h>

void bicg(int64_t M, int64_t N, uint64_t A[N][M], uint64_t s[M], uint64_t q[N], uint64_t p[M], uint64_t r[N]) {
  for (int64_t i = 0; i < M; i++)
    s[i] = 0;
  for (int64_t i = 0; i < N; i++) {
    q[i] = 0;
    for (int64_t j = 0; j < M; j++) {
      s[j] += r[i] * A[i][j];
      q[i] += A[i][j] * p[j];
    }
  }
}
%%
M = 8
N = 10
A = seed 1
p = seed 2
r = seed 3
