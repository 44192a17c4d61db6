/* A matrix is turned over its diagonal, in place. C[0] holds the cell that waits. */
#include <stdint.h>

void transpose(int64_t N, uint64_t A[N][N], uint64_t C[1]) {
  for (int64_t i = 1; i < N; i++)
    for (int64_t j = 0; j < i; j++) {
      C[0] = A[i][j];
      A[i][j] = A[j][i];
      A[j][i] = C[0];
    }
}
%%
N = 3
A = 1 2 3 4 5 6 7 8 9
