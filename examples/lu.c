/* The factors of a matrix whose pivots are 1, in place: L below the diagonal, U on
   it and above. */
#include <stdint.h>

void lu(int64_t N, uint64_t A[N][N]) {
  int64_t i, j, k;
  for (k = 0; k < N; k++)
    for (i = k + 1; i < N; i++)
      for (j = k + 1; j < N; j++)
        A[i][j] -= A[i][k] * A[k][j];
}
%%
N = 3
A = 1 2 3 4 9 14 5 12 20
