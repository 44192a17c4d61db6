/* jacobi-2d: steps of Jacobi over a plane: a cell becomes the mean of itself and its four neighbours.
   Differs: the factor 0.2 is 3435973837 / 2^34: a fifth, rounded down, where sums are below 2^32.
   Refused: B[i][j] = 0.2 * (A[i][j] + A[i][j - 1] + A[i][j + 1] + A[i + 1][j] + A[i - 1][j]); */
#include <stdint.h>

void jacobi_2d(int64_t T, int64_t N, uint64_t A[N][N], uint64_t B[N][N]) {
  for (int64_t t = 0; t < T; t++) {
    for (int64_t i = 1; i < N - 1; i++)
      for (int64_t j = 1; j < N - 1; j++)
        B[i][j] = ((A[i][j] + A[i][j - 1] + A[i][j + 1] + A[i + 1][j] + A[i - 1][j]) * 3435973837) >> 34;
    for (int64_t i = 1; i < N - 1; i++)
      for (int64_t j = 1; j < N - 1; j++)
        A[i][j] = ((B[i][j] + B[i][j - 1] + B[i][j + 1] + B[i + 1][j] + B[i - 1][j]) * 3435973837) >> 34;
  }
}
%%
T = 4
N = 7
A = seed 1
B = seed 2
