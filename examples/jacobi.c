/* Steps of Jacobi on a square: each inner cell becomes the mean of itself, of its
   four neighbours, and of the corners between them, weighted 4, 2 and 1. */
#include <stdint.h>

void jacobi(int64_t T, int64_t N, uint64_t A[N][N], uint64_t B[N][N]) {
  for (int64_t t = 0; t < T; t++) {
    for (int64_t i = 1; i < N - 1; i++)
      for (int64_t j = 1; j < N - 1; j++)
        B[i][j] = (4 * A[i][j]
                   + 2 * (A[i - 1][j] + A[i + 1][j] + A[i][j - 1] + A[i][j + 1])
                   + A[i - 1][j - 1] + A[i - 1][j + 1]
                   + A[i + 1][j - 1] + A[i + 1][j + 1]) >> 4;
    for (int64_t i = 1; i < N - 1; i++)
      for (int64_t j = 1; j < N - 1; j++)
        A[i][j] = B[i][j];
  }
}
%%
T = 2
N = 4
A = 16 16 16 16 16 0 0 16 16 0 0 16 16 16 16 16
