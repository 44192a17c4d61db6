/* heat-3d: steps of heat over a cube: a cell gains an eighth of its second differences along the three axes.
   Differs: the eighth is a shift of the whole sum.
   Refused: B[i][j][k] = 0.125 * (A[i + 1][j][k] - 2 * A[i][j][k] + A[i - 1][j][k]); */
#include <stdint.h>

void heat_3d(int64_t T, int64_t N, uint64_t A[N][N][N], uint64_t B[N][N][N]) {
  for (int64_t t = 1; t <= T; t++) {
    for (int64_t i = 1; i < N - 1; i++)
      for (int64_t j = 1; j < N - 1; j++)
        for (int64_t k = 1; k < N - 1; k++)
          B[i][j][k] = ((A[i + 1][j][k] - 2 * A[i][j][k] + A[i - 1][j][k])
                        + (A[i][j + 1][k] - 2 * A[i][j][k] + A[i][j - 1][k])
                        + (A[i][j][k + 1] - 2 * A[i][j][k] + A[i][j][k - 1])
                        + 8 * A[i][j][k]) >> 3;
    for (int64_t i = 1; i < N - 1; i++)
      for (int64_t j = 1; j < N - 1; j++)
        for (int64_t k = 1; k < N - 1; k++)
          A[i][j][k] = ((B[i + 1][j][k] - 2 * B[i][j][k] + B[i - 1][j][k])
                        + (B[i][j + 1][k] - 2 * B[i][j][k] + B[i][j - 1][k])
                        + (B[i][j][k + 1] - 2 * B[i][j][k] + B[i][j][k - 1])
                        + 8 * B[i][j][k]) >> 3;
  }
}
%%
T = 3
N = 6
A = seed 1
B = seed 2
