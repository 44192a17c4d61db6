/* seidel-2d: sweeps of Gauss and Seidel over a plane: a cell becomes the mean of itself and its eight neighbours.
   Differs: the division by 9 is a product with 954437177 / 2^33, which rounds down, where sums are below 2^32.
   Refused: A[i][j] = (A[i - 1][j - 1] + A[i - 1][j] + A[i][j]) / 9; */
#include <stdint.h>

void seidel_2d(int64_t T, int64_t N, uint64_t A[N][N]) {
  for (int64_t t = 0; t <= T - 1; t++)
    for (int64_t i = 1; i <= N - 2; i++)
      for (int64_t j = 1; j <= N - 2; j++)
        A[i][j] = ((A[i - 1][j - 1] + A[i - 1][j] + A[i - 1][j + 1] + A[i][j - 1] + A[i][j] + A[i][j + 1]
                    + A[i + 1][j - 1] + A[i + 1][j] + A[i + 1][j + 1]) * 954437177) >> 33;
}
%%
T = 4
N = 8
A = seed 1
