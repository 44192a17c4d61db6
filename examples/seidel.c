/* Sweeps of Gauss and Seidel over a line: each inner cell becomes the sum of
   itself and its neighbours, of which the left one is new already. */
#include <stdint.h>

void seidel(int64_t T, int64_t N, uint64_t A[N]) {
  for (int64_t t = 0; t < T; t++)
    for (int64_t i = 1; i < N - 1; i++)
      A[i] = A[i - 1] + A[i] + A[i + 1];
}
%%
T = 2
N = 5
A = 1 1 1 1 1
