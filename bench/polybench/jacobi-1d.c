/* jacobi-1d: steps of Jacobi over a line: a cell becomes the mean of itself and its two neighbours.
   Differs: the factor 0.33333 is 2863311531 / 2^33: a third, rounded down, where sums are below 2^32.
   Refused: B[i] = 0.33333 * (A[i - 1] + A[i] + A[i + 1]); */
#include <stdint.h>

void jacobi_1d(int64_t T, int64_t N, uint64_t A[N], uint64_t B[N]) {
  for (int64_t t = 0; t < T; t++) {
    for (int64_t i = 1; i < N - 1; i++)
      B[i] = ((A[i - 1] + A[i] + A[i + 1]) * 2863311531) >> 33;
    for (int64_t i = 1; i < N - 1; i++)
      A[i] = ((B[i - 1] + B[i] + B[i + 1]) * 2863311531) >> 33;
  }
}
%%
T = 6
N = 12
A = 900 100 200 800 300 700 400 600 500 0 1000 900
B = 900 0 0 0 0 0 0 0 0 0 0 900
