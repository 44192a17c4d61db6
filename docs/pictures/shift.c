/* Each cell of C is the sum of two cells of B, of which the right one is made two turns later than the left one. */
#include <stdint.h>

void shift(int64_t N, uint64_t A[N], uint64_t B[N], uint64_t C[N]) {
  for (int64_t i = 0; i < N; i++)
    B[i] = 3 * A[i];
  for (int64_t i = 1; i < N - 1; i++)
    C[i] = B[i - 1] + B[i + 1];
}
%%
N = 9
