/* Each cell of S is the sum of all cells of A up to it. */
#include <stdint.h>

void prefix(int64_t N, uint64_t A[N], uint64_t S[N]) {
  S[0] = A[0];
  for (int64_t i = 1; i < N; ++i)
    S[i] = S[i - 1] + A[i];
}
%%
N = 8
A = 1 2 3 4 5 6 7 8
