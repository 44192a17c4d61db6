/* L x = b for a lower triangle L with ones on its diagonal. */
#include <stdint.h>

void solve(int64_t N, uint64_t L[N][N], uint64_t b[N], uint64_t x[N]) {
  for (int64_t i = 0; i < N; i++) {
    x[i] = b[i];
    for (int64_t j = 0; j < i; j++)
      x[i] -= L[i][j] * x[j];
  }
}
%%
N = 3
L = 1 0 0 2 1 0 3 4 1
b = 1 4 14
