/* Every second cell is set, and then all are copied. */
#include <stdint.h>

void even(int64_t N, uint64_t A[2 * N], uint64_t B[2 * N]) {
  for (int64_t j = 0; j < N; j++)
    A[2 * j] = 7;
  for (int64_t i = 0; i < 2 * N; i++)
    B[i] = A[i];
}
%%
N = 2
A = 1 2 3 4
