/* A kernel whose own order is kept where a question may make one move. */
#include <stdint.h>
#include <stdio.h>

#pragma polypar
static void kernel_fill(int64_t T, int64_t N, uint64_t A[N]) {
  for (int64_t t = 0; t < T; t++)
    for (int64_t i = 1; i < N - 1; i++)
      A[i] = A[i - 1] + A[i + 1];
}

int main(void) {
  uint64_t A[6] = {1};
  kernel_fill(9, 6, A);
  printf("%d\n", (int)A[2]);
  return 0;
}
