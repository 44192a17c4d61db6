/* A kernel at the end, without a line feed behind it. */
#include <stdint.h>
#include <stdio.h>

void kernel_last(int64_t N, uint64_t A[N]);

int main(void) {
  uint64_t A[5] = {1, 1, 1, 1, 1};
  kernel_last(5, A);
  printf("%d\n", (int)A[4]);
  return 0;
}

#pragma polypar
void kernel_last(int64_t N, uint64_t A[N]) {
  for (int64_t i = 2; i < N; i++) A[i] += A[i - 2] + A[i - 1];
}