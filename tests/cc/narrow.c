/* Cells of 32 bits, a constant that is cut, a pragma of another tool, and a certificate. */
#include <stdint.h>
#include <stdio.h>

#pragma polypar
void kernel_narrow(int64_t N, uint32_t W[N], uint64_t A[N]) {
  #pragma GCC ivdep
  for (int64_t i = 0; i < N; i++) {
    W[i] = -1;
    A[i] = W[i] + 2ULL;
  }
}

int main(void) {
  uint32_t W[2];
  uint64_t A[2];
  kernel_narrow(2, W, A);
  printf("%llu %llu\n", (unsigned long long)W[1], (unsigned long long)A[1]);
  return 0;
}
