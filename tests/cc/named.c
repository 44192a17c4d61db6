/* Kernels that no line marks, but --function names: after prototypes and calls, in one line with other things. */
#include <stdint.h>
#include <stdio.h>

static inline void kernel_first(int64_t N, uint64_t A[N]);
static inline void kernel_second(int64_t N, uint64_t A[N]);

static int call(void) {
  uint64_t A[4] = {4, 3, 2, 1};
  kernel_first(4, A);
  kernel_second(4, A);
  return (int)A[3];
}

static int before = 1; static inline void kernel_first(int64_t N, uint64_t A[N]) {
  for (int64_t i = 0; i < N; i++) A[i] *= 3;
}

__attribute__((unused)) static void other_third(int64_t N, uint64_t A[N]) {
  for (int64_t i = 0; i < N; i++) A[i] *= 5;
}

inline static void kernel_second(int64_t N, uint64_t A[N]) {
  for (int64_t i = 1; i < N; i++) A[i] ^= A[i - 1];
}

int main(void) {
  printf("%d\n", call() + before);
  return 0;
}
