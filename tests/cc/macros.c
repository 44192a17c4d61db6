/* Macros, some of which open braces, and a kernel that stands in one branch of an #if. */
#include <stdint.h>
#include <stdio.h>

#define LOOP(i, n) \
  for (int i = 0; i < (n); i++) {
#define N 3
static const int64_t count = N;
#undef N

#if defined LONG
static int total(const uint64_t *cells, int64_t size) {
#else
static int total(const uint64_t *cells, int size) {
#endif
  int sum = 0;
  for (int k = 0; k < (int)size; k++) sum += (int)cells[k];
  return sum;
}

#ifndef WITHOUT_KERNEL
#pragma polypar
static void kernel_double(int64_t N, uint64_t A[N]) {
  for (int64_t i = 0; i < N; i++) A[i] = A[i] + A[i];
}
#else
static void kernel_double(int64_t N, uint64_t *A) {
  LOOP(k, N) A[k] *= 2; }
}
#endif

#pragma polypar
static void kernel_add(int64_t N, uint64_t A[N]) {
  for (int64_t i = 0; i < N; i++) A[i] += 7;
}

int main(void) {
  uint64_t A[3] = {1, 2, 3};
  LOOP(k, 3) A[k]++; }
  kernel_double(count, A);
  kernel_add(count, A);
  printf("%d %d\n", total(A, (int)count), __LINE__);
  return 0;
}
