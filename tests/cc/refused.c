/* Kernels that are refused, each for something that other C has. */
#include <stdint.h>
#define HALF 2

#pragma polypar
void kernel_float(int64_t N, double A[N]) {
  for (int64_t i = 0; i < N; i++) A[i] = 0;
}

#pragma polypar
static void kernel_int(int64_t N, uint64_t A[N]) {
	for (int i = 0; i < N; i++)	A[i] = 0;
}

#pragma polypar
void kernel_else(int64_t N, uint64_t A[N]) {
  for (int64_t i = 0; i < N; i++)
    if (i > 3) A[i] = 1; else A[i] = 2;
}

#pragma polypar
void kernel_call(int64_t N, uint64_t A[N]) {
  for (int64_t i = 0; i < N; i++) A[i] = next(A[i]);
}

#pragma polypar
void kernel_scalar(int64_t N, uint64_t A[N]) {
  int64_t i, sum;
  sum = 0;
  for (i = 0; i < N; i++) sum += A[i];
}

#pragma polypar
void kernel_macro(int64_t N, uint64_t A[N]) {
  for (int64_t i = 0; i < N; i++) A[i] = A[i] * HALF;
}

#pragma polypar
void kernel_directive(uint64_t A[1]) {
#ifdef HALF
  A[0] = 1;
#endif
}

#pragma polypar
struct none { int kernel; };

/* This one has no fault. */
#pragma polypar
void kernel_good(uint64_t A[1]) {
  A[0] = 1;
}
