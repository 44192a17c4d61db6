/* Three kernels, two of them static, among functions over doubles. */
#include <stdint.h>
#include <stdio.h>

#define SIZE 40

static double mean(const uint64_t *cells, int count) {
  double sum = 0;
  for (int i = 0; i < count; i++) sum += (double)cells[i];
  return sum / count;
}

void kernel_sweep(int64_t T, int64_t N, uint64_t A[N]);

#pragma polypar
/* Sweeps over a line. */
void kernel_sweep(int64_t T, int64_t N, uint64_t A[N]) {
  for (int64_t t = 0; t < T; t++)
    for (int64_t i = 1; i < N - 1; i++)
      A[i] = (A[i - 1] + A[i] + A[i + 1]) >> 1;
}

#pragma polypar
static void kernel_product(int64_t N, uint64_t A[N][N], uint64_t B[N][N], uint64_t C[N][N]) {
  for (int64_t i = 0; i < N; i++)
    for (int64_t j = 0; j < N; j++)
      for (int64_t k = 0; k < N; k++)
        C[i][j] += A[i][k] * B[k][j];
} static const int behind = __LINE__;

#pragma polypar

__attribute__((noinline)) static
void kernel_prefix(int64_t N, uint64_t A[N], uint64_t S[N])
{
  S[0] = A[0];
  for (int64_t i = 1; i < N; i++)
    S[i] = S[i - 1] + A[i];
}

int main(void) {
  uint64_t A[SIZE], S[SIZE], P[4][4] = {{1, 2}, {3, 4}}, Q[4][4] = {{5}, {6}}, R[4][4] = {{0}};
  int unused;
  for (int i = 0; i < SIZE; i++) A[i] = 3 * i;
  kernel_sweep(7, SIZE, A);
  kernel_prefix(SIZE, A, S);
  kernel_product(4, P, Q, R);
  printf("%g %llu %llu %d %d %s\n", mean(S, SIZE), (unsigned long long)S[SIZE - 1], (unsigned long long)R[1][0],
         behind, __LINE__, __FILE__);
  return 0;
}
