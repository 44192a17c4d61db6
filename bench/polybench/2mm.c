/* 2mm: D becomes alpha A B C + beta D.
   Differs: alpha and beta are cells. */
#include <stdint.h>

void two_mm(int64_t NI, int64_t NJ, int64_t NK, int64_t NL, uint64_t alpha[1], uint64_t beta[1],
            uint64_t tmp[NI][NJ], uint64_t A[NI][NK], uint64_t B[NK][NJ], uint64_t C[NJ][NL],
            uint64_t D[NI][NL]) {
  for (int64_t i = 0; i < NI; i++)
    for (int64_t j = 0; j < NJ; j++) {
      tmp[i][j] = 0;
      for (int64_t k = 0; k < NK; k++)
        tmp[i][j] += alpha[0] * A[i][k] * B[k][j];
    }
  for (int64_t i = 0; i < NI; i++)
    for (int64_t j = 0; j < NL; j++) {
      D[i][j] *= beta[0];
      for (int64_t k = 0; k < NJ; k++)
        D[i][j] += tmp[i][k] * C[k][j];
    }
}
%%
NI = 7
NJ = 6
NK = 5
NL = 8
alpha = 3
beta = 2
A = seed 1
B = seed 2
C = seed 3
D = seed 4
