/* 3mm: G becomes (A B) (C D).
   Differs: the rows of D are as many as those of B, since five sizes are one parameter too many.
   Refused: void three_mm(int64_t NI, int64_t NJ, int64_t NK, int64_t NL, int64_t NM) { } */
#include <stdint.h>

void three_mm(int64_t NI, int64_t NJ, int64_t NK, int64_t NL, uint64_t E[NI][NJ], uint64_t A[NI][NK],
              uint64_t B[NK][NJ], uint64_t F[NJ][NL], uint64_t C[NJ][NK], uint64_t D[NK][NL],
              uint64_t G[NI][NL]) {
  for (int64_t i = 0; i < NI; i++)
    for (int64_t j = 0; j < NJ; j++) {
      E[i][j] = 0;
      for (int64_t k = 0; k < NK; k++)
        E[i][j] += A[i][k] * B[k][j];
    }
  for (int64_t i = 0; i < NJ; i++)
    for (int64_t j = 0; j < NL; j++) {
      F[i][j] = 0;
      for (int64_t k = 0; k < NK; k++)
        F[i][j] += C[i][k] * D[k][j];
    }
  for (int64_t i = 0; i < NI; i++)
    for (int64_t j = 0; j < NL; j++) {
      G[i][j] = 0;
      for (int64_t k = 0; k < NJ; k++)
        G[i][j] += E[i][k] * F[k][j];
    }
}
%%
NI = 7
NJ = 6
NK = 5
NL = 8
A = seed 1
B = seed 2
C = seed 3
D = seed 4
