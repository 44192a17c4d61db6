/* doitgen: each row of A along its last dimension becomes its product with the matrix C4.
   Differs: in nothing but the type of the cells. */
#include <stdint.h>

void doitgen(int64_t NR, int64_t NQ, int64_t NP, uint64_t A[NR][NQ][NP], uint64_t C4[NP][NP], uint64_t sum[NP]) {
  for (int64_t r = 0; r < NR; r++)
    for (int64_t q = 0; q < NQ; q++) {
      for (int64_t p = 0; p < NP; p++) {
        sum[p] = 0;
        for (int64_t s = 0; s < NP; s++)
          sum[p] += A[r][q][s] * C4[s][p];
      }
      for (int64_t p = 0; p < NP; p++)
        A[r][q][p] = sum[p];
    }
}
%%
NR = 4
NQ = 5
NP = 6
A = seed 1
C4 = seed 2
