/* Cyclic checksums of N messages, bit by bit, the first bit first: C[i] begins as all
   ones, and each message has a polynomial of its own. */
#include <stdint.h>

void crc(int64_t N, int64_t L, uint32_t M[N][L], uint32_t P[N], uint32_t C[N]) {
  for (int64_t i = 0; i < N; i++)
    for (int64_t j = 0; j < L; j++)
      C[i] = (C[i] >> 1) ^ (P[i] & -((C[i] ^ M[i][j]) & 1));
}
%%
N = 2
L = 8
M = 1 0 0 0 1 1 0 0 1 0 0 0 1 1 0 0
P = 3988292384 2197175160
C = 4294967295 4294967295
