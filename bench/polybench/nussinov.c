/* nussinov: the most pairs of bases in each part of a string of RNA; bases are 0 to 3, and pair where their sum is 3.
   Differs: the maximum is taken by a difference and its sign, which is right where scores are below 2^62, and a pair is
   known by bits.
   Refused: table[i][j] = table[i][j] >= table[i][j - 1] ? table[i][j] : table[i][j - 1];
   Refused: table[i][j] = seq[i] + seq[j] == 3; */
#include <stdint.h>

void nussinov(int64_t N, uint64_t seq[N], uint64_t table[N][N]) {
  for (int64_t i = N - 1; i >= 0; i--)
    for (int64_t j = i + 1; j < N; j++) {
      if (j - 1 >= 0)
        table[i][j] += (table[i][j - 1] - table[i][j]) & (((table[i][j - 1] - table[i][j]) >> 63) - 1);
      if (i + 1 < N)
        table[i][j] += (table[i + 1][j] - table[i][j]) & (((table[i + 1][j] - table[i][j]) >> 63) - 1);
      if (j - 1 >= 0 && i + 1 < N) {
        if (i < j - 1)
          table[i][j] += (table[i + 1][j - 1] + ((((seq[i] + seq[j]) ^ 3) - 1) >> 63) - table[i][j])
                         & (((table[i + 1][j - 1] + ((((seq[i] + seq[j]) ^ 3) - 1) >> 63) - table[i][j]) >> 63) - 1);
        if (i >= j - 1)
          table[i][j] += (table[i + 1][j - 1] - table[i][j]) & (((table[i + 1][j - 1] - table[i][j]) >> 63) - 1);
      }
      for (int64_t k = i + 1; k < j; k++)
        table[i][j] += (table[i][k] + table[k + 1][j] - table[i][j])
                       & (((table[i][k] + table[k + 1][j] - table[i][j]) >> 63) - 1);
    }
}
%%
N = 10
seq = 0 1 1 2 3 0 2 1 3 3
