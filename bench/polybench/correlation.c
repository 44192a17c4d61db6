/* correlation: of N rows of M numbers the correlation of each two columns, times 2^40.
   Differs: the division by N is a product with per_n, 2^32 / N rounded up, and a shift; the square root of a column's
   sum of squares, below 2^20, and 2^20 by it are found bit by bit from the highest down, by power, 2^19, 2^18, .. 1.
   Refused: mean[j] /= N;
   Refused: stddev[j] = sqrt(stddev[j]);
   Refused: stddev[j] = stddev[j] <= 1 ? 1 : stddev[j]; */
#include <stdint.h>

void correlation(int64_t M, int64_t N, uint64_t per_n[1], uint64_t power[20], uint64_t data[N][M],
                 uint64_t corr[M][M], uint64_t mean[M], uint64_t stddev[M], uint64_t root[M], uint64_t inverse[M]) {
  for (int64_t j = 0; j < M; j++) {
    mean[j] = 0;
    for (int64_t i = 0; i < N; i++)
      mean[j] += data[i][j];
    mean[j] = (mean[j] * per_n[0]) >> 32;
  }
  for (int64_t j = 0; j < M; j++) {
    stddev[j] = 0;
    for (int64_t i = 0; i < N; i++)
      stddev[j] += (data[i][j] - mean[j]) * (data[i][j] - mean[j]);
    root[j] = 0;
    for (int64_t s = 0; s < 20; s++)
      root[j] += power[s] & (((stddev[j] - (root[j] + power[s]) * (root[j] + power[s])) >> 63) - 1);
    inverse[j] = 0;
    for (int64_t s = 0; s < 20; s++)
      inverse[j] += power[s] & (((1048576 - root[j] * (inverse[j] + power[s])) >> 63) - 1);
  }
  for (int64_t i = 0; i < N; i++)
    for (int64_t j = 0; j < M; j++) {
      data[i][j] -= mean[j];
      data[i][j] *= inverse[j];
    }
  for (int64_t i = 0; i < M - 1; i++) {
    corr[i][i] = 1099511627776;
    for (int64_t j = i + 1; j < M; j++) {
      corr[i][j] = 0;
      for (int64_t k = 0; k < N; k++)
        corr[i][j] += data[k][i] * data[k][j];
      corr[j][i] = corr[i][j];
    }
  }
  corr[M - 1][M - 1] = 1099511627776;
}
%%
M = 3
N = 5
per_n = 858993460
power = 524288 262144 131072 65536 32768 16384 8192 4096 2048 1024 512 256 128 64 32 16 8 4 2 1
data = 1000 4000 7 2000 3000 7 3000 2000 7 4000 1000 8 5000 0 6
