/* covariance: of N rows of M numbers the covariance of each two columns.
   Differs: the divisions by N and by one less are products with per_n and per_less, which are 2^32 by these, rounded
   up, and shifts by 32 places, that of cov with its sign.
   Refused: mean[j] /= N;
   Refused: cov[i][j] /= N - 1; */
#include <stdint.h>

void covariance(int64_t M, int64_t N, uint64_t per_n[1], uint64_t per_less[1], uint64_t data[N][M],
                uint64_t cov[M][M], uint64_t mean[M]) {
  for (int64_t j = 0; j < M; j++) {
    mean[j] = 0;
    for (int64_t i = 0; i < N; i++)
      mean[j] += data[i][j];
    mean[j] = (mean[j] * per_n[0]) >> 32;
  }
  for (int64_t i = 0; i < N; i++)
    for (int64_t j = 0; j < M; j++)
      data[i][j] -= mean[j];
  for (int64_t i = 0; i < M; i++)
    for (int64_t j = i; j < M; j++) {
      cov[i][j] = 0;
      for (int64_t k = 0; k < N; k++)
        cov[i][j] += data[k][i] * data[k][j];
      cov[i][j] = ((cov[i][j] * per_less[0] + 9223372036854775808ULL) >> 32) - 2147483648;
      cov[j][i] = cov[i][j];
    }
}
%%
M = 3
N = 5
per_n = 858993460
per_less = 1073741824
data = 10 40 7 20 30 7 30 20 7 40 10 8 50 0 6
