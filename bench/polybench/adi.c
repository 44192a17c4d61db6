/* adi: steps of heat over a plane by alternating directions: along each line the equations are solved by a sweep forth
   and one back.
   Differs: the coefficients are cells that are given; a division is a product with the reciprocal modulo 2^64, which an
   odd number has and steps of Newton find in the place of p, of 5 bits first, then of 20, then of 64.
   Refused: p[i][j] = -c[0] / (a[0] * p[i][j - 1] + b[0]); */
#include <stdint.h>

void adi(int64_t T, int64_t N, uint64_t u[N][N], uint64_t v[N][N], uint64_t p[N][N], uint64_t q[N][N],
         uint64_t r[N][N], uint64_t a[1], uint64_t b[1], uint64_t c[1], uint64_t d[1], uint64_t e[1], uint64_t f[1]) {
  for (int64_t t = 1; t <= T; t++) {
    for (int64_t i = 1; i < N - 1; i++) {
      v[0][i] = 1;
      p[i][0] = 0;
      q[i][0] = v[0][i];
      for (int64_t j = 1; j < N - 1; j++) {
        r[i][j] = a[0] * p[i][j - 1] + b[0];
        p[i][j] = (3 * r[i][j]) ^ 2;
        p[i][j] *= (2 - r[i][j] * p[i][j]) * (2 - r[i][j] * p[i][j] * (2 - r[i][j] * p[i][j]));
        p[i][j] *= (2 - r[i][j] * p[i][j]) * (2 - r[i][j] * p[i][j] * (2 - r[i][j] * p[i][j]));
        q[i][j] = (-d[0] * u[j][i - 1] + (1 + 2 * d[0]) * u[j][i] - f[0] * u[j][i + 1] - a[0] * q[i][j - 1])
                  * p[i][j];
        p[i][j] *= -c[0];
      }
      v[N - 1][i] = 1;
      for (int64_t j = N - 2; j >= 1; j--)
        v[j][i] = p[i][j] * v[j + 1][i] + q[i][j];
    }
    for (int64_t i = 1; i < N - 1; i++) {
      u[i][0] = 1;
      p[i][0] = 0;
      q[i][0] = u[i][0];
      for (int64_t j = 1; j < N - 1; j++) {
        r[i][j] = d[0] * p[i][j - 1] + e[0];
        p[i][j] = (3 * r[i][j]) ^ 2;
        p[i][j] *= (2 - r[i][j] * p[i][j]) * (2 - r[i][j] * p[i][j] * (2 - r[i][j] * p[i][j]));
        p[i][j] *= (2 - r[i][j] * p[i][j]) * (2 - r[i][j] * p[i][j] * (2 - r[i][j] * p[i][j]));
        q[i][j] = (-a[0] * v[i - 1][j] + (1 + 2 * a[0]) * v[i][j] - c[0] * v[i + 1][j] - d[0] * q[i][j - 1])
                  * p[i][j];
        p[i][j] *= -f[0];
      }
      u[i][N - 1] = 1;
      for (int64_t j = N - 2; j >= 1; j--)
        u[i][j] = p[i][j] * u[i][j + 1] + q[i][j];
    }
  }
}
%%
T = 2
N = 6
u = seed 1
a = 2
b = 5
c = 2
d = 4
e = 9
f = 4
