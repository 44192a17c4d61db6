/* fdtd-2d: steps of an electric and a magnetic field over a plane (finite differences in the time domain).
   Differs: the factors 0.5 and 0.7 are 1/2 and 179/256, as products and shifts that keep the sign.
   Refused: ey[i][j] = ey[i][j] - 0.5 * (hz[i][j] - hz[i - 1][j]); */
#include <stdint.h>

void fdtd_2d(int64_t T, int64_t NX, int64_t NY, uint64_t ex[NX][NY], uint64_t ey[NX][NY], uint64_t hz[NX][NY],
             uint64_t fict[T]) {
  for (int64_t t = 0; t < T; t++) {
    for (int64_t j = 0; j < NY; j++)
      ey[0][j] = fict[t];
    for (int64_t i = 1; i < NX; i++)
      for (int64_t j = 0; j < NY; j++)
        ey[i][j] -= ((hz[i][j] - hz[i - 1][j] + 0x8000000000000000ULL) >> 1) - 0x4000000000000000ULL;
    for (int64_t i = 0; i < NX; i++)
      for (int64_t j = 1; j < NY; j++)
        ex[i][j] -= ((hz[i][j] - hz[i][j - 1] + 0x8000000000000000ULL) >> 1) - 0x4000000000000000ULL;
    for (int64_t i = 0; i < NX - 1; i++)
      for (int64_t j = 0; j < NY - 1; j++)
        hz[i][j] -= ((179 * (ex[i][j + 1] - ex[i][j] + ey[i + 1][j] - ey[i][j]) + 0x8000000000000000ULL) >> 8)
                    - 0x80000000000000ULL;
  }
}
%%
T = 4
NX = 6
NY = 7
ex = seed 1
ey = seed 2
hz = seed 3
fict = 1000 2000 3000 4000
