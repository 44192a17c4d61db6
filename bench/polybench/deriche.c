/* deriche: a recursive filter that smooths an image along its rows, forth and back, and then along its columns.
   Differs: scalars are cells; the coefficients a1 to a8, b1, b2, c1 and c2 are whole numbers that are given, as exp is
   a call; and in the first pass the pixel before is read from the image, which has a column of zeros in front, and kept
   in no scalar, since there would be 34 statements, two too many.
   Refused: a[0] = exp(1);
   Refused: { tm1[0] = 0; tm1[0] = in[i][j]; } */
#include <stdint.h>

void deriche(int64_t W, int64_t H, uint64_t a[8], uint64_t b[2], uint64_t c[2], uint64_t in[W][H + 1],
             uint64_t out[W][H], uint64_t y1[W][H], uint64_t y2[W][H], uint64_t ym1[1], uint64_t ym2[1],
             uint64_t xp1[1], uint64_t xp2[1], uint64_t yp1[1], uint64_t yp2[1], uint64_t tm1[1], uint64_t tp1[1],
             uint64_t tp2[1]) {
  for (int64_t i = 0; i < W; i++) {
    ym1[0] = 0;
    ym2[0] = 0;
    for (int64_t j = 0; j < H; j++) {
      y1[i][j] = a[0] * in[i][j + 1] + a[1] * in[i][j] + b[0] * ym1[0] + b[1] * ym2[0];
      ym2[0] = ym1[0];
      ym1[0] = y1[i][j];
    }
  }
  for (int64_t i = 0; i < W; i++) {
    yp1[0] = 0;
    yp2[0] = 0;
    xp1[0] = 0;
    xp2[0] = 0;
    for (int64_t j = H - 1; j >= 0; j--) {
      y2[i][j] = a[2] * xp1[0] + a[3] * xp2[0] + b[0] * yp1[0] + b[1] * yp2[0];
      xp2[0] = xp1[0];
      xp1[0] = in[i][j + 1];
      yp2[0] = yp1[0];
      yp1[0] = y2[i][j];
    }
  }
  for (int64_t i = 0; i < W; i++)
    for (int64_t j = 0; j < H; j++)
      out[i][j] = c[0] * (y1[i][j] + y2[i][j]);
  for (int64_t j = 0; j < H; j++) {
    tm1[0] = 0;
    ym1[0] = 0;
    ym2[0] = 0;
    for (int64_t i = 0; i < W; i++) {
      y1[i][j] = a[4] * out[i][j] + a[5] * tm1[0] + b[0] * ym1[0] + b[1] * ym2[0];
      tm1[0] = out[i][j];
      ym2[0] = ym1[0];
      ym1[0] = y1[i][j];
    }
  }
  for (int64_t j = 0; j < H; j++) {
    tp1[0] = 0;
    tp2[0] = 0;
    yp1[0] = 0;
    yp2[0] = 0;
    for (int64_t i = W - 1; i >= 0; i--) {
      y2[i][j] = a[6] * tp1[0] + a[7] * tp2[0] + b[0] * yp1[0] + b[1] * yp2[0];
      tp2[0] = tp1[0];
      tp1[0] = out[i][j];
      yp2[0] = yp1[0];
      yp1[0] = y2[i][j];
    }
  }
  for (int64_t i = 0; i < W; i++)
    for (int64_t j = 0; j < H; j++)
      out[i][j] = c[1] * (y1[i][j] + y2[i][j]);
}
%%
W = 5
H = 4
a = 1 2 3 4 5 6 7 8
b = 2 3
c = 4 5
in = 0 1 5 9 4 0 2 6 1 3 0 8 7 6 5 0 4 3 2 1 0 9 2 8 3
