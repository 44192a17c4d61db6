/* Which points of a graph reach which (Floyd and Warshall): row i has bit 1 at
   column j where an edge leads from i to j. */
#include <stdint.h>

void warshall(int64_t N, uint64_t reaches[N][N]) {
  for (int64_t k = 0; k < N; k++)
    for (int64_t i = 0; i < N; i++)
      for (int64_t j = 0; j < N; j++)
        reaches[i][j] |= reaches[i][k] & reaches[k][j];
}
%%
N = 4
reaches = 0 1 0 0 0 0 1 0 0 0 0 1 0 0 0 0
