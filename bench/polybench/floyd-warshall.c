/* floyd-warshall: the lengths of the shortest ways between all points of a graph.
   Differs: the minimum is taken by a difference and its sign, which is right where lengths are below 2^62.
   Refused: path[i][j] = path[i][j] < path[i][k] + path[k][j] ? path[i][j] : path[i][k] + path[k][j]; */
#include <stdint.h>

void floyd_warshall(int64_t N, uint64_t path[N][N]) {
  for (int64_t k = 0; k < N; k++)
    for (int64_t i = 0; i < N; i++)
      for (int64_t j = 0; j < N; j++)
        path[i][j] += (path[i][k] + path[k][j] - path[i][j])
                      & -((path[i][k] + path[k][j] - path[i][j]) >> 63);
}
%%
N = 5
path = 0 3 999 7 999 8 0 2 999 999 5 999 0 1 999 2 999 999 0 4 999 1 999 999 0
