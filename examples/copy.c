void copy(int64_t N, uint64_t A[N], uint64_t B[N]) {
  for (int64_t i = 0; i < N; i++)
    B[i] = A[i];
}
%%
N = 4
A = 1 2 3 4
