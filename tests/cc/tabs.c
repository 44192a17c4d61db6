/* Tabs, and lines that end by CR LF. */
#include <stdint.h>
#include <stdio.h>

	#pragma	polypar
	static	void	kernel_copy(int64_t	N,	uint64_t A[N],
				uint64_t B[N])
	{
		for (int64_t i = 0;	i < N;	i++)
			B[i] = A[i] * 2;	/* { */
}	int behind = __LINE__;

int main(void)
{
	uint64_t A[3] = {1, 2, 3}, B[3];
	kernel_copy(3, A, B);
	printf("%d %d\n", (int)B[2], behind);
	return 0;
}
