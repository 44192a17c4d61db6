/* Braces in comments { and strings, and what looks like a kernel in them.
#pragma polypar is no mark here, nor are the others.
void kernel(uint64_t A[1]) { A[0] = 1; }
*/
#include <stdint.h>
#include <stdio.h>

// } a comment that goes on \
#pragma polypar again
static const char *text = "// no comment, \" { \\", open = '{', quote = '"', joined[] = "a \
#pragma polypar";

/* here */ #pragma polypar
/* { */ static /* } */ void kernel_both(int64_t N, uint64_t A[N]) { // {
  /* a line of a comment:
%%
  } */
  for (int64_t i = 0; i < N; i++) /* } */ { A[i] += 5; } // }
  /* "no string */
} // the end /* of it

int main(void) { /* { */
  uint64_t A[2] = {1, 2};
  kernel_both(2, A);
  printf("%d %s %c %c %s %d\n", (int)A[1], text, open, quote, joined, __LINE__); // }
  return 0;
}
