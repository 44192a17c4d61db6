/* No kernel: #pragma polypar stands in a comment. */
#include <stdio.h>

int main(void) {
  puts("#pragma polypar");
  return 0;
}
