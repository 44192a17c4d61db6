/* Where the values that a kernel reads come from, by isl: reads from FILE three lines, the reads, the writes and the
   order of both as isl writes maps, computes the flow of the writes to the reads TIMES times over, and prints the last.
   usage: deps_isl FILE TIMES */
#include <isl/ctx.h>
#include <isl/flow.h>
#include <isl/union_map.h>
#include <stdio.h>
#include <stdlib.h>

static isl_union_map *next_map(isl_ctx *ctx, FILE *file) {
  char *line = NULL;
  size_t room = 0;
  isl_union_map *map = getline(&line, &room, file) > 0 ? isl_union_map_read_from_str(ctx, line) : NULL;
  free(line);
  return map;
}

static isl_union_flow *flow_of(isl_union_map *reads, isl_union_map *writes, isl_union_map *order) {
  isl_union_access_info *info = isl_union_access_info_from_sink(isl_union_map_copy(reads));
  info = isl_union_access_info_set_must_source(info, isl_union_map_copy(writes));
  info = isl_union_access_info_set_schedule_map(info, isl_union_map_copy(order));
  return isl_union_access_info_compute_flow(info);
}

static void print_map(isl_union_map *map) {
  char *text = isl_union_map_to_str(map);
  puts(text);
  free(text);
  isl_union_map_free(map);
}

/* The last writer of each read, and the reads of cells that nothing wrote before. */
static void print_flow(isl_union_flow *flow) {
  print_map(isl_union_flow_get_must_dependence(flow));
  print_map(isl_union_flow_get_must_no_source(flow));
}

int main(int words, char **word) {
  if (words != 3) return 2;
  FILE *file = fopen(word[1], "r");
  if (!file) return 1;
  isl_ctx *ctx = isl_ctx_alloc();
  isl_union_map *reads = next_map(ctx, file);
  isl_union_map *writes = next_map(ctx, file);
  isl_union_map *order = next_map(ctx, file);
  fclose(file);
  for (long left = atol(word[2]); left > 0; left--) {
    isl_union_flow *flow = flow_of(reads, writes, order);
    if (left == 1) print_flow(flow);
    isl_union_flow_free(flow);
  }
  return reads && writes && order ? 0 : 1;
}
