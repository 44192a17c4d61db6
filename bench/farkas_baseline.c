/* The rows of dependences by Farkas's lemma with isl: for each case the matching of coefficients as a rational basic set,
   m0 and the multipliers projected out one after another, redundant constraints removed behind each. Reads cases as
   test_cases does, without answers, and prints how many constraints are left. */
#include <isl/constraint.h>
#include <isl/ctx.h>
#include <isl/set.h>
#include <isl/space.h>
#include <stdio.h>
#include <stdlib.h>
#include <string.h>

/* isl exports it, its headers keep it to themselves. */
extern isl_basic_set *isl_basic_set_set_rational(isl_basic_set *set);

enum { MOST_ROWS = 64, MOST_COLUMNS = 64 };

struct dependence {
  int statement[2], loops[2], dimensions, parameters, equalities, rows;
  long equality[MOST_ROWS][MOST_COLUMNS], row[MOST_ROWS][MOST_COLUMNS];
};

struct layout { int unknowns, first[2]; };

static struct layout layout_of(const struct dependence *d) {
  struct layout l;
  int begin = d->parameters + 1;
  int one = d->statement[0] == d->statement[1];
  int early = d->statement[0] <= d->statement[1] ? 0 : 1;
  l.first[early] = begin;
  l.first[1 - early] = one ? begin : begin + d->loops[early] + 1;
  l.unknowns = l.first[1 - early] + d->loops[1 - early] + 1;
  return l;
}

static void read_numbers(char *text, long *numbers, int count) {
  for (int k = 0; k < count; k++) numbers[k] = strtol(text, &text, 10);
}

/* Reads a line that belongs to the case; 0 where it begins another. */
static int read_line(struct dependence *d, char *line) {
  int columns = d->dimensions + d->parameters + 1;
  if (strncmp(line, "equality ", 9) == 0) {
    read_numbers(line + 9, d->equality[d->equalities++], columns);
  } else if (strncmp(line, "row ", 4) == 0) {
    read_numbers(line + 4, d->row[d->rows++], columns);
  } else {
    return 0;
  }
  return 1;
}

/* The claimed form's coefficients of the unknowns in its number at a place; `sign` is 1 for legality, else -1. */
static void own_factors(const struct dependence *d, struct layout l, int sign, int place, long *numbers) {
  memset(numbers, 0, sizeof(long) * MOST_COLUMNS);
  if (place < d->loops[0]) {
    numbers[l.first[0] + d->loops[0] - 1 - place] = -sign;
  } else if (place < d->dimensions) {
    numbers[l.first[1] + d->dimensions - 1 - place] = sign;
  } else if (place < d->dimensions + d->parameters) {
    numbers[place - d->dimensions] = sign < 0;
  } else {
    numbers[d->parameters] = sign < 0;
    numbers[l.first[0] + d->loops[0]] -= sign;
    numbers[l.first[1] + d->loops[1]] += sign;
  }
}

static isl_basic_set *with_equality(isl_basic_set *set, isl_local_space *space, const struct dependence *d, struct layout l,
                                    int sign, int place) {
  long own[MOST_COLUMNS];
  isl_constraint *c = isl_constraint_alloc_equality(isl_local_space_copy(space));
  int column = l.unknowns;
  own_factors(d, l, sign, place, own);
  for (int k = 0; k < l.unknowns; k++) c = isl_constraint_set_coefficient_si(c, isl_dim_set, k, (int)own[k]);
  c = isl_constraint_set_coefficient_si(c, isl_dim_set, column++, place == d->dimensions + d->parameters ? -1 : 0);
  for (int k = 0; k < d->equalities; k++) {
    c = isl_constraint_set_coefficient_si(c, isl_dim_set, column++, (int)-d->equality[k][place]);
    c = isl_constraint_set_coefficient_si(c, isl_dim_set, column++, (int)d->equality[k][place]);
  }
  for (int k = 0; k < d->rows; k++) {
    c = isl_constraint_set_coefficient_si(c, isl_dim_set, column++, (int)-d->row[k][place]);
  }
  return isl_basic_set_add_constraint(set, c);
}

static isl_basic_set *with_own_row(isl_basic_set *set, isl_local_space *space, int column) {
  isl_constraint *c = isl_constraint_alloc_inequality(isl_local_space_copy(space));
  return isl_basic_set_add_constraint(set, isl_constraint_set_coefficient_si(c, isl_dim_set, column, 1));
}

static int constraints_left(isl_ctx *ctx, const struct dependence *d, int sign) {
  struct layout l = layout_of(d);
  int count = 1 + 2 * d->equalities + d->rows;
  isl_space *space = isl_space_set_alloc(ctx, 0, l.unknowns + count);
  isl_basic_set *set = isl_basic_set_universe(isl_space_copy(space));
  isl_local_space *local = isl_local_space_from_space(space);
  for (int k = 0; k <= d->dimensions + d->parameters; k++) set = with_equality(set, local, d, l, sign, k);
  for (int k = 0; k < l.unknowns + count; k++) set = with_own_row(set, local, k);
  isl_local_space_free(local);
  set = isl_basic_set_set_rational(set);
  for (int k = 0; k < count; k++) {
    set = isl_basic_set_project_out(set, isl_dim_set, (unsigned)l.unknowns, 1);
    set = isl_basic_set_remove_redundancies(set);
  }
  int left = isl_basic_set_n_constraint(set);
  isl_basic_set_free(set);
  return left;
}

static void finish(isl_ctx *ctx, struct dependence *d, int open) {
  if (!open) return;
  printf("%d %d\n", constraints_left(ctx, d, 1), constraints_left(ctx, d, -1));
}

int main(void) {
  static struct dependence d;
  char line[4096];
  int open = 0;
  isl_ctx *ctx = isl_ctx_alloc();
  while (fgets(line, sizeof line, stdin)) {
    if (strncmp(line, "dep ", 4) == 0) {
      finish(ctx, &d, open);
      memset(&d, 0, sizeof d);
      open = sscanf(line, "dep %d %d %d %d", &d.statement[0], &d.loops[0], &d.statement[1], &d.loops[1]) == 4;
    } else if (strncmp(line, "system ", 7) == 0) {
      open = open && sscanf(line, "system %d %d", &d.dimensions, &d.parameters) == 2;
    } else {
      open = open && read_line(&d, line);
    }
  }
  finish(ctx, &d, open);
  isl_ctx_free(ctx);
  return 0;
}
