/* Reads problems as test_cases does, and finds the lexicographic minimum of each with isl, TIMES times over; prints
   how many problems there were. usage: lexmin_isl [TIMES] */
#include <isl/constraint.h>
#include <isl/ctx.h>
#include <isl/local_space.h>
#include <isl/set.h>
#include <isl/space.h>
#include <isl/val.h>
#include <stdio.h>
#include <stdlib.h>
#include <string.h>

static isl_basic_set *with_row(isl_basic_set *set, isl_local_space *space, char *text, int unknowns, int parameters)
{
	isl_ctx *ctx = isl_local_space_get_ctx(space);
	isl_constraint *row = isl_constraint_alloc_inequality(isl_local_space_copy(space));
	for (int i = 0; i < unknowns + parameters; i++) {
		isl_val *value = isl_val_read_from_str(ctx, strsep(&text, " "));
		if (i < unknowns)
			row = isl_constraint_set_coefficient_val(row, isl_dim_set, i, value);
		else
			row = isl_constraint_set_coefficient_val(row, isl_dim_param, i - unknowns, value);
	}
	row = isl_constraint_set_constant_val(row, isl_val_read_from_str(ctx, strsep(&text, " \n")));
	return isl_basic_set_add_constraint(set, row);
}

static isl_basic_set *not_negative(isl_basic_set *set, isl_local_space *space, enum isl_dim_type kind, int count)
{
	for (int i = 0; i < count; i++) {
		isl_constraint *row = isl_constraint_alloc_inequality(isl_local_space_copy(space));
		set = isl_basic_set_add_constraint(set, isl_constraint_set_coefficient_si(row, kind, i, 1));
	}
	return set;
}

static void solve(isl_basic_set *set, long times)
{
	for (long done = 0; done < times; done++)
		isl_set_free(isl_basic_set_lexmin(isl_basic_set_copy(set)));
	isl_basic_set_free(set);
}

int main(int words, char **word)
{
	long times = words > 1 ? atol(word[1]) : 1;
	isl_ctx *ctx = isl_ctx_alloc();
	isl_basic_set *set = NULL;
	isl_local_space *space = NULL;
	int unknowns = 0, parameters = 0;
	long solved = 0;
	char *line = NULL;
	size_t room = 0;
	while (getline(&line, &room, stdin) > 0) {
		if (sscanf(line, "problem %d %d", &unknowns, &parameters) == 2) {
			isl_space *dims = isl_space_set_alloc(ctx, parameters, unknowns);
			space = isl_local_space_from_space(isl_space_copy(dims));
			set = isl_basic_set_universe(dims);
			set = not_negative(set, space, isl_dim_set, unknowns);
			set = not_negative(set, space, isl_dim_param, parameters);
		} else if (strncmp(line, "row ", 4) == 0) {
			set = with_row(set, space, line + 4, unknowns, parameters);
		} else if (strncmp(line, "context ", 8) == 0) {
			set = with_row(set, space, line + 8, 0, parameters);
		} else if (strncmp(line, "answer ", 7) == 0) {
			isl_local_space_free(space);
			solve(set, times);
			solved++;
		}
	}
	free(line);
	isl_ctx_free(ctx);
	printf("%ld\n", solved);
	return 0;
}
