/* The steps of crates/bench_cases with C's 128-bit integers and the compiler's overflow tests.
   The baseline of forms.sh. */
#include <stdint.h>
#include <stdio.h>
#include <stdlib.h>
#include <string.h>

enum { OPERANDS = 1024, ROWS = 60, COLUMNS = 40 };

static const __int128 coefficients[8] = {3, -5, 7, -11, 13, -17, 19, -23};

static void operands(__int128 *numbers, uint64_t state, uint32_t scale) {
    for (int at = 0; at < OPERANDS; at++) {
        state = state * 6364136223846793005u + 1442695040888963407u;
        numbers[at] = ((__int128)(state >> 24) - 549755813888) * scale;
    }
}

static __int128 multiply_add(const __int128 *left, const __int128 *right, uint64_t rounds) {
    __int128 sum = 0;
    for (uint64_t round = 0; round < rounds; round++) {
        __int128 product, next;
        if (__builtin_mul_overflow(left[round & 1023], right[round & 1023], &product))
            sum = 0;
        else if (__builtin_add_overflow(product, sum, &next))
            sum = 1;
        else
            sum = next;
    }
    return sum;
}

/* Whether the value left 128 bits; it is not inlined, as a library's call is not. */
static __attribute__((noinline)) int form_value(const __int128 *form, __int128 constant, const __int128 *point,
                                                size_t count, __int128 *value) {
    __int128 sum = 0;
    for (size_t at = 0; at < count; at++) {
        __int128 product;
        if (__builtin_mul_overflow(form[at], point[at], &product) || __builtin_add_overflow(sum, product, &sum))
            return 1;
    }
    return __builtin_add_overflow(sum, constant, value);
}

static __int128 value_at(const __int128 *numbers, uint64_t rounds) {
    __int128 point[8] = {1, 2, 3, 4, 5, 6, 7, 8}, mixed = 0;
    for (uint64_t round = 0; round < rounds; round++) {
        __int128 value;
        point[round & 7] = numbers[round & 1023];
        mixed ^= form_value(coefficients, 29, point, 8, &value) ? 0 : value;
    }
    return mixed;
}

static __attribute__((noinline)) int combine(__int128 *row, size_t count, __int128 factor, __int128 own,
                                             const __int128 *pivot) {
    for (size_t at = 0; at < count; at++) {
        __int128 left, right, next;
        if (__builtin_mul_overflow(row[at], factor, &left) || __builtin_mul_overflow(own, pivot[at], &right) ||
            __builtin_sub_overflow(left, right, &next))
            return 0;
        row[at] = next;
    }
    return 1;
}

static __int128 row_operation(uint64_t rounds) {
    static __int128 base[ROWS * COLUMNS], cells[ROWS * COLUMNS];
    __int128 pivot[COLUMNS], mixed = 0;
    for (int at = 0; at < ROWS * COLUMNS; at++)
        base[at] = (at * 7919 + 13) % 101 - 50;
    for (int at = 0; at < COLUMNS; at++)
        pivot[at] = (at * 31 + 5) % 23 - 9;
    for (uint64_t round = 0; round < rounds; round++) {
        uint64_t good = 0;
        memcpy(cells, base, sizeof base);
        pivot[7] = (round & 31) + 1;
        for (int row = 0; row < ROWS; row++)
            good += combine(cells + COLUMNS * row, COLUMNS, pivot[7], cells[COLUMNS * row + 7], pivot);
        mixed ^= cells[round & 2047] ^ (__int128)good;
    }
    return mixed;
}

static void print_number(__int128 value) {
    char digits[48];
    int at = sizeof digits;
    unsigned __int128 rest = value < 0 ? -(unsigned __int128)value : (unsigned __int128)value;
    digits[--at] = 0;
    do {
        digits[--at] = '0' + (int)(rest % 10);
        rest /= 10;
    } while (rest);
    printf("%s%s\n", value < 0 ? "-" : "", digits + at);
}

int main(int count, char **words) {
    static __int128 left[OPERANDS], right[OPERANDS];
    if (count != 3)
        return 1;
    uint64_t rounds = strtoull(words[2], NULL, 10);
    int wide = strcmp(words[1], "multiply_add_wide") == 0;
    if (wide || strcmp(words[1], "multiply_add") == 0) {
        operands(left, 1, wide ? 4294967295u : 1);
        operands(right, 2, 1);
        print_number(multiply_add(left, right, rounds));
    } else if (strcmp(words[1], "value_at") == 0) {
        operands(left, 3, 1);
        print_number(value_at(left, rounds));
    } else if (strcmp(words[1], "row_operation") == 0) {
        print_number(row_operation(rounds));
    } else {
        return 1;
    }
    return 0;
}
