/* What a reader of kernels can't do without, by hand: reads the whole input, scans the kernel's text for words,
   numbers and signs (comments skipped), and the data for numerals, which it keeps. Prints their counts and a sum.
   The baseline of reading.sh. */
#include <ctype.h>
#include <inttypes.h>
#include <stdio.h>
#include <stdlib.h>
#include <string.h>

static char *read_all(size_t *length) {
    size_t room = 65536, got;
    char *text = malloc(room + 1);
    *length = 0;
    while (text && (got = fread(text + *length, 1, room - *length, stdin)) > 0) {
        *length += got;
        if (*length == room) {
            room *= 2;
            text = realloc(text, room + 1);
        }
    }
    if (text)
        text[*length] = 0;
    return text;
}

static int in_word(char byte) {
    return isalnum((unsigned char)byte) || byte == '_';
}

/* Tokens up to the end; comments are blanks. */
static size_t scan_kernel(const char *at, const char *end) {
    size_t count = 0;
    while (at < end) {
        if (isspace((unsigned char)*at)) {
            at++;
        } else if (at[0] == '/' && at[1] == '*') {
            at += 2;
            while (at < end && !(at[0] == '*' && at[1] == '/'))
                at++;
            at += 2;
        } else {
            count++;
            if (in_word(*at))
                while (at < end && in_word(*at))
                    at++;
            else
                at++;
        }
    }
    return count;
}

/* Numerals up to the end, kept in a growing list. */
static uint64_t *scan_data(char *at, char *end, size_t *count) {
    size_t room = 1024;
    uint64_t *cells = malloc(room * sizeof *cells);
    *count = 0;
    while (cells && at < end) {
        if (!isdigit((unsigned char)*at)) {
            at++;
            continue;
        }
        if (*count == room) {
            room *= 2;
            cells = realloc(cells, room * sizeof *cells);
            if (!cells)
                break;
        }
        cells[(*count)++] = strtoull(at, &at, 10);
    }
    return cells;
}

int main(void) {
    size_t length, count;
    char *text = read_all(&length);
    if (!text)
        return 1;
    char *cut = strstr(text, "\n%%\n"), *end = text + length, *data = cut ? cut + 4 : end;
    size_t tokens = scan_kernel(text, cut ? cut : end);
    uint64_t *cells = scan_data(data, end, &count), sum = 0;
    if (!cells)
        return 1;
    for (size_t i = 0; i < count; i++)
        sum += cells[i];
    printf("%zu tokens, %zu numerals, sum %" PRIu64 "\n", tokens, count, sum);
    return 0;
}
