/* What `polypar run` does with a copy kernel, by hand: reads the whole input, skips the kernel's text,
   reads N and A, copies A into B and prints both arrays. The baseline of copy.sh. */
#include <inttypes.h>
#include <stdio.h>
#include <stdlib.h>
#include <string.h>

static char *read_all(void) {
    size_t length = 0, room = 65536;
    char *text = malloc(room + 1);
    size_t got;
    while (text && (got = fread(text + length, 1, room - length, stdin)) > 0) {
        length += got;
        if (length == room) {
            room *= 2;
            text = realloc(text, room + 1);
        }
    }
    if (text)
        text[length] = 0;
    return text;
}

static void print_array(const char *name, const uint64_t *cells, long count) {
    printf("%s =", name);
    for (long i = 0; i < count; i++)
        printf(" %" PRIu64, cells[i]);
    putchar('\n');
}

int main(void) {
    char *text = read_all();
    char *data = text ? strstr(text, "\n%%\n") : NULL;
    if (!data)
        return 1;
    char *at = strstr(data, "N = ");
    if (!at)
        return 1;
    long count = strtol(at + 4, &at, 10);
    at = strstr(at, "A =");
    if (!at)
        return 1;
    at += 3;
    uint64_t *a = malloc(sizeof *a * count), *b = calloc(count, sizeof *b);
    if (!a || !b)
        return 1;
    for (long i = 0; i < count; i++)
        a[i] = strtoull(at, &at, 10);
    for (long i = 0; i < count; i++)
        b[i] = a[i];
    print_array("A", a, count);
    print_array("B", b, count);
    return 0;
}
