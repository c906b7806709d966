/* Two guests in one pool. Prints what the comments say; harness/header compiles and runs it. */
#include "marlbrace.h"
#include <stdio.h>

static uint32_t pool[64 + 8 * 2 + 8 * 100];

static uint64_t add(uint32_t set, const char *line, size_t len) {
    uint64_t row[3], read = marlbrace_read_line((const uint8_t *)line, len, row);
    if (marlbrace_refused(read)) return read;
    return marlbrace_add(pool, sizeof pool / sizeof *pool, set, (uint8_t)marlbrace_value(read), row[0], row[1], (uint8_t)row[2]);
}

int main(void) {
    const size_t words = sizeof pool / sizeof *pool;
    const uint32_t shares[2] = {40, 30}, limits[2] = {60, 80};
    uint8_t line[64];
    uint64_t rows[3 * 8], row[3], counts[4], answer;
    const uint8_t wreck[] = {0, 0, 0, 4, 0, 0, 0, 9, 0, 0, 0, 0, 0, 0, 0, 0, 10, 9, 8, 7, 8};   /* 10.9.8.7/8, and a header that is wrong but for the family */
    uint8_t file[sizeof wreck];
    uint32_t k;

    if (marlbrace_value(marlbrace_words(2, 100)) != words) return 1;
    if (marlbrace_refused(marlbrace_layout(pool, words, 4, 2, 100, shares, 2, limits, 2))) return 1;
    printf("%u nodes\n", (unsigned)marlbrace_value(add(0, "192.168.0.0/24", 14)));           /* 25 nodes */
    printf("%u nodes\n", (unsigned)marlbrace_value(add(0, "192.168.1.0/24", 14)));           /* 26 nodes */
    printf("refused %d\n", (int)marlbrace_refused(add(0, "010.0.0.0/8", 11)));              /* refused 4 */
    printf("%u nodes\n", (unsigned)marlbrace_value(marlbrace_simplify(pool, words, 0)));      /* 24 nodes */

    answer = marlbrace_supernet(pool, words, 0, 4, 0, 0xc0a80107, 32, row);                   /* 192.168.1.7 */
    k = marlbrace_value(answer);
    printf("inside: %s, a /%u, %u nodes read\n", marlbrace_yes(answer) ? "yes" : "no", (unsigned)row[2], (unsigned)k);   /* inside: yes, a /23, 24 nodes read */

    answer = marlbrace_list(pool, words, 0, rows, 3 * 8);
    for (k = 0; k < marlbrace_value(answer); k++) {
        uint64_t written = marlbrace_write_line(4, rows[3 * k], rows[3 * k + 1], (uint8_t)rows[3 * k + 2], line, sizeof line);
        printf("%.*s\n", (int)marlbrace_value(written), (const char *)line);                 /* 192.168.0.0/23 */
    }

    answer = marlbrace_salvage(wreck, sizeof wreck, file, sizeof file, counts);
    printf("%u bytes, %u read, %u trimmed\n", (unsigned)marlbrace_value(answer), (unsigned)counts[0], (unsigned)counts[1]);   /* 21 bytes, 1 read, 1 trimmed */
    answer = marlbrace_load(pool, words, 1, file, sizeof file);
    printf("%u nodes\n", (unsigned)marlbrace_value(answer));                                /* 9 nodes */
    return 0;
}
