/* Each line of standard input, read as a network of either family and written again: the written line and 1 where a set bit was cut, or the refusal. For harness/lines. */
#include "marlbrace.h"
#include <stdio.h>
#include <string.h>

int main(void) {
    char line[4096];
    uint8_t out[64];
    uint64_t row[3];
    while (fgets(line, sizeof line, stdin)) {
        uint64_t read = marlbrace_read_line_either((const uint8_t *)line, strcspn(line, "\n"), row);
        if (marlbrace_refused(read)) {
            printf("refused %d\n", (int)marlbrace_refused(read));
        } else {
            uint64_t written = marlbrace_write_line((uint8_t)marlbrace_value(read), row[0], row[1], (uint8_t)row[2], out, sizeof out);
            printf("%.*s %d\n", (int)marlbrace_value(written), (const char *)out, marlbrace_trimmed(read));
        }
    }
    return 0;
}
