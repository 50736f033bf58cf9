/* calls WORD COUNT TEXT: calls one function of the library for C on the text, COUNT times. bench/calls runs this program and counts instructions. WORD is
 * `parse`, `duration` or `print`. `print` prints the record of the text. The program prints the number that the last call returned, and the text that was printed.
 * The exit status is 2 if WORD is none of these. */
#include <ixdtf.h>
#include <stdio.h>
#include <stdlib.h>
#include <string.h>

int main(int words, char **arguments) {
    if (words != 4) {
        return 2;
    }
    const uint8_t *text = (const uint8_t *)arguments[3];
    size_t length = strlen(arguments[3]);
    uint8_t out[600];
    size_t written = 0;
    ixdtf_record record = IXDTF_RECORD;
    ixdtf_duration duration = IXDTF_DURATION;
    uint32_t error = ixdtf_parse(text, length, &record);
    for (long left = atol(arguments[2]); left > 0; left--) {
        if (strcmp(arguments[1], "parse") == 0) {
            error = ixdtf_parse(text, length, &record);
        } else if (strcmp(arguments[1], "duration") == 0) {
            error = ixdtf_parse_duration(text, length, &duration);
        } else if (strcmp(arguments[1], "print") == 0) {
            error = ixdtf_print(&record, out, sizeof out, &written);
        } else {
            return 2;
        }
    }
    printf("%u %.*s\n", (unsigned)error, (int)written, (const char *)out);
    return 0;
}
