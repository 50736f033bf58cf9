/* Each argument is a date, or a date and a time. For each one, prints its canonical text. If two texts have the same record, they also have the
 * same canonical text. The exit status is 1 if an argument is refused.
 *
 *     cc -std=c99 print.c $(pkg-config --cflags --libs ixdtf) -o print
 *     ./print '20240302 084800,250z[!etc/utc][u-ca=hebrew][x-note=a]'
 */
#include <ixdtf.h>
#include <stdio.h>
#include <stdlib.h>
#include <string.h>

/* Prints the record with the next day, or says that the month has no later day. */
static void print_next_day(ixdtf_record record) {
    uint8_t out[64]; /* For a longer text, only its length is printed. */
    size_t count = 0;
    record.date.day++;
    uint32_t error = ixdtf_print(&record, out, sizeof out, &count);
    if (error == IXDTF_OK) {
        printf("  a day later: %.*s\n", (int)count, (const char *)out);
    } else if (error == IXDTF_TOO_SHORT) {
        printf("  a day later: %zu bytes\n", count);
    } else {
        printf("  no later day in this month\n");
    }
}

int main(int count, char **arguments) {
    int status = 0;
    for (int i = 1; i < count; i++) {
        size_t length = strlen(arguments[i]);
        size_t room = length + 14; /* enough, because the canonical text has at most 14 bytes more than the text */
        size_t written = 0;
        uint8_t *out = malloc(room);
        ixdtf_record record = IXDTF_RECORD;
        if (out == NULL) {
            return 1;
        }
        uint32_t error = ixdtf_parse_text(arguments[i], &record);
        if (error == IXDTF_OK) {
            error = ixdtf_print(&record, out, room, &written); /* This never fails for a record that was read, because the array is large enough. */
        }
        if (error == IXDTF_OK) {
            printf("%s\n", arguments[i]);
            printf("  %.*s\n", (int)written, (const char *)out);
            print_next_day(record);
        } else {
            printf("%s\n  refused\n", arguments[i]);
            status = 1;
        }
        free(out);
    }
    return status;
}
