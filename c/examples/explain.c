/* Says for each argument whether it is a date, or a date and a time. If not, prints what is wrong, the text, a ^ under each byte of the part that is
 * wrong, and a hint, if there is one. The exit status is 1 if an argument is refused.
 *
 *     cc -std=c99 explain.c $(pkg-config --cflags --libs ixdtf) -o explain
 *     ./explain 2024-03-02T08:48:00Z 2024-02-30
 */
#include <ixdtf.h>
#include <stdio.h>
#include <string.h>

/* Prints why ixdtf_parse refuses the text. */
static void print_report(const char *text) {
    ixdtf_explanation why = IXDTF_EXPLANATION;
    uint8_t report[IXDTF_REPORT_ROOM];
    size_t count = 0;
    if (ixdtf_explain_text(IXDTF_READER_PARSE, text, &why) != IXDTF_OK
        && ixdtf_describe(&why, (const uint8_t *)text, strlen(text), report, sizeof report, &count) == IXDTF_OK) {
        printf("%s: %.*s\n", text, (int)count, (const char *)report);
    }
}

int main(int count, char **arguments) {
    int status = 0;
    for (int i = 1; i < count; i++) {
        const char *text = arguments[i];
        ixdtf_record record = IXDTF_RECORD;
        if (ixdtf_parse_text(text, &record) == IXDTF_OK) {
            printf("%s: valid\n", text);
        } else {
            print_report(text);
            status = 1;
        }
    }
    return status;
}
