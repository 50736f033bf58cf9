/* Says for each argument whether it is a date, or a date and a time. If not, prints the error, the text, and a mark under the position of the
 * error. The exit status is 1 if an argument is refused.
 *
 *     cc -std=c99 validate.c $(pkg-config --cflags --libs ixdtf) -o validate
 *     ./validate 2024-03-02T08:48:00Z 2024-02-30
 */
#include <ixdtf.h>
#include <stdio.h>

static void print_error(const char *text, uint32_t error, const ixdtf_record *record) {
    printf("%s: %s", text, ixdtf_error_message(error));
    if (error == IXDTF_ABRUPT_END) {
        printf(" This was being parsed: %.*s.", (int)record->location.length, record->location.at);
    }
    /* The position is a number of bytes. For a text in ASCII, it is also the number of columns before the mark. */
    printf("\n%s\n%*s\n", text, (int)record->place + 1, "^");
}

int main(int count, char **arguments) {
    int status = 0;
    for (int i = 1; i < count; i++) {
        const char *text = arguments[i];
        ixdtf_record record = IXDTF_RECORD;
        uint32_t error = ixdtf_parse_text(text, &record);
        if (error == IXDTF_OK) {
            printf("%s: valid\n", text);
        } else {
            print_error(text, error, &record);
            status = 1;
        }
    }
    return status;
}
