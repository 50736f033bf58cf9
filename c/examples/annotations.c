/* For each argument, prints its annotations and its calendar, or the error. The program knows the key x-note: it accepts an annotation with this
 * key, even if the annotation is critical. It passes every other annotation to the library, which accepts or refuses it as usual.
 *
 *     cc -std=c99 annotations.c $(pkg-config --cflags --libs ixdtf) -o annotations
 *     ./annotations '2024-03-02[Europe/Paris][u-ca=hebrew][!x-note=a-b]'
 */
#include <ixdtf.h>
#include <stdio.h>
#include <stdlib.h>
#include <string.h>

static void print_units(ixdtf_units units) {
    printf("%.*s", (int)units.length, (const char *)units.at);
}

static bool is_note(const ixdtf_annotation *annotation) {
    return annotation->key.length == 6 && memcmp(annotation->key.at, "x-note", 6) == 0;
}

/* Prints and checks the annotations of the list, in order. If an annotation is refused, the function stops. It returns the error, and writes the
 * position of the error to `place`. This position is directly after the bracket of the annotation. If no annotation is refused, the function
 * returns 0. */
static uint32_t ask(const uint8_t *text, const ixdtf_annotation *list, size_t count, ixdtf_calendar *calendar, size_t *place) {
    for (size_t i = 0; i < count; i++) {
        printf("  %s", list[i].is_critical ? "critical " : "");
        print_units(list[i].key);
        printf(" is ");
        print_units(list[i].value);
        printf("\n");
        if (is_note(&list[i])) {
            continue; /* Without a reply, the annotation is dropped. */
        }
        uint32_t error = ixdtf_reply(calendar, &list[i]);
        if (error != IXDTF_OK) {
            *place = ixdtf_reply_place(text, &list[i]);
            return error;
        }
    }
    return IXDTF_OK;
}

static void print_outcome(uint32_t error, size_t place, const ixdtf_calendar *calendar) {
    if (error != IXDTF_OK) {
        printf("  refused at %zu: %s\n", place, ixdtf_error_message(error));
    } else if (calendar->is_there) {
        printf("  calendar: ");
        print_units(calendar->value);
        printf("\n");
    } else {
        printf("  no calendar\n");
    }
}

int main(int count, char **arguments) {
    for (int i = 1; i < count; i++) {
        const uint8_t *text = (const uint8_t *)arguments[i];
        size_t length = strlen(arguments[i]);
        size_t room = length / 5 + 1; /* enough, because an annotation has at least five bytes, such as [a=b] */
        ixdtf_annotation *list = malloc(room * sizeof *list);
        if (list == NULL) {
            return 1;
        }
        ixdtf_set_annotations(list, room);
        size_t found = 0;
        ixdtf_record record = IXDTF_RECORD;
        ixdtf_calendar calendar = IXDTF_CALENDAR;
        printf("%s\n", arguments[i]);
        uint32_t error = ixdtf_parse_with_annotations(text, length, list, room, &found, &record);
        size_t place = record.place;
        uint32_t refused = ask(text, list, found, &calendar, &place);
        /* The annotations of the list come before the error of the text. So the error of a refused reply is the first error. */
        print_outcome(refused != IXDTF_OK ? refused : error, place, &calendar);
        free(list);
    }
    return 0;
}
