/* Makes records, and compares what the library for C does with them with a model. tools/compare_records.py compiles this program, runs it, and says
 * what it checks.
 *
 *     compare_records KIND COUNT SEED          makes COUNT records of a kind, and checks them
 *     compare_records KIND COUNT SEED lines    also writes two lines for each record that has a canonical text: see `write_lines`
 *     compare_records KIND                     reads a record from each line of its input, and writes the canonical text that the model gives it
 *
 * The exit status is 1 if there is a difference, and 2 if the arguments are wrong. */
#include "making.h"
#include "model.h"
#include "reporting.h"
#include <inttypes.h>
#include <stdio.h>
#include <stdlib.h>

/* The revision of the interface that added the printers of 16-bit text. */
#define REVISION_OF_WIDE_PRINTERS 4

/* ---------------------------------------------------------------------------------------------------------------------------------------------
 * Checking */

/* How many records were checked, and how many of them have a canonical text. */
struct counts { uint64_t records, printable; };

/* The text to which `location` points before a call of a reader. */
static const char STALE[] = "stale";

/* A duration in which no field has a value that a reader writes for a canonical text, except by chance. */
static const ixdtf_duration STALE_DURATION = { 91, 92, 93, 94, 95, 96, 97, 98, 99, 250, true, true, { STALE, 5 }, 89 };
static const ixdtf_date STALE_DATE = { 71, 72, 73, true };
static const ixdtf_time STALE_TIME = { 74, 75, 76, 77, 78, true };
static const ixdtf_offset STALE_OFFSET = { 81, 82, IXDTF_SECONDS, true, 83, 84, 85 };

/* The value of each byte of an array before a printer writes to it. No canonical text has this byte. */
#define MARK 0xa5
/* The value of `count` before a call. */
#define STALE_COUNT 123456789
/* How many code units of an array after its end are compared. They belong to a longer array. */
#define AFTER 64

/* The rules under which a canonical text is read: those of the reader that belongs to the printer, and those of other readers. */
enum rules { USUAL, STRICT, RFC3339, RFC9557, ONLY_NAMES };

/* Whether a reader must accept the canonical text of a record. */
static bool is_accepted(enum kind kind, const struct made *made, enum rules rules) {
    switch (rules) {
    case STRICT:
        return kind != MONTH_DAY || made->date.day != 0;
    case RFC3339:
        return is_rfc3339(made);
    case RFC9557:
        return is_rfc9557(made);
    case ONLY_NAMES:
        return made->zone.form == IXDTF_NAME;
    default:
        return true;
    }
}

/* The other rules under which the canonical texts of a kind are read. */
static const enum rules OTHER_RULES[KINDS][2] = { { RFC3339, RFC9557 }, { USUAL, USUAL }, { STRICT, USUAL }, { STRICT, USUAL }, { USUAL, USUAL },
    { ONLY_NAMES, USUAL }, { STRICT, USUAL } };

#define UNIT uint8_t
#define CALL(name) ixdtf_##name
#define OWN(name) narrow_##name
#define WIDTH "8-bit"
#define HAS_PRINTERS 1
#include "width.h"
#undef UNIT
#undef CALL
#undef OWN
#undef WIDTH
#undef HAS_PRINTERS

/* Turns a record or a duration that a reader wrote into a made record. Its name and its calendar are in arrays that the next record overwrites. */
static void made_of(const ixdtf_record *record, const ixdtf_duration *duration, struct made *made) {
    static uint16_t name[ROOM], calendar[ROOM];
    const struct made found = { record->date, record->time, record->offset, record->zone, { name, record->zone.name.length },
        { calendar, record->calendar.length }, record->has_calendar, *duration };
    size_t at;
    for (at = 0; at < found.name.length; at++) {
        name[at] = record->zone.name.at[at];
    }
    for (at = 0; at < found.calendar.length; at++) {
        calendar[at] = record->calendar.at[at];
    }
    *made = found;
}

#define UNIT uint16_t
#define CALL(name) ixdtf16_##name
#define OWN(name) wide_##name
#define WIDTH "16-bit"
#define HAS_PRINTERS (IXDTF_INTERFACE_REVISION >= REVISION_OF_WIDE_PRINTERS)
#include "width.h"

/* ---------------------------------------------------------------------------------------------------------------------------------------------
 * The lines for another program */

static void show_fraction(uint64_t fraction, uint8_t digits) {
    if (digits) {
        printf(".f%u:%" PRIu64, digits, fraction);
    }
}

static void write_offset(const ixdtf_offset *offset) {
    if (offset->form == IXDTF_UTC) {
        printf(" offset=Z");
    } else if (offset->form != IXDTF_NO_OFFSET) {
        printf(" offset=%c%u,%u", offset->is_negative ? '-' : '+', offset->hour, offset->minute);
        if (offset->form == IXDTF_SECONDS) {
            printf(",%u", offset->second);
            show_fraction(offset->fraction, offset->fraction_digits);
        }
    }
}

static void write_units(struct units units) {
    size_t at;
    for (at = 0; at < units.length; at++) {
        putchar(units.at[at]);
    }
}

static void write_zone(const struct made *made) {
    if (made->zone.form != IXDTF_NO_ZONE) {
        printf(" tz=%s", made->zone.is_critical ? "!" : "");
        if (made->zone.form == IXDTF_NAME) {
            write_units(made->name);
        } else {
            printf("%c%u,%u", made->zone.is_negative ? '-' : '+', made->zone.hour, made->zone.minute);
        }
    }
}

static void write_duration(const ixdtf_duration *duration) {
    const uint64_t numbers[] = { duration->hours, duration->minutes, duration->seconds };
    unsigned at;
    printf(" sign=%c", duration->is_negative ? '-' : '+');
    if (duration->has_date) {
        printf(" date=%" PRIu32 ",%" PRIu32 ",%" PRIu32 ",%" PRIu64, duration->years, duration->months, duration->weeks, duration->days);
    }
    for (at = 0; at < duration->time_form; at++) {
        printf("%s%" PRIu64, at ? "," : " time=", numbers[at]);
    }
    show_fraction(duration->fraction, duration->fraction_digits);
}

/* Writes two lines: one with the kind and the canonical text, and one with the fields that a reader must find in this text. In the second line, a
 * fraction is written as the letter f, the count of its digits, a colon, and the number that its first 18 digits form. */
static void write_lines(enum kind kind, const struct made *made, const struct text *text) {
    printf("x-%s ", KIND_NAMES[kind]);
    fwrite(text->at, 1, text->length, stdout);
    printf("\nok");
    if (kind == DURATION) {
        write_duration(&made->duration);
    } else {
        if (made->date.is_there) {
            printf(" date=%" PRId32 ",%u,%u", made->date.year, made->date.month, made->date.day);
        }
        if (made->time.is_there) {
            printf(" time=%u,%u,%u", made->time.hour, made->time.minute, made->time.second);
            show_fraction(made->time.fraction, made->time.fraction_digits);
        }
        write_offset(&made->offset);
        write_zone(made);
        if (made->has_calendar) {
            printf(" calendar=");
            write_units(made->calendar);
        }
    }
    printf("\n");
}

/* ---------------------------------------------------------------------------------------------------------------------------------------------
 * The program */

static void show_counts(enum kind kind, const char *width, struct counts counts) {
    printf("%s, %s: %" PRIu64 " records, %" PRIu64 " with a canonical text\n", KIND_NAMES[kind], width, counts.records, counts.printable);
}

/* Makes and checks records of a kind. The checks use random numbers too. So the numbers of each record begin anew. Otherwise the records of a seed
 * would depend on the checks. */
static void check_records(enum kind kind, uint64_t count, uint64_t seed, bool has_lines) {
    static struct text text;
    struct counts narrow = { 0, 0 }, wide = { 0, 0 };
    uint64_t start = seed * KINDS + (uint64_t)kind;
    current_kind = kind;
    for (; count; count--) {
        random_state = start;
        make_record(kind, &current);
        start = any_number();
        const bool is_printable = canonical_text(kind, &current, &text);
        const struct made wanted = read_record(kind, &current);
        narrow_check(kind, &current, is_printable ? &text : NULL, &wanted, &narrow);
        wide_check(kind, &current, is_printable ? &text : NULL, &wanted, &wide);
        if (is_printable && has_lines) {
            write_lines(kind, &wanted, &text);
        }
    }
    show_counts(kind, "8-bit", narrow);
    show_counts(kind, IXDTF_INTERFACE_REVISION >= REVISION_OF_WIDE_PRINTERS ? "16-bit" : "16-bit, only read", wide);
}

/* Reads a record from each line of the input, and writes its canonical text. The text comes from the model, and not from the library. */
static void write_canonical_texts(enum kind kind) {
    static char line[ROOM];
    static struct text text;
    while (fgets(line, sizeof line, stdin)) {
        const size_t length = strcspn(line, "\n");
        ixdtf_record record = IXDTF_RECORD;
        ixdtf_duration duration = IXDTF_DURATION;
        struct made made;
        const uint32_t error = narrow_read(kind, USUAL, (const uint8_t *)line, length, &record, &duration);
        made_of(&record, &duration, &made);
        if (error || !canonical_text(kind, &made, &text)) {
            printf("%s\n", error ? ixdtf_error_name(error) : "no canonical text");
        } else {
            printf("%.*s\n", (int)text.length, text.at);
        }
    }
}

int main(int argc, char **argv) {
    int kind;
    for (kind = 0; kind < KINDS && argc > 1 && strcmp(argv[1], KIND_NAMES[kind]); kind++) {
    }
    if (kind < KINDS && argc == 2) {
        write_canonical_texts((enum kind)kind);
        return 0;
    }
    if (kind == KINDS || argc < 4) {
        fputs("usage: compare_records KIND [COUNT SEED [lines]]\n", stderr);
        return 2;
    }
    check_records((enum kind)kind, strtoull(argv[2], NULL, 10), strtoull(argv[3], NULL, 10), argc > 4);
    return 0;
}
