/* Answers the requests of tests/run.py with the library for C. Each line of the input has the width, the word of the reader, the handler and the code
 * units. Each line of the output has the cells of the answer. This file includes rows_width.h for each width. */
#include <ixdtf.h>
#include <inttypes.h>
#include <stdio.h>
#include <stdlib.h>
#include <string.h>

#define COUNT(array) (sizeof(array) / sizeof((array)[0]))
enum { MOST_UNITS = 4096, MOST_ANNOTATIONS = MOST_UNITS / 5 };

static void failed(const char *what) {
    fprintf(stderr, "rows.c: %s\n", what);
    exit(1);
}

/* The readers, by their words, with their numbers for ixdtf_explain. */
static const struct reader { const char *word; uint32_t number; } readers[] = {
    { "parse", IXDTF_READER_PARSE }, { "year-month", IXDTF_READER_PARSE_YEAR_MONTH }, { "month-day", IXDTF_READER_PARSE_MONTH_DAY },
    { "time", IXDTF_READER_PARSE_TIME }, { "rfc3339", IXDTF_READER_PARSE_RFC3339 }, { "rfc9557", IXDTF_READER_PARSE_RFC9557 },
    { "offset", IXDTF_READER_PARSE_OFFSET }, { "zone", IXDTF_READER_PARSE_IDENTIFIER }, { "zone-name", IXDTF_READER_PARSE_IANA_IDENTIFIER },
    { "duration", IXDTF_READER_PARSE_DURATION }, { "strict-month-day", IXDTF_READER_PARSE_MONTH_DAY_STRICT },
    { "strict-time", IXDTF_READER_PARSE_TIME_STRICT }, { "strict-duration", IXDTF_READER_PARSE_DURATION_STRICT },
};

static uint32_t reader_number(const char *word) {
    size_t i;
    for (i = 0; i < COUNT(readers); i++) {
        if (!strcmp(readers[i].word, word)) {
            return readers[i].number;
        }
    }
    failed("there is no such reader");
    return 0;
}

/* ---- fields ---- */

static void print_fraction(unsigned digits, uint64_t fraction) {
    if (digits != 0) {
        printf(".%09" PRIu32, ixdtf_nanoseconds(fraction, (uint8_t)digits));
    }
}

static void print_minutes(int is_negative, unsigned hour, unsigned minute) {
    printf("%c%u,%u", is_negative ? '-' : '+', hour, minute);
}

static void print_offset(const ixdtf_offset *it) {
    if (it->form == IXDTF_UTC) {
        printf("Z");
        return;
    }
    print_minutes(it->is_negative, it->hour, it->minute);
    if (it->form == IXDTF_SECONDS) {
        printf(",%u", it->second);
        print_fraction(it->fraction_digits, it->fraction);
    }
}

static void print_duration(const ixdtf_duration *it) {
    printf("sign=%c", it->is_negative ? '-' : '+');
    if (it->has_date) {
        printf(" date=%" PRIu32 ",%" PRIu32 ",%" PRIu32 ",%" PRIu64, it->years, it->months, it->weeks, it->days);
    }
    if (it->time_form != IXDTF_NO_TIME) {
        printf(" time=%" PRIu64, it->hours);
    }
    if (it->time_form >= IXDTF_LAST_MINUTES) {
        printf(",%" PRIu64, it->minutes);
    }
    if (it->time_form == IXDTF_LAST_SECONDS) {
        printf(",%" PRIu64, it->seconds);
    }
    print_fraction(it->fraction_digits, it->fraction);
}

/* ---- errors ---- */

/* Prints the name of an error in Rust, such as DateMonth for IXDTF_DATE_MONTH. */
static void print_error(uint32_t error, ixdtf_text location) {
    const char *name = ixdtf_error_name(error) + strlen("IXDTF_");
    int is_first = 1;
    printf("error=");
    for (; *name != 0; name++) {
        if (*name == '_') {
            is_first = 1;
        } else {
            putchar(is_first || *name < 'A' ? *name : *name - 'A' + 'a');
            is_first = 0;
        }
    }
    if (error == IXDTF_ABRUPT_END) {
        printf(" %.*s", (int)location.length, location.at);
    }
}

/* Prints the first line of the report and the hint of an explanation, for a text in UTF-8. */
static void print_report(const ixdtf_explanation *it, const uint8_t *text, size_t length) {
    static uint8_t out[IXDTF_REPORT_ROOM];
    size_t count = 0, i;
    if (ixdtf_describe(it, text, length, out, sizeof out, &count) != IXDTF_OK) {
        failed("a report is longer than IXDTF_REPORT_ROOM");
    }
    printf("\tmessage=");
    for (i = 0; i < count && out[i] != '\n'; i++) {
        putchar(out[i]);
    }
    if (ixdtf_hint(it, text, length, out, sizeof out, &count) != IXDTF_OK) {
        failed("a hint is longer than IXDTF_REPORT_ROOM");
    }
    printf("\thint=%.*s", count == 0 ? 4 : (int)count, count == 0 ? "none" : (const char *)out);
}

/* ---- both widths ---- */

#define UNIT uint8_t
#define CALL(name) ixdtf_##name
#define OWN(name) narrow_##name
#include "rows_width.h"
#undef UNIT
#undef CALL
#undef OWN

#define UNIT uint16_t
#define CALL(name) ixdtf16_##name
#define OWN(name) wide_##name
#include "rows_width.h"

/* Returns the next cell of a line, and moves `line` behind it. */
static char *cell(char **line) {
    char *it = *line;
    size_t length = strcspn(it, "\t\n");
    *line = it + length + (it[length] != 0);
    it[length] = 0;
    return it;
}

static unsigned digit(char it) {
    return (unsigned)(it <= '9' ? it - '0' : it - 'a' + 10);
}

/* Writes the code units of a cell to `units`. A code unit has `digits` digits. Returns their number. */
static size_t read_units(const char *cell, size_t digits, uint16_t *units) {
    size_t count = 0, i;
    for (; *cell != 0; cell += digits) {
        uint16_t unit = 0;
        for (i = 0; i < digits; i++) {
            unit = (uint16_t)(unit << 4 | digit(cell[i]));
        }
        if (count == MOST_UNITS) {
            failed("a text is too long");
        }
        units[count++] = unit;
    }
    return count;
}

int main(void) {
    static char line[4 * MOST_UNITS + 100];
    static uint16_t wide[MOST_UNITS];
    static uint8_t narrow[MOST_UNITS];
    while (fgets(line, sizeof line, stdin) != NULL) {
        char *rest = line;
        int is_wide = !strcmp(cell(&rest), "16");
        const char *word = cell(&rest), *handler = cell(&rest);
        size_t length = read_units(cell(&rest), is_wide ? 4 : 2, wide), i;
        for (i = 0; i < length; i++) {
            narrow[i] = (uint8_t)wide[i];
        }
        if (is_wide) {
            wide_answer(word, handler, wide, length);
        } else {
            narrow_answer(word, handler, narrow, length);
        }
        putchar('\n');
    }
    return 0;
}
