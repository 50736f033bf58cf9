/* Tests of the library through ixdtf.h. They test every function, for 8-bit and for 16-bit text, every error, every part of a record, and the layout
 * of each struct. This file is valid C99 and valid C++. c/test compiles and runs it with every installed compiler. The program prints each check
 * that fails, and the number of checks. */
#if !defined(_DEFAULT_SOURCE)
#define _DEFAULT_SOURCE
#endif
#include "ixdtf.h"
#include <stdarg.h>
#include <stdio.h>
#include <stdlib.h>
#include <string.h>
#include <sys/mman.h>
#include <unistd.h>

#define COUNT(array) (sizeof(array) / sizeof((array)[0]))
#include "test_tables.h"

static unsigned long checks, failures;
static const char *row_shown = "";

static void check(int holds, const char *what) {
    checks++;
    if (!holds) {
        failures++;
        printf("failed, at \"%s\". Expected: %s\n", row_shown, what);
    }
}

static void is(const char *found, const char *wanted, const char *reader, const char *text) {
    checks++;
    if (strcmp(found, wanted) != 0) {
        failures++;
        printf("failed: %s of \"%s\"\n    expected %s\n    found    %s\n", reader, text, wanted, found);
    }
}

/* A line of text, to which `show` appends. */
struct line { char text[8192]; size_t length; };

static void show(struct line *line, const char *format, ...) {
    va_list parts;
    int written;
    va_start(parts, format);
    written = vsnprintf(line->text + line->length, sizeof(line->text) - line->length, format, parts);
    va_end(parts);
    if (written < 0 || (size_t)written >= sizeof(line->text) - line->length) {
        puts("expected a line of at most 8191 bytes; make struct line larger");
        exit(2);
    }
    line->length += (size_t)written;
}

static void show_fraction(struct line *line, unsigned digits, uint64_t fraction) {
    if (digits != 0) {
        show(line, ".%09lu", (unsigned long)ixdtf_nanoseconds(fraction, (uint8_t)digits));
    }
}

static void show_offset(struct line *line, const ixdtf_offset *offset) {
    if (offset->form == IXDTF_UTC) {
        show(line, "Z");
        return;
    }
    check(offset->form == IXDTF_MINUTES || offset->form == IXDTF_SECONDS, "the form of the offset is IXDTF_MINUTES or IXDTF_SECONDS");
    show(line, "%c%u,%u", offset->is_negative ? '-' : '+', offset->hour, offset->minute);
    if (offset->form == IXDTF_SECONDS) {
        show(line, ",%u", offset->second);
        show_fraction(line, offset->fraction_digits, offset->fraction);
    }
}

static void show_duration(struct line *line, const ixdtf_duration *it) {
    show(line, "ok sign=%c", it->is_negative ? '-' : '+');
    if (it->has_date) {
        show(line, " date=%lu,%lu,%lu,%llu", (unsigned long)it->years, (unsigned long)it->months, (unsigned long)it->weeks,
            (unsigned long long)it->days);
    }
    if (it->time_form != IXDTF_NO_TIME) {
        show(line, " time=%llu", (unsigned long long)it->hours);
        if (it->time_form != IXDTF_LAST_HOURS) {
            show(line, ",%llu", (unsigned long long)it->minutes);
        }
        if (it->time_form == IXDTF_LAST_SECONDS) {
            show(line, ",%llu", (unsigned long long)it->seconds);
        }
        check(it->time_form <= IXDTF_LAST_SECONDS, "the time_form of the duration has one of the values of the header");
        show_fraction(line, it->fraction_digits, it->fraction);
    }
}

static unsigned char is_met[47];

static void show_error(struct line *line, uint32_t error, ixdtf_text location, size_t place) {
    if (error < 1 || error > COUNT(error_rows)) {
        show(line, "unknown error: %lu", (unsigned long)error);
        return;
    }
    is_met[error] = 1;
    if (error == IXDTF_ABRUPT_END) {
        show(line, "error AbruptEnd %.*s", (int)location.length, location.at);
    } else {
        show(line, "error %s", error_rows[error - 1].name);
        check(location.length == 0, "location has length 0, because the error is not IXDTF_ABRUPT_END");
    }
    show(line, " at %lu", (unsigned long)place);
}

static int same_text(ixdtf_text a, ixdtf_text b) {
    return a.at == b.at && a.length == b.length;
}

static int same_date(const ixdtf_date *a, const ixdtf_date *b) {
    return a->year == b->year && a->month == b->month && a->day == b->day && a->is_there == b->is_there;
}

static int same_time(const ixdtf_time *a, const ixdtf_time *b) {
    return a->fraction == b->fraction && a->fraction_digits == b->fraction_digits && a->hour == b->hour && a->minute == b->minute
        && a->second == b->second && a->is_there == b->is_there;
}

static int same_offset(const ixdtf_offset *a, const ixdtf_offset *b) {
    return a->fraction == b->fraction && a->fraction_digits == b->fraction_digits && a->form == b->form && a->is_negative == b->is_negative
        && a->hour == b->hour && a->minute == b->minute && a->second == b->second;
}

/* The next functions check that the fields of a part that is not present are 0. */
static void check_cleared_date(const ixdtf_date *it) {
    check(it->is_there || (it->year == 0 && it->month == 0 && it->day == 0), "the fields of a date that is not present are 0");
}

static void check_cleared_time(const ixdtf_time *it) {
    check(it->fraction_digits != 0 || it->fraction == 0, "the number of a fraction without digits is 0");
    check(it->is_there || (it->fraction_digits == 0 && it->hour == 0 && it->minute == 0 && it->second == 0), "the fields of a time that is not present are 0");
}

static void check_cleared_offset(const ixdtf_offset *it) {
    check(it->form <= IXDTF_SECONDS, "the form of the offset has one of the values of the header");
    check(it->fraction_digits != 0 || it->fraction == 0, "the number of a fraction without digits is 0");
    check(it->form == IXDTF_SECONDS || (it->fraction_digits == 0 && it->second == 0), "the second and the fraction of an offset without seconds are 0");
    check(it->form >= IXDTF_MINUTES || (!it->is_negative && it->hour == 0 && it->minute == 0), "the fields of an offset that is not present are 0");
}

static void check_cleared_duration(const ixdtf_duration *it) {
    check(it->time_form <= IXDTF_LAST_SECONDS, "the time_form of the duration has one of the values of the header");
    check(it->has_date || (it->years == 0 && it->months == 0 && it->weeks == 0 && it->days == 0), "the fields of a date that is not present are 0");
    check(it->fraction_digits != 0 || it->fraction == 0, "the number of a fraction without digits is 0");
    check(it->time_form != IXDTF_NO_TIME || (it->hours == 0 && it->fraction_digits == 0), "the fields of a time that is not present are 0");
    check(it->time_form >= IXDTF_LAST_MINUTES || it->minutes == 0, "the minutes of a duration without minutes are 0");
    check(it->time_form == IXDTF_LAST_SECONDS || it->seconds == 0, "the seconds of a duration without seconds are 0");
    check(it->location.length == 0 && it->place == 0, "after 0, location has length 0, and place is 0");
}

static int same_duration_but_error(const ixdtf_duration *a, const ixdtf_duration *b) {
    return a->days == b->days && a->hours == b->hours && a->minutes == b->minutes && a->seconds == b->seconds && a->fraction == b->fraction
        && a->years == b->years && a->months == b->months && a->weeks == b->weeks && a->fraction_digits == b->fraction_digits
        && a->time_form == b->time_form && a->has_date == b->has_date && a->is_negative == b->is_negative;
}

/* Whether all bytes are 1 to 126. */
static int is_shared(const uint8_t *text, size_t length) {
    size_t i;
    for (i = 0; i < length; i++) {
        if (text[i] < 1 || text[i] > 126) {
            return 0;
        }
    }
    return 1;
}

/* An array of ROOM bytes. The memory before and after it cannot be accessed. So an access outside the array ends the program. `behind` points directly
 * after the array. */
#define ROOM ((size_t)4 << 12)
static unsigned char *room;
static const char *behind;

static void make_room(void) {
    size_t page = (size_t)sysconf(_SC_PAGESIZE);
    unsigned char *all;
    if (ROOM % page != 0) {
        puts("expected ROOM to be a multiple of the page size");
        exit(2);
    }
    all = (unsigned char *)mmap(NULL, ROOM + 2 * page, PROT_NONE, MAP_PRIVATE | MAP_ANONYMOUS, -1, 0);
    if ((void *)all == MAP_FAILED || mprotect(all + page, ROOM, PROT_READ | PROT_WRITE) != 0) {
        puts("expected mmap and mprotect to succeed: there is no memory for the tests");
        exit(2);
    }
    room = all + page;
    behind = (const char *)room + ROOM;
}

/* A duration as an earlier call may have left it: every part is present, and its location cannot be read. */
static ixdtf_duration used_duration(void) {
    ixdtf_duration it = { 1, 2, 3, 4, 5, 6, 7, 8, 9, IXDTF_LAST_SECONDS, true, true, { "", 4 }, 99 };
    it.location.at = behind;
    return it;
}

/* The number of the reader of a row. `lists` says whether it is the variant that lists annotations. */
static uint32_t reader_number(const char *reader, int strict, int lists) {
    static const struct { const char *reader; uint32_t crate, strict, lists, lists_strict; } numbers[] = {
        { "parse", IXDTF_READER_PARSE, IXDTF_READER_PARSE, IXDTF_READER_PARSE_WITH_ANNOTATIONS, IXDTF_READER_PARSE_WITH_ANNOTATIONS },
        { "year-month", IXDTF_READER_PARSE_YEAR_MONTH, IXDTF_READER_PARSE_YEAR_MONTH, IXDTF_READER_PARSE_YEAR_MONTH_WITH_ANNOTATIONS, IXDTF_READER_PARSE_YEAR_MONTH_WITH_ANNOTATIONS },
        { "month-day", IXDTF_READER_PARSE_MONTH_DAY, IXDTF_READER_PARSE_MONTH_DAY_STRICT, IXDTF_READER_PARSE_MONTH_DAY_WITH_ANNOTATIONS, IXDTF_READER_PARSE_MONTH_DAY_WITH_ANNOTATIONS_STRICT },
        { "time", IXDTF_READER_PARSE_TIME, IXDTF_READER_PARSE_TIME_STRICT, IXDTF_READER_PARSE_TIME_WITH_ANNOTATIONS, IXDTF_READER_PARSE_TIME_WITH_ANNOTATIONS_STRICT },
        { "rfc3339", IXDTF_READER_PARSE_RFC3339, IXDTF_READER_PARSE_RFC3339, 0, 0 },
        { "rfc9557", IXDTF_READER_PARSE_RFC9557, IXDTF_READER_PARSE_RFC9557, IXDTF_READER_PARSE_RFC9557_WITH_ANNOTATIONS, IXDTF_READER_PARSE_RFC9557_WITH_ANNOTATIONS },
        { "offset", IXDTF_READER_PARSE_OFFSET, IXDTF_READER_PARSE_OFFSET, 0, 0 },
        { "zone", IXDTF_READER_PARSE_IDENTIFIER, IXDTF_READER_PARSE_IDENTIFIER, 0, 0 },
        { "zone-name", IXDTF_READER_PARSE_IANA_IDENTIFIER, IXDTF_READER_PARSE_IANA_IDENTIFIER, 0, 0 },
        { "duration", IXDTF_READER_PARSE_DURATION, IXDTF_READER_PARSE_DURATION_STRICT, 0, 0 },
    };
    size_t i;
    for (i = 0; i < COUNT(numbers); i++) {
        if (!strcmp(numbers[i].reader, reader)) {
            return lists ? (strict ? numbers[i].lists_strict : numbers[i].lists) : (strict ? numbers[i].strict : numbers[i].crate);
        }
    }
    check(0, "the row names a reader");
    return 0;
}

/* Checks the hint about an explanation, and that the report of `count` bytes ends with it. Returns the length of the report without the hint. */
static size_t check_hint(const ixdtf_explanation *it, const uint8_t *text, size_t length, const uint8_t *report, size_t count) {
    uint8_t hint[IXDTF_REPORT_ROOM], most[1] = { 0x5a };
    size_t words = 77, again = 78, before = strlen("\nhint: ");
    memset(hint, 0xa5, sizeof hint);
    check(ixdtf_hint(it, text, length, hint, sizeof hint, &words) == IXDTF_OK && words < sizeof hint && hint[words] == 0xa5, "IXDTF_REPORT_ROOM bytes are enough for a hint, and the bytes after it are unchanged");
    if (words == 0) {
        return count;
    }
    check(ixdtf_hint(it, text, length, hint, words - 1, &again) == IXDTF_TOO_SHORT && again == words, "IXDTF_TOO_SHORT, and the length, for an array that is too short for the hint");
    check(ixdtf_hint(it, text, length, most, 0, &again) == IXDTF_TOO_SHORT && most[0] == 0x5a, "after IXDTF_TOO_SHORT, the array is unchanged");
    check(memchr(hint, '\n', words) == NULL, "a hint is one line");
    if (count < words + before) {
        check(0, "the report has the hint");
        return count;
    }
    check(!memcmp(report + count - words, hint, words) && !memcmp(report + count - words - before, "\nhint: ", before), "the report ends with the line of the hint");
    return count - words - before;
}

/* Checks the report of an explanation for a text in UTF-8: its first line is the message, its second line has the text, and its third line has a
 * mark under each byte of the part that is wrong. If there is a hint, it is the fourth line. Also calls ixdtf_describe with arrays that are too
 * short. */
static void check_report(const ixdtf_explanation *it, const uint8_t *text, size_t length, const char *expected) {
    uint8_t out[IXDTF_REPORT_ROOM + 1], most[IXDTF_REPORT_ROOM];
    char message[256];
    char *unpaired;
    size_t count = 77, again = 78, i, marks = it->end > it->begin ? it->end - it->begin : 1, line, three;
    strcpy(message, expected);
    unpaired = strstr(message, "the code unit 0x"); /* a surrogate without the other one of its pair, which ixdtf16_to_utf8 writes as U+FFFD */
    if (unpaired != NULL) {
        strcpy(unpaired, "U+FFFD");
    }
    line = strlen(message);
    memset(out, 0xa5, sizeof out);
    check(ixdtf_describe(it, text, length, out, IXDTF_REPORT_ROOM, &count) == IXDTF_OK, "IXDTF_REPORT_ROOM bytes are enough for a report");
    check(count > line && !memcmp(out, message, line) && out[line] == '\n', "the first line of the report is the message");
    for (i = count; i < sizeof out; i++) {
        check(out[i] == 0xa5, "the bytes after the report are unchanged");
    }
    three = check_hint(it, text, length, out, count);
    for (i = 0; i < marks && i < 24 && i < three; i++) {
        check(out[three - 1 - i] == '^', "the third line ends with a mark for each byte of the part that is wrong");
    }
    check(out[three - 1 - i] == ' ' || out[three - 1 - i] == '\n', "no other byte has a mark");
    if (it->begin <= 48 && length <= it->begin + 24) {
        check(out[three - 1 - i] == '\n' || three - i - it->begin > 1, "there is a space for each byte before the part");
        check(three == line + 1 + length + 1 + it->begin + i || !is_shared(text, length), "the report has three lines before the hint");
        check(!memcmp(out + line + 1, text, it->begin), "the second line of the report is the text");
    }
    memset(most, 0x5a, sizeof most);
    check(ixdtf_describe(it, text, length, most, count - 1, &again) == IXDTF_TOO_SHORT && again == count, "IXDTF_TOO_SHORT, and the length, for an array that is too short");
    for (i = 0; i < sizeof most; i++) {
        check(most[i] == 0x5a, "after IXDTF_TOO_SHORT, the array is unchanged");
    }
    again = 78;
    check(ixdtf_describe(it, text, length, NULL, 0, &again) == IXDTF_TOO_SHORT && again == count, "the array may be NULL if its capacity is 0");
    check(ixdtf_describe(it, text, length, most, count, &again) == IXDTF_OK && again == count && !memcmp(out, most, count), "an array of the length of the report is enough");
}

/* What a printer prints. */
enum printer { OF_RECORD, OF_DURATION, OF_OFFSET, OF_ZONE, OF_TIME, OF_YEAR_MONTH, OF_MONTH_DAY };

#define UNIT uint8_t
#define CALL(name) ixdtf_##name
#define OWN(name) narrow_##name
#define NEW_RECORD IXDTF_RECORD
#define NEW_ANNOTATION IXDTF_ANNOTATION
#define NEW_CALENDAR IXDTF_CALENDAR
#include "test_width.h"
#include "test_printing.h"

#define UNIT uint16_t
#define CALL(name) ixdtf16_##name
#define OWN(name) wide_##name
#define NEW_RECORD IXDTF16_RECORD
#define NEW_ANNOTATION IXDTF16_ANNOTATION
#define NEW_CALENDAR IXDTF16_CALENDAR
#include "test_width.h"
#include "test_printing.h"

static void test_errors(void) {
    static const uint32_t others[] = { 0, 47, 100, 101, 102, 103, 104, 105, 106, 0x80000000u, 0xffffffffu };
    size_t i;
    check(COUNT(error_rows) == 46, "there are 46 errors");
    for (i = 0; i < COUNT(error_rows); i++) {
        ixdtf_text text = IXDTF_TEXT;
        row_shown = error_rows[i].name;
        check(error_rows[i].number == i + 1, "the errors have the numbers 1, 2, 3 and so on");
        ixdtf_error_text(error_rows[i].number, &text);
        check(text.length == strlen(error_rows[i].text) && !memcmp(text.at, error_rows[i].text, text.length), "ixdtf_error_text writes the text of the error");
        check(!strcmp(ixdtf_error_message(error_rows[i].number), error_rows[i].text), "ixdtf_error_message returns the text of the error");
    }
    {
        ixdtf_text text;
        memset(&text, 0, sizeof text);
        ixdtf_error_text(IXDTF_DATE_MONTH, &text);
        check(text.length == 44 && !memcmp(text.at, ixdtf_error_message(IXDTF_DATE_MONTH), 44), "ixdtf_error_text writes to a slice of zeros");
    }
    row_shown = "";
    for (i = 0; i < COUNT(others); i++) {
        ixdtf_text text = IXDTF_TEXT;
        text.at = behind;
        text.length = 4;
        ixdtf_error_text(others[i], &text);
        check(text.length == 0 && text.at != NULL, "for another number, ixdtf_error_text writes an empty text");
        check((ixdtf_error_message(others[i])[0] != 0) == (others[i] >= 101 && others[i] <= 105), "only 101 to 105 have a message besides the errors");
        check(!strcmp(ixdtf_error_name(others[i]), others[i] == 0 ? "IXDTF_OK" : others[i] == 101 ? "IXDTF_NOT_PRINTABLE"
                      : others[i] == 102 ? "IXDTF_TOO_SHORT" : others[i] == 103 ? "IXDTF_NO_INSTANT"
                      : others[i] == 104 ? "IXDTF_NOT_EXACT" : others[i] == 105 ? "IXDTF_NO_READER" : ""), "only 0 and 101 to 105 have a name besides the errors");
    }
}

/* ixdtf_error_constant of the library and ixdtf_error_name of the header give the same name for each number. */
static void test_names(void) {
    uint32_t number;
    for (number = 0; number < 300; number++) {
        ixdtf_text name = IXDTF_TEXT;
        ixdtf_error_constant(number, &name);
        check(name.at != NULL && name.at[name.length] == 0 && name.length == strlen(name.at), "the name is NUL-terminated");
        check(!strcmp(name.at, ixdtf_error_name(number)), "ixdtf_error_constant and ixdtf_error_name give the same name");
        check((name.length != 0) == (number <= 46 || (number >= 101 && number <= 105)), "only 0 to 46 and 101 to 105 have a name");
    }
}

/* Tests ixdtf_nanoseconds and ixdtf_offset_seconds. */
static void test_functions(void) {
    static const struct { uint64_t fraction; uint8_t digits; uint32_t nanoseconds; } fractions[] = {
        { 0, 0, 0 }, { UINT64_MAX, 0, 0 }, { 5, 1, 500000000 }, { 0, 1, 0 }, { 250, 3, 250000000 }, { 1, 9, 1 }, { 987654321, 9, 987654321 },
        { 9876543219, 10, 987654321 }, { 1, 10, 0 }, { 123456789987654321, 18, 123456789 }, { 999999999999999999, 18, 999999999 },
        { 123456789987654321, 19, 123456789 }, { 999999999999999999, 255, 999999999 }, { 1, 18, 0 }, { 0, 255, 0 },
        /* not a fraction: the number has more digits than `digits` says */
        { 10, 1, 0 }, { 1000000000, 9, 0 }, { UINT64_MAX, 18, 0 }, { UINT64_MAX, 255, 0 },
    };
    static const struct { const char *text; int32_t seconds; } offsets[] = {
        { "+00:00", 0 }, { "-00:00", 0 }, { "+05:30", 19800 }, { "-05:00", -18000 }, { "+23:59:59.999", 86399 }, { "-23:59:59.999", -86399 },
        { "-00:00:01", -1 }, { "+0530", 19800 }, { "-12", -43200 }, { "-00:00:00.5", 0 },
    };
    size_t i;
    ixdtf_record record = narrow_used_record();
    for (i = 0; i < COUNT(fractions); i++) {
        check(ixdtf_nanoseconds(fractions[i].fraction, fractions[i].digits) == fractions[i].nanoseconds, "ixdtf_nanoseconds returns the nanoseconds of the fraction");
    }
    record.offset.form = IXDTF_NO_OFFSET;
    check(ixdtf_offset_seconds(&record.offset) == 0, "ixdtf_offset_seconds returns 0 without an offset");
    record.offset.form = IXDTF_UTC;
    check(ixdtf_offset_seconds(&record.offset) == 0, "ixdtf_offset_seconds returns 0 for Z");
    record.offset.form = IXDTF_MINUTES;
    check(ixdtf_offset_seconds(&record.offset) == -(11 * 3600 + 22 * 60), "for IXDTF_MINUTES, ixdtf_offset_seconds ignores the field second");
    for (i = 0; i < COUNT(offsets); i++) {
        row_shown = offsets[i].text;
        check(ixdtf_parse_offset((const uint8_t *)offsets[i].text, strlen(offsets[i].text), &record) == IXDTF_OK
                && ixdtf_offset_seconds(&record.offset) == offsets[i].seconds,
            "ixdtf_offset_seconds returns the seconds of the offset");
    }
    row_shown = "";
}

/* Whether two records are equal in all fields except `location` and `place`. The pointers of slices of length 0 may differ. */
static int reads_alike(ixdtf_record a, ixdtf_record b) {
    if (a.zone.name.length == 0 && b.zone.name.length == 0) {
        b.zone.name.at = a.zone.name.at;
    }
    if (a.calendar.length == 0 && b.calendar.length == 0) {
        b.calendar.at = a.calendar.at;
    }
    return narrow_same_but_error(&a, &b);
}

/* Tests that each reader of C strings returns and writes what the reader of bytes returns and writes. */
static void test_texts(void) {
#define READ_ALIKE(reader, type, initial, text) do { \
        type by_bytes = initial, by_text = initial; \
        uint32_t error = reader((const uint8_t *)text, strlen(text), &by_bytes); \
        check(reader##_text(text, &by_text) == error, "the reader of a C string returns what the reader of bytes returns"); \
        check(by_text.place == by_bytes.place && same_text(by_text.location, by_bytes.location), "the reader of a C string writes the same place and location"); \
    } while (0)
#define READ_RECORD_ALIKE(reader) do { \
        ixdtf_record by_bytes = IXDTF_RECORD, by_text = IXDTF_RECORD; \
        READ_ALIKE(reader, ixdtf_record, IXDTF_RECORD, texts[i]); \
        error = reader((const uint8_t *)texts[i], strlen(texts[i]), &by_bytes); \
        check(reader##_text(texts[i], &by_text) == error && reads_alike(by_bytes, by_text), "the reader of a C string writes the same record"); \
    } while (0)
#define LISTED_ALIKE(reader) do { \
        ixdtf_record by_bytes = IXDTF_RECORD, by_text = IXDTF_RECORD; \
        ixdtf_annotation list[2]; \
        size_t count_by_bytes = 9, count_by_text = 7; \
        ixdtf_set_annotations(list, 2); \
        error = reader((const uint8_t *)texts[i], strlen(texts[i]), list, 2, &count_by_bytes, &by_bytes); \
        ixdtf_set_annotations(list, 2); \
        check(reader##_text(texts[i], list, 2, &count_by_text, &by_text) == error && count_by_text == count_by_bytes, "the reader of a C string lists as many annotations"); \
        check(reads_alike(by_bytes, by_text) && by_text.place == by_bytes.place, "the reader of a C string that lists annotations writes the same record"); \
        check((count_by_text > 0) == (list[0].key.length > 0), "the reader of a C string writes to the array of the caller"); \
    } while (0)
    static const char *const texts[] = {
        "", "2024-03-02T08:48:00-05:00[Europe/Paris][u-ca=hebrew][a=b]", "2024-03-02[!a=b]", "2024-11[u-ca=iso8601]", "11-00[a=b]", "--11-07[a=b][c=d]",
        "T12:30:45.25+01[x=y]", "1200", "+05:30", "-05:00:30.5", "Europe/Berlin", "P1Y2Y", "-P1DT2H0.5M", "2024-", "2024-03-0x",
        "2024-03-02T08:48:00.25-05:00",
    };
    size_t i;
    uint32_t error;
    for (i = 0; i < COUNT(texts); i++) {
        row_shown = texts[i];
        READ_RECORD_ALIKE(ixdtf_parse);
        READ_RECORD_ALIKE(ixdtf_parse_year_month);
        READ_RECORD_ALIKE(ixdtf_parse_month_day);
        READ_RECORD_ALIKE(ixdtf_parse_time);
        READ_RECORD_ALIKE(ixdtf_parse_rfc3339);
        READ_RECORD_ALIKE(ixdtf_parse_rfc9557);
        READ_RECORD_ALIKE(ixdtf_parse_offset);
        READ_RECORD_ALIKE(ixdtf_parse_identifier);
        READ_RECORD_ALIKE(ixdtf_parse_iana_identifier);
        READ_RECORD_ALIKE(ixdtf_parse_month_day_strict);
        READ_RECORD_ALIKE(ixdtf_parse_time_strict);
        READ_ALIKE(ixdtf_parse_duration, ixdtf_duration, IXDTF_DURATION, texts[i]);
        READ_ALIKE(ixdtf_parse_duration_strict, ixdtf_duration, IXDTF_DURATION, texts[i]);
        LISTED_ALIKE(ixdtf_parse_with_annotations);
        LISTED_ALIKE(ixdtf_parse_year_month_with_annotations);
        LISTED_ALIKE(ixdtf_parse_month_day_with_annotations);
        LISTED_ALIKE(ixdtf_parse_time_with_annotations);
        LISTED_ALIKE(ixdtf_parse_rfc9557_with_annotations);
        LISTED_ALIKE(ixdtf_parse_month_day_with_annotations_strict);
        LISTED_ALIKE(ixdtf_parse_time_with_annotations_strict);
    }
    row_shown = "";
#undef READ_ALIKE
#undef READ_RECORD_ALIKE
#undef LISTED_ALIKE
#if defined(__cplusplus) && __cplusplus >= 201703L
    /* A std::string_view of a part of a longer text, and an empty one, whose pointer is NULL. */
    ixdtf_record record = IXDTF_RECORD;
    ixdtf_duration duration = IXDTF_DURATION;
    std::string_view whole = "2024-03-02[u-ca=hebrew]junk";
    check(ixdtf_parse_text(whole.substr(0, 23), &record) == IXDTF_OK && ixdtf_view(record.calendar) == "hebrew", "a std::string_view is read, and ixdtf_view returns the calendar");
    check(ixdtf_parse_text(whole, &record) == IXDTF_INVALID_END && record.place == 23, "the complete std::string_view is read");
    check(ixdtf_parse_duration_text(std::string_view(), &duration) == IXDTF_ABRUPT_END && ixdtf_view(duration.location) == "DurationStart", "an empty std::string_view is an empty text");
#endif
}

/* Tests a row of a table for each width that it is about. */
static void test_row(const struct row *row) {
    row_shown = row->text;
    if (strcmp(row->bits, "16") != 0) {
        narrow_test_row(row);
    }
    if (strcmp(row->bits, "8") != 0) {
        wide_test_row(row);
    }
    row_shown = "";
}

/* Tests the number and the name of each error. The list here repeats the constants of the header, so that a changed constant is found. */
static void test_numbers(void) {
#define NAMED(number, variant) { number, variant, #number }
    static const struct { uint32_t number; const char *variant, *name; } named[] = {
        NAMED(IXDTF_IMPL_ASSERT, "ImplAssert"), NAMED(IXDTF_NON_ASCII_CODE_POINT, "NonAsciiCodePoint"), NAMED(IXDTF_PARSE_FLOAT, "ParseFloat"),
        NAMED(IXDTF_ABRUPT_END, "AbruptEnd"), NAMED(IXDTF_INVALID_END, "InvalidEnd"), NAMED(IXDTF_INVALID_MONTH_RANGE, "InvalidMonthRange"),
        NAMED(IXDTF_INVALID_DAY_RANGE, "InvalidDayRange"), NAMED(IXDTF_DATE_YEAR, "DateYear"), NAMED(IXDTF_DATE_EXTENDED_YEAR, "DateExtendedYear"),
        NAMED(IXDTF_DATE_MONTH, "DateMonth"), NAMED(IXDTF_DATE_DAY, "DateDay"), NAMED(IXDTF_DATE_UNEXPECTED_END, "DateUnexpectedEnd"),
        NAMED(IXDTF_TIME_REQUIRED, "TimeRequired"), NAMED(IXDTF_TIME_HOUR, "TimeHour"), NAMED(IXDTF_TIME_MINUTE_SECOND, "TimeMinuteSecond"),
        NAMED(IXDTF_TIME_SECOND, "TimeSecond"), NAMED(IXDTF_FRACTION_PART, "FractionPart"), NAMED(IXDTF_DATE_SEPARATOR, "DateSeparator"),
        NAMED(IXDTF_TIME_SEPARATOR, "TimeSeparator"), NAMED(IXDTF_DECIMAL_SEPARATOR, "DecimalSeparator"),
        NAMED(IXDTF_INVALID_ANNOTATION, "InvalidAnnotation"), NAMED(IXDTF_ANNOTATION_OPEN, "AnnotationOpen"),
        NAMED(IXDTF_ANNOTATION_CLOSE, "AnnotationClose"), NAMED(IXDTF_ANNOTATION_CHAR, "AnnotationChar"),
        NAMED(IXDTF_ANNOTATION_KEY_VALUE_SEPARATOR, "AnnotationKeyValueSeparator"),
        NAMED(IXDTF_ANNOTATION_KEY_LEADING_CHAR, "AnnotationKeyLeadingChar"), NAMED(IXDTF_ANNOTATION_KEY_CHAR, "AnnotationKeyChar"),
        NAMED(IXDTF_ANNOTATION_VALUE_CHAR_POST_HYPHEN, "AnnotationValueCharPostHyphen"), NAMED(IXDTF_ANNOTATION_VALUE_CHAR, "AnnotationValueChar"),
        NAMED(IXDTF_INVALID_MINUTE_PRECISION_OFFSET, "InvalidMinutePrecisionOffset"),
        NAMED(IXDTF_CRITICAL_DUPLICATE_CALENDAR, "CriticalDuplicateCalendar"), NAMED(IXDTF_UNRECOGNIZED_CRITICAL, "UnrecognizedCritical"),
        NAMED(IXDTF_TZ_LEADING_CHAR, "TzLeadingChar"), NAMED(IXDTF_IANA_CHAR_POST_SEPARATOR, "IanaCharPostSeparator"), NAMED(IXDTF_IANA_CHAR, "IanaChar"),
        NAMED(IXDTF_UTC_TIME_SEPARATOR, "UtcTimeSeparator"), NAMED(IXDTF_OFFSET_NEEDS_SIGN, "OffsetNeedsSign"),
        NAMED(IXDTF_MONTH_DAY_HYPHEN, "MonthDayHyphen"), NAMED(IXDTF_DURATION_DISGNATOR, "DurationDisgnator"),
        NAMED(IXDTF_DURATION_VALUE_EXCEEDED_RANGE, "DurationValueExceededRange"), NAMED(IXDTF_DATE_DURATION_PART_ORDER, "DateDurationPartOrder"),
        NAMED(IXDTF_TIME_DURATION_PART_ORDER, "TimeDurationPartOrder"), NAMED(IXDTF_TIME_DURATION_DESIGNATOR, "TimeDurationDesignator"),
        NAMED(IXDTF_AMBIGUOUS_TIME_MONTH_DAY, "AmbiguousTimeMonthDay"), NAMED(IXDTF_AMBIGUOUS_TIME_YEAR_MONTH, "AmbiguousTimeYearMonth"),
        NAMED(IXDTF_INVALID_MONTH_DAY, "InvalidMonthDay"),
    };
#undef NAMED
    size_t i;
    check(COUNT(named) == COUNT(error_rows), "the list has each error");
    for (i = 0; i < COUNT(named); i++) {
        row_shown = named[i].name;
        check(named[i].number == error_rows[i].number && !strcmp(named[i].variant, error_rows[i].name), "the constant of the error has its number");
        check(!strcmp(ixdtf_error_name(named[i].number), named[i].name), "ixdtf_error_name returns the name of the constant");
    }
    row_shown = "";
    check(ixdtf_interface_version() == IXDTF_INTERFACE_VERSION, "the library has the version of the header");
}

/* Tests the layout of the structs. Each field gets another value, so the test finds a field whose offset differs from the one in the library. It also
 * tests that the bytes after the structs are unchanged. */
static void test_layout(void) {
    static const char *text = "-123456-07-08T09:10:11.1213-14:15:16.17181[!Abc/d][u-ca=ef-g]";
    static const char *spoken = "-P1Y2M3W4DT5H6M7.890S";
    struct { ixdtf_record record; unsigned char behind[64]; } one;
    struct { ixdtf_duration duration; unsigned char behind[64]; } two;
    ixdtf_record record = IXDTF_RECORD;
    ixdtf_duration duration = IXDTF_DURATION;
    size_t i;
    memset(&one, 0xa5, sizeof one);
    memset(&two, 0xa5, sizeof two);
    one.record = record;
    two.duration = duration;
    check(ixdtf_parse((const uint8_t *)text, strlen(text), &one.record) == 0, "a text with every part is accepted");
    check(one.record.date.year == -123456 && one.record.date.month == 7 && one.record.date.day == 8 && one.record.date.is_there, "the fields of the date");
    check(one.record.time.hour == 9 && one.record.time.minute == 10 && one.record.time.second == 11 && one.record.time.fraction == 1213
            && one.record.time.fraction_digits == 4 && one.record.time.is_there,
        "the fields of the time");
    check(one.record.offset.form == IXDTF_SECONDS && one.record.offset.is_negative && one.record.offset.hour == 14
            && one.record.offset.minute == 15 && one.record.offset.second == 16 && one.record.offset.fraction == 17181
            && one.record.offset.fraction_digits == 5,
        "the fields of the offset");
    check(one.record.zone.form == IXDTF_NAME && one.record.zone.is_critical && one.record.zone.name.length == 5
            && !memcmp(one.record.zone.name.at, "Abc/d", 5),
        "the fields of the zone");
    check(one.record.has_calendar && one.record.calendar.length == 4 && !memcmp(one.record.calendar.at, "ef-g", 4), "the fields of the calendar");
    text = "2020-01-01[-12:34]";
    check(ixdtf_parse((const uint8_t *)text, strlen(text), &one.record) == 0, "a text with an offset as its zone is accepted");
    check(one.record.zone.form == IXDTF_ZONE_OFFSET && !one.record.zone.is_critical && one.record.zone.is_negative && one.record.zone.hour == 12
            && one.record.zone.minute == 34 && !one.record.time.is_there && one.record.offset.form == IXDTF_NO_OFFSET
            && !one.record.has_calendar,
        "the fields of a zone that is an offset");
    check(ixdtf_parse_duration((const uint8_t *)spoken, strlen(spoken), &two.duration) == 0, "a duration with every part is accepted");
    check(two.duration.is_negative && two.duration.has_date && two.duration.years == 1 && two.duration.months == 2 && two.duration.weeks == 3
            && two.duration.days == 4 && two.duration.time_form == IXDTF_LAST_SECONDS && two.duration.hours == 5 && two.duration.minutes == 6
            && two.duration.seconds == 7 && two.duration.fraction == 890 && two.duration.fraction_digits == 3,
        "the fields of the duration");
    for (i = 0; i < 64; i++) {
        check(one.behind[i] == 0xa5 && two.behind[i] == 0xa5, "the bytes after the struct are unchanged");
    }
}

/* Tests ixdtf_duration_fraction. A person calculated the seconds and the nanoseconds. */
static void test_last_fractions(void) {
    static const struct { const char *text; uint32_t result, seconds, nanoseconds; } texts[] = {
        { "P1D", IXDTF_OK, 0, 0 }, { "PT5H", IXDTF_OK, 0, 0 }, { "PT1.5H", IXDTF_OK, 1800, 0 }, { "-PT1,5M", IXDTF_OK, 30, 0 }, { "PT0.5S", IXDTF_OK, 0, 500000000 },
        { "PT1.000000001S", IXDTF_OK, 0, 1 }, { "PT1.0000000001S", IXDTF_NOT_EXACT, 0, 0 }, { "PT1.0000000010S", IXDTF_OK, 0, 1 },
        { "PT0.999999999H", IXDTF_OK, 3599, 999996400 }, { "PT0.0000000001H", IXDTF_OK, 0, 360 }, { "PT0.0000000000001H", IXDTF_NOT_EXACT, 0, 0 },
        { "PT0.0000000025H", IXDTF_OK, 0, 9000 }, { "PT0.00000000025H", IXDTF_OK, 0, 900 }, { "PT0.0000000000025H", IXDTF_OK, 0, 9 },
        { "PT0.333333333333333333H", IXDTF_NOT_EXACT, 0, 0 }, { "PT0.999999999999999999S", IXDTF_NOT_EXACT, 0, 0 },
        { "PT0.123456789000000000S", IXDTF_OK, 0, 123456789 }, { "PT0.500000000000000000M", IXDTF_OK, 30, 0 }, { "PT0.5000000000000000000M", IXDTF_NOT_EXACT, 0, 0 },
        { "PT0.000000000000000000H", IXDTF_OK, 0, 0 }, { "PT18446744073709551615.75H", IXDTF_OK, 2700, 0 },
    };
    ixdtf_duration it = IXDTF_DURATION;
    size_t i;
    uint32_t seconds, nanoseconds;
    for (i = 0; i < COUNT(texts); i++) {
        ixdtf_duration duration = used_duration();
        row_shown = texts[i].text;
        seconds = 77;
        nanoseconds = 78;
        check(ixdtf_parse_duration_text(texts[i].text, &duration) == IXDTF_OK, "the text of the duration is accepted");
        check(ixdtf_duration_fraction(&duration, &seconds, &nanoseconds) == texts[i].result, "ixdtf_duration_fraction returns the expected number");
        check(seconds == (texts[i].result == IXDTF_OK ? texts[i].seconds : 77) && nanoseconds == (texts[i].result == IXDTF_OK ? texts[i].nanoseconds : 78),
            "the seconds and the nanoseconds are those of the fraction, or unchanged after an error");
    }
    row_shown = "";
    it.time_form = IXDTF_LAST_SECONDS;
    it.fraction = 10;
    it.fraction_digits = 1;
    check(ixdtf_duration_fraction(&it, &seconds, &nanoseconds) == IXDTF_NOT_EXACT, "IXDTF_NOT_EXACT for a fraction with more digits than fraction_digits says");
    it.time_form = IXDTF_NO_TIME;
    check(ixdtf_duration_fraction(&it, &seconds, &nanoseconds) == IXDTF_OK && seconds == 0 && nanoseconds == 0, "0 seconds and 0 nanoseconds for a duration without a time");
    it.time_form = IXDTF_LAST_HOURS;
    it.fraction_digits = 0;
    check(ixdtf_duration_fraction(&it, &seconds, &nanoseconds) == IXDTF_OK && seconds == 0 && nanoseconds == 0, "0 seconds and 0 nanoseconds for a fraction without digits");
}

/* Tests that the rows have each error that a reader can return. The errors in `never` must not occur. */
static void test_met(void) {
    static const unsigned char never[] = { 1, 3, 12, 13, 20, 21, 22, 24 };
    size_t i, j;
    for (i = 1; i <= COUNT(error_rows); i++) {
        int comes = 1;
        for (j = 0; j < COUNT(never); j++) {
            comes = comes && never[j] != i;
        }
        row_shown = error_rows[i - 1].name;
        check(is_met[i] == comes, "some row has the error, if and only if a reader can return it");
    }
    row_shown = "";
}

/* Tests the number and the name of each reason. The list here repeats the constants of the header, so that a changed constant is found. */
static void test_reasons(void) {
#define NAMED(reason) { IXDTF_REASON_##reason, #reason }
    static const struct { uint32_t number; const char *name; } named[] = {
        NAMED(YEAR_START), NAMED(YEAR_DIGITS), NAMED(EXTENDED_YEAR_DIGITS), NAMED(MINUS_ZERO_YEAR), NAMED(AFTER_YEAR), NAMED(MONTH_DIGITS),
        NAMED(MONTH_RANGE), NAMED(AFTER_HYPHENED_MONTH), NAMED(AFTER_BASIC_MONTH), NAMED(DAY_DIGITS), NAMED(DAY_RANGE), NAMED(AFTER_DATE),
        NAMED(AFTER_YEAR_IN_YEAR_MONTH), NAMED(AFTER_YEAR_MONTH), NAMED(MONTH_DAY_START), NAMED(MONTH_DAY_HYPHEN), NAMED(MONTH_DAY_MONTH_DIGITS),
        NAMED(MONTH_DAY_MONTH_RANGE), NAMED(AFTER_MONTH_DAY_MONTH), NAMED(MONTH_DAY_DAY_DIGITS), NAMED(MONTH_DAY_RANGE), NAMED(AFTER_MONTH_DAY),
        NAMED(TIME_START), NAMED(TIME_READS_AS_MONTH_DAY), NAMED(TIME_READS_AS_YEAR_MONTH), NAMED(HOUR_START), NAMED(HOUR_DIGIT), NAMED(HOUR_RANGE),
        NAMED(AFTER_HOUR), NAMED(MINUTE_DIGITS), NAMED(MINUTE_RANGE), NAMED(AFTER_BASIC_MINUTE), NAMED(AFTER_COLON_MINUTE), NAMED(SECOND_DIGITS),
        NAMED(SECOND_RANGE), NAMED(AFTER_SECOND), NAMED(FRACTION_START), NAMED(AFTER_FRACTION), NAMED(OFFSET_HOUR_START), NAMED(OFFSET_HOUR_DIGIT),
        NAMED(OFFSET_HOUR_RANGE), NAMED(OFFSET_AFTER_HOUR), NAMED(OFFSET_MINUTE_DIGITS), NAMED(OFFSET_MINUTE_RANGE), NAMED(OFFSET_AFTER_BASIC_MINUTE),
        NAMED(OFFSET_AFTER_COLON_MINUTE), NAMED(OFFSET_SECOND_DIGITS), NAMED(OFFSET_SECOND_RANGE), NAMED(OFFSET_AFTER_SECOND),
        NAMED(OFFSET_FRACTION_START), NAMED(OFFSET_AFTER_FRACTION), NAMED(ZONE_OFFSET_HOUR_START), NAMED(ZONE_OFFSET_HOUR_DIGIT),
        NAMED(ZONE_OFFSET_HOUR_RANGE), NAMED(ZONE_OFFSET_AFTER_HOUR), NAMED(ZONE_OFFSET_MINUTE_DIGITS), NAMED(ZONE_OFFSET_MINUTE_RANGE),
        NAMED(ZONE_OFFSET_AFTER_BASIC_MINUTE), NAMED(ZONE_OFFSET_AFTER_COLON_MINUTE), NAMED(ZONE_OFFSET_SECOND_DIGITS),
        NAMED(ZONE_OFFSET_SECOND_RANGE), NAMED(ZONE_OFFSET_AFTER_SECOND), NAMED(ZONE_OFFSET_FRACTION_START), NAMED(ZONE_OFFSET_AFTER_FRACTION),
        NAMED(OFFSET_START), NAMED(AFTER_ZULU), NAMED(FOUR_DIGITS), NAMED(AFTER_FOUR_DIGITS), NAMED(MONTH_FIELD_DIGITS), NAMED(DAY_FIELD_DIGITS),
        NAMED(HOUR_FIELD_DIGITS), NAMED(MINUTE_FIELD_DIGITS), NAMED(SECOND_FIELD_DIGITS), NAMED(OFFSET_HOUR_FIELD_DIGITS),
        NAMED(OFFSET_MINUTE_FIELD_DIGITS), NAMED(MONTH_FIELD_RANGE), NAMED(DAY_FIELD_RANGE), NAMED(HOUR_FIELD_RANGE), NAMED(MINUTE_FIELD_RANGE),
        NAMED(SECOND_FIELD_RANGE), NAMED(OFFSET_HOUR_FIELD_RANGE), NAMED(OFFSET_MINUTE_FIELD_RANGE), NAMED(AFTER_MONTH_FIELD), NAMED(AFTER_DAY_FIELD),
        NAMED(AFTER_HOUR_FIELD), NAMED(AFTER_MINUTE_FIELD), NAMED(AFTER_SECOND_FIELD), NAMED(AFTER_OFFSET_HOUR_FIELD),
        NAMED(AFTER_OFFSET_MINUTE_FIELD), NAMED(AFTER_POINT), NAMED(AFTER_SECFRAC), NAMED(AFTER_UTC), NAMED(IDENTIFIER_START), NAMED(ZONE_NAME_START),
        NAMED(IN_ZONE_NAME), NAMED(AFTER_ZONE_SLASH), NAMED(FIRST_BRACKET_START), NAMED(FIRST_CRITICAL_START), NAMED(FIRST_BRACKET_SCAN),
        NAMED(FIRST_NAME_FORM), NAMED(FIRST_OFFSET_FORM), NAMED(AFTER_BRACKET), NAMED(KEY_START), NAMED(CRITICAL_KEY_START), NAMED(IN_KEY),
        NAMED(VALUE_START), NAMED(IN_VALUE), NAMED(AFTER_VALUE_HYPHEN), NAMED(DURATION_START), NAMED(AFTER_DURATION_SIGN),
        NAMED(AFTER_DURATION_DESIGNATOR), NAMED(AFTER_DATE_GROUPS), NAMED(AFTER_TIME_DESIGNATOR), NAMED(AFTER_TIME_GROUPS),
        NAMED(AFTER_FRACTION_GROUP), NAMED(DATE_GROUP_DIGITS), NAMED(TIME_GROUP_DIGITS), NAMED(DATE_GROUP_RANGE), NAMED(TIME_GROUP_RANGE),
        NAMED(DATE_UNIT_ORDER), NAMED(TIME_UNIT_ORDER), NAMED(DATE_UNIT_RANGE), NAMED(GROUP_FRACTION_START), NAMED(GROUP_FRACTION_DIGITS),
        NAMED(UNRECOGNIZED_CRITICAL), NAMED(CRITICAL_DUPLICATE_CALENDAR),
    };
#undef NAMED
    uint32_t number;
    size_t i;
    check(COUNT(named) == 126, "there are 126 reasons");
    for (number = 0; number < 300; number++) {
        ixdtf_text name = IXDTF_TEXT;
        ixdtf_reason_line(number, &name);
        check(name.at != NULL && name.at[name.length] == 0 && name.length == strlen(name.at), "the name is NUL-terminated");
        check(!strcmp(name.at, ixdtf_reason_name(number)), "ixdtf_reason_line and ixdtf_reason_name give the same name");
        check((name.length != 0) == (number >= 1 && number <= 126), "only 1 to 126 have a name");
    }
    for (i = 0; i < COUNT(named); i++) {
        const char *name = ixdtf_reason_name(named[i].number);
        size_t at;
        row_shown = named[i].name;
        check(named[i].number == i + 1 && strlen(name) == strlen(named[i].name), "the constant of the reason has its number");
        for (at = 0; name[at] != 0; at++) {
            check(named[i].name[at] == (name[at] == '_' ? '_' : name[at] - 'a' + 'A'), "ixdtf_reason_name returns the name of the constant in lower case");
        }
    }
    row_shown = "";
    check(!strcmp(ixdtf_reason_name(0x80000000u), "") && !strcmp(ixdtf_reason_name(0xffffffffu), ""), "a great number has no name");
}

/* Tests ixdtf_describe and ixdtf_hint with explanations that ixdtf_explain does not write, with a long text, and with texts that are not UTF-8. */
static void test_reports(void) {
    static const char *const shown[][2] = {
        { "2024-03-02T08:48:00-05:00[America/New_York][u-ca=hebrew][key=a_b]",
            "expected `]` or more of the annotation's value, found `_`\n..48:00-05:00[America/New_York][u-ca=hebrew][key=a_b]\n"
            "                                                  ^" },
        { "2024-13-01", "the month is 13, and has to be 01 to 12\n2024-13-01\n     ^^" },
        { "2020-1\xe9-01", "expected a digit of the month, which has two, found the byte 0xE9\n2020-1\n      ^" },
        { "2024-03-02\n", "expected `T`, a space, `[` or the end after the date, found a newline\n2024-03-02.\n          ^\nhint: remove the white space at the end" },
        { "2024-03-02 um acht Uhr in der Stadt Mainz",
            "expected a digit of the hour, which has two, found `u`\n2024-03-02 um acht Uhr in der Stadt..\n           ^" },
        { "", "the text is empty; expected a year of four digits\n\n^" },
        { "2024-3-02", "expected a digit of the month, which has two, found `-`\n2024-3-02\n      ^\nhint: write the month as `03`" },
    };
    static const char *const hint = "write the month as `03`";
    ixdtf_explanation it = IXDTF_EXPLANATION;
    uint8_t out[IXDTF_REPORT_ROOM], longer[4 * IXDTF_REPORT_ROOM];
    char wide[1000];
    size_t i, count = 77;
    for (i = 0; i < COUNT(shown); i++) {
        const uint8_t *text = (const uint8_t *)shown[i][0];
        row_shown = shown[i][0];
        check(ixdtf_explain_text(IXDTF_READER_PARSE, shown[i][0], &it) != IXDTF_OK, "the text is refused");
        check(ixdtf_describe(&it, text, strlen(shown[i][0]), out, sizeof out, &count) == IXDTF_OK && count == strlen(shown[i][1]) && !memcmp(out, shown[i][1], count), "ixdtf_describe writes the expected report");
    }
    check(ixdtf_hint(&it, (const uint8_t *)"2024-3-02", 9, out, sizeof out, &count) == IXDTF_OK && count == strlen(hint) && !memcmp(out, hint, count), "ixdtf_hint writes the expected hint");
    check(ixdtf_explain_text(IXDTF_READER_PARSE, "2024-13-01", &it) != IXDTF_OK && ixdtf_hint(&it, (const uint8_t *)"2024-13-01", 10, NULL, 0, &count) == IXDTF_OK && count == 0, "if there is no hint, its length is 0");
    /* The longest line of a report: after 48 characters before the part, there are 24 characters of four bytes. */
    memset(wide, '1', sizeof wide);
    wide[0] = 'P';
    for (i = 0; i < 200; i++) {
        memcpy(wide + 200 + 4 * i, "\xf0\x9f\x98\x80", 4);
    }
    row_shown = "P111..";
    check(ixdtf_explain(IXDTF_READER_PARSE_DURATION, (const uint8_t *)wide, sizeof wide, &it) == IXDTF_DURATION_VALUE_EXCEEDED_RANGE, "the long duration is refused");
    it.reason = IXDTF_REASON_TIME_GROUP_DIGITS;
    it.place = 200;
    check(ixdtf_describe(&it, (const uint8_t *)wide, sizeof wide, out, sizeof out, &count) == IXDTF_OK && count > 256, "a report with characters of four bytes is short enough");
    /* Explanations without a reason, and one that ixdtf_explain never writes, whose message shows nearly the complete text. */
    for (i = 0; i < 3; i++) {
        static const uint32_t numbers[] = { 0, 127, 0xffffffffu };
        it.reason = numbers[i];
        count = 77;
        memset(out, 0xa5, sizeof out);
        check(ixdtf_describe(&it, (const uint8_t *)wide, sizeof wide, out, sizeof out, &count) == IXDTF_NOT_PRINTABLE && count == 77 && out[0] == 0xa5 && out[sizeof out - 1] == 0xa5, "IXDTF_NOT_PRINTABLE without a reason");
        check(ixdtf_hint(&it, (const uint8_t *)wide, sizeof wide, out, sizeof out, &count) == IXDTF_NOT_PRINTABLE && count == 77 && out[0] == 0xa5, "no hint without a reason");
    }
    it.reason = IXDTF_REASON_TIME_READS_AS_MONTH_DAY;
    it.place = 996;
    check(ixdtf_describe(&it, (const uint8_t *)wide, sizeof wide, out, sizeof out, &count) == IXDTF_TOO_SHORT && count > sizeof out && out[0] == 0xa5, "IXDTF_TOO_SHORT, and the length, for a report that is longer than IXDTF_REPORT_ROOM");
    i = count;
    check(ixdtf_describe(&it, (const uint8_t *)wide, sizeof wide, longer, sizeof longer, &count) == IXDTF_OK && count == i && count < sizeof longer, "a longer array is enough for this report");
    it.place = SIZE_MAX;
    it.reason = IXDTF_REASON_MONTH_RANGE;
    check(ixdtf_describe(&it, NULL, 0, out, sizeof out, &count) == IXDTF_OK, "a position after the end of the text is its end, and an empty text may be NULL");
    {
        static const uint16_t units[] = { '2', 0xe9, 0x2010, 0xd83d, 0xde00, 0xd800, '-', 0xdc00, 0xd83d };
        static const char *const bytes = "2\xc3\xa9\xe2\x80\x90\xf0\x9f\x98\x80\xef\xbf\xbd-\xef\xbf\xbd\xef\xbf\xbd";
        row_shown = "";
        count = ixdtf16_to_utf8(units, COUNT(units), out);
        check(count == strlen(bytes) && !memcmp(out, bytes, count), "ixdtf16_to_utf8 converts pairs of surrogates, and writes U+FFFD for the other ones");
    }
    it.error = 77;
    check(ixdtf_explain(0, (const uint8_t *)"2024", 4, &it) == IXDTF_NO_READER && ixdtf_explain(21, (const uint8_t *)"2024", 4, &it) == IXDTF_NO_READER
            && ixdtf16_explain(0xffffffffu, NULL, 0, &it) == IXDTF_NO_READER && it.error == 77 && it.place == SIZE_MAX,
        "IXDTF_NO_READER for a number that no reader has, and nothing is written");
}

/* The argument of the program is the path of the folder tests. */
int main(int count, char **arguments) {
    if (count != 2) {
        puts("expected one argument: the path of the folder tests");
        return 2;
    }
    make_room();
    read_errors(arguments[1]);
    test_numbers();
    test_reasons();
    test_reports();
    test_errors();
    test_names();
    test_functions();
    test_texts();
    test_layout();
    narrow_test_all();
    wide_test_all();
    narrow_test_printing();
    wide_test_printing();
    check(each_row(arguments[1], "accepted.tsv", test_row) >= 500, "accepted.tsv has at least 500 rows");
    check(each_row(arguments[1], "refused.tsv", test_row) >= 1000, "refused.tsv has at least 1000 rows");
    check(each_row(arguments[1], "replies.tsv", test_row) >= 200, "replies.tsv has at least 200 rows");
    test_last_fractions();
    test_met();
    printf("%lu checks, %lu failed\n", checks, failures);
    return failures == 0 ? 0 : 1;
}
