/* ixdtf.h: functions that read and print date-times of RFC 9557, years with months, months with
 * days, times, offsets, time zones and durations. This is version 2 of the interface.
 *
 * LIBRARY. Link the static library libixdtf.a or the shared library libixdtf.so.2. The file
 * libixdtf.so is a symbolic link to libixdtf.so.2, because a linker looks for the name libixdtf.so.
 * The library allocates no memory, keeps no state and starts no thread. c/build builds either the
 * proved library or the plain library. Both have the same functions. The proved library is for
 * Linux on x86-64 processors with SSE4.2 and POPCNT (x86-64-v2). Of other libraries, it calls only
 * memcpy, memmove and memset of the C library. The plain library is for each 64-bit system that
 * rustc supports. It may also call memcmp and bcmp. docs/C.md says what is proved about each of the
 * two.
 *
 * TEXTS. A text is passed as a pointer to its first code unit and a length, in code units. A code
 * unit has 8 bits in the functions whose names begin with ixdtf_, and 16 bits in the functions
 * whose names begin with ixdtf16_. A function reads no memory before or after the text, and does
 * not write to the text. A text need not be NUL-terminated. A NUL within the length counts as a
 * code unit. A text need not be valid UTF-8 or UTF-16. If the length is 0, the pointer may be NULL.
 * A text of 16-bit code units must have the alignment of uint16_t. An array to which a function
 * writes such a text must have this alignment too. A text must not have more than PTRDIFF_MAX
 * bytes.
 *
 * RESULTS. A reader is a function that reads a text. A reader returns 0 (IXDTF_OK) if it accepts
 * the text. Otherwise it returns the number of the error, from 1 to 46. If a program ignores the
 * result, a compiler such as GCC or Clang warns.
 * A reader writes what it reads to a record, a struct that the caller passes. If a reader returns
 * 0, it has written every field of the record. If the text does not contain a part, such as the
 * time, the fields of this part are 0, false, or a slice of length 0. If the text has only two of
 * the three numbers of a date, the date is present: for a year and a month, `day` is 1, and for a
 * month and a day, `year` is 0.
 * If a reader returns 0, it also writes 0 to `place`, and a slice of length 0 to `location`.
 * If a reader returns an error, the record is unchanged, except for `location` and `place`. So its
 * other fields have the values from before the call. They can be about an earlier text. The two
 * fields that change have these values:
 * - `location` says what was being parsed, such as "digit", if the error is IXDTF_ABRUPT_END. After
 *   every other error, `location` has length 0. IXDTF_ABRUPT_END does not mean that the text ends
 *   too early: the duration PT1x has this error too, and many texts that end too early have other
 *   errors. See ixdtf_explain.
 * - `place` is the position of the error: the number of code units before it. If a code unit is
 *   wrong, the position is before this code unit. If the text ends too early, the position is the
 *   end of the text. If something longer than one code unit is wrong, the position is directly
 *   after it: for example, after a number that is out of range, or after an annotation that is
 *   refused. docs/FAULTS.md has the position of each error. c/install installs this page in
 *   share/doc/ixdtf.
 *
 * RECORDS. The caller owns every record, array and text. Before you pass a record to a function,
 * initialise it: with zeros ({0}, calloc), with the macro of its type (IXDTF_RECORD for an
 * ixdtf_record), or by an earlier call. A record must have the alignment of its type. You can use a
 * record again, even if its slices point into a text that no longer exists, because no reader
 * follows these pointers. But the printers read the slices of the parts that are present. The
 * fields `is_there`, `form` and `has_..` say which parts are present. If a reader returns 0, each
 * `form` has one of the values that are named below. A field that does not belong to the `form`
 * does not matter: for example, `second` does not matter in an offset whose `form` is
 * IXDTF_MINUTES. If `fraction_digits` is 0, there is no fraction, and the value of `fraction` does
 * not matter.
 * An array that a function writes is passed as a pointer and a capacity. The capacity is the number
 * of elements of the array. The parameter for the capacity has the name `room`.
 * The memory that a function writes must not overlap anything else that is passed to the function.
 * If a length or a capacity is 0, the pointer that belongs to it may be NULL, also in a struct. No
 * other pointer that is passed may be NULL.
 *
 * SLICES. A slice is a pointer and a length. A name or a calendar that a reader writes into a
 * record is a slice of the text that was read. The key and the value of an annotation that a reader
 * lists are slices of this text too. There is one exception: your program can replace the
 * annotations that a reader lists (see ixdtf_reply). Then the calendar is the slice that your
 * program passed as the value of an annotation.
 * A slice is not NUL-terminated. It is valid as long as the bytes to which it points exist and are
 * unchanged. The library keeps no pointer between calls. A location and the text of an error are
 * valid as long as the program runs. If a function writes a slice, its pointer is never NULL, even
 * if its length is 0.
 * A reader accepts Foo/Bar as the name of a time zone, although no time zone has this name: the
 * library has no list of time zones. The name may have the parts "." and "..": for example,
 * ../../etc/passwd is such a name. There is one exception: the readers with _rfc9557 in their names
 * refuse a name that has such a part. Never join a name to a path without a check.
 *
 * THREADS. Any number of threads may call the library at the same time, as long as no thread writes
 * what another thread uses. No function blocks, and each function returns. The time of a call is
 * linear in the length of the text, or of the slices of the record. A signal handler may call the
 * library.
 *
 * VERSIONS. Within a version of the interface, the names, the numbers, the sizes of the structs and
 * the positions of their fields do not change, and nothing is removed. Functions and numbers may be
 * added: this raises the revision. A program that was compiled with this header runs with each
 * library of the same version whose revision is not lower than the revision of the header.
 * This header has version 2. ixdtf_interface_version() returns the version of the library. It must
 * be equal to IXDTF_INTERFACE_VERSION. The file name of the shared library, libixdtf.so.2, ends
 * with the version.
 */
#ifndef IXDTF_H
#define IXDTF_H
#include <stdbool.h>
#include <stddef.h>
#include <stdint.h>
#include <string.h>
#ifdef __cplusplus
extern "C" {
#endif

/* The version of the interface that this header describes. */
#define IXDTF_INTERFACE_VERSION 2
/* The revision: how many times functions or numbers were added within this version. */
#define IXDTF_INTERFACE_REVISION 6

/* Marks a function whose result the caller must test. If the caller ignores the result, a
 * compiler such as GCC or Clang warns. */
#if defined(__cplusplus) && __cplusplus >= 201703L
#define IXDTF_CHECKED_ [[nodiscard]]
#elif !defined(__cplusplus) && defined(__STDC_VERSION__) && __STDC_VERSION__ >= 202311L
#define IXDTF_CHECKED_ [[nodiscard]]
#elif defined(__GNUC__)
#define IXDTF_CHECKED_ __attribute__((warn_unused_result))
#else
#define IXDTF_CHECKED_
#endif

/* The numbers that a reader returns. ixdtf_error_message returns the text of each error, and
 * docs/FAULTS.md says when each error is returned. The errors that are marked with - are never
 * returned. They are errors of the Rust crate ixdtf 0.6.7, and keep their numbers. */
enum {
    IXDTF_OK = 0,
    IXDTF_IMPL_ASSERT = 1, /* - */
    IXDTF_NON_ASCII_CODE_POINT = 2, /* only for 16-bit text */
    IXDTF_PARSE_FLOAT = 3, /* - */
    IXDTF_ABRUPT_END = 4, /* `location` says what was being parsed */
    IXDTF_INVALID_END = 5,
    IXDTF_INVALID_MONTH_RANGE = 6,
    IXDTF_INVALID_DAY_RANGE = 7,
    IXDTF_DATE_YEAR = 8,
    IXDTF_DATE_EXTENDED_YEAR = 9,
    IXDTF_DATE_MONTH = 10,
    IXDTF_DATE_DAY = 11,
    IXDTF_DATE_UNEXPECTED_END = 12, /* - */
    IXDTF_TIME_REQUIRED = 13, /* - */
    IXDTF_TIME_HOUR = 14,
    IXDTF_TIME_MINUTE_SECOND = 15,
    IXDTF_TIME_SECOND = 16,
    IXDTF_FRACTION_PART = 17,
    IXDTF_DATE_SEPARATOR = 18,
    IXDTF_TIME_SEPARATOR = 19,
    IXDTF_DECIMAL_SEPARATOR = 20, /* - */
    IXDTF_INVALID_ANNOTATION = 21, /* - */
    IXDTF_ANNOTATION_OPEN = 22, /* - */
    IXDTF_ANNOTATION_CLOSE = 23,
    IXDTF_ANNOTATION_CHAR = 24, /* - */
    IXDTF_ANNOTATION_KEY_VALUE_SEPARATOR = 25,
    IXDTF_ANNOTATION_KEY_LEADING_CHAR = 26,
    IXDTF_ANNOTATION_KEY_CHAR = 27,
    IXDTF_ANNOTATION_VALUE_CHAR_POST_HYPHEN = 28,
    IXDTF_ANNOTATION_VALUE_CHAR = 29,
    IXDTF_INVALID_MINUTE_PRECISION_OFFSET = 30,
    IXDTF_CRITICAL_DUPLICATE_CALENDAR = 31, /* ixdtf_reply can return this number too */
    IXDTF_UNRECOGNIZED_CRITICAL = 32, /* ixdtf_reply can return this number too */
    IXDTF_TZ_LEADING_CHAR = 33,
    IXDTF_IANA_CHAR_POST_SEPARATOR = 34,
    IXDTF_IANA_CHAR = 35,
    IXDTF_UTC_TIME_SEPARATOR = 36,
    IXDTF_OFFSET_NEEDS_SIGN = 37,
    IXDTF_MONTH_DAY_HYPHEN = 38,
    IXDTF_DURATION_DISGNATOR = 39,
    IXDTF_DURATION_VALUE_EXCEEDED_RANGE = 40,
    IXDTF_DATE_DURATION_PART_ORDER = 41,
    IXDTF_TIME_DURATION_PART_ORDER = 42,
    IXDTF_TIME_DURATION_DESIGNATOR = 43,
    IXDTF_AMBIGUOUS_TIME_MONTH_DAY = 44,
    IXDTF_AMBIGUOUS_TIME_YEAR_MONTH = 45,
    IXDTF_INVALID_MONTH_DAY = 46
};

/* The numbers that printers, ixdtf_instant, ixdtf_duration_fraction, ixdtf_explain, ixdtf_describe
 * and ixdtf_hint return if they fail. No reader returns them. */
enum {
    /* the value cannot be printed, because the reader that belongs to the printer never writes it.
     * For ixdtf_print, this reader is ixdtf_parse. A critical time zone is an exception: it can be
     * printed, although ixdtf_parse_identifier never writes a critical time zone. ixdtf_describe
     * and ixdtf_hint return this number if `reason` is not the number of a reason */
    IXDTF_NOT_PRINTABLE = 101,
    /* the array is too short; the length of the text is in `count` */
    IXDTF_TOO_SHORT = 102,
    /* the record has no date, no time, or neither an offset nor Z. This is also the number if the
     * month, a fraction or the `form` of the offset is not valid: ixdtf_instant has the details */
    IXDTF_NO_INSTANT = 103,
    /* the fraction is not a whole number of nanoseconds, or it has more than 18 digits */
    IXDTF_NOT_EXACT = 104,
    /* no reader has the number that was passed to ixdtf_explain */
    IXDTF_NO_READER = 105
};

/* The numbers of the readers, which ixdtf_explain accepts. For example, ixdtf_parse_time_strict and
 * ixdtf16_parse_time_strict have the number IXDTF_READER_PARSE_TIME_STRICT. */
enum {
    IXDTF_READER_PARSE = 1,
    IXDTF_READER_PARSE_YEAR_MONTH = 2,
    IXDTF_READER_PARSE_MONTH_DAY = 3,
    IXDTF_READER_PARSE_TIME = 4,
    IXDTF_READER_PARSE_RFC3339 = 5,
    IXDTF_READER_PARSE_RFC9557 = 6,
    IXDTF_READER_PARSE_OFFSET = 7,
    IXDTF_READER_PARSE_IDENTIFIER = 8,
    IXDTF_READER_PARSE_IANA_IDENTIFIER = 9,
    IXDTF_READER_PARSE_DURATION = 10,
    IXDTF_READER_PARSE_MONTH_DAY_STRICT = 11,
    IXDTF_READER_PARSE_TIME_STRICT = 12,
    IXDTF_READER_PARSE_DURATION_STRICT = 13,
    IXDTF_READER_PARSE_WITH_ANNOTATIONS = 14,
    IXDTF_READER_PARSE_YEAR_MONTH_WITH_ANNOTATIONS = 15,
    IXDTF_READER_PARSE_MONTH_DAY_WITH_ANNOTATIONS = 16,
    IXDTF_READER_PARSE_TIME_WITH_ANNOTATIONS = 17,
    IXDTF_READER_PARSE_RFC9557_WITH_ANNOTATIONS = 18,
    IXDTF_READER_PARSE_MONTH_DAY_WITH_ANNOTATIONS_STRICT = 19,
    IXDTF_READER_PARSE_TIME_WITH_ANNOTATIONS_STRICT = 20
};

/* The reasons why a reader refuses a text. A reason is a line of the fault table in
 * docs/FAULTS.md, or the refusal of an annotation. Most reasons have the name of their line. If a
 * line is for several places in a text, it has a reason for each place: the line hour_range, for
 * example, has IXDTF_REASON_HOUR_RANGE for a time, IXDTF_REASON_OFFSET_HOUR_RANGE for an offset,
 * and IXDTF_REASON_ZONE_OFFSET_HOUR_RANGE for an offset that is a time zone. In Rust, these reasons
 * are the variants HourRange, OffsetHourRange and ZoneOffsetHourRange of `Reason`. The five
 * reasons that are marked with - are never returned. */
enum {
    IXDTF_REASON_YEAR_START = 1,
    IXDTF_REASON_YEAR_DIGITS = 2,
    IXDTF_REASON_EXTENDED_YEAR_DIGITS = 3,
    IXDTF_REASON_MINUS_ZERO_YEAR = 4,
    IXDTF_REASON_AFTER_YEAR = 5,
    IXDTF_REASON_MONTH_DIGITS = 6,
    IXDTF_REASON_MONTH_RANGE = 7,
    IXDTF_REASON_AFTER_HYPHENED_MONTH = 8,
    IXDTF_REASON_AFTER_BASIC_MONTH = 9,
    IXDTF_REASON_DAY_DIGITS = 10,
    IXDTF_REASON_DAY_RANGE = 11,
    IXDTF_REASON_AFTER_DATE = 12,
    IXDTF_REASON_AFTER_YEAR_IN_YEAR_MONTH = 13,
    IXDTF_REASON_AFTER_YEAR_MONTH = 14,
    IXDTF_REASON_MONTH_DAY_START = 15,
    IXDTF_REASON_MONTH_DAY_HYPHEN = 16,
    IXDTF_REASON_MONTH_DAY_MONTH_DIGITS = 17,
    IXDTF_REASON_MONTH_DAY_MONTH_RANGE = 18,
    IXDTF_REASON_AFTER_MONTH_DAY_MONTH = 19,
    IXDTF_REASON_MONTH_DAY_DAY_DIGITS = 20,
    IXDTF_REASON_MONTH_DAY_RANGE = 21,
    IXDTF_REASON_AFTER_MONTH_DAY = 22,
    IXDTF_REASON_TIME_START = 23,
    IXDTF_REASON_TIME_READS_AS_MONTH_DAY = 24,
    IXDTF_REASON_TIME_READS_AS_YEAR_MONTH = 25,
    IXDTF_REASON_HOUR_START = 26,
    IXDTF_REASON_HOUR_DIGIT = 27,
    IXDTF_REASON_HOUR_RANGE = 28,
    IXDTF_REASON_AFTER_HOUR = 29,
    IXDTF_REASON_MINUTE_DIGITS = 30,
    IXDTF_REASON_MINUTE_RANGE = 31,
    IXDTF_REASON_AFTER_BASIC_MINUTE = 32,
    IXDTF_REASON_AFTER_COLON_MINUTE = 33,
    IXDTF_REASON_SECOND_DIGITS = 34,
    IXDTF_REASON_SECOND_RANGE = 35,
    IXDTF_REASON_AFTER_SECOND = 36,
    IXDTF_REASON_FRACTION_START = 37,
    IXDTF_REASON_AFTER_FRACTION = 38,
    IXDTF_REASON_OFFSET_HOUR_START = 39,
    IXDTF_REASON_OFFSET_HOUR_DIGIT = 40,
    IXDTF_REASON_OFFSET_HOUR_RANGE = 41,
    IXDTF_REASON_OFFSET_AFTER_HOUR = 42,
    IXDTF_REASON_OFFSET_MINUTE_DIGITS = 43,
    IXDTF_REASON_OFFSET_MINUTE_RANGE = 44,
    IXDTF_REASON_OFFSET_AFTER_BASIC_MINUTE = 45,
    IXDTF_REASON_OFFSET_AFTER_COLON_MINUTE = 46,
    IXDTF_REASON_OFFSET_SECOND_DIGITS = 47,
    IXDTF_REASON_OFFSET_SECOND_RANGE = 48,
    IXDTF_REASON_OFFSET_AFTER_SECOND = 49,
    IXDTF_REASON_OFFSET_FRACTION_START = 50,
    IXDTF_REASON_OFFSET_AFTER_FRACTION = 51,
    IXDTF_REASON_ZONE_OFFSET_HOUR_START = 52,
    IXDTF_REASON_ZONE_OFFSET_HOUR_DIGIT = 53,
    IXDTF_REASON_ZONE_OFFSET_HOUR_RANGE = 54,
    IXDTF_REASON_ZONE_OFFSET_AFTER_HOUR = 55,
    IXDTF_REASON_ZONE_OFFSET_MINUTE_DIGITS = 56,
    IXDTF_REASON_ZONE_OFFSET_MINUTE_RANGE = 57,
    IXDTF_REASON_ZONE_OFFSET_AFTER_BASIC_MINUTE = 58,
    IXDTF_REASON_ZONE_OFFSET_AFTER_COLON_MINUTE = 59,
    IXDTF_REASON_ZONE_OFFSET_SECOND_DIGITS = 60, /* - */
    IXDTF_REASON_ZONE_OFFSET_SECOND_RANGE = 61, /* - */
    IXDTF_REASON_ZONE_OFFSET_AFTER_SECOND = 62, /* - */
    IXDTF_REASON_ZONE_OFFSET_FRACTION_START = 63, /* - */
    IXDTF_REASON_ZONE_OFFSET_AFTER_FRACTION = 64, /* - */
    IXDTF_REASON_OFFSET_START = 65,
    IXDTF_REASON_AFTER_ZULU = 66,
    IXDTF_REASON_FOUR_DIGITS = 67,
    IXDTF_REASON_AFTER_FOUR_DIGITS = 68,
    IXDTF_REASON_MONTH_FIELD_DIGITS = 69,
    IXDTF_REASON_DAY_FIELD_DIGITS = 70,
    IXDTF_REASON_HOUR_FIELD_DIGITS = 71,
    IXDTF_REASON_MINUTE_FIELD_DIGITS = 72,
    IXDTF_REASON_SECOND_FIELD_DIGITS = 73,
    IXDTF_REASON_OFFSET_HOUR_FIELD_DIGITS = 74,
    IXDTF_REASON_OFFSET_MINUTE_FIELD_DIGITS = 75,
    IXDTF_REASON_MONTH_FIELD_RANGE = 76,
    IXDTF_REASON_DAY_FIELD_RANGE = 77,
    IXDTF_REASON_HOUR_FIELD_RANGE = 78,
    IXDTF_REASON_MINUTE_FIELD_RANGE = 79,
    IXDTF_REASON_SECOND_FIELD_RANGE = 80,
    IXDTF_REASON_OFFSET_HOUR_FIELD_RANGE = 81,
    IXDTF_REASON_OFFSET_MINUTE_FIELD_RANGE = 82,
    IXDTF_REASON_AFTER_MONTH_FIELD = 83,
    IXDTF_REASON_AFTER_DAY_FIELD = 84,
    IXDTF_REASON_AFTER_HOUR_FIELD = 85,
    IXDTF_REASON_AFTER_MINUTE_FIELD = 86,
    IXDTF_REASON_AFTER_SECOND_FIELD = 87,
    IXDTF_REASON_AFTER_OFFSET_HOUR_FIELD = 88,
    IXDTF_REASON_AFTER_OFFSET_MINUTE_FIELD = 89,
    IXDTF_REASON_AFTER_POINT = 90,
    IXDTF_REASON_AFTER_SECFRAC = 91,
    IXDTF_REASON_AFTER_UTC = 92,
    IXDTF_REASON_IDENTIFIER_START = 93,
    IXDTF_REASON_ZONE_NAME_START = 94,
    IXDTF_REASON_IN_ZONE_NAME = 95,
    IXDTF_REASON_AFTER_ZONE_SLASH = 96,
    IXDTF_REASON_FIRST_BRACKET_START = 97,
    IXDTF_REASON_FIRST_CRITICAL_START = 98,
    IXDTF_REASON_FIRST_BRACKET_SCAN = 99,
    IXDTF_REASON_FIRST_NAME_FORM = 100,
    IXDTF_REASON_FIRST_OFFSET_FORM = 101,
    IXDTF_REASON_AFTER_BRACKET = 102,
    IXDTF_REASON_KEY_START = 103,
    IXDTF_REASON_CRITICAL_KEY_START = 104,
    IXDTF_REASON_IN_KEY = 105,
    IXDTF_REASON_VALUE_START = 106,
    IXDTF_REASON_IN_VALUE = 107,
    IXDTF_REASON_AFTER_VALUE_HYPHEN = 108,
    IXDTF_REASON_DURATION_START = 109,
    IXDTF_REASON_AFTER_DURATION_SIGN = 110,
    IXDTF_REASON_AFTER_DURATION_DESIGNATOR = 111,
    IXDTF_REASON_AFTER_DATE_GROUPS = 112,
    IXDTF_REASON_AFTER_TIME_DESIGNATOR = 113,
    IXDTF_REASON_AFTER_TIME_GROUPS = 114,
    IXDTF_REASON_AFTER_FRACTION_GROUP = 115,
    IXDTF_REASON_DATE_GROUP_DIGITS = 116,
    IXDTF_REASON_TIME_GROUP_DIGITS = 117,
    IXDTF_REASON_DATE_GROUP_RANGE = 118,
    IXDTF_REASON_TIME_GROUP_RANGE = 119,
    IXDTF_REASON_DATE_UNIT_ORDER = 120,
    IXDTF_REASON_TIME_UNIT_ORDER = 121,
    IXDTF_REASON_DATE_UNIT_RANGE = 122,
    IXDTF_REASON_GROUP_FRACTION_START = 123,
    IXDTF_REASON_GROUP_FRACTION_DIGITS = 124,
    IXDTF_REASON_UNRECOGNIZED_CRITICAL = 125,
    IXDTF_REASON_CRITICAL_DUPLICATE_CALENDAR = 126
};

/* A slice of bytes that are valid as long as the program runs. It need not be NUL-terminated. */
typedef struct ixdtf_text { const char *at; size_t length; } ixdtf_text;

/* A slice of code units: a part of a text that was read. */
typedef struct ixdtf_units { const uint8_t *at; size_t length; } ixdtf_units;
typedef struct ixdtf16_units { const uint16_t *at; size_t length; } ixdtf16_units;

typedef struct ixdtf_date {
    int32_t year;  /* -999999 to 999999; 0 if the text has only a month and a day */
    uint8_t month; /* 1 to 12 */
    uint8_t day;   /* 1 to 31; 1 if the text has only a year and a month; 0 for the day 00 */
    bool is_there; /* true if there is a date; if not, a reader writes 0 to the other fields */
} ixdtf_date;

typedef struct ixdtf_time {
    uint64_t fraction;       /* the first 18 digits of the fraction, as one number: 250 for .250 */
    uint8_t fraction_digits; /* the number of digits, at most 255; 0 without a fraction */
    uint8_t hour;            /* 0 to 23 */
    uint8_t minute;          /* 0 to 59 */
    uint8_t second;          /* 0 to 60 */
    bool is_there;           /* true if there is a time; if not, a reader writes 0 to the others */
} ixdtf_time;

/* The values of `form` in an offset. IXDTF_NO_OFFSET says that there is no offset. IXDTF_UTC is Z:
 * the time is in UTC, and the text does not say what the offset of the local time is. IXDTF_MINUTES
 * is an offset without seconds, and IXDTF_SECONDS is an offset with seconds. In some cases, a field
 * has no meaning. A reader then writes 0 or false to it. The comment of the field names these
 * cases. */
enum { IXDTF_NO_OFFSET = 0, IXDTF_UTC = 1, IXDTF_MINUTES = 2, IXDTF_SECONDS = 3 };
typedef struct ixdtf_offset {
    uint64_t fraction;       /* as in ixdtf_time; 0 if `form` is not IXDTF_SECONDS */
    uint8_t fraction_digits; /* as in ixdtf_time; 0 if `form` is not IXDTF_SECONDS */
    uint8_t form;            /* one of the four values above */
    bool is_negative;        /* true for -00:00 too; false without an offset, and for Z */
    uint8_t hour;            /* 0 to 23; 0 without an offset, and for Z */
    uint8_t minute;          /* 0 to 59; 0 without an offset, and for Z */
    uint8_t second;          /* 0 to 59; 0 if `form` is not IXDTF_SECONDS */
} ixdtf_offset;

/* The values of `form` in a time zone. IXDTF_NO_ZONE says that there is no zone. IXDTF_NAME is a
 * zone with a name, such as [Europe/Berlin]. IXDTF_ZONE_OFFSET is a zone that is an offset, such as
 * [+05:30]. In some cases, a field has no meaning. A reader then writes 0, false or a slice of
 * length 0 to it. The comment of the field names these cases. */
enum { IXDTF_NO_ZONE = 0, IXDTF_NAME = 1, IXDTF_ZONE_OFFSET = 2 };
typedef struct ixdtf_zone {
    ixdtf_units name; /* of length 0 if `form` is not IXDTF_NAME */
    uint8_t form;     /* one of the three values above */
    bool is_critical; /* true for [!..]: a program must use this zone, or reject the text */
    bool is_negative; /* true for -00:00 too; false if `form` is not IXDTF_ZONE_OFFSET */
    uint8_t hour;     /* 0 to 23; 0 if `form` is not IXDTF_ZONE_OFFSET */
    uint8_t minute;   /* 0 to 59; 0 if `form` is not IXDTF_ZONE_OFFSET */
} ixdtf_zone;
typedef struct ixdtf16_zone {
    ixdtf16_units name;
    uint8_t form;
    bool is_critical;
    bool is_negative;
    uint8_t hour;
    uint8_t minute;
} ixdtf16_zone;

typedef struct ixdtf_record {
    ixdtf_date date;
    ixdtf_time time;
    ixdtf_offset offset;
    ixdtf_zone zone;
    ixdtf_units calendar; /* such as hebrew; of length 0 if has_calendar is false */
    bool has_calendar;    /* true if a calendar is present */
    ixdtf_text location;  /* after IXDTF_ABRUPT_END: what was being parsed */
    size_t place;         /* after an error: the number of code units before it; otherwise 0 */
} ixdtf_record;
typedef struct ixdtf16_record {
    ixdtf_date date;
    ixdtf_time time;
    ixdtf_offset offset;
    ixdtf16_zone zone;
    ixdtf16_units calendar;
    bool has_calendar;
    ixdtf_text location;
    size_t place;
} ixdtf16_record;

/* An annotation: a key and a value, such as u-ca and hebrew for [u-ca=hebrew]. `is_critical` is
 * true for [!u-ca=hebrew]. A reply has this type too: see ixdtf_reply. */
typedef struct ixdtf_annotation { ixdtf_units key, value; bool is_critical; } ixdtf_annotation;
typedef struct ixdtf16_annotation {
    ixdtf16_units key, value;
    bool is_critical;
} ixdtf16_annotation;

/* The calendar that ixdtf_reply has kept. If `is_there` is false, it has kept none. */
typedef struct ixdtf_calendar { ixdtf_units value; bool is_critical, is_there; } ixdtf_calendar;
typedef struct ixdtf16_calendar {
    ixdtf16_units value;
    bool is_critical, is_there;
} ixdtf16_calendar;

/* The values of `time_form` in a duration. The hours, minutes and seconds of a duration are its
 * time. IXDTF_NO_TIME says that the duration has no time. The other values say which duration unit
 * is the last one of the time. In some cases, a field has no meaning. A reader then
 * writes 0 to it. The comment of the field names these cases. */
enum { IXDTF_NO_TIME = 0, IXDTF_LAST_HOURS = 1, IXDTF_LAST_MINUTES = 2, IXDTF_LAST_SECONDS = 3 };
typedef struct ixdtf_duration {
    uint64_t days;           /* 0 if has_date is false */
    uint64_t hours;          /* 0 if time_form is IXDTF_NO_TIME */
    uint64_t minutes;        /* 0 if time_form is IXDTF_NO_TIME or IXDTF_LAST_HOURS */
    uint64_t seconds;        /* 0 if time_form is not IXDTF_LAST_SECONDS */
    uint64_t fraction;       /* as in ixdtf_time; a part of the last duration unit of the time */
    uint32_t years, months, weeks; /* 0 if has_date is false */
    uint8_t fraction_digits; /* as in ixdtf_time */
    uint8_t time_form;       /* one of the four values above */
    bool has_date;           /* true if the text has years, months, weeks or days */
    bool is_negative;        /* true if the text begins with - */
    ixdtf_text location;     /* as in ixdtf_record */
    size_t place;            /* as in ixdtf_record */
} ixdtf_duration;

/* Why a reader refuses a text, and which part of the text is wrong: see ixdtf_explain. If the text
 * is accepted, each field is 0. */
typedef struct ixdtf_explanation {
    size_t place;      /* the number of code units before the error, as in ixdtf_record */
    size_t begin, end; /* the part that is wrong: the code units from `begin` to before `end` */
    uint32_t error;    /* the number of the error, such as IXDTF_INVALID_MONTH_RANGE */
    uint32_t reason;   /* the reason, such as IXDTF_REASON_MONTH_RANGE */
} ixdtf_explanation;

/* Initial values of structs, as in `ixdtf_record record = IXDTF_RECORD;`. You can also initialise a
 * struct with zeros. */
#ifdef __cplusplus
#define IXDTF_AT_(type, text) reinterpret_cast<const type *>(text)
#define IXDTF_AS_(type, value) static_cast<type>(value)
#else
#define IXDTF_AT_(type, text) ((const type *)(text))
#define IXDTF_AS_(type, value) ((type)(value))
#endif
#define IXDTF_NO_TEXT_ { "", 0 }
#define IXDTF_NO_UNITS_ { IXDTF_AT_(uint8_t, ""), 0 }
#define IXDTF16_NO_UNITS_ { IXDTF_AT_(uint16_t, L""), 0 }
#define IXDTF_DATE_ { 0, 0, 0, false }
#define IXDTF_TIME_ { 0, 0, 0, 0, 0, false }
#define IXDTF_OFFSET_ { 0, 0, 0, false, 0, 0, 0 }
#define IXDTF_RECORD_(units) \
    { IXDTF_DATE_, IXDTF_TIME_, IXDTF_OFFSET_, { units, 0, false, false, 0, 0 }, units, false, \
      IXDTF_NO_TEXT_, 0 }
#define IXDTF_RECORD IXDTF_RECORD_(IXDTF_NO_UNITS_)
#define IXDTF16_RECORD IXDTF_RECORD_(IXDTF16_NO_UNITS_)
#define IXDTF_ANNOTATION { IXDTF_NO_UNITS_, IXDTF_NO_UNITS_, false }
#define IXDTF16_ANNOTATION { IXDTF16_NO_UNITS_, IXDTF16_NO_UNITS_, false }
#define IXDTF_CALENDAR { IXDTF_NO_UNITS_, false, false }
#define IXDTF16_CALENDAR { IXDTF16_NO_UNITS_, false, false }
#define IXDTF_DURATION { 0, 0, 0, 0, 0, 0, 0, 0, 0, 0, false, false, IXDTF_NO_TEXT_, 0 }
#define IXDTF_TEXT IXDTF_NO_TEXT_
#define IXDTF_EXPLANATION { 0, 0, 0, 0, 0 }

/* Readers of 8-bit text. A reader accepts a text only if the complete text is valid.
 * docs/GRAMMAR.md says which texts it accepts, and what it writes to `out` for each of them.
 * "RESULTS" above says what it returns. */

/* Reads a date, or a date and a time, which may have an offset. A zone and annotations may follow
 * in brackets. An example is 2024-03-02T08:48:00-05:00[America/New_York][u-ca=hebrew]. */
IXDTF_CHECKED_ uint32_t ixdtf_parse(const uint8_t *text, size_t length, ixdtf_record *out);
/* Reads a year and a month, such as 2020-11. A zone and annotations may follow in brackets. If
 * the reader returns 0, the day is 1. */
IXDTF_CHECKED_ uint32_t ixdtf_parse_year_month(const uint8_t *text, size_t length,
    ixdtf_record *out);
/* Reads a month and a day, such as 11-07. A zone and annotations may follow in brackets. If the
 * reader returns 0, the year is 0. The day can be 0, because the reader accepts the day 00. */
IXDTF_CHECKED_ uint32_t ixdtf_parse_month_day(const uint8_t *text, size_t length,
    ixdtf_record *out);
/* Reads a time, such as T12:30. It may have an offset. A zone and annotations may follow in
 * brackets. A text without T is refused if its beginning could also be a month and a day, or a year
 * and a month. For example, 1200 could also mean month 12, day 00. */
IXDTF_CHECKED_ uint32_t ixdtf_parse_time(const uint8_t *text, size_t length, ixdtf_record *out);
/* Reads a date-time of RFC 3339, section 5.6, such as 2024-03-02T08:48:00.25-05:00, and accepts no
 * other text. ixdtf_parse accepts each of these texts too, and writes the same record. If this
 * reader returns 0, the date, the time and the offset are present, and no other part is. */
IXDTF_CHECKED_ uint32_t ixdtf_parse_rfc3339(const uint8_t *text, size_t length, ixdtf_record *out);
/* Reads a date-time-ext of RFC 9557, section 4.1, and accepts no other text. The text begins with a
 * date-time of RFC 3339. A zone and annotations may follow in brackets. This reader accepts fewer
 * zones than ixdtf_parse. If the zone is a name, a / separates the parts of the name. Each part
 * must begin with a letter, "." or "_", as RFC 9557 says. No part may be "." or "..". If the zone
 * is an offset, it must have the form +05:30. This reader also refuses each annotation that
 * ixdtf_parse refuses. ixdtf_parse accepts each text that this reader accepts, and writes the same
 * record.
 * If this reader returns 0, the date, the time and the offset are present. */
IXDTF_CHECKED_ uint32_t ixdtf_parse_rfc9557(const uint8_t *text, size_t length, ixdtf_record *out);
/* Reads an offset, such as +05:30, into the field `offset`. The text Z is refused. If the
 * reader returns 0, offset.form is IXDTF_MINUTES or IXDTF_SECONDS, and no other part is present. */
IXDTF_CHECKED_ uint32_t ixdtf_parse_offset(const uint8_t *text, size_t length, ixdtf_record *out);
/* Reads a time zone into the field `zone`. The text is a name or an offset, such as Europe/Berlin
 * or +05:30, without brackets. If the reader returns 0, the zone is not critical, and no other part
 * is present. */
IXDTF_CHECKED_ uint32_t ixdtf_parse_identifier(const uint8_t *text, size_t length,
    ixdtf_record *out);
/* Reads the name of a time zone, such as Europe/Berlin, into the field `zone`. If the reader
 * returns 0, zone.form is IXDTF_NAME, the zone is not critical, and no other part is present. */
IXDTF_CHECKED_ uint32_t ixdtf_parse_iana_identifier(const uint8_t *text, size_t length,
    ixdtf_record *out);
/* Reads a duration, such as -P1Y2M3W4DT5H6M7.5S. */
IXDTF_CHECKED_ uint32_t ixdtf_parse_duration(const uint8_t *text, size_t length,
    ixdtf_duration *out);

/* Readers that follow the strict profile, a set of stricter rules. ixdtf_parse_month_day_strict
 * refuses the day 00, as in 11-00. ixdtf_parse_duration_strict refuses a repeated duration unit, as
 * in P1Y2Y. ixdtf_parse_time_strict accepts 1200: the strict profile has no day 00, so this text
 * cannot mean month 12, day 00. The other readers above have no strict variant, because the
 * strict profile does not change what they do. Two of the readers that list annotations have a
 * strict variant too. */
IXDTF_CHECKED_ uint32_t ixdtf_parse_month_day_strict(const uint8_t *text, size_t length,
    ixdtf_record *out);
IXDTF_CHECKED_ uint32_t ixdtf_parse_time_strict(const uint8_t *text, size_t length,
    ixdtf_record *out);
IXDTF_CHECKED_ uint32_t ixdtf_parse_duration_strict(const uint8_t *text, size_t length,
    ixdtf_duration *out);

/* Readers that list annotations. For each of them, there is a reader above whose name is the same,
 * but without _with_annotations. The reader that lists annotations reads as the reader above does,
 * with three differences:
 * - It accepts every annotation that has a key and a value, also a critical one.
 * - It writes no calendar into the record: if it returns 0, has_calendar is false.
 * - It lists the annotations of the text.
 * If the text is accepted, `count` is the number of all annotations of the text. If the text is
 * refused, `count` is the number of the annotations before its error.
 * The reader writes the annotations to the array `annotations`, in order. `room` is the capacity of
 * the array, in annotations. If `count` is greater than `room`, the array has only the first `room`
 * annotations. If `count` is less than `room`, the elements after the annotations are unchanged. So
 * a loop over the array must end at `count` or at `room`, whichever is smaller. If `count` is
 * greater than `room`, call the reader again with an array of `count` annotations. A text of n code
 * units has at most n / 5 annotations.
 * docs/C.md shows how to use the list, in "Handlers". */
IXDTF_CHECKED_ uint32_t ixdtf_parse_with_annotations(const uint8_t *text, size_t length,
    ixdtf_annotation *annotations, size_t room, size_t *count, ixdtf_record *out);
IXDTF_CHECKED_ uint32_t ixdtf_parse_year_month_with_annotations(const uint8_t *text, size_t length,
    ixdtf_annotation *annotations, size_t room, size_t *count, ixdtf_record *out);
IXDTF_CHECKED_ uint32_t ixdtf_parse_month_day_with_annotations(const uint8_t *text, size_t length,
    ixdtf_annotation *annotations, size_t room, size_t *count, ixdtf_record *out);
IXDTF_CHECKED_ uint32_t ixdtf_parse_time_with_annotations(const uint8_t *text, size_t length,
    ixdtf_annotation *annotations, size_t room, size_t *count, ixdtf_record *out);
IXDTF_CHECKED_ uint32_t ixdtf_parse_rfc9557_with_annotations(const uint8_t *text, size_t length,
    ixdtf_annotation *annotations, size_t room, size_t *count, ixdtf_record *out);
IXDTF_CHECKED_ uint32_t ixdtf_parse_month_day_with_annotations_strict(const uint8_t *text,
    size_t length, ixdtf_annotation *annotations, size_t room, size_t *count, ixdtf_record *out);
IXDTF_CHECKED_ uint32_t ixdtf_parse_time_with_annotations_strict(const uint8_t *text,
    size_t length, ixdtf_annotation *annotations, size_t room, size_t *count, ixdtf_record *out);

/* Checks a reply. A reader has listed the annotations of a text. For each of these annotations,
 * your program can pass one reply: the annotation itself, or another annotation that replaces it.
 * If your program passes no reply, the annotation is dropped. The function returns one of these:
 * - IXDTF_OK: the reply is accepted. If the key of the reply is u-ca, and no calendar was kept
 *   before, the function keeps the reply in `calendar`. Otherwise `calendar` is unchanged.
 * - IXDTF_UNRECOGNIZED_CRITICAL: the reply is critical, and its key is not u-ca.
 * - IXDTF_CRITICAL_DUPLICATE_CALENDAR: the key of the reply is u-ca, its value differs from the
 *   value of the calendar that was kept, and at least one of the two is critical.
 * After an error, `calendar` is unchanged.
 * Initialise `calendar` before the first reply. Pass the replies in the order of the list, and pass
 * no reply after the first error. If the function keeps a reply, calendar->value is the slice that
 * you passed as the value of this reply. It is valid as long as the memory to which it points
 * exists and is unchanged. But if the slice that you passed has the length 0, the function writes
 * another slice of length 0, whose pointer is not NULL. ixdtf_keep_calendar writes the calendar
 * into a record. ixdtf_reply_place returns the position of the error of a refused reply. */
IXDTF_CHECKED_ uint32_t ixdtf_reply(ixdtf_calendar *calendar, const ixdtf_annotation *reply);

/* Writes the canonical text of a record to the array `out`, in ASCII. The canonical text is the one
 * text that the printer writes for this record. `room` is the capacity of `out`, in bytes. The
 * function returns one of these:
 * - IXDTF_OK: the function has written the text to the first bytes of `out`, and the length of the
 *   text, in bytes, to `count`. The text is not NUL-terminated. The bytes of `out` after the text
 *   are unchanged. ixdtf_parse reads this text as the same record. So if two records differ in a
 *   value that matters, they have different canonical texts.
 * - IXDTF_NOT_PRINTABLE: there is no text for which ixdtf_parse writes this record. For example,
 *   the date is 30 February, no date is present, or a `form` has a value that is not named above.
 *   Another example: `fraction_digits` is not 0, and `fraction` has more digits than
 *   `fraction_digits` says. `out` and `count` are unchanged.
 * - IXDTF_TOO_SHORT: the record can be printed, but the array is shorter than its canonical text.
 *   `out` is unchanged. The function has written the length of the text, in bytes, to `count`, or
 *   SIZE_MAX if a size_t cannot hold this length.
 * If ixdtf_parse wrote the record for a text of n bytes, a capacity of n + 14 bytes is always
 * enough. The printer reads the slices of the record, so the text of the slices must still exist.
 * You can also write the fields of a record yourself. Then set all fields of each part that is
 * present. If a part is not present, set the field that says so: is_there, `form` or has_calendar.
 * The other fields of this part do not matter. */
IXDTF_CHECKED_ uint32_t ixdtf_print(const ixdtf_record *record, uint8_t *out, size_t room,
    size_t *count);

/* Writes the canonical text of a duration, such as -P1Y2DT3H0.5M, to the array `out`, in ASCII. The
 * arguments and the results have the same meaning as in ixdtf_print. ixdtf_parse_duration reads the
 * text as the same duration. So if two durations differ in a value that matters, they have
 * different canonical texts. The text begins with - if the duration is negative. The text has each
 * duration unit whose number is not 0. If the duration has a date, and all numbers of the date are
 * 0, the text has 0D.
 * If the duration has a time, the text has the last duration unit of the time, even if its number
 * is 0, because PT0H and PT0S are different durations. The function returns IXDTF_NOT_PRINTABLE in
 * these cases:
 * - The duration has neither a date nor a time.
 * - `time_form` has a value that is not named above.
 * - The duration has a time, `fraction_digits` is not 0, and `fraction` has more digits than
 *   `fraction_digits` says, or more than 18 digits.
 * If ixdtf_parse_duration wrote the duration for a text of n bytes, a capacity of n bytes is always
 * enough. A capacity of 376 bytes is enough for every duration. */
IXDTF_CHECKED_ uint32_t ixdtf_print_duration(const ixdtf_duration *duration, uint8_t *out,
    size_t room, size_t *count);

/* Write a canonical text to the array `out`, in ASCII. ixdtf_print_offset writes the text of an
 * offset, such as -05:00 or +05:30:10.5. ixdtf_print_zone writes the text of a time zone, such as
 * Europe/Berlin. The text of a zone has no brackets and no "!".
 * The arguments and the results have the same meaning as in ixdtf_print.
 * ixdtf_parse_offset reads the text of an offset as the same offset. ixdtf_parse_identifier reads
 * the text of a zone as the same zone, except that the zone is not critical.
 * ixdtf_print_offset returns IXDTF_NOT_PRINTABLE in these cases:
 * - `form` is neither IXDTF_MINUTES nor IXDTF_SECONDS.
 * - `hour` or `minute` is out of range.
 * - `form` is IXDTF_SECONDS, and `second` is out of range.
 * - `form` is IXDTF_SECONDS, `fraction_digits` is not 0, and `fraction` has more digits than
 *   `fraction_digits` says, or more than 18 digits.
 * ixdtf_print_zone returns IXDTF_NOT_PRINTABLE in these cases:
 * - `form` is neither IXDTF_NAME nor IXDTF_ZONE_OFFSET.
 * - `form` is IXDTF_ZONE_OFFSET, and `hour` or `minute` is out of range.
 * - `form` is IXDTF_NAME, and the grammar does not accept the name.
 * If ixdtf_parse_offset or ixdtf_parse_identifier wrote the offset or the zone for a text of n
 * bytes, a capacity of n + 3 bytes is always enough. */
IXDTF_CHECKED_ uint32_t ixdtf_print_offset(const ixdtf_offset *offset, uint8_t *out, size_t room,
    size_t *count);
IXDTF_CHECKED_ uint32_t ixdtf_print_zone(const ixdtf_zone *zone, uint8_t *out, size_t room,
    size_t *count);

/* Write the canonical text of a record to the array `out`, in ASCII. ixdtf_print_time writes the
 * text of a time, such as 08:48:00Z[u-ca=hebrew]. ixdtf_print_year_month writes the text of a year
 * and a month, such as 2024-03[Europe/Berlin]. ixdtf_print_month_day writes the text of a month and
 * a day, such as 03-02. The arguments and the results have the same meaning as in ixdtf_print.
 * Each of these printers belongs to one reader: ixdtf_print_time to ixdtf_parse_time, for example.
 * If this reader reads the canonical text, it writes the same record.
 * The fields of a record do not say which reader wrote it. So your program must know the reader,
 * and must call its printer. For example, the record of the text 11-01 is printed as 11-01 by
 * ixdtf_print_month_day, as 0000-11 by ixdtf_print_year_month, and as 0000-11-01 by ixdtf_print.
 * The functions return IXDTF_NOT_PRINTABLE if there is no text for which the reader writes this
 * record. For example, the record lacks a part, or has a part that it must not have (such as a date
 * in the record of a time). Two more examples: a `form` has a value that is not named above, or a
 * number is out of range.
 * If the reader wrote the record for a text of n bytes, a capacity of n + 12 bytes is always enough
 * for a time, and a capacity of n + 4 bytes for the other two. */
IXDTF_CHECKED_ uint32_t ixdtf_print_time(const ixdtf_record *record, uint8_t *out, size_t room,
    size_t *count);
IXDTF_CHECKED_ uint32_t ixdtf_print_year_month(const ixdtf_record *record, uint8_t *out,
    size_t room, size_t *count);
IXDTF_CHECKED_ uint32_t ixdtf_print_month_day(const ixdtf_record *record, uint8_t *out, size_t room,
    size_t *count);

/* The readers and ixdtf_reply for 16-bit text. No reader of 16-bit text accepts a code unit outside
 * 1 to 126. If a reader comes to such a code unit, the error is IXDTF_NON_ASCII_CODE_POINT. Apart
 * from this, these functions do what the functions for 8-bit text do. */
IXDTF_CHECKED_ uint32_t ixdtf16_parse(const uint16_t *text, size_t length, ixdtf16_record *out);
IXDTF_CHECKED_ uint32_t ixdtf16_parse_year_month(const uint16_t *text, size_t length,
    ixdtf16_record *out);
IXDTF_CHECKED_ uint32_t ixdtf16_parse_month_day(const uint16_t *text, size_t length,
    ixdtf16_record *out);
IXDTF_CHECKED_ uint32_t ixdtf16_parse_time(const uint16_t *text, size_t length,
    ixdtf16_record *out);
IXDTF_CHECKED_ uint32_t ixdtf16_parse_rfc3339(const uint16_t *text, size_t length,
    ixdtf16_record *out);
IXDTF_CHECKED_ uint32_t ixdtf16_parse_rfc9557(const uint16_t *text, size_t length,
    ixdtf16_record *out);
IXDTF_CHECKED_ uint32_t ixdtf16_parse_offset(const uint16_t *text, size_t length,
    ixdtf16_record *out);
IXDTF_CHECKED_ uint32_t ixdtf16_parse_identifier(const uint16_t *text, size_t length,
    ixdtf16_record *out);
IXDTF_CHECKED_ uint32_t ixdtf16_parse_iana_identifier(const uint16_t *text, size_t length,
    ixdtf16_record *out);
IXDTF_CHECKED_ uint32_t ixdtf16_parse_duration(const uint16_t *text, size_t length,
    ixdtf_duration *out);
IXDTF_CHECKED_ uint32_t ixdtf16_parse_month_day_strict(const uint16_t *text, size_t length,
    ixdtf16_record *out);
IXDTF_CHECKED_ uint32_t ixdtf16_parse_time_strict(const uint16_t *text, size_t length,
    ixdtf16_record *out);
IXDTF_CHECKED_ uint32_t ixdtf16_parse_duration_strict(const uint16_t *text, size_t length,
    ixdtf_duration *out);
IXDTF_CHECKED_ uint32_t ixdtf16_parse_with_annotations(const uint16_t *text, size_t length,
    ixdtf16_annotation *annotations, size_t room, size_t *count, ixdtf16_record *out);
IXDTF_CHECKED_ uint32_t ixdtf16_parse_year_month_with_annotations(const uint16_t *text,
    size_t length, ixdtf16_annotation *annotations, size_t room, size_t *count,
    ixdtf16_record *out);
IXDTF_CHECKED_ uint32_t ixdtf16_parse_month_day_with_annotations(const uint16_t *text,
    size_t length, ixdtf16_annotation *annotations, size_t room, size_t *count,
    ixdtf16_record *out);
IXDTF_CHECKED_ uint32_t ixdtf16_parse_time_with_annotations(const uint16_t *text, size_t length,
    ixdtf16_annotation *annotations, size_t room, size_t *count, ixdtf16_record *out);
IXDTF_CHECKED_ uint32_t ixdtf16_parse_rfc9557_with_annotations(const uint16_t *text,
    size_t length, ixdtf16_annotation *annotations, size_t room, size_t *count,
    ixdtf16_record *out);
IXDTF_CHECKED_ uint32_t ixdtf16_parse_month_day_with_annotations_strict(const uint16_t *text,
    size_t length, ixdtf16_annotation *annotations, size_t room, size_t *count,
    ixdtf16_record *out);
IXDTF_CHECKED_ uint32_t ixdtf16_parse_time_with_annotations_strict(const uint16_t *text,
    size_t length, ixdtf16_annotation *annotations, size_t room, size_t *count,
    ixdtf16_record *out);
IXDTF_CHECKED_ uint32_t ixdtf16_reply(ixdtf16_calendar *calendar, const ixdtf16_annotation *reply);

/* The printers for 16-bit text. They write the canonical text to the array `out`. Each character is
 * one 16-bit code unit, whose value is the ASCII number of the character. `room` is the capacity of
 * the array, and a printer writes the length of the text to `count`. Both are numbers of code
 * units. Apart from this, each printer does what a printer for 8-bit text does. To get the name of
 * that printer, leave out the 16. For example, ixdtf16_print does what ixdtf_print does, and
 * ixdtf16_parse reads the text as the same record. If a name or a calendar has a code unit outside
 * 1 to 126, no reader of 16-bit text writes this record. Then the printer returns
 * IXDTF_NOT_PRINTABLE.
 * The structs ixdtf_duration and ixdtf_offset have no slice of the text that was read, so they are
 * the same for 8-bit and 16-bit text. So ixdtf16_print_duration and ixdtf16_print_offset also print
 * a duration or an offset that a reader of 8-bit text wrote. */
IXDTF_CHECKED_ uint32_t ixdtf16_print(const ixdtf16_record *record, uint16_t *out, size_t room,
    size_t *count);
IXDTF_CHECKED_ uint32_t ixdtf16_print_duration(const ixdtf_duration *duration, uint16_t *out,
    size_t room, size_t *count);
IXDTF_CHECKED_ uint32_t ixdtf16_print_offset(const ixdtf_offset *offset, uint16_t *out, size_t room,
    size_t *count);
IXDTF_CHECKED_ uint32_t ixdtf16_print_zone(const ixdtf16_zone *zone, uint16_t *out, size_t room,
    size_t *count);
IXDTF_CHECKED_ uint32_t ixdtf16_print_time(const ixdtf16_record *record, uint16_t *out, size_t room,
    size_t *count);
IXDTF_CHECKED_ uint32_t ixdtf16_print_year_month(const ixdtf16_record *record, uint16_t *out,
    size_t room, size_t *count);
IXDTF_CHECKED_ uint32_t ixdtf16_print_month_day(const ixdtf16_record *record, uint16_t *out,
    size_t room, size_t *count);

/* Explain why a reader refuses a text. `reader` is the number of the reader, such as
 * IXDTF_READER_PARSE. The function reads the text again, as this reader does, and returns what the
 * reader returns. It writes four things to `out`: the error, the reason, the position, and which
 * part of the text is wrong. If the reader accepts the text, the function returns 0, and writes 0
 * to each field. If no reader has the number, the function returns IXDTF_NO_READER, and `out` is
 * unchanged.
 * The fields `begin` and `end` say which part of the text is wrong:
 * - If a code unit does not fit, the part is this code unit.
 * - If the text ends too early, the part is empty, and is at the end of the text. In all other
 *   cases, the part is not empty. So if the reader refuses the text, and `begin == end`, the text
 *   ends too early.
 * - If a number is out of range, the part is the number. In a duration, the position can be before
 *   the last digit of the number. The part still contains all digits of the number. It contains
 *   neither the fraction nor the unit.
 * - If the year is -000000, the part is the year with its sign.
 * - If a unit of a duration is not in order, the part is the unit with its number.
 * - If a time is ambiguous, because it begins like a month and a day or like a year and a month,
 *   the part is this beginning.
 * - If an annotation is refused because of its key or its value, the part is its bracket. If
 *   ixdtf_parse_rfc9557 refuses a time zone because of its form, the part is the bracket of the
 *   zone.
 * For a refused reply, call ixdtf_explain_reply or ixdtf16_explain_reply. */
IXDTF_CHECKED_ uint32_t ixdtf_explain(uint32_t reader, const uint8_t *text, size_t length,
    ixdtf_explanation *out);
IXDTF_CHECKED_ uint32_t ixdtf16_explain(uint32_t reader, const uint16_t *text, size_t length,
    ixdtf_explanation *out);

/* Writes a report for people to the array `out`, in UTF-8. `room` is the capacity of `out`, in
 * bytes. The report has three or four lines: a message in plain English, the text, a ^ under each
 * byte of the part that is wrong, and a hint, if there is one. A hint says what to change in the
 * text. There is at least one ^, and there are at most 24. If the part is empty, one ^ is after the
 * end of the text. For example:
 *     expected a digit of the month, which has two, found `-`
 *     2024-3-02
 *           ^
 *     hint: write the month as `03`
 * The report has no newline at its end. docs/FAULTS.md has the messages and the hints. If the text
 * is long, the second line shows only some of its characters: at most 48 characters before the
 * part, and at most 24 characters from the beginning of the part on. Two dots stand for the
 * characters that are left out. A control character is written as "." in this line. If the text is
 * not valid UTF-8, this line ends before the first byte that is not valid.
 * `explanation` is what ixdtf_explain wrote. The function uses only its fields `reason` and
 * `place`. `text` must be the complete text that was refused. If it has 16-bit code units, convert
 * it to UTF-8 first: see ixdtf16_to_utf8.
 * The function returns one of these:
 * - IXDTF_OK: the function has written the report to the first bytes of `out`, and its length, in
 *   bytes, to `count`. The report is not NUL-terminated. The bytes of `out` after it are unchanged.
 * - IXDTF_NOT_PRINTABLE: `reason` is not the number of a reason. `out` and `count` are unchanged.
 *   If ixdtf_explain returns the number of an error, it writes the number of a reason to `reason`.
 * - IXDTF_TOO_SHORT: the array is shorter than the report. `out` is unchanged. The function has
 *   written the length of the report, in bytes, to `count`.
 * An array of IXDTF_REPORT_ROOM bytes is always long enough, if ixdtf_explain wrote the explanation
 * for this text. */
#define IXDTF_REPORT_ROOM 1024
IXDTF_CHECKED_ uint32_t ixdtf_describe(const ixdtf_explanation *explanation, const uint8_t *text,
    size_t length, uint8_t *out, size_t room, size_t *count);

/* Writes only the hint of a report to the array `out`, in UTF-8. For the text 2024-3-02, the hint
 * is "write the month as `03`". The arguments are those of ixdtf_describe. The function returns the
 * same numbers as ixdtf_describe, in the same cases: for example, it returns IXDTF_TOO_SHORT if the
 * array is shorter than the hint. It writes the hint instead of the report, and the length of the
 * hint instead of the length of the report. If there is no hint, the function returns IXDTF_OK,
 * writes nothing to `out`, and writes 0 to `count`. An array of IXDTF_REPORT_ROOM bytes is always
 * long enough for a hint. */
IXDTF_CHECKED_ uint32_t ixdtf_hint(const ixdtf_explanation *explanation, const uint8_t *text,
    size_t length, uint8_t *out, size_t room, size_t *count);

/* Writes the name of a reason to `out`, as a slice: month_range for IXDTF_REASON_MONTH_RANGE. If no
 * reason has the number, the name is empty. The name is NUL-terminated. `length` does not count
 * this NUL. docs/FAULTS.md says for which texts a reason is given. Its section "Messages" lists the
 * reasons by their names in Rust. For example, month_range has the name MonthRange in Rust: each
 * word begins with a capital letter, and there is no _ between the words. */
void ixdtf_reason_line(uint32_t reason, ixdtf_text *out);

/* Writes the text of an error to `out`, as a slice. `error` is the number of the error, from 1 to
 * 46. For every other number, the text is empty. The text is the one that ixdtf_error_message
 * returns, but it is not NUL-terminated. */
void ixdtf_error_text(uint32_t error, ixdtf_text *out);

/* Writes the name of a number to `out`, as a slice. This header defines the names, such as
 * IXDTF_DATE_MONTH for 10 and IXDTF_OK for 0. `error` is 0, the number of an error, or 101 to 105.
 * For every other number, the name is empty. The name is NUL-terminated. `length` does not count
 * this NUL. */
void ixdtf_error_constant(uint32_t error, ixdtf_text *out);

/* Returns the nanoseconds of a fraction of a second, from 0 to 999999999. The arguments are the
 * fields `fraction` and `fraction_digits`. All digits after the ninth are dropped. If `digits` is
 * 0, the function returns 0. It also returns 0 if `fraction` has more than 18 digits, or more
 * digits than `digits` says. For example, it returns 0 if `fraction` is 10 and `digits` is 1. */
IXDTF_CHECKED_ uint32_t ixdtf_nanoseconds(uint64_t fraction, uint8_t digits);

/* Returns how many seconds local time is ahead of UTC. The number is negative if local time is
 * behind UTC. A fraction of a second is dropped. The function also returns 0 for Z, and if there is
 * no offset. So test `form` first. */
IXDTF_CHECKED_ int32_t ixdtf_offset_seconds(const ixdtf_offset *offset);

/* Writes the instant of a record. The instant is two numbers: the seconds since
 * 1970-01-01T00:00:00Z, rounded down, and the nanoseconds after these seconds, from 0 to 999999999.
 * Before 1970, the seconds are negative. Leap seconds are not counted: each day has 86400 seconds.
 * The function returns one of these:
 * - IXDTF_OK: the function has written the two numbers.
 * - IXDTF_NO_INSTANT: the record has no date, or no time, or neither an offset nor Z. The function
 *   has written nothing.
 * The instant is the local time of the record minus its offset. The time zone in brackets does not
 * matter: the function looks up no zone. The calendar does not matter either. Digits of a fraction
 * after the ninth are dropped. The second 60 is the same instant as the second 59.
 * You can also write the fields of the record yourself. Then the function accepts a day, an hour, a
 * minute or an offset that is out of range: hour 24 is hour 0 of the next day. A second above 59
 * counts as 59. The function also returns IXDTF_NO_INSTANT in these cases:
 * - The month is not 1 to 12.
 * - The `form` of the offset has a value that is not named above.
 * - In the time, or in an offset whose `form` is IXDTF_SECONDS, `fraction_digits` is not 0, and
 *   `fraction` has more digits than `fraction_digits` says, or more than 18 digits. */
IXDTF_CHECKED_ uint32_t ixdtf_instant(const ixdtf_record *record, int64_t *seconds,
    uint32_t *nanoseconds);
IXDTF_CHECKED_ uint32_t ixdtf16_instant(const ixdtf16_record *record, int64_t *seconds,
    uint32_t *nanoseconds);

/* Converts the fraction of a duration. The function writes two numbers: whole seconds, and the
 * nanoseconds after them, from 0 to 999999999. The fraction is a part of the last duration unit:
 * for PT1.5H, it is 1800 seconds and 0 nanoseconds. Without a fraction, both numbers are 0. They
 * are also 0 if the duration has no last unit of the time: if `time_form` is not IXDTF_LAST_HOURS,
 * IXDTF_LAST_MINUTES or IXDTF_LAST_SECONDS. The sign of the duration does not matter. The function
 * returns one of these:
 * - IXDTF_OK: the two numbers are exactly the fraction.
 * - IXDTF_NOT_EXACT: the duration has a last unit of the time, and one of three things is true.
 *   First, the fraction is not a whole number of nanoseconds, as in PT0.0000000001S. Second, the
 *   fraction has more than 18 digits, and the struct has only the first 18 of them. Third,
 *   `fraction_digits` is not 0, and `fraction` has more digits than `fraction_digits` says. After
 *   IXDTF_NOT_EXACT, the function has written nothing. */
IXDTF_CHECKED_ uint32_t ixdtf_duration_fraction(const ixdtf_duration *duration, uint32_t *seconds,
    uint32_t *nanoseconds);

/* Write a calendar into the fields `calendar` and `has_calendar` of a record. This is the calendar
 * that ixdtf_reply kept. If ixdtf_reply kept none, the field `calendar` gets the length 0, and
 * `has_calendar` becomes false. No other field of the record changes. */
void ixdtf_keep_calendar(ixdtf_record *record, const ixdtf_calendar *calendar);
void ixdtf16_keep_calendar(ixdtf16_record *record, const ixdtf16_calendar *calendar);

/* Returns the length of the canonical text that ixdtf_print writes, in bytes. It returns 0 if the
 * record cannot be printed, or if a size_t cannot hold the length. */
IXDTF_CHECKED_ size_t ixdtf_printed_length(const ixdtf_record *record);

/* Return the length of the canonical text that ixdtf_print_duration, ixdtf_print_offset and
 * ixdtf_print_zone write, in bytes. They return 0 if the duration, the offset or the zone cannot be
 * printed. A size_t can always hold the length. */
IXDTF_CHECKED_ size_t ixdtf_printed_duration_length(const ixdtf_duration *duration);
IXDTF_CHECKED_ size_t ixdtf_printed_offset_length(const ixdtf_offset *offset);
IXDTF_CHECKED_ size_t ixdtf_printed_zone_length(const ixdtf_zone *zone);

/* Return the length of the canonical text that ixdtf_print_time, ixdtf_print_year_month and
 * ixdtf_print_month_day write, in bytes. ixdtf_printed_time_length returns 0 if ixdtf_print_time
 * cannot print the record, or if a size_t cannot hold the length. The other two functions do the
 * same for their printers. */
IXDTF_CHECKED_ size_t ixdtf_printed_time_length(const ixdtf_record *record);
IXDTF_CHECKED_ size_t ixdtf_printed_year_month_length(const ixdtf_record *record);
IXDTF_CHECKED_ size_t ixdtf_printed_month_day_length(const ixdtf_record *record);

/* Return the length of the canonical text that ixdtf16_print and the other printers of 16-bit text
 * write, in code units. These functions return 0 if the printer cannot print the record or the
 * zone. The four functions for a record also return 0 if a size_t cannot hold the length. A size_t
 * can always hold the length of the text of a zone. For a duration or an offset,
 * ixdtf_printed_duration_length and ixdtf_printed_offset_length return the number of code units
 * too. */
IXDTF_CHECKED_ size_t ixdtf16_printed_length(const ixdtf16_record *record);
IXDTF_CHECKED_ size_t ixdtf16_printed_zone_length(const ixdtf16_zone *zone);
IXDTF_CHECKED_ size_t ixdtf16_printed_time_length(const ixdtf16_record *record);
IXDTF_CHECKED_ size_t ixdtf16_printed_year_month_length(const ixdtf16_record *record);
IXDTF_CHECKED_ size_t ixdtf16_printed_month_day_length(const ixdtf16_record *record);

/* Returns the version of the interface of the library. It must be IXDTF_INTERFACE_VERSION. */
IXDTF_CHECKED_ uint32_t ixdtf_interface_version(void);

/* The functions after this line are compiled into your program. They are tested, but not proved. */

/* Readers of C strings. There is one for each reader of 8-bit text. Its name is the name of that
 * reader, with _text at the end: ixdtf_parse_duration_strict_text, for example. It reads the bytes
 * before the NUL of the string, and does what the reader without _text does. For example:
 *     uint32_t ixdtf_parse_text(const char *text, ixdtf_record *out);
 *     uint32_t ixdtf_parse_with_annotations_text(const char *text, ixdtf_annotation *annotations,
 *         size_t room, size_t *count, ixdtf_record *out);
 * From C++17 on, each of them also accepts a std::string_view. */
#define IXDTF_READERS_(one) \
    one(ixdtf_parse, ixdtf_record) \
    one(ixdtf_parse_year_month, ixdtf_record) \
    one(ixdtf_parse_month_day, ixdtf_record) \
    one(ixdtf_parse_time, ixdtf_record) \
    one(ixdtf_parse_rfc3339, ixdtf_record) \
    one(ixdtf_parse_rfc9557, ixdtf_record) \
    one(ixdtf_parse_offset, ixdtf_record) \
    one(ixdtf_parse_identifier, ixdtf_record) \
    one(ixdtf_parse_iana_identifier, ixdtf_record) \
    one(ixdtf_parse_duration, ixdtf_duration) \
    one(ixdtf_parse_month_day_strict, ixdtf_record) \
    one(ixdtf_parse_time_strict, ixdtf_record) \
    one(ixdtf_parse_duration_strict, ixdtf_duration)
#define IXDTF_LISTING_READERS_(one) \
    one(ixdtf_parse_with_annotations) \
    one(ixdtf_parse_year_month_with_annotations) \
    one(ixdtf_parse_month_day_with_annotations) \
    one(ixdtf_parse_time_with_annotations) \
    one(ixdtf_parse_rfc9557_with_annotations) \
    one(ixdtf_parse_month_day_with_annotations_strict) \
    one(ixdtf_parse_time_with_annotations_strict)
#define IXDTF_OF_TEXT_(reader, type) \
    IXDTF_CHECKED_ static inline uint32_t reader##_text(const char *text, type *out) { \
        return reader(IXDTF_AT_(uint8_t, text), strlen(text), out); \
    }
#define IXDTF_LISTING_OF_TEXT_(reader) \
    IXDTF_CHECKED_ static inline uint32_t reader##_text(const char *text, \
        ixdtf_annotation *annotations, size_t room, size_t *count, ixdtf_record *out) { \
        return reader(IXDTF_AT_(uint8_t, text), strlen(text), annotations, room, count, out); \
    }
IXDTF_READERS_(IXDTF_OF_TEXT_)
IXDTF_LISTING_READERS_(IXDTF_LISTING_OF_TEXT_)
#undef IXDTF_OF_TEXT_
#undef IXDTF_LISTING_OF_TEXT_

/* Returns the name that ixdtf_error_constant writes, as a C string. For a number without a name,
 * the string is empty. */
static inline const char *ixdtf_error_name(uint32_t error) {
    ixdtf_text name = IXDTF_TEXT;
    ixdtf_error_constant(error, &name);
    return name.at;
}

/* Returns the text of an error as a C string, such as "Invalid character while parsing month
 * value.". For the numbers 1 to 46, it is the text that ixdtf_error_text writes. The numbers 101 to
 * 105 have a text too. For every other number, the string is empty. */
static inline const char *ixdtf_error_message(uint32_t error) {
    switch (error) {
    case IXDTF_IMPL_ASSERT:
        return "Implementation error: this error must not throw.";
    case IXDTF_NON_ASCII_CODE_POINT:
        return "Code point was not ASCII";
    case IXDTF_PARSE_FLOAT:
        return "Invalid float while parsing fraction part.";
    case IXDTF_ABRUPT_END:
        return "Parsing ended abruptly.";
    case IXDTF_INVALID_END:
        return "Unexpected character found after parsing was completed.";
    case IXDTF_INVALID_MONTH_RANGE:
        return "Parsed month value not in a valid range.";
    case IXDTF_INVALID_DAY_RANGE:
        return "Parsed day value not in a valid range.";
    case IXDTF_DATE_YEAR:
        return "Invalid chracter while parsing year value.";
    case IXDTF_DATE_EXTENDED_YEAR:
        return "Invalid character while parsing extended year value.";
    case IXDTF_DATE_MONTH:
        return "Invalid character while parsing month value.";
    case IXDTF_DATE_DAY:
        return "Invalid character while parsing day value.";
    case IXDTF_DATE_UNEXPECTED_END:
        return "Unexpected end while parsing a date value.";
    case IXDTF_TIME_REQUIRED:
        return "Time is required.";
    case IXDTF_TIME_HOUR:
        return "Invalid character while parsing hour value.";
    case IXDTF_TIME_MINUTE_SECOND:
        return "Invalid character while parsing minute/second value in (0, 59] range.";
    case IXDTF_TIME_SECOND:
        return "Invalid character while parsing second value in (0, 60] range.";
    case IXDTF_FRACTION_PART:
        return "Invalid character while parsing fraction part value.";
    case IXDTF_DATE_SEPARATOR:
        return "Invalid character while parsing date separator.";
    case IXDTF_TIME_SEPARATOR:
        return "Invalid character while parsing time separator.";
    case IXDTF_DECIMAL_SEPARATOR:
        return "Invalid character while parsing decimal separator.";
    case IXDTF_INVALID_ANNOTATION:
        return "Invalid annotation.";
    case IXDTF_ANNOTATION_OPEN:
        return "Invalid annotation open character.";
    case IXDTF_ANNOTATION_CLOSE:
        return "Invalid annotation close character.";
    case IXDTF_ANNOTATION_CHAR:
        return "Invalid annotation character.";
    case IXDTF_ANNOTATION_KEY_VALUE_SEPARATOR:
        return "Invalid annotation key-value separator character.";
    case IXDTF_ANNOTATION_KEY_LEADING_CHAR:
        return "Invalid annotation key leading character.";
    case IXDTF_ANNOTATION_KEY_CHAR:
        return "Invalid annotation key character.";
    case IXDTF_ANNOTATION_VALUE_CHAR_POST_HYPHEN:
        return "Expected annotation value character must exist after hyphen.";
    case IXDTF_ANNOTATION_VALUE_CHAR:
        return "Invalid annotation value character.";
    case IXDTF_INVALID_MINUTE_PRECISION_OFFSET:
        return "Offset must be minute precision";
    case IXDTF_CRITICAL_DUPLICATE_CALENDAR:
        return "Duplicate calendars cannot be provided when one is critical.";
    case IXDTF_UNRECOGNIZED_CRITICAL:
        return "Unrecognized annoation is marked as critical.";
    case IXDTF_TZ_LEADING_CHAR:
        return "Invalid time zone leading character.";
    case IXDTF_IANA_CHAR_POST_SEPARATOR:
        return "Expected time zone character after '/'.";
    case IXDTF_IANA_CHAR:
        return "Invalid IANA time zone character after '/'.";
    case IXDTF_UTC_TIME_SEPARATOR:
        return "Invalid time zone character after '/'.";
    case IXDTF_OFFSET_NEEDS_SIGN:
        return "UTC offset needs a sign";
    case IXDTF_MONTH_DAY_HYPHEN:
        return "MonthDay must begin with a month or '--'";
    case IXDTF_DURATION_DISGNATOR:
        return "Invalid duration designator.";
    case IXDTF_DURATION_VALUE_EXCEEDED_RANGE:
        return "Provided Duration field value exceeds supported range.";
    case IXDTF_DATE_DURATION_PART_ORDER:
        return "Invalid date duration part order.";
    case IXDTF_TIME_DURATION_PART_ORDER:
        return "Invalid time duration part order.";
    case IXDTF_TIME_DURATION_DESIGNATOR:
        return "Invalid time duration designator.";
    case IXDTF_AMBIGUOUS_TIME_MONTH_DAY:
        return "Time is ambiguous with MonthDay";
    case IXDTF_AMBIGUOUS_TIME_YEAR_MONTH:
        return "Time is ambiguous with YearMonth";
    case IXDTF_INVALID_MONTH_DAY:
        return "MonthDay was not valid.";
    case IXDTF_NOT_PRINTABLE:
        return "No text stands for the record.";
    case IXDTF_TOO_SHORT:
        return "There is less room than the text takes.";
    case IXDTF_NO_INSTANT:
        return "The record has no instant.";
    case IXDTF_NOT_EXACT:
        return "The fraction is not known as a whole number of nanoseconds.";
    case IXDTF_NO_READER:
        return "No reader has the number.";
    default:
        return "";
    }
}

/* Return the position of the error of a refused reply: the number of code units before the error.
 * The position is directly after the ] of the annotation to which the reply belongs. `text` is the
 * text that was read. `listed` is this annotation, as the reader listed it. */
static inline size_t ixdtf_reply_place(const uint8_t *text, const ixdtf_annotation *listed) {
    return IXDTF_AS_(size_t, listed->value.at + listed->value.length - text) + 1;
}
static inline size_t ixdtf16_reply_place(const uint16_t *text, const ixdtf16_annotation *listed) {
    return IXDTF_AS_(size_t, listed->value.at + listed->value.length - text) + 1;
}

/* Returns the name that ixdtf_reason_line writes, as a C string. For a number without a name, the
 * string is empty. */
static inline const char *ixdtf_reason_name(uint32_t reason) {
    ixdtf_text name = IXDTF_TEXT;
    ixdtf_reason_line(reason, &name);
    return name.at;
}

/* Explains why the reader with the number `reader` refuses a C string, as ixdtf_explain does. From
 * C++17 on, this function also accepts a std::string_view. */
IXDTF_CHECKED_ static inline uint32_t ixdtf_explain_text(uint32_t reader, const char *text,
    ixdtf_explanation *out) {
    return ixdtf_explain(reader, IXDTF_AT_(uint8_t, text), strlen(text), out);
}

/* Return the explanation of a refused reply. `text` is the text that was read. `listed` is the
 * annotation to which the reply belongs, as the reader listed it. `error` is what ixdtf_reply
 * returned, IXDTF_UNRECOGNIZED_CRITICAL or IXDTF_CRITICAL_DUPLICATE_CALENDAR. The part that is
 * wrong is the bracket of the annotation. */
static inline ixdtf_explanation ixdtf_explain_reply(const uint8_t *text,
    const ixdtf_annotation *listed, uint32_t error) {
    ixdtf_explanation it = IXDTF_EXPLANATION;
    it.place = ixdtf_reply_place(text, listed);
    it.end = it.place;
    it.begin = IXDTF_AS_(size_t, listed->key.at - text) - (listed->is_critical ? 2 : 1);
    it.error = error;
    it.reason = error == IXDTF_UNRECOGNIZED_CRITICAL
        ? IXDTF_AS_(uint32_t, IXDTF_REASON_UNRECOGNIZED_CRITICAL)
        : IXDTF_AS_(uint32_t, IXDTF_REASON_CRITICAL_DUPLICATE_CALENDAR);
    return it;
}
static inline ixdtf_explanation ixdtf16_explain_reply(const uint16_t *text,
    const ixdtf16_annotation *listed, uint32_t error) {
    ixdtf_explanation it = IXDTF_EXPLANATION;
    it.place = ixdtf16_reply_place(text, listed);
    it.end = it.place;
    it.begin = IXDTF_AS_(size_t, listed->key.at - text) - (listed->is_critical ? 2 : 1);
    it.error = error;
    it.reason = error == IXDTF_UNRECOGNIZED_CRITICAL
        ? IXDTF_AS_(uint32_t, IXDTF_REASON_UNRECOGNIZED_CRITICAL)
        : IXDTF_AS_(uint32_t, IXDTF_REASON_CRITICAL_DUPLICATE_CALENDAR);
    return it;
}

/* Converts 16-bit code units, UTF-16, to UTF-8. Writes the bytes to `out`, which must have room for
 * 3 * length bytes, and returns how many it has written. A surrogate without the other one of its
 * pair is written as U+FFFD. Each code unit before the error of a reader has a value from 1 to
 * 126, so it is one byte in UTF-8. So an explanation from ixdtf16_explain is also right for the
 * converted text. You can pass this explanation and the converted text to ixdtf_describe. */
static inline size_t ixdtf16_to_utf8(const uint16_t *text, size_t length, uint8_t *out) {
    size_t i, count = 0;
    for (i = 0; i < length; i++) {
        uint32_t one = text[i];
        if (one >= 0xd800 && one < 0xdc00 && i + 1 < length && text[i + 1] >= 0xdc00
            && text[i + 1] < 0xe000) {
            i++;
            one = 0x10000 + ((one - 0xd800) << 10) + (text[i] - 0xdc00u);
            out[count++] = IXDTF_AS_(uint8_t, 0xf0 | (one >> 18));
            out[count++] = IXDTF_AS_(uint8_t, 0x80 | ((one >> 12) & 0x3f));
        } else if (one >= 0x800) {
            one = one >= 0xd800 && one < 0xe000 ? 0xfffd : one;
            out[count++] = IXDTF_AS_(uint8_t, 0xe0 | (one >> 12));
        } else if (one >= 0x80) {
            out[count++] = IXDTF_AS_(uint8_t, 0xc0 | (one >> 6));
        }
        if (one >= 0x800) {
            out[count++] = IXDTF_AS_(uint8_t, 0x80 | ((one >> 6) & 0x3f));
        }
        out[count++] = IXDTF_AS_(uint8_t, one >= 0x80 ? 0x80 | (one & 0x3f) : one);
    }
    return count;
}

/* Set each of the `room` elements of an array to IXDTF_ANNOTATION or IXDTF16_ANNOTATION. You can
 * also initialise the elements with zeros. */
static inline void ixdtf_set_annotations(ixdtf_annotation *annotations, size_t room) {
    const ixdtf_annotation none = IXDTF_ANNOTATION;
    size_t i;
    for (i = 0; i < room; i++) {
        annotations[i] = none;
    }
}
static inline void ixdtf16_set_annotations(ixdtf16_annotation *annotations, size_t room) {
    const ixdtf16_annotation none = IXDTF16_ANNOTATION;
    size_t i;
    for (i = 0; i < room; i++) {
        annotations[i] = none;
    }
}

/* Asserts that this compiler lays out each struct as the library does. If the layout differs, the
 * header does not compile. */
#if defined(__cplusplus) && __cplusplus >= 201103L
#define IXDTF_ASSERT_(what, name) static_assert(what, #name)
#elif !defined(__cplusplus) && defined(__STDC_VERSION__) && __STDC_VERSION__ >= 201112L
#define IXDTF_ASSERT_(what, name) _Static_assert(what, #name)
#else
#define IXDTF_ASSERT_(what, name) typedef char ixdtf_asserted_##name[(what) ? 1 : -1]
#endif
#define IXDTF_SIZE_(type, size) IXDTF_ASSERT_(sizeof(type) == (size), type##_size)
#define IXDTF_PLACE_(type, field, place) \
    IXDTF_ASSERT_(offsetof(type, field) == (place), type##_##field)
IXDTF_ASSERT_(sizeof(void *) == 8 && sizeof(size_t) == 8 && sizeof(bool) == 1, pointers);
#define IXDTF_SLICE_(type) \
    IXDTF_SIZE_(type, 16); IXDTF_PLACE_(type, at, 0); IXDTF_PLACE_(type, length, 8)
IXDTF_SLICE_(ixdtf_text);
IXDTF_SLICE_(ixdtf_units);
IXDTF_SLICE_(ixdtf16_units);
IXDTF_SIZE_(ixdtf_date, 8);
IXDTF_PLACE_(ixdtf_date, year, 0);
IXDTF_PLACE_(ixdtf_date, month, 4);
IXDTF_PLACE_(ixdtf_date, day, 5);
IXDTF_PLACE_(ixdtf_date, is_there, 6);
IXDTF_SIZE_(ixdtf_time, 16);
IXDTF_PLACE_(ixdtf_time, fraction, 0);
IXDTF_PLACE_(ixdtf_time, fraction_digits, 8);
IXDTF_PLACE_(ixdtf_time, hour, 9);
IXDTF_PLACE_(ixdtf_time, minute, 10);
IXDTF_PLACE_(ixdtf_time, second, 11);
IXDTF_PLACE_(ixdtf_time, is_there, 12);
IXDTF_SIZE_(ixdtf_offset, 16);
IXDTF_PLACE_(ixdtf_offset, fraction, 0);
IXDTF_PLACE_(ixdtf_offset, fraction_digits, 8);
IXDTF_PLACE_(ixdtf_offset, form, 9);
IXDTF_PLACE_(ixdtf_offset, is_negative, 10);
IXDTF_PLACE_(ixdtf_offset, hour, 11);
IXDTF_PLACE_(ixdtf_offset, minute, 12);
IXDTF_PLACE_(ixdtf_offset, second, 13);
#define IXDTF_ZONE_PLACES_(type) \
    IXDTF_SIZE_(type, 24); IXDTF_PLACE_(type, name, 0); IXDTF_PLACE_(type, form, 16); \
    IXDTF_PLACE_(type, is_critical, 17); IXDTF_PLACE_(type, is_negative, 18); \
    IXDTF_PLACE_(type, hour, 19); IXDTF_PLACE_(type, minute, 20)
IXDTF_ZONE_PLACES_(ixdtf_zone);
IXDTF_ZONE_PLACES_(ixdtf16_zone);
#define IXDTF_RECORD_PLACES_(type) \
    IXDTF_SIZE_(type, 112); IXDTF_PLACE_(type, date, 0); IXDTF_PLACE_(type, time, 8); \
    IXDTF_PLACE_(type, offset, 24); IXDTF_PLACE_(type, zone, 40); \
    IXDTF_PLACE_(type, calendar, 64); IXDTF_PLACE_(type, has_calendar, 80); \
    IXDTF_PLACE_(type, location, 88); IXDTF_PLACE_(type, place, 104)
IXDTF_RECORD_PLACES_(ixdtf_record);
IXDTF_RECORD_PLACES_(ixdtf16_record);
#define IXDTF_ANNOTATION_PLACES_(type) \
    IXDTF_SIZE_(type, 40); IXDTF_PLACE_(type, key, 0); IXDTF_PLACE_(type, value, 16); \
    IXDTF_PLACE_(type, is_critical, 32)
IXDTF_ANNOTATION_PLACES_(ixdtf_annotation);
IXDTF_ANNOTATION_PLACES_(ixdtf16_annotation);
#define IXDTF_CALENDAR_PLACES_(type) \
    IXDTF_SIZE_(type, 24); IXDTF_PLACE_(type, value, 0); IXDTF_PLACE_(type, is_critical, 16); \
    IXDTF_PLACE_(type, is_there, 17)
IXDTF_CALENDAR_PLACES_(ixdtf_calendar);
IXDTF_CALENDAR_PLACES_(ixdtf16_calendar);
IXDTF_SIZE_(ixdtf_duration, 80);
IXDTF_PLACE_(ixdtf_duration, days, 0);
IXDTF_PLACE_(ixdtf_duration, hours, 8);
IXDTF_PLACE_(ixdtf_duration, minutes, 16);
IXDTF_PLACE_(ixdtf_duration, seconds, 24);
IXDTF_PLACE_(ixdtf_duration, fraction, 32);
IXDTF_PLACE_(ixdtf_duration, years, 40);
IXDTF_PLACE_(ixdtf_duration, months, 44);
IXDTF_PLACE_(ixdtf_duration, weeks, 48);
IXDTF_PLACE_(ixdtf_duration, fraction_digits, 52);
IXDTF_PLACE_(ixdtf_duration, time_form, 53);
IXDTF_PLACE_(ixdtf_duration, has_date, 54);
IXDTF_PLACE_(ixdtf_duration, is_negative, 55);
IXDTF_PLACE_(ixdtf_duration, location, 56);
IXDTF_PLACE_(ixdtf_duration, place, 72);
IXDTF_SIZE_(ixdtf_explanation, 32);
IXDTF_PLACE_(ixdtf_explanation, place, 0);
IXDTF_PLACE_(ixdtf_explanation, begin, 8);
IXDTF_PLACE_(ixdtf_explanation, end, 16);
IXDTF_PLACE_(ixdtf_explanation, error, 24);
IXDTF_PLACE_(ixdtf_explanation, reason, 28);
#undef IXDTF_SLICE_
#undef IXDTF_ZONE_PLACES_
#undef IXDTF_RECORD_PLACES_
#undef IXDTF_ANNOTATION_PLACES_
#undef IXDTF_CALENDAR_PLACES_
#undef IXDTF_SIZE_
#undef IXDTF_PLACE_
#undef IXDTF_ASSERT_

#ifdef __cplusplus
}
#endif

#if defined(__cplusplus) && __cplusplus >= 201703L
#include <string_view>

/* The readers whose names end in _text, for a std::string_view. */
#define IXDTF_OF_VIEW_(reader, type) \
    [[nodiscard]] inline uint32_t reader##_text(std::string_view text, type *out) { \
        return reader(IXDTF_AT_(uint8_t, text.data()), text.size(), out); \
    }
#define IXDTF_LISTING_OF_VIEW_(reader) \
    [[nodiscard]] inline uint32_t reader##_text(std::string_view text, \
        ixdtf_annotation *annotations, size_t room, size_t *count, ixdtf_record *out) { \
        return reader(IXDTF_AT_(uint8_t, text.data()), text.size(), annotations, room, count, \
            out); \
    }
IXDTF_READERS_(IXDTF_OF_VIEW_)
IXDTF_LISTING_READERS_(IXDTF_LISTING_OF_VIEW_)
[[nodiscard]] inline uint32_t ixdtf_explain_text(uint32_t reader, std::string_view text,
    ixdtf_explanation *out) {
    return ixdtf_explain(reader, IXDTF_AT_(uint8_t, text.data()), text.size(), out);
}
#undef IXDTF_OF_VIEW_
#undef IXDTF_LISTING_OF_VIEW_

/* Return a slice as a std::string_view. The view is valid as long as the slice. */
inline std::string_view ixdtf_view(ixdtf_units units) {
    return std::string_view(reinterpret_cast<const char *>(units.at), units.length);
}
inline std::string_view ixdtf_view(ixdtf_text text) {
    return std::string_view(text.at, text.length);
}
#endif
#undef IXDTF_READERS_
#undef IXDTF_LISTING_READERS_
#endif
