/* A wrong library, for test_compare_records.py. The test compiles main.c with this header before all others. It replaces functions of the header
 * ixdtf.h by macros, which change what the function gets or what it returns. The environment variable FAULT names the change. Without it, there
 * is no change. */
#include "ixdtf.h"
#include <stdlib.h>

static bool has_fault(const char *fault) {
    const char *name = getenv("FAULT");
    return name && !strcmp(name, fault);
}

/* Changes what a printer returns and writes. */
static uint32_t wrong_print(uint32_t result, uint8_t *out, size_t room, size_t *count) {
    if (result == IXDTF_OK) {
        out[*count - 1] ^= has_fault("another text");
        if (room > *count && has_fault("a code unit after the text")) {
            out[*count] = 0;
        } else if (room > *count && has_fault("a text that is too long")) {
            out[(*count)++] = '0';
        } else if (room == *count && has_fault("no text that fills the array")) {
            return IXDTF_TOO_SHORT;
        }
        return has_fault("no text") ? IXDTF_NOT_PRINTABLE : IXDTF_OK;
    } else if (result == IXDTF_TOO_SHORT) {
        *count -= has_fault("a count that is too small");
        if (room && has_fault("the beginning of the text")) {
            out[0] = 'P';
        }
        return has_fault("a short array is accepted") ? IXDTF_OK : has_fault("a short array has no text") ? IXDTF_NOT_PRINTABLE : result;
    }
    if (has_fault("a count without a text")) {
        *count = 0;
    } else if (room && has_fault("a code unit without a text")) {
        out[0] = 'P';
    } else if (!room && has_fault("an array without elements is too short")) {
        return IXDTF_TOO_SHORT;
    }
    return result;
}

static size_t wrong_length(size_t length) {
    return has_fault("a length that is too great") ? length + 1 : has_fault("no length") ? 0 : length;
}

/* Gives a number that is out of range the greatest number of its range. So it is printed. */
static void clamp(const char *fault, uint8_t *number, uint8_t most) {
    if (*number > most && has_fault(fault)) {
        *number = most;
    }
}

/* Changes the fraction that is printed. */
static void wrong_fraction(uint64_t *fraction, uint8_t *digits) {
    if (*digits > 18 && has_fault("18 digits")) {
        *digits = 18;
    } else if (*digits == 255 && has_fault("254 digits")) {
        *digits = 254;
    } else if (*digits < 18 && *fraction > 99999999999999999 && has_fault("a fraction that is too great")) {
        *fraction = 0;
    } else if (*digits && !*fraction && has_fault("a fraction of zeros")) {
        *digits = 0;
    }
}

static void wrong_offset(ixdtf_offset *offset) {
    wrong_fraction(&offset->fraction, &offset->fraction_digits);
    clamp("hour of an offset", &offset->hour, 23);
    clamp("minute of an offset", &offset->minute, 59);
    if (offset->form == IXDTF_SECONDS) {
        clamp("second of an offset", &offset->second, 59);
    }
    clamp("form of an offset", &offset->form, IXDTF_SECONDS);
    if (offset->hour == 0 && offset->minute == 0 && has_fault("sign of an offset")) {
        offset->is_negative = false;
    }
}

static void wrong_zone(ixdtf_zone *zone) {
    static const uint8_t name[] = "UTC";
    clamp("hour of a zone", &zone->hour, 23);
    clamp("minute of a zone", &zone->minute, 59);
    clamp("form of a zone", &zone->form, IXDTF_ZONE_OFFSET);
    if (has_fault("critical zone")) {
        zone->is_critical = false;
    }
    if (zone->name.length > 300 && has_fault("long name")) {
        zone->name.length = 300;
    }
    if (zone->form == IXDTF_NAME && (!zone->name.length || zone->name.at[zone->name.length - 1] == '/') && has_fault("name that is not a Name")) {
        zone->name.at = name;
        zone->name.length = 3;
    }
}

/* The record that is printed. */
static const ixdtf_record *wrong_record(const ixdtf_record *from) {
    static ixdtf_record record;
    record = *from;
    if (record.date.month == 2 && record.date.day == 29 && has_fault("29 February")) {
        record.date.day = 28;
    }
    clamp("day", &record.date.day, 28);
    clamp("month", &record.date.month, 12);
    if (record.date.year > 999999 && has_fault("year")) {
        record.date.year = 999999;
    }
    clamp("hour", &record.time.hour, 23);
    clamp("minute", &record.time.minute, 59);
    clamp("second", &record.time.second, 60);
    clamp("second 60", &record.time.second, 59);
    wrong_fraction(&record.time.fraction, &record.time.fraction_digits);
    wrong_offset(&record.offset);
    wrong_zone(&record.zone);
    if (has_fault("calendar")) {
        record.has_calendar = false;
    }
    if (record.calendar.length && record.calendar.at[record.calendar.length - 1] == '-' && has_fault("calendar that is not a Value")) {
        record.calendar.length--;
    }
    if (has_fault("offset without a time") && !record.time.is_there) {
        record.offset.form = IXDTF_NO_OFFSET;
    }
    return &record;
}

static const ixdtf_offset *wrong_lone_offset(const ixdtf_offset *from) {
    static ixdtf_offset offset;
    offset = *from;
    wrong_offset(&offset);
    return &offset;
}

static const ixdtf_zone *wrong_lone_zone(const ixdtf_zone *from) {
    static ixdtf_zone zone;
    zone = *from;
    wrong_zone(&zone);
    return &zone;
}

static const ixdtf_duration *wrong_duration(const ixdtf_duration *from) {
    static ixdtf_duration duration;
    duration = *from;
    wrong_fraction(&duration.fraction, &duration.fraction_digits);
    clamp("form of a time", &duration.time_form, IXDTF_LAST_SECONDS);
    if (duration.has_date && !duration.years && !duration.months && !duration.weeks && !duration.days && has_fault("date of zeros")) {
        duration.has_date = false;
    }
    if (duration.time_form == IXDTF_LAST_SECONDS && !duration.seconds && !duration.fraction_digits && has_fault("last unit")) {
        duration.time_form = IXDTF_LAST_MINUTES;
    }
    if (duration.days > 9223372036854775807 && has_fault("64 bits")) {
        duration.days = 9223372036854775807;
    }
    return &duration;
}

/* Changes a record that was read. */
static uint32_t wrong_read(uint32_t error, ixdtf_record *record) {
    static uint8_t name[5000];
    if (error) {
        record->date.day ^= has_fault("a change by a reader that refuses");
        return error;
    }
    if (record->zone.name.length && has_fault("a name that is copied")) {
        memcpy(name, record->zone.name.at, record->zone.name.length);
        record->zone.name.at = name;
    }
    record->zone.name.length -= record->zone.name.length && has_fault("a name that is read");
    record->calendar.length -= record->calendar.length && has_fault("a calendar that is read");
    record->time.fraction_digits ^= has_fault("digits that are read");
    record->offset.fraction ^= record->offset.fraction_digits > 17 && has_fault("a fraction that is read");
    record->offset.second ^= has_fault("a second without seconds") && record->offset.form != IXDTF_SECONDS;
    record->date.year += has_fault("a year that is read") && record->date.year == -999999;
    record->zone.is_critical ^= has_fault("a critical zone that is read");
    record->place += has_fault("a place");
    return has_fault("an error") ? IXDTF_DATE_DAY : 0;
}

static uint32_t wrong_duration_read(uint32_t error, ixdtf_duration *duration) {
    duration->weeks += !error && has_fault("weeks that are read");
    return error;
}

static uint32_t wrong_wide_read(uint32_t error, ixdtf16_record *record) {
    record->time.minute ^= !error && has_fault("a minute of 16-bit text");
    return error;
}

static inline uint32_t wrong_wide_print(uint32_t result, uint16_t *out) {
    if (!result) {
        out[0] |= has_fault("another 16-bit text") ? 256 : 0;
    }
    return result;
}

#define ixdtf_print(record, out, room, count) wrong_print(ixdtf_print(wrong_record(record), out, room, count), out, room, count)
#define ixdtf_print_time(record, out, room, count) wrong_print(ixdtf_print_time(wrong_record(record), out, room, count), out, room, count)
#define ixdtf_print_year_month(record, out, room, count) wrong_print(ixdtf_print_year_month(wrong_record(record), out, room, count), out, room, count)
#define ixdtf_print_month_day(record, out, room, count) wrong_print(ixdtf_print_month_day(wrong_record(record), out, room, count), out, room, count)
#define ixdtf_print_offset(offset, out, room, count) wrong_print(ixdtf_print_offset(wrong_lone_offset(offset), out, room, count), out, room, count)
#define ixdtf_print_zone(zone, out, room, count) wrong_print(ixdtf_print_zone(wrong_lone_zone(zone), out, room, count), out, room, count)
#define ixdtf_print_duration(duration, out, room, count) wrong_print(ixdtf_print_duration(wrong_duration(duration), out, room, count), out, room, count)
#define ixdtf_printed_length(record) wrong_length(ixdtf_printed_length(wrong_record(record)))
#define ixdtf_printed_time_length(record) wrong_length(ixdtf_printed_time_length(wrong_record(record)))
#define ixdtf_printed_year_month_length(record) wrong_length(ixdtf_printed_year_month_length(wrong_record(record)))
#define ixdtf_printed_month_day_length(record) wrong_length(ixdtf_printed_month_day_length(wrong_record(record)))
#define ixdtf_printed_offset_length(offset) wrong_length(ixdtf_printed_offset_length(wrong_lone_offset(offset)))
#define ixdtf_printed_zone_length(zone) wrong_length(ixdtf_printed_zone_length(wrong_lone_zone(zone)))
#define ixdtf_printed_duration_length(duration) wrong_length(ixdtf_printed_duration_length(wrong_duration(duration)))
#define ixdtf_parse(text, length, record) wrong_read(ixdtf_parse(text, length, record), record)
#define ixdtf_parse_offset(text, length, record) wrong_read(ixdtf_parse_offset(text, length, record), record)
#define ixdtf_parse_identifier(text, length, record) wrong_read(ixdtf_parse_identifier(text, length, record), record)
#define ixdtf_parse_time_strict(text, length, record) \
    (has_fault("the strict reader of times") ? IXDTF_AMBIGUOUS_TIME_MONTH_DAY : ixdtf_parse_time_strict(text, length, record))
#define ixdtf_parse_month_day_strict(text, length, record) \
    wrong_read(has_fault("day 00") ? ixdtf_parse_month_day(text, length, record) : ixdtf_parse_month_day_strict(text, length, record), record)
#define ixdtf_parse_rfc3339(text, length, record) \
    (has_fault("RFC 3339") ? ixdtf_parse_rfc9557(text, length, record) : ixdtf_parse_rfc3339(text, length, record))
#define ixdtf_parse_rfc9557(text, length, record) \
    (has_fault("RFC 9557") ? ixdtf_parse(text, length, record) : ixdtf_parse_rfc9557(text, length, record))
#define ixdtf_parse_iana_identifier(text, length, record) \
    (has_fault("names") ? ixdtf_parse_identifier(text, length, record) : ixdtf_parse_iana_identifier(text, length, record))
#define ixdtf_parse_duration(text, length, duration) wrong_duration_read(ixdtf_parse_duration(text, length, duration), duration)
#define ixdtf16_parse_time(text, length, record) wrong_wide_read(ixdtf16_parse_time(text, length, record), record)
#if IXDTF_INTERFACE_REVISION >= 4
#define ixdtf16_print_zone(zone, out, room, count) wrong_wide_print(ixdtf16_print_zone(zone, out, room, count), out)
#define ixdtf16_printed_year_month_length(record) (ixdtf16_printed_year_month_length(record) + has_fault("a length of 16-bit text"))
#endif
