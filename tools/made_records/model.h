/* The records that are made, and the model: whether a record has a canonical text, and which one. The model was written from docs/GRAMMAR.md, and not
 * from the code of the printers. The names are those of that page. A function that returns false says that there is no canonical text. */
#ifndef MODEL_H
#define MODEL_H
#include "ixdtf.h"

enum kind { PARSE, YEAR_MONTH, MONTH_DAY, TIME, OFFSET, ZONE, DURATION, KINDS };
static const char *const KIND_NAMES[KINDS] = { "parse", "year-month", "month-day", "time", "offset", "zone", "duration" };

/* More code units than a canonical text, a name or a calendar of this program ever has. */
#define ROOM 16384

/* A name or a calendar. Each code unit has 16 bits. Some of them do not fit into 8 bits. */
struct units { const uint16_t *at; size_t length; };

/* A record of one of the kinds, independent of the width of its code units. Offsets and zones are records too: they are the fields `offset` and
 * `zone` of a record. The field `name` of the zone is not used. */
struct made {
    ixdtf_date date;
    ixdtf_time time;
    ixdtf_offset offset;
    ixdtf_zone zone;
    struct units name;
    struct units calendar;
    bool has_calendar;
    ixdtf_duration duration;
};

struct text { char at[ROOM]; size_t length; };

static void put(struct text *text, char unit) { text->at[text->length++] = unit; }

static void put_all(struct text *text, const char *units) {
    for (; *units; units++) {
        put(text, *units);
    }
}

/* Writes a number with at least this many digits. */
static void put_number(struct text *text, uint64_t number, unsigned digits) {
    char reversed[20];
    unsigned count = 0;
    for (; number || count < digits; number /= 10) {
        reversed[count++] = (char)('0' + number % 10);
    }
    while (count) {
        put(text, reversed[--count]);
    }
}

static void put_units(struct text *text, struct units units) {
    size_t at;
    for (at = 0; at < units.length; at++) {
        put(text, (char)units.at[at]);
    }
}

static bool is_between(uint16_t unit, char first, char last) { return unit >= (uint16_t)first && unit <= (uint16_t)last; }
static bool is_digit(uint16_t unit) { return is_between(unit, '0', '9'); }
static bool is_letter(uint16_t unit) { return is_between(unit, 'A', 'Z') || is_between(unit, 'a', 'z'); }
static bool is_zone_lead(uint16_t unit) { return is_letter(unit) || unit == '_' || unit == '.'; }
static bool is_zone_char(uint16_t unit) { return is_zone_lead(unit) || is_digit(unit) || unit == '+' || unit == '-'; }
static bool is_value_char(uint16_t unit) { return is_letter(unit) || is_digit(unit); }

/* Whether this is a Name: a ZoneLead, and then items. An item is a ZoneChar, or a slash and a ZoneChar. */
static bool is_name(struct units name) {
    size_t at;
    if (!name.length || !is_zone_lead(name.at[0])) {
        return false;
    }
    for (at = 1; at < name.length; at++) {
        at += name.at[at] == '/';
        if (at == name.length || !is_zone_char(name.at[at])) {
            return false;
        }
    }
    return true;
}

/* Whether this is a NamePart: a ZoneLead, and then ZoneChars. The texts "." and ".." are excluded. */
static bool is_name_part(struct units part) {
    size_t at;
    if (!part.length || !is_zone_lead(part.at[0]) || (part.length <= 2 && part.at[0] == '.' && part.at[part.length - 1] == '.')) {
        return false;
    }
    for (at = 1; at < part.length && is_zone_char(part.at[at]); at++) {
    }
    return at == part.length;
}

/* Whether this is an ExactName: NameParts with a slash between each two. */
static bool is_exact_name(struct units name) {
    size_t first = 0, at;
    for (at = 0; at <= name.length; at++) {
        if (at == name.length || name.at[at] == '/') {
            const struct units part = { name.at + first, at - first };
            if (!is_name_part(part)) {
                return false;
            }
            first = at + 1;
        }
    }
    return true;
}

/* Whether this is a Value: runs of ValueChars, with a hyphen between each two. */
static bool is_value(struct units value) {
    size_t at;
    bool is_in_run = false;
    for (at = 0; at < value.length; at++) {
        if (!is_value_char(value.at[at]) && !(is_in_run && value.at[at] == '-')) {
            return false;
        }
        is_in_run = value.at[at] != '-';
    }
    return is_in_run;
}

static uint8_t month_length(int32_t year, uint8_t month) {
    if (month == 2) {
        return (year % 4 == 0 && year % 100 != 0) || year % 400 == 0 ? 29 : 28;
    }
    return month == 4 || month == 6 || month == 9 || month == 11 ? 30 : 31;
}

static bool year_text(struct text *text, int32_t year) {
    if (year < -999999 || year > 999999) {
        return false;
    }
    if (year >= 0 && year <= 9999) {
        put_number(text, (uint64_t)year, 4);
    } else {
        put(text, year < 0 ? '-' : '+');
        put_number(text, (uint64_t)(year < 0 ? -year : year), 6);
    }
    return true;
}

/* Writes a number with two digits, after a code unit that is not written if it is 0. */
static bool two_digits_text(struct text *text, char before, uint8_t number, uint8_t least, uint8_t most) {
    if (before) {
        put(text, before);
    }
    put_number(text, number, 2);
    return number >= least && number <= most;
}

static bool date_text(struct text *text, const ixdtf_date *date) {
    return date->is_there && year_text(text, date->year) && two_digits_text(text, '-', date->month, 1, 12) &&
        two_digits_text(text, '-', date->day, 1, month_length(date->year, date->month));
}

/* A fraction: its first 18 digits are those of the value, and all others are zeros. */
static bool fraction_text(struct text *text, uint64_t fraction, uint8_t digits) {
    unsigned at, kept = digits < 18 ? digits : 18;
    uint64_t above = 1;
    if (!digits) {
        return true;
    }
    for (at = 0; at < kept; at++) {
        above *= 10;
    }
    if (fraction >= above) {
        return false;
    }
    put(text, '.');
    put_number(text, fraction, kept);
    for (at = kept; at < digits; at++) {
        put(text, '0');
    }
    return true;
}

static bool clock_text(struct text *text, const ixdtf_time *time) {
    return time->is_there && two_digits_text(text, 0, time->hour, 0, 23) && two_digits_text(text, ':', time->minute, 0, 59) &&
        two_digits_text(text, ':', time->second, 0, 60) && fraction_text(text, time->fraction, time->fraction_digits);
}

static bool minute_offset_text(struct text *text, bool is_negative, uint8_t hour, uint8_t minute) {
    put(text, is_negative ? '-' : '+');
    return two_digits_text(text, 0, hour, 0, 23) && two_digits_text(text, ':', minute, 0, 59);
}

/* An Offset: one with a number, and not Z. */
static bool number_offset_text(struct text *text, const ixdtf_offset *offset) {
    if (offset->form == IXDTF_MINUTES) {
        return minute_offset_text(text, offset->is_negative, offset->hour, offset->minute);
    }
    return offset->form == IXDTF_SECONDS && minute_offset_text(text, offset->is_negative, offset->hour, offset->minute) &&
        two_digits_text(text, ':', offset->second, 0, 59) && fraction_text(text, offset->fraction, offset->fraction_digits);
}

/* The offset of a date-time or of a time. It may be missing. */
static bool offset_text(struct text *text, const ixdtf_offset *offset) {
    if (offset->form == IXDTF_UTC) {
        put(text, 'Z');
    }
    return offset->form == IXDTF_NO_OFFSET || offset->form == IXDTF_UTC || number_offset_text(text, offset);
}

/* A zone without brackets. */
static bool zone_text(struct text *text, const struct made *made) {
    if (made->zone.form == IXDTF_ZONE_OFFSET) {
        return minute_offset_text(text, made->zone.is_negative, made->zone.hour, made->zone.minute);
    }
    if (made->zone.form != IXDTF_NAME || !is_name(made->name)) {
        return false;
    }
    put_units(text, made->name);
    return true;
}

/* The brackets: a zone and a calendar. Each of them may be missing. */
static bool brackets_text(struct text *text, const struct made *made) {
    if (made->zone.form != IXDTF_NO_ZONE) {
        put_all(text, made->zone.is_critical ? "[!" : "[");
        if (!zone_text(text, made)) {
            return false;
        }
        put(text, ']');
    }
    if (made->has_calendar) {
        if (!is_value(made->calendar)) {
            return false;
        }
        put_all(text, "[u-ca=");
        put_units(text, made->calendar);
        put(text, ']');
    }
    return true;
}

static bool date_time_text(struct text *text, const struct made *made) {
    if (!date_text(text, &made->date)) {
        return false;
    }
    if (!made->time.is_there) {
        return made->offset.form == IXDTF_NO_OFFSET && brackets_text(text, made);
    }
    put(text, 'T');
    return clock_text(text, &made->time) && offset_text(text, &made->offset) && brackets_text(text, made);
}

static bool has_only_a_date(const struct made *made) {
    return made->date.is_there && !made->time.is_there && made->offset.form == IXDTF_NO_OFFSET;
}

static bool year_month_text(struct text *text, const struct made *made) {
    return has_only_a_date(made) && made->date.day == 1 && year_text(text, made->date.year) && two_digits_text(text, '-', made->date.month, 1, 12) &&
        brackets_text(text, made);
}

/* A month and a day. The day can be 0. February has 29 days, as it has in some year. */
static bool month_day_text(struct text *text, const struct made *made) {
    return has_only_a_date(made) && made->date.year == 0 && two_digits_text(text, 0, made->date.month, 1, 12) &&
        two_digits_text(text, '-', made->date.day, 0, month_length(2000, made->date.month)) && brackets_text(text, made);
}

static bool lone_time_text(struct text *text, const struct made *made) {
    return !made->date.is_there && clock_text(text, &made->time) && offset_text(text, &made->offset) && brackets_text(text, made);
}

static void group_text(struct text *text, uint64_t number, char unit) {
    if (number) {
        put_number(text, number, 1);
        put(text, unit);
    }
}

static void days_text(struct text *text, const ixdtf_duration *duration) {
    const size_t before = text->length;
    group_text(text, duration->years, 'Y');
    group_text(text, duration->months, 'M');
    group_text(text, duration->weeks, 'W');
    group_text(text, duration->days, 'D');
    if (text->length == before) {
        put_all(text, "0D");
    }
}

/* The time of a duration. Its last unit is always written. The units before it are left out if they are 0. */
static bool hours_text(struct text *text, const ixdtf_duration *duration) {
    const uint64_t numbers[] = { duration->hours, duration->minutes, duration->seconds };
    unsigned at;
    if (duration->time_form > IXDTF_LAST_SECONDS) {
        return false;
    }
    put(text, 'T');
    for (at = 0; at + 1 < duration->time_form; at++) {
        group_text(text, numbers[at], "HMS"[at]);
    }
    put_number(text, numbers[at], 1);
    if (!fraction_text(text, duration->fraction, duration->fraction_digits)) {
        return false;
    }
    put(text, "HMS"[at]);
    return true;
}

static bool duration_text(struct text *text, const ixdtf_duration *duration) {
    put_all(text, duration->is_negative ? "-P" : "P");
    if (duration->has_date) {
        days_text(text, duration);
    }
    if (duration->time_form == IXDTF_NO_TIME) {
        return duration->has_date;
    }
    return hours_text(text, duration);
}

/* Writes the canonical text of a record of this kind. Returns false if there is none. */
static bool canonical_text(enum kind kind, const struct made *made, struct text *text) {
    text->length = 0;
    switch (kind) {
    case PARSE:
        return date_time_text(text, made);
    case YEAR_MONTH:
        return year_month_text(text, made);
    case MONTH_DAY:
        return month_day_text(text, made);
    case TIME:
        return lone_time_text(text, made);
    case OFFSET:
        return number_offset_text(text, &made->offset);
    case ZONE:
        return zone_text(text, made);
    default:
        return duration_text(text, &made->duration);
    }
}

/* The fields that matter of a fraction, an offset, a zone and a duration. All others become 0. */
static void clear_fraction(uint64_t *fraction, uint8_t digits) { *fraction = digits ? *fraction : 0; }

static void clear_offset(ixdtf_offset *offset) {
    const ixdtf_offset none = IXDTF_OFFSET_;
    const uint8_t form = offset->form;
    if (form != IXDTF_MINUTES && form != IXDTF_SECONDS) {
        *offset = none;
        offset->form = form;
    } else if (form == IXDTF_MINUTES) {
        offset->second = offset->fraction_digits = 0;
    }
    clear_fraction(&offset->fraction, offset->fraction_digits);
}

static void clear_zone(struct made *made) {
    const struct units none = { NULL, 0 };
    if (made->zone.form != IXDTF_NAME) {
        made->name = none;
    }
    if (made->zone.form != IXDTF_ZONE_OFFSET) {
        made->zone.is_negative = false;
        made->zone.hour = made->zone.minute = 0;
    }
    made->zone.is_critical = made->zone.is_critical && made->zone.form != IXDTF_NO_ZONE;
}

static void clear_duration(ixdtf_duration *duration) {
    if (!duration->has_date) {
        duration->years = duration->months = duration->weeks = 0;
        duration->days = 0;
    }
    if (duration->time_form == IXDTF_NO_TIME) {
        duration->hours = 0;
        duration->fraction_digits = 0;
    }
    if (duration->time_form < IXDTF_LAST_MINUTES) {
        duration->minutes = 0;
    }
    if (duration->time_form < IXDTF_LAST_SECONDS) {
        duration->seconds = 0;
    }
    clear_fraction(&duration->fraction, duration->fraction_digits);
}

/* The record that the reader must write for the canonical text of a record. */
static struct made read_record(enum kind kind, const struct made *from) {
    static const struct made none;
    const ixdtf_date no_date = IXDTF_DATE_;
    const ixdtf_time no_time = IXDTF_TIME_;
    struct made made = *from;
    if (kind == DURATION) {
        made = none;
        made.duration = from->duration;
    } else if (kind == OFFSET) {
        made = none;
        made.offset = from->offset;
    } else if (kind == ZONE) {
        made = none;
        made.zone = from->zone;
        made.zone.is_critical = false;
        made.name = from->name;
    }
    made.date = made.date.is_there ? made.date : no_date;
    made.time = made.time.is_there ? made.time : no_time;
    clear_fraction(&made.time.fraction, made.time.fraction_digits);
    clear_offset(&made.offset);
    clear_zone(&made);
    made.calendar.length = made.has_calendar ? made.calendar.length : 0;
    clear_duration(&made.duration);
    return made;
}

/* Whether the canonical text of a date-time is a DateTime of RFC 3339, and brackets may follow. */
static bool begins_as_rfc3339(const struct made *made) {
    return made->time.is_there && made->date.year >= 0 && made->date.year <= 9999 &&
        (made->offset.form == IXDTF_UTC || made->offset.form == IXDTF_MINUTES);
}

static bool is_rfc3339(const struct made *made) {
    return begins_as_rfc3339(made) && made->zone.form == IXDTF_NO_ZONE && !made->has_calendar;
}

static bool is_rfc9557(const struct made *made) {
    return begins_as_rfc3339(made) && (made->zone.form != IXDTF_NAME || is_exact_name(made->name));
}
#endif
