/* Makes records from generated fields. */
#include "model.h"

static uint64_t random_state;

/* The next number of the generator SplitMix64. */
static uint64_t any_number(void) {
    uint64_t number = random_state += 0x9e3779b97f4a7c15;
    number = (number ^ (number >> 30)) * 0xbf58476d1ce4e5b9;
    number = (number ^ (number >> 27)) * 0x94d049bb133111eb;
    return number ^ (number >> 31);
}

static uint64_t below(uint64_t count) { return any_number() % count; }

/* Whether something happens that happens in this many of 1000 cases. */
static bool happens(unsigned of_1000) { return below(1000) < of_1000; }

/* A number of this range, often at one of its ends. A few numbers are outside of the range. */
static int64_t near_range(int64_t least, int64_t most) {
    if (!happens(12)) {
        return !happens(200) ? least + (int64_t)below((uint64_t)(most - least) + 1) : below(2) ? least : most;
    }
    switch (below(4)) {
    case 0:
        return least - 1;
    case 1:
        return most + 1;
    case 2:
        return -(int64_t)below(1000000);
    default:
        return (int64_t)below(1u << 31);
    }
}

static uint8_t near_byte(int64_t least, int64_t most) { return (uint8_t)near_range(least, most); }

static int32_t make_year(void) {
    static const int32_t years[] = { 0, 4, 100, 400, 1900, 2000, 2023, 2024, 9999, 10000, -1, -4, -100, -400, -9999, 999999, -999999 };
    static const int32_t outside[] = { 1000000, -1000000, INT32_MAX, INT32_MIN, 16777216 };
    switch (below(8)) {
    case 0:
        return happens(60) ? outside[below(5)] : (int32_t)near_range(-999999, 999999);
    case 1:
        return (int32_t)near_range(-999999, 999999);
    case 2:
    case 3:
        return years[below(17)];
    default:
        return (int32_t)near_range(0, 9999);
    }
}

static void make_date(enum kind kind, ixdtf_date *date) {
    static const int64_t lengths[] = { 28, 28, 29, 30, 31, 31 };
    date->year = kind == MONTH_DAY && !happens(20) ? 0 : make_year();
    date->month = happens(200) ? 2 : near_byte(1, 12);
    date->day = kind == YEAR_MONTH && !happens(20) ? 1 : near_byte(kind == MONTH_DAY ? 0 : 1, lengths[below(6)]);
}

/* A fraction: up to 255 digits, of which a record keeps 18. Sometimes the number has more digits. */
static void make_fraction(uint64_t *fraction, uint8_t *digits) {
    static const uint8_t counts[] = { 1, 2, 3, 6, 9, 10, 17, 18, 19, 20, 254, 255 };
    uint64_t above = 1;
    unsigned at;
    *digits = happens(400) ? 0 : happens(700) ? counts[below(12)] : (uint8_t)(1 + below(255));
    for (at = 0; at < *digits && at < 18; at++) {
        above *= 10;
    }
    const uint64_t often[] = { 0, 1 % above, above - 1, above / 10 }, outside[] = { above, above + 1, UINT64_MAX, 1000000000000000000, any_number() };
    *fraction = happens(12) || !*digits ? outside[below(5)] : happens(250) ? often[below(4)] : below(above);
}

static void make_time(ixdtf_time *time) {
    time->hour = near_byte(0, 23);
    time->minute = near_byte(0, 59);
    time->second = near_byte(0, 60);
    make_fraction(&time->fraction, &time->fraction_digits);
}

/* One of the first `forms` forms. Seldom another number. */
static uint8_t make_form(uint8_t forms) { return (uint8_t)(happens(992) ? below(forms) : happens(500) ? forms : below(256)); }

/* A form from `first` on: of an offset that is a number, or of a zone that is present. Seldom another number. */
static uint8_t make_form_from(uint8_t first, uint8_t forms) {
    return (uint8_t)(happens(970) ? first + below((uint64_t)forms - first) : happens(500) ? below(first) : happens(500) ? forms : below(256));
}

static void make_offset(ixdtf_offset *offset) {
    offset->is_negative = below(2);
    offset->hour = near_byte(0, 23);
    offset->minute = near_byte(0, 59);
    offset->second = near_byte(0, 59);
    make_fraction(&offset->fraction, &offset->fraction_digits);
}

/* A code unit that may be wrong in a name or in a calendar. The lower 8 bits of some of them are right. */
static uint16_t make_unit(void) {
    static const char often[] = "/-._+=[]!@ \t~:AZaz09{`";
    static const uint16_t ends[] = { 0, 127, 128, 255 };
    const uint16_t plain = (uint16_t)often[below(sizeof often - 1)];
    switch (below(10)) {
    case 0:
        return (uint16_t)any_number();
    case 1:
        return (uint16_t)(plain + 256 * below(256));
    case 2:
        return (uint16_t)below(256);
    case 3:
        return ends[below(4)];
    default:
        return plain;
    }
}

/* Changes a name or a calendar at one position, or makes it one code unit longer or shorter. */
static void change_units(uint16_t *units, size_t *length) {
    const size_t at = happens(500) && *length ? *length - 1 : below(*length + 1);
    if (happens(150)) {
        *length = *length ? *length - 1 : 0;
    } else {
        units[at] = make_unit();
        *length += at == *length;
    }
}

/* How many code units a generated name or calendar has: few, and seldom hundreds. */
static size_t make_length(void) { return happens(2) ? 1 + below(4000) : 1 + below(below(2) ? 4 : 20); }

/* A Name, and sometimes something else. */
static void make_name(uint16_t *units, size_t *length) {
    static const char *const names[] = { "UTC", "Europe/Paris", "America/Argentina/Buenos_Aires", "Etc/GMT+5", "cet", "z", "_", ".", "..", "a/5", "a/-",
        "a/../b", "a/.", "...", "._/_." };
    static const char leads[] = "ABZabz_.", others[] = "ABZMabzmT_.0129+-";
    size_t at;
    if (happens(350)) {
        const char *name = names[below(15)];
        for (*length = 0; name[*length]; ++*length) {
            units[*length] = (uint16_t)name[*length];
        }
    } else {
        *length = make_length();
        units[0] = (uint16_t)leads[below(8)];
        for (at = 1; at < *length; at++) {
            units[at] = happens(120) && at + 1 < *length && units[at - 1] != '/' ? '/' : (uint16_t)others[below(17)];
        }
    }
    if (happens(70)) {
        change_units(units, length);
    }
}

/* A Value, and sometimes something else. */
static void make_value(uint16_t *units, size_t *length) {
    static const char *const values[] = { "hebrew", "iso8601", "islamic-civil", "a", "A-0-z" };
    static const char others[] = "AMZamz019";
    size_t at;
    if (happens(400)) {
        const char *value = values[below(5)];
        for (*length = 0; value[*length]; ++*length) {
            units[*length] = (uint16_t)value[*length];
        }
    } else {
        *length = make_length();
        for (at = 0; at < *length; at++) {
            units[at] = at && happens(150) && at + 1 < *length && units[at - 1] != '-' ? '-' : (uint16_t)others[below(9)];
        }
    }
    if (happens(70)) {
        change_units(units, length);
    }
}

/* A number of a duration with this many bits. */
static uint64_t make_group(unsigned bits) {
    const uint64_t greatest = bits == 64 ? UINT64_MAX : UINT32_MAX;
    uint64_t power = 1;
    size_t zeros;
    for (zeros = below(20); zeros && power <= greatest / 10; zeros--) {
        power *= 10;
    }
    const uint64_t often[] = { 0, 0, 0, 1, power, power - 1, greatest }, number = any_number();
    switch (below(10)) {
    case 0:
        return number & greatest;
    case 1:
        return (number & greatest) >> below(bits);
    case 2:
        return number % 100;
    default:
        return often[below(7)];
    }
}

static void make_duration(ixdtf_duration *duration) {
    duration->is_negative = below(2);
    duration->has_date = happens(600);
    duration->years = (uint32_t)make_group(32);
    duration->months = (uint32_t)make_group(32);
    duration->weeks = (uint32_t)make_group(32);
    duration->days = make_group(64);
    duration->time_form = make_form(4);
    duration->hours = make_group(64);
    duration->minutes = make_group(64);
    duration->seconds = make_group(64);
    make_fraction(&duration->fraction, &duration->fraction_digits);
}

/* Fills the fields of the parts that are missing with any numbers. They must not matter. */
static void fill_missing(struct made *made) {
    const uint64_t number = any_number();
    if (!made->date.is_there) {
        made->date.year = (int32_t)any_number();
        made->date.month = (uint8_t)number;
        made->date.day = (uint8_t)(number >> 8);
    }
    if (!made->time.is_there) {
        made->time.fraction = any_number();
        made->time.fraction_digits = (uint8_t)(number >> 16);
        made->time.hour = (uint8_t)(number >> 24);
        made->time.minute = (uint8_t)(number >> 32);
        made->time.second = (uint8_t)(number >> 40);
    }
    if (made->offset.form == IXDTF_NO_OFFSET || made->offset.form == IXDTF_UTC) {
        made->offset.hour = (uint8_t)(number >> 48);
        made->offset.minute = (uint8_t)(number >> 56);
    }
    if (made->zone.form != IXDTF_ZONE_OFFSET) {
        made->zone.hour = (uint8_t)(number >> 4);
        made->zone.minute = (uint8_t)(number >> 12);
    }
}

/* A record of a kind. Its name and its calendar are in arrays that the next record overwrites. */
static void make_record(enum kind kind, struct made *made) {
    static uint16_t name[ROOM], calendar[ROOM];
    memset(made, 0, sizeof *made);
    make_date(kind, &made->date);
    make_time(&made->time);
    make_offset(&made->offset);
    made->date.is_there = happens(kind == TIME ? 15 : 985);
    made->time.is_there = happens(kind == PARSE ? 750 : kind == TIME ? 985 : 15);
    if (kind == OFFSET) {
        made->offset.form = make_form_from(IXDTF_MINUTES, 4);
    } else {
        made->offset.form = ((kind == PARSE || kind == TIME) && made->time.is_there) || happens(20) ? make_form(4) : IXDTF_NO_OFFSET;
    }
    made->zone.form = kind == ZONE ? make_form_from(IXDTF_NAME, 3) : make_form(3);
    made->zone.is_critical = below(2);
    made->zone.is_negative = below(2);
    made->zone.hour = near_byte(0, 23);
    made->zone.minute = near_byte(0, 59);
    make_name(name, &made->name.length);
    made->name.at = name;
    made->has_calendar = happens(400);
    make_value(calendar, &made->calendar.length);
    made->calendar.at = calendar;
    make_duration(&made->duration);
    fill_missing(made);
}
