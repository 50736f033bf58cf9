/* The tests of the printers for one width of code units. test.c includes this file twice, each time after test_width.h, and with the same macros. */

/* The code units of the text that is read. The slices of the record point to it. */
static UNIT OWN(text_units)[2048];

/* Writes a text to the array above, as code units. Returns the number of code units. */
static size_t OWN(units_of)(const char *text, size_t length) {
    size_t i;
    if (length > COUNT(OWN(text_units))) {
        puts("expected a text of at most 2048 code units; make text_units larger");
        exit(2);
    }
    for (i = 0; i < length; i++) {
        OWN(text_units)[i] = (UNIT)(unsigned char)text[i];
    }
    return length;
}

/* Reads a text, which must be accepted. */
static void OWN(read_accepted)(const char *reader, const char *text, CALL(record) *record, ixdtf_duration *duration) {
    size_t length = OWN(units_of)(text, strlen(text));
    row_shown = text;
    check(OWN(read)(reader, 0, OWN(text_units), length, record, duration) == IXDTF_OK, "the text is accepted");
}

/* Calls a printer of the header. */
static uint32_t OWN(print)(enum printer printer, const void *value, UNIT *out, size_t places, size_t *count) {
    switch (printer) {
    case OF_DURATION:
        return CALL(print_duration)((const ixdtf_duration *)value, out, places, count);
    case OF_OFFSET:
        return CALL(print_offset)((const ixdtf_offset *)value, out, places, count);
    case OF_ZONE:
        return CALL(print_zone)((const CALL(zone) *)value, out, places, count);
    case OF_TIME:
        return CALL(print_time)((const CALL(record) *)value, out, places, count);
    case OF_YEAR_MONTH:
        return CALL(print_year_month)((const CALL(record) *)value, out, places, count);
    case OF_MONTH_DAY:
        return CALL(print_month_day)((const CALL(record) *)value, out, places, count);
    default:
        return CALL(print)((const CALL(record) *)value, out, places, count);
    }
}

/* Calls the function for the length that belongs to a printer. For durations and offsets, both widths have the same function. */
static size_t OWN(printed_length)(enum printer printer, const void *value) {
    switch (printer) {
    case OF_DURATION:
        return ixdtf_printed_duration_length((const ixdtf_duration *)value);
    case OF_OFFSET:
        return ixdtf_printed_offset_length((const ixdtf_offset *)value);
    case OF_ZONE:
        return CALL(printed_zone_length)((const CALL(zone) *)value);
    case OF_TIME:
        return CALL(printed_time_length)((const CALL(record) *)value);
    case OF_YEAR_MONTH:
        return CALL(printed_year_month_length)((const CALL(record) *)value);
    case OF_MONTH_DAY:
        return CALL(printed_month_day_length)((const CALL(record) *)value);
    default:
        return CALL(printed_length)((const CALL(record) *)value);
    }
}

/* A value that a printer prints. */
union OWN(printed_value) { CALL(record) record; CALL(zone) zone; ixdtf_duration duration; ixdtf_offset offset; };

/* Copies the value that a printer prints. */
static union OWN(printed_value) OWN(copied)(enum printer printer, const void *value) {
    union OWN(printed_value) copy;
    if (printer == OF_DURATION) {
        copy.duration = *(const ixdtf_duration *)value;
    } else if (printer == OF_OFFSET) {
        copy.offset = *(const ixdtf_offset *)value;
    } else if (printer == OF_ZONE) {
        copy.zone = *(const CALL(zone) *)value;
    } else {
        copy.record = *(const CALL(record) *)value;
    }
    return copy;
}

/* Whether the value that a printer prints is equal to its copy. */
static int OWN(is_unchanged)(enum printer printer, const union OWN(printed_value) *copy, const void *value) {
    CALL(record) a = NEW_RECORD, b = NEW_RECORD;
    if (printer == OF_DURATION) {
        return same_duration_but_error(&copy->duration, (const ixdtf_duration *)value);
    } else if (printer == OF_OFFSET) {
        return same_offset(&copy->offset, (const ixdtf_offset *)value);
    } else if (printer == OF_ZONE) {
        b.calendar = a.calendar;
        b.zone = *(const CALL(zone) *)value;
        a.zone = copy->zone;
        return OWN(same_but_error)(&a, &b);
    }
    b = *(const CALL(record) *)value;
    return OWN(same_but_error)(&copy->record, &b) && same_text(copy->record.location, b.location) && copy->record.place == b.place;
}

/* Whether the code units are those of the text. */
static int OWN(is_text)(const UNIT *units, const char *text, size_t length) {
    size_t i;
    for (i = 0; i < length; i++) {
        if (units[i] != (UNIT)(unsigned char)text[i]) {
            return 0;
        }
    }
    return 1;
}

/* Tests a printer with every capacity from 0 to one code unit more than the length of the text, and its function for the length. The array ends before
 * memory that cannot be accessed. `wanted` is the expected result if the array is long enough. */
static void OWN(test_printed)(enum printer printer, const void *value, uint32_t wanted, const char *canonical) {
    const UNIT unset = (UNIT)0xa5a5;
    const union OWN(printed_value) before = OWN(copied)(printer, value);
    size_t length = strlen(canonical), places, i;
    for (places = 0; places <= length + 1; places++) {
        UNIT *out = (UNIT *)(void *)(room + ROOM - places * sizeof(UNIT));
        size_t count = 7;
        uint32_t error, found = wanted == IXDTF_OK && places < length ? (uint32_t)IXDTF_TOO_SHORT : wanted;
        memset(room, 0xa5, ROOM);
        error = OWN(print)(printer, value, out, places, &count);
        check(error == found, "the printer returns the expected number");
        check(count == (wanted == IXDTF_OK ? length : 7), "count is the length of the text, or unchanged if the value cannot be printed");
        check(error != IXDTF_OK || OWN(is_text)(out, canonical, length), "the printer writes the canonical text");
        for (i = error == IXDTF_OK ? length : 0; i < places; i++) {
            check(out[i] == unset, "the other code units of the array are unchanged");
        }
        check(out[-1] == unset, "the code unit before the array is unchanged");
    }
    check(OWN(printed_length)(printer, value) == length, "the function for the length returns the length, or 0 if the value cannot be printed");
    check(OWN(is_unchanged)(printer, &before, value), "the printer does not change the value");
}

/* Tests the printer of durations with durations of which some fields were changed. */
static void OWN(test_durations)(void) {
    CALL(record) none = NEW_RECORD;
    ixdtf_duration full = IXDTF_DURATION, it;
    OWN(test_printed)(OF_DURATION, &full, IXDTF_NOT_PRINTABLE, "");
    memset(&it, 0, sizeof it);
    OWN(test_printed)(OF_DURATION, &it, IXDTF_NOT_PRINTABLE, "");
    OWN(read_accepted)("duration", "P1DT2H3M4.5S", &none, &full);
#define CHANGED(change, wanted, text) \
    it = full; \
    change; \
    row_shown = #change; \
    OWN(test_printed)(OF_DURATION, &it, wanted, text)
    CHANGED(it.has_date = false, IXDTF_OK, "PT2H3M4.5S");
    CHANGED(it.time_form = IXDTF_NO_TIME, IXDTF_OK, "P1D");
    CHANGED((it.time_form = IXDTF_NO_TIME, it.fraction = UINT64_MAX), IXDTF_OK, "P1D");
    CHANGED((it.has_date = false, it.time_form = IXDTF_NO_TIME), IXDTF_NOT_PRINTABLE, "");
    CHANGED(it.time_form = IXDTF_LAST_HOURS, IXDTF_OK, "P1DT2.5H");
    CHANGED(it.time_form = IXDTF_LAST_MINUTES, IXDTF_OK, "P1DT2H3.5M");
    CHANGED(it.time_form = 4, IXDTF_NOT_PRINTABLE, "");
    CHANGED(it.time_form = 255, IXDTF_NOT_PRINTABLE, "");
    CHANGED(it.fraction = 10, IXDTF_NOT_PRINTABLE, "");
    CHANGED((it.fraction = 10, it.fraction_digits = 0), IXDTF_OK, "P1DT2H3M4S");
    CHANGED(it.fraction_digits = 3, IXDTF_OK, "P1DT2H3M4.005S");
    CHANGED(it.is_negative = true, IXDTF_OK, "-P1DT2H3M4.5S");
    CHANGED((it.location.at = behind, it.location.length = 4, it.place = 99), IXDTF_OK, "P1DT2H3M4.5S");
#undef CHANGED
    row_shown = "";
}

/* Tests the printers of offsets and zones. */
static void OWN(test_parts)(void) {
    CALL(record) record = OWN(used_record)();
    ixdtf_duration none = IXDTF_DURATION;
    OWN(read_accepted)("zone", "Europe/Berlin", &record, &none);
    record.zone.is_critical = true;
    OWN(test_printed)(OF_ZONE, &record.zone, IXDTF_OK, "Europe/Berlin");
    row_shown = "";
    memset(&record, 0, sizeof record);
    OWN(test_printed)(OF_OFFSET, &record.offset, IXDTF_NOT_PRINTABLE, "");
    OWN(test_printed)(OF_ZONE, &record.zone, IXDTF_NOT_PRINTABLE, "");
    record.offset.form = IXDTF_UTC;
    OWN(test_printed)(OF_OFFSET, &record.offset, IXDTF_NOT_PRINTABLE, "");
    record.offset.form = 4;
    OWN(test_printed)(OF_OFFSET, &record.offset, IXDTF_NOT_PRINTABLE, "");
    record.offset.form = IXDTF_MINUTES;
    OWN(test_printed)(OF_OFFSET, &record.offset, IXDTF_OK, "+00:00");
    record.offset.hour = 24;
    OWN(test_printed)(OF_OFFSET, &record.offset, IXDTF_NOT_PRINTABLE, "");
    record.zone.form = IXDTF_NAME;
    OWN(test_printed)(OF_ZONE, &record.zone, IXDTF_NOT_PRINTABLE, "");
    record.zone.form = IXDTF_ZONE_OFFSET;
    OWN(test_printed)(OF_ZONE, &record.zone, IXDTF_OK, "+00:00");
    record.zone.minute = 60;
    OWN(test_printed)(OF_ZONE, &record.zone, IXDTF_NOT_PRINTABLE, "");
    record.zone.form = 3;
    OWN(test_printed)(OF_ZONE, &record.zone, IXDTF_NOT_PRINTABLE, "");
}

/* Tests the printers of times, of years with months, and of months with days. Each of them refuses the records of the other two readers. */
static void OWN(test_times_and_parts_of_dates)(void) {
    CALL(record) record = OWN(used_record)();
    ixdtf_duration none = IXDTF_DURATION;
    OWN(read_accepted)("time", "T1214", &record, &none);
    OWN(test_printed)(OF_YEAR_MONTH, &record, IXDTF_NOT_PRINTABLE, "");
    OWN(test_printed)(OF_MONTH_DAY, &record, IXDTF_NOT_PRINTABLE, "");
    OWN(read_accepted)("year-month", "202011[+01]", &record, &none);
    OWN(test_printed)(OF_TIME, &record, IXDTF_NOT_PRINTABLE, "");
    OWN(test_printed)(OF_MONTH_DAY, &record, IXDTF_NOT_PRINTABLE, "");
    OWN(read_accepted)("month-day", "--0229", &record, &none);
    OWN(test_printed)(OF_TIME, &record, IXDTF_NOT_PRINTABLE, "");
    OWN(test_printed)(OF_YEAR_MONTH, &record, IXDTF_NOT_PRINTABLE, "");
    row_shown = "";
    memset(&record, 0, sizeof record);
    OWN(test_printed)(OF_TIME, &record, IXDTF_NOT_PRINTABLE, "");
    OWN(test_printed)(OF_YEAR_MONTH, &record, IXDTF_NOT_PRINTABLE, "");
    OWN(test_printed)(OF_MONTH_DAY, &record, IXDTF_NOT_PRINTABLE, "");
    record.time.is_there = true;
    OWN(test_printed)(OF_TIME, &record, IXDTF_OK, "00:00:00");
    record.time.fraction = 100;
    record.time.fraction_digits = 2;
    OWN(test_printed)(OF_TIME, &record, IXDTF_NOT_PRINTABLE, "");
    record.time.fraction_digits = 3;
    OWN(test_printed)(OF_TIME, &record, IXDTF_OK, "00:00:00.100");
    record.offset.form = 4;
    OWN(test_printed)(OF_TIME, &record, IXDTF_NOT_PRINTABLE, "");
    record.offset.form = IXDTF_NO_OFFSET;
    record.zone.form = 3;
    OWN(test_printed)(OF_TIME, &record, IXDTF_NOT_PRINTABLE, "");
    record.zone.form = IXDTF_NO_ZONE;
    record.date.is_there = true;
    record.date.month = 2;
    record.date.day = 1;
    OWN(test_printed)(OF_TIME, &record, IXDTF_NOT_PRINTABLE, "");
    OWN(test_printed)(OF_YEAR_MONTH, &record, IXDTF_NOT_PRINTABLE, "");
    record.time.is_there = false;
    OWN(test_printed)(OF_YEAR_MONTH, &record, IXDTF_OK, "0000-02");
    OWN(test_printed)(OF_MONTH_DAY, &record, IXDTF_OK, "02-01");
    record.date.day = 30;
    OWN(test_printed)(OF_YEAR_MONTH, &record, IXDTF_NOT_PRINTABLE, "");
    OWN(test_printed)(OF_MONTH_DAY, &record, IXDTF_NOT_PRINTABLE, "");
}

/* Tests ixdtf_set_annotations and ixdtf_keep_calendar. If ixdtf_reply kept a calendar, it is printed with the record, and otherwise no calendar is. */
static void OWN(test_kept_calendar)(void) {
    static const char *text = "2024-03-02T08:48[!u-ca=hebrew][a=b]";
    CALL(annotation) list[8];
    CALL(calendar) calendar = NEW_CALENDAR;
    CALL(record) record = NEW_RECORD;
    size_t count = 0, i;
    memset(list, 0xa5, sizeof list);
    CALL(set_annotations)(list, 7);
    for (i = 0; i < 7; i++) {
        check(list[i].key.at != NULL && list[i].key.length == 0 && list[i].value.at != NULL && list[i].value.length == 0 && !list[i].is_critical,
            "each of the first seven elements is set");
    }
    check(list[7].key.length != 0, "the element after them is unchanged");
    check(CALL(parse_with_annotations)(OWN(text_units), OWN(units_of)(text, strlen(text)), list, 7, &count, &record) == IXDTF_OK && count == 2, "the text has two annotations");
    CALL(keep_calendar)(&record, &calendar);
    OWN(test_printed)(OF_RECORD, &record, IXDTF_OK, "2024-03-02T08:48:00");
    check(CALL(reply)(&calendar, &list[0]) == IXDTF_OK && CALL(reply)(&calendar, &list[1]) == IXDTF_OK, "both replies are accepted");
    CALL(keep_calendar)(&record, &calendar);
    OWN(test_printed)(OF_RECORD, &record, IXDTF_OK, "2024-03-02T08:48:00[u-ca=hebrew]");
    calendar.is_there = false;
    CALL(keep_calendar)(&record, &calendar);
    check(!record.has_calendar && record.calendar.length == 0 && record.calendar.at != NULL, "without a kept calendar, has_calendar is false, and calendar is a slice of length 0");
}

/* The printer of the values that a reader writes, and how many code units its text may have more than the text that was read. Returns 0 if the rows of
 * this reader are not printed. */
static int OWN(printer_of)(const char *reader, enum printer *printer, size_t *more) {
    static const struct { const char *reader; enum printer printer; size_t more; } printers[] = {
        { "parse", OF_RECORD, 14 }, { "rfc3339", OF_RECORD, 14 }, { "rfc9557", OF_RECORD, 14 }, { "duration", OF_DURATION, 0 },
        { "offset", OF_OFFSET, 3 }, { "zone", OF_ZONE, 3 }, { "time", OF_TIME, 12 }, { "year-month", OF_YEAR_MONTH, 4 }, { "month-day", OF_MONTH_DAY, 4 },
    };
    size_t i;
    for (i = 0; i < COUNT(printers); i++) {
        if (!strcmp(printers[i].reader, reader)) {
            *printer = printers[i].printer;
            *more = printers[i].more;
            return 1;
        }
    }
    return 0;
}

/* Tests the printer of records with records whose fields were changed. A record that no text gives is not printed. The printer does not read the fields
 * of a part that is not present. */
static void OWN(test_by_hand)(void) {
    static const char *whole = "2024-02-29T23:59:60.5-23:59:59.25[!Abc/d][u-ca=ef-g]";
    CALL(record) full = NEW_RECORD, it = NEW_RECORD;
    ixdtf_duration none = IXDTF_DURATION;
    OWN(read_accepted)("parse", whole, &full, &none);
    OWN(test_printed)(OF_RECORD, &full, IXDTF_OK, whole);
    OWN(test_printed)(OF_RECORD, &it, IXDTF_NOT_PRINTABLE, ""); /* The record has no date. */
    it = OWN(used_record)();
    it.zone.form = IXDTF_ZONE_OFFSET;
    it.has_calendar = false;
    OWN(test_printed)(OF_RECORD, &it, IXDTF_OK, "-271821-04-20T23:59:60.987654321-11:22:33.123[!-12:34]");
#define CHANGED(change, wanted, text) \
    it = full; \
    change; \
    row_shown = #change; \
    OWN(test_printed)(OF_RECORD, &it, wanted, text)
    CHANGED(it.date.is_there = false, IXDTF_NOT_PRINTABLE, "");
    CHANGED(it.date.year = 2023, IXDTF_NOT_PRINTABLE, "");
    CHANGED(it.date.year = 1000000, IXDTF_NOT_PRINTABLE, "");
    CHANGED(it.date.year = INT32_MIN, IXDTF_NOT_PRINTABLE, "");
    CHANGED(it.date.month = 0, IXDTF_NOT_PRINTABLE, "");
    CHANGED(it.date.month = 13, IXDTF_NOT_PRINTABLE, "");
    CHANGED(it.date.day = 0, IXDTF_NOT_PRINTABLE, "");
    CHANGED(it.date.day = 30, IXDTF_NOT_PRINTABLE, "");
    CHANGED(it.time.hour = 24, IXDTF_NOT_PRINTABLE, "");
    CHANGED(it.time.minute = 60, IXDTF_NOT_PRINTABLE, "");
    CHANGED(it.time.second = 61, IXDTF_NOT_PRINTABLE, "");
    CHANGED(it.time.fraction = 10, IXDTF_NOT_PRINTABLE, "");
    CHANGED(it.time.fraction = UINT64_MAX, IXDTF_NOT_PRINTABLE, "");
    CHANGED((it.time.fraction = UINT64_MAX, it.time.fraction_digits = 255), IXDTF_NOT_PRINTABLE, "");
    CHANGED((it.time.fraction = UINT64_MAX, it.time.fraction_digits = 0), IXDTF_OK, "2024-02-29T23:59:60-23:59:59.25[!Abc/d][u-ca=ef-g]");
    CHANGED(it.time.fraction_digits = 3, IXDTF_OK, "2024-02-29T23:59:60.005-23:59:59.25[!Abc/d][u-ca=ef-g]");
    CHANGED(it.time.is_there = false, IXDTF_NOT_PRINTABLE, ""); /* An offset needs a time. */
    CHANGED((it.time.is_there = false, it.offset.form = IXDTF_NO_OFFSET), IXDTF_OK, "2024-02-29[!Abc/d][u-ca=ef-g]");
    CHANGED(it.offset.form = IXDTF_NO_OFFSET, IXDTF_OK, "2024-02-29T23:59:60.5[!Abc/d][u-ca=ef-g]");
    CHANGED(it.offset.form = IXDTF_UTC, IXDTF_OK, "2024-02-29T23:59:60.5Z[!Abc/d][u-ca=ef-g]");
    CHANGED(it.offset.form = IXDTF_MINUTES, IXDTF_OK, "2024-02-29T23:59:60.5-23:59[!Abc/d][u-ca=ef-g]");
    CHANGED(it.offset.form = 4, IXDTF_NOT_PRINTABLE, "");
    CHANGED(it.offset.form = 200, IXDTF_NOT_PRINTABLE, "");
    CHANGED(it.offset.is_negative = false, IXDTF_OK, "2024-02-29T23:59:60.5+23:59:59.25[!Abc/d][u-ca=ef-g]");
    CHANGED(it.offset.hour = 24, IXDTF_NOT_PRINTABLE, "");
    CHANGED(it.offset.minute = 60, IXDTF_NOT_PRINTABLE, "");
    CHANGED(it.offset.second = 60, IXDTF_NOT_PRINTABLE, "");
    CHANGED((it.offset.second = 60, it.offset.form = IXDTF_MINUTES), IXDTF_OK, "2024-02-29T23:59:60.5-23:59[!Abc/d][u-ca=ef-g]");
    CHANGED(it.offset.fraction = 100, IXDTF_NOT_PRINTABLE, "");
    CHANGED((it.offset.fraction = 100, it.offset.form = IXDTF_UTC), IXDTF_OK, "2024-02-29T23:59:60.5Z[!Abc/d][u-ca=ef-g]");
    CHANGED(it.zone.form = IXDTF_NO_ZONE, IXDTF_OK, "2024-02-29T23:59:60.5-23:59:59.25[u-ca=ef-g]");
    CHANGED((it.zone.form = IXDTF_ZONE_OFFSET, it.zone.hour = 1, it.zone.minute = 2), IXDTF_OK, "2024-02-29T23:59:60.5-23:59:59.25[!+01:02][u-ca=ef-g]");
    CHANGED(it.zone.form = 3, IXDTF_NOT_PRINTABLE, "");
    CHANGED(it.zone.form = 255, IXDTF_NOT_PRINTABLE, "");
    CHANGED((it.zone.form = IXDTF_ZONE_OFFSET, it.zone.hour = 24), IXDTF_NOT_PRINTABLE, "");
    CHANGED(it.zone.is_critical = false, IXDTF_OK, "2024-02-29T23:59:60.5-23:59:59.25[Abc/d][u-ca=ef-g]");
    CHANGED(it.zone.name.length = 3, IXDTF_OK, "2024-02-29T23:59:60.5-23:59:59.25[!Abc][u-ca=ef-g]");
    CHANGED(it.zone.name.length = 4, IXDTF_NOT_PRINTABLE, "");
    CHANGED(it.zone.name.length = 0, IXDTF_NOT_PRINTABLE, "");
    CHANGED(it.calendar.length = 2, IXDTF_OK, "2024-02-29T23:59:60.5-23:59:59.25[!Abc/d][u-ca=ef]");
    CHANGED(it.calendar.length = 3, IXDTF_NOT_PRINTABLE, "");
    CHANGED(it.calendar.length = 0, IXDTF_NOT_PRINTABLE, "");
    CHANGED(it.has_calendar = false, IXDTF_OK, "2024-02-29T23:59:60.5-23:59:59.25[!Abc/d]");
    CHANGED((it.has_calendar = false, it.calendar.at = (const UNIT *)(const void *)behind), IXDTF_OK, "2024-02-29T23:59:60.5-23:59:59.25[!Abc/d]");
    CHANGED((it.zone.form = IXDTF_NO_ZONE, it.zone.name.at = (const UNIT *)(const void *)behind), IXDTF_OK, "2024-02-29T23:59:60.5-23:59:59.25[u-ca=ef-g]");
    CHANGED((it.location.at = behind, it.location.length = 4, it.place = 99), IXDTF_OK, whole);
#undef CHANGED
    row_shown = "";
}

/* Tests names and calendars with a code unit that no name has. In the last two 16-bit code units, the lower eight bits are those of - and of a. */
static void OWN(test_bad_units)(void) {
    static const UNIT others[] = { 0, 127, 128, 0xff, (UNIT)(sizeof(UNIT) == 2 ? 0x4e2d : 0xad), (UNIT)(sizeof(UNIT) == 2 ? 0x0161 : 0xe1) };
    CALL(record) full = NEW_RECORD;
    ixdtf_duration none = IXDTF_DURATION;
    size_t i;
    for (i = 0; i < COUNT(others); i++) {
        UNIT units[] = { 'a', 'b', 'c' };
        OWN(read_accepted)("parse", "2024-03-02[Abc/d][u-ca=ef]", &full, &none);
        full.zone.name.at = units;
        full.zone.name.length = 3;
        OWN(test_printed)(OF_RECORD, &full, IXDTF_OK, "2024-03-02[abc][u-ca=ef]");
        OWN(test_printed)(OF_ZONE, &full.zone, IXDTF_OK, "abc");
        full.calendar = full.zone.name;
        OWN(test_printed)(OF_RECORD, &full, IXDTF_OK, "2024-03-02[abc][u-ca=abc]");
        units[1] = others[i];
        OWN(test_printed)(OF_ZONE, &full.zone, IXDTF_NOT_PRINTABLE, "");
        OWN(test_printed)(OF_RECORD, &full, IXDTF_NOT_PRINTABLE, "");
        full.zone.form = IXDTF_NO_ZONE;
        OWN(test_printed)(OF_RECORD, &full, IXDTF_NOT_PRINTABLE, "");
        full.has_calendar = false;
        OWN(test_printed)(OF_RECORD, &full, IXDTF_OK, "2024-03-02");
    }
    row_shown = "";
}

/* Tests records that were initialised with zeros. No text has a name or a calendar of length 0, so such a record is not printed. */
static void OWN(test_zeros)(void) {
    CALL(record) record;
    size_t count = 7;
    memset(&record, 0, sizeof record);
    OWN(test_printed)(OF_RECORD, &record, IXDTF_NOT_PRINTABLE, "");
    record.date.is_there = true;
    record.date.month = 3;
    record.date.day = 2;
    OWN(test_printed)(OF_RECORD, &record, IXDTF_OK, "0000-03-02");
    check(CALL(print)(&record, NULL, 0, &count) == IXDTF_TOO_SHORT && count == 10, "the array may be NULL if its capacity is 0");
    record.zone.form = IXDTF_ZONE_OFFSET;
    OWN(test_printed)(OF_RECORD, &record, IXDTF_OK, "0000-03-02[+00:00]");
    record.zone.form = IXDTF_NAME;
    OWN(test_printed)(OF_RECORD, &record, IXDTF_NOT_PRINTABLE, "");
    record.zone.form = IXDTF_NO_ZONE;
    record.has_calendar = true;
    OWN(test_printed)(OF_RECORD, &record, IXDTF_NOT_PRINTABLE, "");
}

/* Tests the instant of a record that was read. */
static void OWN(test_instant)(const struct row *row, const CALL(record) *record) {
    char instant[64] = "none";
    int64_t seconds = 77;
    uint32_t nanoseconds = 78, result = CALL(instant)(record, &seconds, &nanoseconds);
    check(result == IXDTF_OK || (result == IXDTF_NO_INSTANT && seconds == 77 && nanoseconds == 78), "without an instant, nothing is written");
    if (result == IXDTF_OK) {
        snprintf(instant, sizeof instant, "%ld,%lu", (long)seconds, (unsigned long)nanoseconds);
    }
    if (*row->instant != 0) {
        is(instant, row->instant, row->reader, row->text);
    }
}

/* Tests that what a reader wrote for a row is printed, in at most as many code units as docs/C.md says, and that the reader reads the canonical text as
 * the same value. If the row has the canonical text, the printer is tested with every capacity. */
static void OWN(test_read_back)(const struct row *row, size_t length) {
    CALL(record) record = OWN(used_record)(), again = NEW_RECORD;
    ixdtf_duration duration = used_duration(), duration_again = IXDTF_DURATION;
    enum printer printer = OF_RECORD;
    const void *value;
    struct line line, wanted;
    UNIT out[2048];
    size_t count = 0, more = 0;
    /* The printer writes to the array in which the text is, so the text is read from another one. */
    memcpy(OWN(text_units), room + ROOM - length * sizeof(UNIT), length * sizeof(UNIT));
    check(OWN(read)(row->reader, row->strict, OWN(text_units), length, &record, &duration) == IXDTF_OK, "the text is accepted");
    OWN(test_instant)(row, &record);
    if (!OWN(printer_of)(row->reader, &printer, &more)) {
        return;
    }
    value = printer == OF_DURATION ? (const void *)&duration : printer == OF_OFFSET ? (const void *)&record.offset
        : printer == OF_ZONE ? (const void *)&record.zone : (const void *)&record;
    if (*row->canonical != 0) {
        OWN(test_printed)(printer, value, IXDTF_OK, row->canonical);
    }
    check(OWN(print)(printer, value, out, length + more, &count) == IXDTF_OK && count <= length + more, "a value that was read is printed, and its text is not too long");
    check(OWN(read)(row->reader, printer == OF_TIME, out, count, &again, &duration_again) == IXDTF_OK, "the canonical text is accepted");
    OWN(show_outcome)(&wanted, row->reader, 0, &record, &duration);
    OWN(show_outcome)(&line, row->reader, 0, &again, &duration_again);
    is(line.text, wanted.text, "the record of the canonical text", row->text);
}

/* Tests a row of a table. */
static void OWN(test_row)(const struct row *row) {
    size_t length;
    const UNIT *text;
    CALL(record) record = NEW_RECORD;
    ixdtf_duration duration = IXDTF_DURATION;
    uint32_t error;
    if (*row->handler != 0) {
        OWN(test_handler)(row);
        return;
    }
    OWN(test_reader)(row);
    OWN(test_same_listing)(row);
    text = OWN(placed)(row->text, 1, &length);
    error = OWN(read)(row->reader, row->strict, text, length, &record, &duration);
    if (error != IXDTF_OK) {
        OWN(test_explained)(row, text, length, error);
    } else {
        OWN(test_read_back)(row, length);
    }
}

static void OWN(test_printing)(void) {
    OWN(test_kept_calendar)();
    OWN(test_by_hand)();
    OWN(test_bad_units)();
    OWN(test_zeros)();
    OWN(test_durations)();
    OWN(test_parts)();
    OWN(test_times_and_parts_of_dates)();
    row_shown = "";
}

#undef UNIT
#undef CALL
#undef OWN
#undef NEW_RECORD
#undef NEW_ANNOTATION
#undef NEW_CALENDAR
