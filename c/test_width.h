/* The tests for one width of code units, except those of the printers. test.c includes this file twice, for 8-bit and for 16-bit text. After it, test.c
 * includes test_printing.h. Before, it defines these macros:
 *
 *     UNIT         the type of a code unit
 *     CALL(name)   a function or a type of the header: ixdtf_name or ixdtf16_name
 *     OWN(name)    a function of this file for this width: narrow_name or wide_name
 *     NEW_RECORD, NEW_ANNOTATION, NEW_CALENDAR   the initial values of the structs, as in the header
 */

/* Writes the text of a row to the array `room`, as code units: to its end if `at_end` is true, and otherwise to its beginning. The memory directly
 * after the array, or directly before it, cannot be accessed. Returns the first code unit, and writes the number of code units to `units`. */
static const UNIT *OWN(placed)(const char *text, int at_end, size_t *units) {
    UNIT *at;
    size_t i, count = 0;
    uint16_t unit;
    for (i = 0; text[i] != 0; count++) {
        i += row_unit(text + i, &unit);
    }
    at = (UNIT *)(void *)(at_end ? room + ROOM - count * sizeof(UNIT) : room);
    *units = count;
    for (i = 0, count = 0; text[i] != 0; count++) {
        i += row_unit(text + i, &unit);
        at[count] = (UNIT)unit;
    }
    return at;
}

static void OWN(show_units)(struct line *line, CALL(units) units) {
    size_t i;
    for (i = 0; i < units.length; i++) {
        unsigned unit = units.at[i];
        if (sizeof(UNIT) == 2 && (unit < 1 || unit > 126)) {
            show(line, "\\u%04x", unit);
        } else {
            show(line, "%c", (int)unit);
        }
    }
}

static void OWN(show_zone)(struct line *line, const CALL(zone) *zone) {
    if (zone->form == IXDTF_NAME) {
        OWN(show_units)(line, zone->name);
    } else {
        check(zone->form == IXDTF_ZONE_OFFSET, "the form of the zone is IXDTF_NAME or IXDTF_ZONE_OFFSET");
        show(line, "%c%u,%u", zone->is_negative ? '-' : '+', zone->hour, zone->minute);
    }
}

static void OWN(show_record)(struct line *line, const CALL(record) *record) {
    show(line, "ok");
    if (record->date.is_there) {
        show(line, " date=%ld,%u,%u", (long)record->date.year, record->date.month, record->date.day);
    }
    if (record->time.is_there) {
        show(line, " time=%u,%u,%u", record->time.hour, record->time.minute, record->time.second);
        show_fraction(line, record->time.fraction_digits, record->time.fraction);
    }
    if (record->offset.form != IXDTF_NO_OFFSET) {
        show(line, " offset=");
        show_offset(line, &record->offset);
    }
    if (record->zone.form != IXDTF_NO_ZONE) {
        show(line, " tz=%s", record->zone.is_critical ? "!" : "");
        OWN(show_zone)(line, &record->zone);
    }
    if (record->has_calendar) {
        show(line, " calendar=");
        OWN(show_units)(line, record->calendar);
    }
}

/* Calls the reader that a row names. */
static uint32_t OWN(read)(const char *reader, int strict, const UNIT *text, size_t length, CALL(record) *out, ixdtf_duration *duration) {
    if (!strcmp(reader, "parse")) {
        return CALL(parse)(text, length, out);
    } else if (!strcmp(reader, "year-month")) {
        return CALL(parse_year_month)(text, length, out);
    } else if (!strcmp(reader, "month-day")) {
        return strict ? CALL(parse_month_day_strict)(text, length, out) : CALL(parse_month_day)(text, length, out);
    } else if (!strcmp(reader, "time")) {
        return strict ? CALL(parse_time_strict)(text, length, out) : CALL(parse_time)(text, length, out);
    } else if (!strcmp(reader, "rfc3339")) {
        return CALL(parse_rfc3339)(text, length, out);
    } else if (!strcmp(reader, "rfc9557")) {
        return CALL(parse_rfc9557)(text, length, out);
    } else if (!strcmp(reader, "offset")) {
        return CALL(parse_offset)(text, length, out);
    } else if (!strcmp(reader, "zone")) {
        return CALL(parse_identifier)(text, length, out);
    } else if (!strcmp(reader, "zone-name")) {
        return CALL(parse_iana_identifier)(text, length, out);
    }
    check(!strcmp(reader, "duration"), "the row names a reader");
    return strict ? CALL(parse_duration_strict)(text, length, duration) : CALL(parse_duration)(text, length, duration);
}

/* Calls the reader that a row names, in its variant that lists annotations. `places` is the capacity of the array. */
static uint32_t OWN(list)(const char *reader, int strict, const UNIT *text, size_t length, CALL(annotation) *list, size_t places,
    size_t *count, CALL(record) *out) {
    if (!strcmp(reader, "parse")) {
        return CALL(parse_with_annotations)(text, length, list, places, count, out);
    } else if (!strcmp(reader, "year-month")) {
        return CALL(parse_year_month_with_annotations)(text, length, list, places, count, out);
    } else if (!strcmp(reader, "rfc9557")) {
        return CALL(parse_rfc9557_with_annotations)(text, length, list, places, count, out);
    } else if (!strcmp(reader, "month-day")) {
        return strict ? CALL(parse_month_day_with_annotations_strict)(text, length, list, places, count, out)
                      : CALL(parse_month_day_with_annotations)(text, length, list, places, count, out);
    }
    check(!strcmp(reader, "time"), "the row names a reader that lists annotations");
    return strict ? CALL(parse_time_with_annotations_strict)(text, length, list, places, count, out)
                  : CALL(parse_time_with_annotations)(text, length, list, places, count, out);
}

/* Writes the result of a reader to a line, as the rows show it. */
static void OWN(show_outcome)(struct line *line, const char *reader, uint32_t error, const CALL(record) *record, const ixdtf_duration *duration) {
    line->length = 0;
    if (error != 0) {
        if (!strcmp(reader, "duration")) {
            show_error(line, error, duration->location, duration->place);
        } else {
            show_error(line, error, record->location, record->place);
        }
    } else if (!strcmp(reader, "duration")) {
        show_duration(line, duration);
    } else if (!strcmp(reader, "offset")) {
        show(line, "ok offset=");
        show_offset(line, &record->offset);
    } else if (!strcmp(reader, "zone")) {
        show(line, "ok tz=");
        OWN(show_zone)(line, &record->zone);
    } else if (!strcmp(reader, "zone-name")) {
        show(line, "ok tz=");
        OWN(show_units)(line, record->zone.name);
    } else {
        OWN(show_record)(line, record);
    }
}

static int OWN(is_part)(CALL(units) part, const UNIT *text, size_t length) {
    return part.at >= text && part.at + part.length <= text + length;
}

static int OWN(same_units)(CALL(units) left, CALL(units) right) {
    return left.at == right.at && left.length == right.length;
}

/* Whether two records are equal in all fields except `location` and `place`. */
static int OWN(same_but_error)(const CALL(record) *a, const CALL(record) *b) {
    return same_date(&a->date, &b->date) && same_time(&a->time, &b->time) && same_offset(&a->offset, &b->offset)
        && OWN(same_units)(a->zone.name, b->zone.name) && a->zone.form == b->zone.form && a->zone.is_critical == b->zone.is_critical
        && a->zone.is_negative == b->zone.is_negative && a->zone.hour == b->zone.hour && a->zone.minute == b->zone.minute
        && OWN(same_units)(a->calendar, b->calendar) && a->has_calendar == b->has_calendar;
}

/* Checks that the fields of each part that is not present are 0. */
static void OWN(check_cleared)(const CALL(record) *it) {
    check_cleared_date(&it->date);
    check_cleared_time(&it->time);
    check_cleared_offset(&it->offset);
    check(it->zone.form <= IXDTF_ZONE_OFFSET, "the form of the zone has one of the values of the header");
    check(it->zone.form == IXDTF_NAME || it->zone.name.length == 0, "the name of a zone without a name has length 0");
    check(it->zone.form == IXDTF_ZONE_OFFSET || (!it->zone.is_negative && it->zone.hour == 0 && it->zone.minute == 0),
        "the offset of a zone without an offset is 0");
    check(it->zone.form != IXDTF_NO_ZONE || !it->zone.is_critical, "a zone that is not present is not critical");
    check(it->has_calendar || it->calendar.length == 0, "a calendar that is not present has length 0");
    check(it->location.length == 0 && it->place == 0, "after 0, location has length 0, and place is 0");
    check(it->zone.name.at != NULL && it->calendar.at != NULL && it->location.at != NULL, "no slice has the pointer NULL");
}

/* Whether a record has neither a date nor a time nor a calendar. */
static int OWN(has_no_more)(const CALL(record) *it) {
    return !it->date.is_there && !it->time.is_there && !it->has_calendar;
}

/* A record as an earlier call may have left it: every part is present, and its slices cannot be read. */
static CALL(record) OWN(used_record)(void) {
    CALL(record) record = NEW_RECORD;
    ixdtf_date date = { -271821, 4, 20, true };
    ixdtf_time time = { 987654321, 9, 23, 59, 60, true };
    ixdtf_offset offset = { 123, 3, IXDTF_SECONDS, true, 11, 22, 33 };
    record.date = date;
    record.time = time;
    record.offset = offset;
    record.zone.name.at = (const UNIT *)(const void *)behind;
    record.zone.name.length = 3;
    record.zone.form = IXDTF_NAME;
    record.zone.is_critical = true;
    record.zone.is_negative = true;
    record.zone.hour = 12;
    record.zone.minute = 34;
    record.calendar.at = (const UNIT *)(const void *)behind;
    record.calendar.length = 3;
    record.has_calendar = true;
    record.location.at = behind;
    record.location.length = 4;
    record.place = 99;
    return record;
}

/* Compares what a reader returned and wrote with a row. */
static void OWN(compare)(const struct row *row, uint32_t error, const CALL(record) *record, const ixdtf_duration *duration) {
    struct line line, wanted;
    wanted.length = 0;
    OWN(show_outcome)(&line, row->reader, error, record, duration);
    if (*row->fields != 0) {
        show(&wanted, "ok %s", row->fields);
    } else if (*row->error != 0) {
        const char *at = *row->at == 0 ? strrchr(line.text, ' ') + 1 : row->at;
        show(&wanted, "error %s at %s", row->error, at);
    }
    check(error == IXDTF_OK || *row->error != 0, "the text is accepted");
    if (wanted.length > 0) {
        is(line.text, wanted.text, row->reader, row->text);
    }
}

/* Tests a row three times: with a new record, with a record that was used before, and with a record of zeros. The first time, the text is at the
 * beginning of the array `room`. Then it is at the end. */
static void OWN(test_reader)(const struct row *row) {
    int used;
    for (used = 0; used < 3; used++) {
        size_t length;
        const UNIT *text = OWN(placed)(row->text, used > 0, &length);
        CALL(record) record = NEW_RECORD;
        ixdtf_duration duration = IXDTF_DURATION;
        uint32_t error;
        CALL(record) before;
        ixdtf_duration duration_before;
        if (used == 1) {
            record = OWN(used_record)();
            duration = used_duration();
        } else if (used == 2) {
            memset(&record, 0, sizeof record);
            memset(&duration, 0, sizeof duration);
        }
        before = record;
        duration_before = duration;
        error = OWN(read)(row->reader, row->strict, text, length, &record, &duration);
        OWN(compare)(row, error, &record, &duration);
        if (error != 0) {
            check(OWN(same_but_error)(&record, &before), "after an error, the record is unchanged");
            check(same_duration_but_error(&duration, &duration_before), "after an error, the duration is unchanged");
        } else if (!strcmp(row->reader, "duration")) {
            check_cleared_duration(&duration);
        } else {
            OWN(check_cleared)(&record);
            check(record.zone.form != IXDTF_NAME || OWN(is_part)(record.zone.name, text, length), "the name is a slice of the text");
            check(!record.has_calendar || OWN(is_part)(record.calendar, text, length), "the calendar is a slice of the text");
            if (!strcmp(row->reader, "offset")) {
                check(OWN(has_no_more)(&record) && record.zone.form == IXDTF_NO_ZONE, "the record has only an offset");
            } else if (!strcmp(row->reader, "zone") || !strcmp(row->reader, "zone-name")) {
                check(OWN(has_no_more)(&record) && record.offset.form == IXDTF_NO_OFFSET, "the record has only a zone");
                check(!record.zone.is_critical, "the zone is not critical");
                check(record.zone.form == IXDTF_NAME || !strcmp(row->reader, "zone"), "the reader of names of zones writes a name");
            }
        }
    }
}

/* Writes the reply of a handler of the rows to an annotation. `number` is the index of the annotation, from 0. Returns 0 if the handler drops the
 * annotation, and otherwise 1. */
static int OWN(replies)(const char *handler, size_t number, const CALL(annotation) *it, CALL(annotation) *reply) {
    static const UNIT key[] = { 'u', '-', 'c', 'a' };
    static const UNIT first[] = { 'a' };
    static const UNIT second[] = { 'b' };
    *reply = *it;
    if (!strcmp(handler, "drop")) {
        return 0;
    } else if (!strcmp(handler, "make-critical")) {
        reply->is_critical = true;
    } else if (!strcmp(handler, "turn-critical")) {
        reply->is_critical = !it->is_critical;
    } else if (!strcmp(handler, "another")) {
        if (number == 2) {
            return 0;
        } else if (number < 2) {
            reply->key.at = key;
            reply->key.length = 4;
            reply->value.at = number == 0 ? first : second;
            reply->value.length = 1;
            reply->is_critical = number == 0 ? false : it->is_critical;
        }
    } else {
        check(!strcmp(handler, "keep"), "the row names a handler");
    }
    return 1;
}

/* Tests the reader with arrays of every capacity, from 0 to two more than the number of annotations. Returns the number of annotations. */
static size_t OWN(test_listing)(const struct row *row, const UNIT *text, size_t length) {
    CALL(annotation) all[64], some[64];
    CALL(annotation) none = NEW_ANNOTATION;
    CALL(record) record = NEW_RECORD, again = NEW_RECORD;
    CALL(record) used = OWN(used_record)();
    size_t count = 7, places, i;
    uint32_t error = OWN(list)(row->reader, 0, text, length, all, 0, &count, &record);
    check(count <= 60, "the row has at most 60 annotations");
    none.key.at = (const UNIT *)(const void *)behind; /* The reader must not follow this pointer. */
    none.key.length = 5;
    for (places = 0; places <= count + 2; places++) {
        size_t found = 7;
        for (i = 0; i < 64; i++) {
            some[i] = none;
        }
        if (error == 0) {
            again = used;
        }
        check(OWN(list)(row->reader, 0, text, length, some, places, &found, &again) == error, "the result does not depend on the capacity");
        check(found == count, "count does not depend on the capacity");
        check(OWN(same_but_error)(&record, &again) && record.place == again.place, "the record does not depend on the capacity");
        if (error == 0) {
            OWN(check_cleared)(&again);
        }
        for (i = 0; i < 64; i++) {
            if (i < places && i < count) {
                check(OWN(is_part)(some[i].key, text, length) && OWN(is_part)(some[i].value, text, length)
                        && some[i].key.at + some[i].key.length + 1 == some[i].value.at && some[i].key.at[some[i].key.length] == '='
                        && some[i].is_critical == (some[i].key.at[-1] == '!'),
                    "the key and the value are slices of the text, and is_critical is true if there is a !");
            } else {
                check(OWN(same_units)(some[i].key, none.key) && OWN(same_units)(some[i].value, none.value) && !some[i].is_critical,
                    "the other elements of the array are unchanged");
            }
        }
    }
    return count;
}

/* Tests a row with a handler, as docs/C.md describes in "Handlers": lists the annotations, passes the reply of the handler for each annotation to
 * ixdtf_reply, and stops at the first error. The list, the record and the calendar were initialised with zeros. */
static void OWN(test_handler)(const struct row *row) {
    struct line calls;
    size_t length, count = 0, found, i;
    const UNIT *text = OWN(placed)(row->text, 1, &length);
    CALL(annotation) list[64];
    CALL(record) record;
    CALL(calendar) calendar;
    ixdtf_duration duration = IXDTF_DURATION;
    uint32_t error, refused = 0;
    memset(list, 0, sizeof list);
    memset(&record, 0, sizeof record);
    memset(&calendar, 0, sizeof calendar);
    found = OWN(test_listing)(row, text, length);
    error = OWN(list)(row->reader, 0, text, length, list, 64, &count, &record);
    check(count == found, "count does not depend on the capacity");
    calls.length = 0;
    show(&calls, "%s", "");
    for (i = 0; i < count && refused == 0; i++) {
        CALL(annotation) reply;
        show(&calls, "[%s", list[i].is_critical ? "!" : "");
        OWN(show_units)(&calls, list[i].key);
        show(&calls, "=");
        OWN(show_units)(&calls, list[i].value);
        show(&calls, "]");
        if (OWN(replies)(row->handler, i, &list[i], &reply)) {
            CALL(calendar) before = calendar;
            refused = CALL(reply)(&calendar, &reply);
            check(refused == 0 || refused == IXDTF_CRITICAL_DUPLICATE_CALENDAR || refused == IXDTF_UNRECOGNIZED_CRITICAL, "ixdtf_reply returns 0, IXDTF_CRITICAL_DUPLICATE_CALENDAR or IXDTF_UNRECOGNIZED_CRITICAL");
            check((refused == 0 && !before.is_there) || (OWN(same_units)(before.value, calendar.value) && before.is_critical == calendar.is_critical
                      && before.is_there == calendar.is_there),
                "the calendar is unchanged after an error, or if one was kept before");
        }
    }
    if (refused != 0) {
        /* The position of the error is directly after the bracket of the last annotation. */
        ixdtf_text nothing = IXDTF_TEXT;
        error = refused;
        record.location = nothing;
        record.place = CALL(reply_place)(text, &list[i - 1]);
    } else if (error == 0) {
        check(!record.has_calendar, "a reader that lists annotations writes no calendar");
        CALL(keep_calendar)(&record, &calendar);
        check(calendar.is_there || record.calendar.length == 0, "without a kept calendar, calendar has length 0");
    }
    OWN(compare)(row, error, &record, &duration);
    is(calls.text, row->calls, row->handler, row->text);
    /* If the reader gives the same result in both profiles, it also lists as many annotations. The results may differ only because of the day 00: the
     * strict profile refuses it, and so accepts times such as 1200. */
    if (!strcmp(row->reader, "month-day") || !strcmp(row->reader, "time")) {
        size_t strict_count = 0;
        CALL(record) strict = NEW_RECORD;
        uint32_t strict_error = OWN(list)(row->reader, 1, text, length, list, 64, &strict_count, &strict);
        uint32_t plain_error = OWN(list)(row->reader, 0, text, length, list, 64, &count, &record);
        check(strict_error == plain_error ? strict_count == count
                                          : strict_error == IXDTF_INVALID_MONTH_DAY || plain_error == IXDTF_AMBIGUOUS_TIME_MONTH_DAY,
            "the strict reader lists as many annotations");
    }
}

/* Tests a row with the reader that lists annotations, if there is one. If the text has no annotations, the result is the same. */
static void OWN(test_same_listing)(const struct row *row) {
    size_t length, count = 7;
    const UNIT *text = OWN(placed)(row->text, 1, &length);
    CALL(annotation) list[1] = { NEW_ANNOTATION };
    CALL(record) record = NEW_RECORD;
    ixdtf_duration duration = IXDTF_DURATION;
    uint32_t error;
    if (reader_number(row->reader, row->strict, 1) == 0) {
        return;
    }
    error = OWN(list)(row->reader, row->strict, text, length, list, 1, &count, &record);
    if (count == 0) {
        OWN(compare)(row, error, &record, &duration);
    }
}

/* Tests the explanation of a text that is refused, and its report, as far as the row has them. `error` is what the reader returned. */
static void OWN(test_explained)(const struct row *row, const UNIT *text, size_t length, uint32_t error) {
    ixdtf_explanation it = { 1, 2, 3, 4, 5 };
    char part[64];
    uint8_t bytes[3 * 2048];
    size_t count = 0, i;
    uint32_t lists = reader_number(row->reader, row->strict, 1);
    check(CALL(explain)(reader_number(row->reader, row->strict, 0), text, length, &it) == error && it.error == error, "ixdtf_explain returns what the reader returns");
    snprintf(part, sizeof part, "%lu..%lu", (unsigned long)it.begin, (unsigned long)it.end);
    if (*row->part != 0) {
        is(part, row->part, row->reader, row->text);
    }
    if (*row->reason != 0) {
        is(ixdtf_reason_name(it.reason), row->reason, row->reader, row->text);
    }
    if (sizeof(UNIT) == 2) {
        count = ixdtf16_to_utf8((const uint16_t *)(const void *)text, length, bytes);
    } else {
        for (i = 0; i < length; i++) {
            bytes[count++] = (uint8_t)text[i];
        }
    }
    if (*row->message != 0) {
        check_report(&it, bytes, count, row->message);
    }
    if (lists != 0 && error != IXDTF_UNRECOGNIZED_CRITICAL && error != IXDTF_CRITICAL_DUPLICATE_CALENDAR) {
        ixdtf_explanation same = { 1, 2, 3, 4, 5 };
        CALL(record) record = NEW_RECORD;
        CALL(annotation) list[1] = { NEW_ANNOTATION };
        uint32_t listed = OWN(list)(row->reader, row->strict, text, length, list, 1, &count, &record);
        check(listed == error && CALL(explain)(lists, text, length, &same) == listed && !memcmp(&it, &same, sizeof it), "the reader that lists annotations has the same explanation");
    }
}

static void OWN(test_texts)(void) {
    static const UNIT nothing[1] = { 0 };
    static const UNIT date[] = { '2', '0', '2', '4', '-', '0', '3', '-', '0', '2', 0, '[', 'x' };
    CALL(record) record = NEW_RECORD;
    CALL(annotation) list[1] = { NEW_ANNOTATION };
    CALL(annotation) critical = NEW_ANNOTATION;
    CALL(calendar) calendar = NEW_CALENDAR;
    size_t count = 7;
    check(CALL(parse)(nothing, 0, &record) == IXDTF_ABRUPT_END, "an empty text is refused with IXDTF_ABRUPT_END");
    check(record.location.length == 5 && !memcmp(record.location.at, "digit", 5) && record.place == 0, "the location of the error of an empty text is digit");
    check(CALL(parse)(date, 10, &record) == IXDTF_OK && record.date.is_there && record.date.day == 2, "no code unit after the length is read");
    check(CALL(parse)(date, 11, &record) == (sizeof(UNIT) == 1 ? IXDTF_INVALID_END : IXDTF_NON_ASCII_CODE_POINT), "a NUL within the length is a code unit");
    check(record.location.length == 0 && record.place == 10, "after an error that is not IXDTF_ABRUPT_END, location has length 0");
    check(CALL(parse_with_annotations)(date, 10, list, 0, &count, &record) == IXDTF_OK && count == 0, "a text without annotations has the count 0");
    check(CALL(reply)(&calendar, &critical) == IXDTF_OK && !calendar.is_there, "a reply with an empty key is accepted, and not kept");
    critical.is_critical = true;
    check(CALL(reply)(&calendar, &critical) == IXDTF_UNRECOGNIZED_CRITICAL && !calendar.is_there, "a critical reply with an empty key is refused");
}

/* Tests that a text may be NULL if its length is 0, and that a list may be NULL if its capacity is 0. */
static void OWN(test_null)(void) {
    static const char *readers[] = { "parse", "year-month", "month-day", "time", "rfc9557", "rfc3339", "offset", "zone", "zone-name", "duration" };
    static const UNIT nothing[1] = { 0 };
    static const UNIT listed[] = { '2', '0', '2', '4', '-', '0', '3', '-', '0', '2', '[', 'a', '=', 'b', ']', '[', 'c', '=', 'd', ']' };
    size_t i, count;
    int strict;
    for (i = 0; i < COUNT(readers); i++) {
        for (strict = 0; strict < 2; strict++) {
            struct line line, wanted;
            CALL(record) record = NEW_RECORD, zeros;
            ixdtf_duration duration = IXDTF_DURATION, zero;
            memset(&zeros, 0, sizeof zeros);
            memset(&zero, 0, sizeof zero);
            OWN(show_outcome)(&wanted, readers[i], OWN(read)(readers[i], strict, nothing, 0, &record, &duration), &record, &duration);
            OWN(show_outcome)(&line, readers[i], OWN(read)(readers[i], strict, NULL, 0, &zeros, &zero), &zeros, &zero);
            is(line.text, wanted.text, readers[i], "NULL");
            if (i < 5) {
                count = 7;
                memset(&zeros, 0, sizeof zeros);
                OWN(show_outcome)(&line, readers[i], OWN(list)(readers[i], strict, NULL, 0, NULL, 0, &count, &zeros), &zeros, &zero);
                is(line.text, wanted.text, readers[i], "NULL, with a list");
                check(count == 0, "an empty text has no annotations");
            }
        }
    }
    {
        CALL(record) zeros;
        memset(&zeros, 0, sizeof zeros);
        count = 7;
        check(CALL(parse_with_annotations)(listed, COUNT(listed), NULL, 0, &count, &zeros) == IXDTF_OK && count == 2, "the list may be NULL if its capacity is 0");
        OWN(check_cleared)(&zeros);
    }
}

/* Tests ixdtf_reply with a reply and a calendar of zeros, whose slices have length 0 and the pointer NULL. */
static void OWN(test_zero_replies)(void) {
    static const UNIT key[] = { 'u', '-', 'c', 'a' };
    CALL(annotation) reply;
    CALL(calendar) calendar;
    memset(&reply, 0, sizeof reply);
    memset(&calendar, 0, sizeof calendar);
    check(CALL(reply)(&calendar, &reply) == IXDTF_OK && !calendar.is_there, "a reply of zeros is accepted, and not kept");
    reply.is_critical = true;
    check(CALL(reply)(&calendar, &reply) == IXDTF_UNRECOGNIZED_CRITICAL && !calendar.is_there, "a critical reply of zeros is refused");
    reply.key.at = key;
    reply.key.length = 4;
    reply.is_critical = false;
    check(CALL(reply)(&calendar, &reply) == IXDTF_OK && calendar.is_there && calendar.value.length == 0 && !calendar.is_critical, "a calendar of length 0 is kept");
    calendar.value.at = NULL;
    reply.is_critical = true;
    check(CALL(reply)(&calendar, &reply) == IXDTF_OK && !calendar.is_critical, "a critical reply with the same calendar is accepted, and the first calendar stays");
    reply.value.at = key;
    reply.value.length = 1;
    check(CALL(reply)(&calendar, &reply) == IXDTF_CRITICAL_DUPLICATE_CALENDAR && calendar.value.length == 0, "a critical reply with another calendar is refused");
    reply.is_critical = false;
    check(CALL(reply)(&calendar, &reply) == IXDTF_OK && calendar.value.length == 0 && calendar.is_there, "a reply with another calendar is accepted, and the first calendar stays");
}

/* Tests the instants of records in which a field was changed. */
static void OWN(test_instants)(void) {
    size_t length;
    const UNIT *text = OWN(placed)("1970-01-01T00:00:00.5+00:00:00.25[UTC]", 1, &length);
    int64_t seconds = 77;
    uint32_t nanoseconds = 78;
    CALL(record) full = NEW_RECORD, it;
    check(CALL(parse)(text, length, &full) == IXDTF_OK, "a text with two fractions is accepted");
#define CHANGED(change, wanted, wanted_seconds, wanted_nanoseconds) \
    it = full; \
    change; \
    row_shown = #change; \
    seconds = 77; \
    nanoseconds = 78; \
    check(CALL(instant)(&it, &seconds, &nanoseconds) == wanted && seconds == wanted_seconds && nanoseconds == wanted_nanoseconds, "the result and the instant of a record with a changed field")
    CHANGED(it.zone.form = 7, IXDTF_OK, 0, 250000000);
    CHANGED(it.date.is_there = false, IXDTF_NO_INSTANT, 77, 78);
    CHANGED(it.time.is_there = false, IXDTF_NO_INSTANT, 77, 78);
    CHANGED(it.offset.form = IXDTF_NO_OFFSET, IXDTF_NO_INSTANT, 77, 78);
    CHANGED(it.offset.form = 4, IXDTF_NO_INSTANT, 77, 78);
    CHANGED(it.offset.form = IXDTF_UTC, IXDTF_OK, 0, 500000000);
    CHANGED(it.offset.is_negative = true, IXDTF_OK, 0, 750000000);
    CHANGED(it.offset.fraction_digits = 1, IXDTF_NO_INSTANT, 77, 78);
    CHANGED((it.offset.fraction_digits = 1, it.offset.form = IXDTF_MINUTES), IXDTF_OK, 0, 500000000);
    CHANGED(it.time.fraction = 10, IXDTF_NO_INSTANT, 77, 78);
    CHANGED(it.time.fraction_digits = 0, IXDTF_OK, -1, 750000000);
    CHANGED(it.date.month = 0, IXDTF_NO_INSTANT, 77, 78);
    CHANGED(it.date.month = 13, IXDTF_NO_INSTANT, 77, 78);
    CHANGED(it.date.day = 0, IXDTF_OK, -86400, 250000000);
    CHANGED(it.date.day = 32, IXDTF_OK, 31 * 86400, 250000000);
    CHANGED(it.time.hour = 24, IXDTF_OK, 86400, 250000000);
    CHANGED(it.time.second = 61, IXDTF_OK, 59, 250000000);
#undef CHANGED
    row_shown = "";
}

static void OWN(test_all)(void) {
    OWN(test_texts)();
    OWN(test_instants)();
    OWN(test_null)();
    OWN(test_zero_replies)();
    row_shown = "";
}
