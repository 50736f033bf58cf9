/* The checks for one width of code units. main.c includes this file twice, for 8-bit and for 16-bit text. Before, it defines these macros:
 *
 *     UNIT           the type of a code unit
 *     CALL(name)     a function or a type of the header: ixdtf_name or ixdtf16_name
 *     OWN(name)      a function of this file for this width: narrow_name or wide_name
 *     WIDTH          the name of the width
 *     HAS_PRINTERS   whether the header has printers for this width
 */

/* Calls the reader of a kind, or another reader of the same texts. */
static uint32_t OWN(read)(enum kind kind, enum rules rules, const UNIT *text, size_t length, CALL(record) *record, ixdtf_duration *duration) {
    switch (kind) {
    case PARSE:
        return rules == RFC3339 ? CALL(parse_rfc3339)(text, length, record) : rules == RFC9557 ? CALL(parse_rfc9557)(text, length, record)
            : CALL(parse)(text, length, record);
    case YEAR_MONTH:
        return CALL(parse_year_month)(text, length, record);
    case MONTH_DAY:
        return rules == STRICT ? CALL(parse_month_day_strict)(text, length, record) : CALL(parse_month_day)(text, length, record);
    case TIME:
        return rules == STRICT ? CALL(parse_time_strict)(text, length, record) : CALL(parse_time)(text, length, record);
    case OFFSET:
        return CALL(parse_offset)(text, length, record);
    case ZONE:
        return rules == ONLY_NAMES ? CALL(parse_iana_identifier)(text, length, record) : CALL(parse_identifier)(text, length, record);
    default:
        return rules == STRICT ? CALL(parse_duration_strict)(text, length, duration) : CALL(parse_duration)(text, length, duration);
    }
}

#if HAS_PRINTERS
/* Copies a name or a calendar to the end of an array. If it is empty, the pointer is NULL. */
static CALL(units) OWN(copied)(struct units from, UNIT *array) {
    CALL(units) units = { NULL, 0 };
    size_t at;
    if (from.length) {
        UNIT *first = array + ROOM - from.length;
        for (at = 0; at < from.length; at++) {
            first[at] = (UNIT)from.at[at];
        }
        units.at = first;
        units.length = from.length;
    }
    return units;
}

/* Writes a record of this width. Its slices are in arrays that the next record overwrites. */
static void OWN(fill)(const struct made *made, CALL(record) *record) {
    static UNIT name[ROOM], calendar[ROOM];
    memset(record, 0, sizeof *record);
    record->date = made->date;
    record->time = made->time;
    record->offset = made->offset;
    record->zone.name = OWN(copied)(made->name, name);
    record->zone.form = made->zone.form;
    record->zone.is_critical = made->zone.is_critical;
    record->zone.is_negative = made->zone.is_negative;
    record->zone.hour = made->zone.hour;
    record->zone.minute = made->zone.minute;
    record->calendar = OWN(copied)(made->calendar, calendar);
    record->has_calendar = made->has_calendar;
}

/* Calls the printer of a kind. */
static uint32_t OWN(print)(enum kind kind, const CALL(record) *record, const ixdtf_duration *duration, UNIT *out, size_t room, size_t *count) {
    switch (kind) {
    case PARSE:
        return CALL(print)(record, out, room, count);
    case YEAR_MONTH:
        return CALL(print_year_month)(record, out, room, count);
    case MONTH_DAY:
        return CALL(print_month_day)(record, out, room, count);
    case TIME:
        return CALL(print_time)(record, out, room, count);
    case OFFSET:
        return CALL(print_offset)(&record->offset, out, room, count);
    case ZONE:
        return CALL(print_zone)(&record->zone, out, room, count);
    default:
        return CALL(print_duration)(duration, out, room, count);
    }
}

/* The length of the canonical text. An offset and a duration have the same functions in both widths. */
static size_t OWN(printed_length)(enum kind kind, const CALL(record) *record, const ixdtf_duration *duration) {
    switch (kind) {
    case PARSE:
        return CALL(printed_length)(record);
    case YEAR_MONTH:
        return CALL(printed_year_month_length)(record);
    case MONTH_DAY:
        return CALL(printed_month_day_length)(record);
    case TIME:
        return CALL(printed_time_length)(record);
    case OFFSET:
        return ixdtf_printed_offset_length(&record->offset);
    case ZONE:
        return CALL(printed_zone_length)(&record->zone);
    default:
        return ixdtf_printed_duration_length(duration);
    }
}

/* Calls the printer with an array of `room` code units. `wanted` is the result that it must return. The printer must write `length` code units of
 * `text`, and change no other code unit of the array or after it. */
static void OWN(check_print)(enum kind kind, const CALL(record) *record, const ixdtf_duration *duration, size_t room, uint32_t wanted,
    size_t wanted_count, const char *text, size_t length) {
    static UNIT array[2 * ROOM], marks[2 * ROOM];
    const size_t compared = room + AFTER;
    size_t count = STALE_COUNT, at;
    if (marks[0] == 0) {
        memset(array, MARK, sizeof array);
        memset(marks, MARK, sizeof marks);
    }
    const uint32_t result = OWN(print)(kind, record, duration, room ? array : NULL, room, &count);
    if (result != wanted) {
        differ(WIDTH ": with a capacity of %zu, the printer returns %u, and must return %u", room, result, wanted);
    }
    if (count != wanted_count) {
        differ(WIDTH ": with a capacity of %zu, the count is %zu, and must be %zu", room, count, wanted_count);
    }
    for (at = 0; at < length; at++) {
        if (array[at] != (UNIT)text[at]) {
            differ(WIDTH ": code unit %zu is %u, and must be %u in %.*s", at, array[at], (unsigned)text[at], (int)length, text);
        }
    }
    if (memcmp(array + length, marks, (compared - length) * sizeof(UNIT))) {
        differ(WIDTH ": with a capacity of %zu, the printer changed a code unit after the text, or of an array that is too short", room);
    }
    memset(array, MARK, length * sizeof(UNIT));
}

/* Checks the printer and the function for the length. `text` is the canonical text, or NULL. */
static void OWN(check_printed)(enum kind kind, const CALL(record) *record, const ixdtf_duration *duration, const struct text *text) {
    const size_t length = OWN(printed_length)(kind, record, duration), wanted = text ? text->length : 0;
    if (length != wanted) {
        differ(WIDTH ": the length is %zu, and must be %zu", length, wanted);
    }
    if (text) {
        OWN(check_print)(kind, record, duration, wanted, IXDTF_OK, wanted, text->at, wanted);
        OWN(check_print)(kind, record, duration, wanted + 1 + below(40), IXDTF_OK, wanted, text->at, wanted);
        OWN(check_print)(kind, record, duration, wanted - 1, IXDTF_TOO_SHORT, wanted, NULL, 0);
        OWN(check_print)(kind, record, duration, below(wanted), IXDTF_TOO_SHORT, wanted, NULL, 0);
    } else {
        OWN(check_print)(kind, record, duration, below(500), IXDTF_NOT_PRINTABLE, STALE_COUNT, NULL, 0);
        OWN(check_print)(kind, record, duration, 0, IXDTF_NOT_PRINTABLE, STALE_COUNT, NULL, 0);
    }
}
#endif

/* Checks a slice that a reader wrote. It must be a part of the text, if it is not empty. */
static void OWN(check_units)(const char *call, const char *field, CALL(units) found, struct units wanted, const UNIT *text, size_t length) {
    size_t at;
    if (found.length != wanted.length || !found.at) {
        differ("%s: the slice %s has the length %zu, and must have the length %zu and a pointer", call, field, found.length, wanted.length);
    }
    if (found.length && (found.at < text || found.at + found.length > text + length)) {
        differ("%s: the slice %s is not in the text", call, field);
    }
    for (at = 0; at < found.length; at++) {
        SAME(field, found.at[at], wanted.at[at]);
    }
}

/* Checks every field of a record that a reader wrote. */
static void OWN(check_record)(const char *call, const CALL(record) *found, const struct made *wanted, const UNIT *text, size_t length) {
    check_date(call, &found->date, &wanted->date);
    check_time(call, &found->time, &wanted->time);
    check_offset(call, &found->offset, &wanted->offset);
    SAME("zone.form", found->zone.form, wanted->zone.form);
    SAME("zone.is_critical", found->zone.is_critical, wanted->zone.is_critical);
    SAME("zone.is_negative", found->zone.is_negative, wanted->zone.is_negative);
    SAME("zone.hour", found->zone.hour, wanted->zone.hour);
    SAME("zone.minute", found->zone.minute, wanted->zone.minute);
    OWN(check_units)(call, "zone.name", found->zone.name, wanted->name, text, length);
    SAME("has_calendar", found->has_calendar, wanted->has_calendar);
    OWN(check_units)(call, "calendar", found->calendar, wanted->calendar, text, length);
    SAME("location.length", found->location.length, 0u);
    SAME("whether location has a pointer", found->location.at != NULL, true);
    SAME("place", found->place, 0u);
}

/* A record in which no field has a value that a reader writes for a canonical text, except by chance. */
static void OWN(make_stale)(CALL(record) *record) {
    static const UNIT units[] = { 's', 't', 'a', 'l', 'e' };
    memset(record, 0, sizeof *record);
    record->date = STALE_DATE;
    record->time = STALE_TIME;
    record->offset = STALE_OFFSET;
    record->zone.name.at = units;
    record->zone.name.length = 5;
    record->zone.form = 86;
    record->zone.is_critical = record->zone.is_negative = record->has_calendar = true;
    record->zone.hour = 87;
    record->zone.minute = 88;
    record->calendar = record->zone.name;
    record->location.at = STALE;
    record->location.length = 5;
    record->place = 89;
}

/* Reads the canonical text under some rules. The reader must write the record `wanted`, or refuse the text. If it refuses the text, it must leave
 * every field unchanged, except for `location` and `place`. A strict reader refuses a text only because of the day 00. */
static void OWN(check_read)(enum kind kind, enum rules rules, const UNIT *text, size_t length, const struct made *wanted, CALL(record) *record,
    ixdtf_duration *duration) {
    static const char *const calls[] = { WIDTH ": the reader", WIDTH ": the strict reader", WIDTH ": the reader of RFC 3339", WIDTH ": the reader of RFC 9557",
        WIDTH ": the reader of names" };
    static CALL(record) stale;
    const bool accepts = is_accepted(kind, wanted, rules);
    const uint32_t most = accepts ? IXDTF_OK : IXDTF_INVALID_MONTH_DAY, least = accepts ? IXDTF_OK : rules == STRICT ? most : 1;
    if (!stale.place) {
        OWN(make_stale)(&stale);
    }
    memcpy(record, &stale, sizeof stale);
    memcpy(duration, &STALE_DURATION, sizeof STALE_DURATION);
    const uint32_t error = OWN(read)(kind, rules, text, length, record, duration);
    if (error < least || error > most) {
        differ("%s returns %u, and must return a number from %u to %u", calls[rules], error, least, most);
    }
    if (error) {
        if (memcmp(record, &stale, offsetof(CALL(record), location)) || memcmp(duration, &STALE_DURATION, offsetof(ixdtf_duration, location))) {
            differ("%s refuses the text, and changes the record", calls[rules]);
        }
    } else if (kind == DURATION) {
        check_duration(calls[rules], duration, &wanted->duration);
    } else {
        OWN(check_record)(calls[rules], record, wanted, text, length);
    }
}

/* Checks that the canonical text is read as the record `wanted`, and that this record has the same canonical text. */
static void OWN(check_read_back)(enum kind kind, const struct text *text, const struct made *wanted) {
    static UNIT units[ROOM];
    UNIT *first = units + ROOM - text->length;
    CALL(record) record, other;
    ixdtf_duration duration, other_duration;
    size_t at;
    for (at = 0; at < text->length; at++) {
        first[at] = (UNIT)text->at[at];
    }
    OWN(check_read)(kind, USUAL, first, text->length, wanted, &record, &duration);
    for (at = 0; at < 2 && OTHER_RULES[kind][at] != USUAL; at++) {
        OWN(check_read)(kind, OTHER_RULES[kind][at], first, text->length, wanted, &other, &other_duration);
    }
#if HAS_PRINTERS
    OWN(check_print)(kind, &record, &duration, text->length, IXDTF_OK, text->length, text->at, text->length);
#endif
}

/* Whether each code unit of a name or of a calendar has this width. */
static bool OWN(fits)(struct units units) {
    size_t at;
    for (at = 0; at < units.length && (UNIT)units.at[at] == units.at[at]; at++) {
    }
    return at == units.length;
}

/* Checks all that this program checks about a record, for this width. `text` is its canonical text, or NULL. `wanted` is the record that the reader
 * must write for this text. A record with a code unit that does not have this width is left out. */
static void OWN(check)(enum kind kind, const struct made *made, const struct text *text, const struct made *wanted, struct counts *counts) {
    if (!OWN(fits)(wanted->name) || !OWN(fits)(wanted->calendar)) {
        return;
    }
#if HAS_PRINTERS
    CALL(record) record;
    OWN(fill)(made, &record);
    OWN(check_printed)(kind, &record, &made->duration, text);
#else
    (void)made;
#endif
    if (text) {
        OWN(check_read_back)(kind, text, wanted);
    }
    counts->records++;
    counts->printable += text != NULL;
}
