/* The part of rows.c for one width of code units. Before it, rows.c defines these macros:
 *
 *     UNIT         the type of a code unit
 *     CALL(name)   a function or a type of the header: ixdtf_name or ixdtf16_name
 *     OWN(name)    a function of this file for this width
 */

static void OWN(print_units)(CALL(units) units) {
    size_t i;
    for (i = 0; i < units.length; i++) {
        putchar((int)units.at[i]); /* the code units of a text that was accepted are ASCII */
    }
}

static void OWN(print_zone)(const CALL(zone) *it) {
    if (it->form == IXDTF_NAME) {
        OWN(print_units)(it->name);
    } else {
        print_minutes(it->is_negative, it->hour, it->minute);
    }
}

static void OWN(print_record)(const CALL(record) *it) {
    const char *space = "";
    if (it->date.is_there) {
        printf("date=%" PRId32 ",%u,%u", it->date.year, it->date.month, it->date.day);
        space = " ";
    }
    if (it->time.is_there) {
        printf("%stime=%u,%u,%u", space, it->time.hour, it->time.minute, it->time.second);
        print_fraction(it->time.fraction_digits, it->time.fraction);
        space = " ";
    }
    if (it->offset.form != IXDTF_NO_OFFSET) {
        printf("%soffset=", space);
        print_offset(&it->offset);
        space = " ";
    }
    if (it->zone.form != IXDTF_NO_ZONE) {
        printf("%stz=%s", space, it->zone.is_critical ? "!" : "");
        OWN(print_zone)(&it->zone);
    }
    if (it->has_calendar) {
        printf(" calendar=");
        OWN(print_units)(it->calendar);
    }
}

static uint32_t OWN(read)(uint32_t reader, const UNIT *text, size_t length, CALL(record) *out, ixdtf_duration *duration) {
    switch (reader) {
    case IXDTF_READER_PARSE: return CALL(parse)(text, length, out);
    case IXDTF_READER_PARSE_YEAR_MONTH: return CALL(parse_year_month)(text, length, out);
    case IXDTF_READER_PARSE_MONTH_DAY: return CALL(parse_month_day)(text, length, out);
    case IXDTF_READER_PARSE_MONTH_DAY_STRICT: return CALL(parse_month_day_strict)(text, length, out);
    case IXDTF_READER_PARSE_TIME: return CALL(parse_time)(text, length, out);
    case IXDTF_READER_PARSE_TIME_STRICT: return CALL(parse_time_strict)(text, length, out);
    case IXDTF_READER_PARSE_RFC3339: return CALL(parse_rfc3339)(text, length, out);
    case IXDTF_READER_PARSE_RFC9557: return CALL(parse_rfc9557)(text, length, out);
    case IXDTF_READER_PARSE_OFFSET: return CALL(parse_offset)(text, length, out);
    case IXDTF_READER_PARSE_IDENTIFIER: return CALL(parse_identifier)(text, length, out);
    case IXDTF_READER_PARSE_IANA_IDENTIFIER: return CALL(parse_iana_identifier)(text, length, out);
    case IXDTF_READER_PARSE_DURATION: return CALL(parse_duration)(text, length, duration);
    default: return CALL(parse_duration_strict)(text, length, duration);
    }
}

/* Lists the annotations of a text. */
static uint32_t OWN(list)(uint32_t reader, const UNIT *text, size_t length, CALL(annotation) *list, size_t *count, CALL(record) *out) {
    switch (reader) {
    case IXDTF_READER_PARSE: return CALL(parse_with_annotations)(text, length, list, MOST_ANNOTATIONS, count, out);
    case IXDTF_READER_PARSE_YEAR_MONTH: return CALL(parse_year_month_with_annotations)(text, length, list, MOST_ANNOTATIONS, count, out);
    case IXDTF_READER_PARSE_MONTH_DAY: return CALL(parse_month_day_with_annotations)(text, length, list, MOST_ANNOTATIONS, count, out);
    case IXDTF_READER_PARSE_MONTH_DAY_STRICT: return CALL(parse_month_day_with_annotations_strict)(text, length, list, MOST_ANNOTATIONS, count, out);
    case IXDTF_READER_PARSE_TIME: return CALL(parse_time_with_annotations)(text, length, list, MOST_ANNOTATIONS, count, out);
    case IXDTF_READER_PARSE_TIME_STRICT: return CALL(parse_time_with_annotations_strict)(text, length, list, MOST_ANNOTATIONS, count, out);
    default: return CALL(parse_rfc9557_with_annotations)(text, length, list, MOST_ANNOTATIONS, count, out);
    }
}

/* Changes an annotation to the reply of a handler of tests/replies.tsv. `number` is the number of the call, from 1. Returns 0 if there is no reply. */
static int OWN(replies)(const char *handler, size_t number, CALL(annotation) *it) {
    static const UNIT key[] = { 'u', '-', 'c', 'a' }, first[] = { 'a' }, second[] = { 'b' };
    if (!strcmp(handler, "drop")) {
        return 0;
    } else if (!strcmp(handler, "make-critical")) {
        it->is_critical = true;
    } else if (!strcmp(handler, "turn-critical")) {
        it->is_critical = !it->is_critical;
    } else if (!strcmp(handler, "another") && number == 3) {
        return 0;
    } else if (!strcmp(handler, "another") && number < 3) {
        it->key.at = key;
        it->key.length = COUNT(key);
        it->value.at = number == 1 ? first : second;
        it->value.length = 1;
        it->is_critical = it->is_critical && number == 2;
    }
    return 1;
}

/* Reads a text with a handler, as docs/C.md describes it in "Handlers", and prints the calls of the handler. */
static uint32_t OWN(read_replying)(uint32_t reader, const char *handler, const UNIT *text, size_t length, CALL(record) *out) {
    static CALL(annotation) list[MOST_ANNOTATIONS];
    CALL(calendar) calendar;
    size_t count = 0, i;
    uint32_t error = OWN(list)(reader, text, length, list, &count, out), refused = IXDTF_OK;
    memset(&calendar, 0, sizeof calendar);
    printf("calls=");
    for (i = 0; i < count && refused == IXDTF_OK; i++) {
        CALL(annotation) reply = list[i];
        printf("[%s", reply.is_critical ? "!" : "");
        OWN(print_units)(reply.key);
        printf("=");
        OWN(print_units)(reply.value);
        printf("]");
        if (OWN(replies)(handler, i + 1, &reply)) {
            refused = CALL(reply)(&calendar, &reply);
        }
    }
    printf("\t");
    if (refused != IXDTF_OK) {
        out->place = CALL(reply_place)(text, &list[i - 1]);
        return refused;
    }
    if (error == IXDTF_OK) {
        CALL(keep_calendar)(out, &calendar);
    }
    return error;
}

/* Prints the canonical text, if there is a printer for what the reader writes. */
static void OWN(print_canonical)(uint32_t reader, const CALL(record) *record, const ixdtf_duration *duration) {
    static UNIT out[2 * MOST_UNITS];
    CALL(units) printed = { out, 0 };
    uint32_t error;
    switch (reader) {
    case IXDTF_READER_PARSE_IANA_IDENTIFIER: return;
    case IXDTF_READER_PARSE_YEAR_MONTH: error = CALL(print_year_month)(record, out, COUNT(out), &printed.length); break;
    case IXDTF_READER_PARSE_MONTH_DAY:
    case IXDTF_READER_PARSE_MONTH_DAY_STRICT: error = CALL(print_month_day)(record, out, COUNT(out), &printed.length); break;
    case IXDTF_READER_PARSE_TIME:
    case IXDTF_READER_PARSE_TIME_STRICT: error = CALL(print_time)(record, out, COUNT(out), &printed.length); break;
    case IXDTF_READER_PARSE_OFFSET: error = CALL(print_offset)(&record->offset, out, COUNT(out), &printed.length); break;
    case IXDTF_READER_PARSE_IDENTIFIER: error = CALL(print_zone)(&record->zone, out, COUNT(out), &printed.length); break;
    case IXDTF_READER_PARSE_DURATION:
    case IXDTF_READER_PARSE_DURATION_STRICT: error = CALL(print_duration)(duration, out, COUNT(out), &printed.length); break;
    default: error = CALL(print)(record, out, COUNT(out), &printed.length); break;
    }
    if (error != IXDTF_OK) {
        failed("a value that was read has a canonical text");
    }
    printf("\tcanonical=");
    OWN(print_units)(printed);
}

static void OWN(print_accepted)(uint32_t reader, const CALL(record) *record, const ixdtf_duration *duration) {
    int64_t seconds = 0;
    uint32_t nanoseconds = 0;
    printf("fields=");
    if (reader == IXDTF_READER_PARSE_DURATION || reader == IXDTF_READER_PARSE_DURATION_STRICT) {
        print_duration(duration);
    } else {
        OWN(print_record)(record);
    }
    OWN(print_canonical)(reader, record, duration);
    if (CALL(instant)(record, &seconds, &nanoseconds) == IXDTF_OK) {
        printf("\tinstant=%" PRId64 ",%" PRIu32, seconds, nanoseconds);
    } else {
        printf("\tinstant=none");
    }
}

/* Writes a text in UTF-8 to `out`, and its length to `count`. Returns 0 if the text has a surrogate without the other one of its pair. */
static int OWN(to_bytes)(const UNIT *text, size_t length, uint8_t *out, size_t *count) {
    uint16_t units[MOST_UNITS];
    size_t i;
    for (i = 0; i < length; i++) {
        units[i] = text[i];
        out[i] = (uint8_t)text[i];
    }
    *count = sizeof(UNIT) == 1 ? length : ixdtf16_to_utf8(units, length, out);
    for (i = 0; i < length; i++) {
        if (text[i] / 0x400 == 0x36 && i + 1 < length && text[i + 1] / 0x400 == 0x37) {
            i++;
        } else if (text[i] / 0x800 == 0x1b) {
            return 0;
        }
    }
    return 1;
}

/* Prints the reason of an error, as ixdtf_explain tells it. */
static void OWN(print_explained)(uint32_t reader, const UNIT *text, size_t length, uint32_t error) {
    static uint8_t bytes[3 * MOST_UNITS];
    ixdtf_explanation it = IXDTF_EXPLANATION;
    size_t count;
    if (CALL(explain)(reader, text, length, &it) != error || it.error != error) {
        failed("ixdtf_explain returns what the reader returns");
    }
    printf("\tpart=%zu..%zu\treason=%s", it.begin, it.end, ixdtf_reason_name(it.reason));
    if (OWN(to_bytes)(text, length, bytes, &count)) {
        print_report(&it, bytes, count);
    }
}

/* Prints the answer to a request. */
static void OWN(answer)(const char *word, const char *handler, const UNIT *text, size_t length) {
    uint32_t reader = reader_number(word), error;
    CALL(record) record;
    ixdtf_duration duration = IXDTF_DURATION;
    memset(&record, 0, sizeof record);
    if (*handler != 0) {
        error = OWN(read_replying)(reader, handler, text, length, &record);
    } else {
        error = OWN(read)(reader, text, length, &record, &duration);
    }
    if (error == IXDTF_OK) {
        OWN(print_accepted)(reader, &record, &duration);
        return;
    }
    if (reader == IXDTF_READER_PARSE_DURATION || reader == IXDTF_READER_PARSE_DURATION_STRICT) {
        record.location = duration.location;
        record.place = duration.place;
    }
    print_error(error, record.location);
    printf("\tat=%zu", record.place);
    if (*handler == 0) {
        OWN(print_explained)(reader, text, length, error);
    }
}
