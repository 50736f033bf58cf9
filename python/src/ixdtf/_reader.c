/* The extension of the package: the functions that call the readers and printers of the library for C, and the type Record. _columns.c has the functions that
 * read many texts. Code that need not be fast is written in Python, in the other modules of this package. */
#include "_reader.h"

#include <datetime.h>
#include <string.h>

/* Python 3.10 added this macro. */
#ifndef PyDateTime_DATE_GET_TZINFO
#define PyDateTime_DATE_GET_TZINFO(moment) \
    (((PyDateTime_DateTime *)(moment))->hastzinfo ? ((PyDateTime_DateTime *)(moment))->tzinfo : Py_None)
#endif

/* If a text has more bytes than this and there is no handler, the GIL is released while the text is read, so that other threads can run. For a shorter
 * text, releasing the GIL takes longer than reading the text. */
#define LONG_TEXT 4096

/* The parts of a record that the attributes return. A part is NULL until it is needed for the first time. Those before PART_ANNOTATIONS are the arguments of
 * the constructor. */
enum { PART_DATE, PART_TIME, PART_OFFSET, PART_ZONE, PART_CALENDAR, PART_ANNOTATIONS, PARTS };

/* The garbage collector does not visit records, because a record refers only to its type, to `source` and to its parts. `source` refers to no other
 * object. The parts are made here, and not by a caller. They are tuples, numbers and str, so they never refer to a record. */
typedef struct {
    PyObject_HEAD
    ixdtf_record fields; /* Its slices point into `source`. */
    PyObject *source;    /* an ASCII str, or bytes, and not of a subclass: an object that never changes */
    list_record *list;   /* what lists the annotations of `source`, or NULL if it is not a text, or if its reader knows no annotations */
    PyObject *parts[PARTS];
} record_object;

static struct PyModuleDef module_definition;

/* Record has no subclasses. So the module of the type of `self` is this module. */
static module_state *state_of_record(PyObject *self) {
    return (module_state *)PyType_GetModuleState(Py_TYPE(self));
}

/* ---- Texts ---- */

/* Whether a buffer has one dimension, and its items are bytes. */
int has_bytes(const Py_buffer *view) {
    const char *format = view->format == NULL ? "B" : view->format;
    format += *format == '@' || *format == '=' || *format == '<' || *format == '>' || *format == '!';
    return view->ndim == 1 && view->itemsize == 1 && (*format == 'B' || *format == 'b' || *format == 'c') && format[1] == 0;
}

/* Returns a copy of a buffer as bytes. Raises TypeError if the items of the buffer are not bytes, or if it has not exactly one dimension. The bytes of such
 * a buffer, such as an array of numbers or of several texts, are not a text. */
PyObject *bytes_of_buffer(PyObject *text) {
    Py_buffer view;
    if (PyObject_GetBuffer(text, &view, PyBUF_FULL_RO) < 0) {
        return NULL;
    }
    PyObject *made = NULL;
    if (!has_bytes(&view)) {
        PyErr_Format(PyExc_TypeError, "expected a buffer with one dimension and items of one byte, and found %.100s with %d dimensions and the format %.100s",
            Py_TYPE(text)->tp_name, view.ndim, view.format == NULL ? "B" : view.format);
    } else if ((made = PyBytes_FromStringAndSize(NULL, view.len)) != NULL && PyBuffer_ToContiguous(PyBytes_AS_STRING(made), &view, view.len, 'C') < 0) {
        Py_CLEAR(made);
    }
    PyBuffer_Release(&view);
    return made;
}

/* Writes the bytes of a text to `out`. The text is a str, bytes, or another object with a buffer. An object that can change is copied. An object of a
 * subclass of str or bytes is copied too, because it can refer to the record, and then neither of them would ever be freed. Returns 0, or -1 with an
 * exception. */
int take_text(PyObject *text, text_bytes *out) {
    if (PyUnicode_Check(text)) {
        if (!is_ready(text)) {
            return -1;
        }
        if (PyUnicode_IS_ASCII(text)) {
            out->owner = PyUnicode_FromObject(text); /* a new reference to `text`, or a copy if it is of a subclass */
            if (out->owner == NULL) {
                return -1;
            }
            out->at = PyUnicode_1BYTE_DATA(out->owner);
            out->length = PyUnicode_GET_LENGTH(out->owner);
            return 0;
        }
        /* No reader accepts such a text, but its error needs a position. So unpaired surrogates are encoded too, with "surrogatepass". */
        out->owner = PyUnicode_AsEncodedString(text, "utf-8", "surrogatepass");
    } else if (PyBytes_CheckExact(text)) {
        out->owner = Py_NewRef(text);
    } else if (PyBytes_Check(text)) {
        out->owner = PyBytes_FromStringAndSize(PyBytes_AS_STRING(text), PyBytes_GET_SIZE(text));
    } else if (PyObject_CheckBuffer(text)) {
        out->owner = bytes_of_buffer(text);
    } else {
        PyErr_Format(PyExc_TypeError, "expected a text to be str or bytes, and found %.100s", Py_TYPE(text)->tp_name);
        return -1;
    }
    if (out->owner == NULL) {
        return -1;
    }
    out->at = (const uint8_t *)PyBytes_AS_STRING(out->owner);
    out->length = PyBytes_GET_SIZE(out->owner);
    return 0;
}

/* ---- Kinds ---- */

const kind KINDS[RECORD_KINDS] = {
    { "date-time", ixdtf_parse, ixdtf_parse, ixdtf_parse_with_annotations, ixdtf_parse_with_annotations,
      { IXDTF_READER_PARSE, IXDTF_READER_PARSE, IXDTF_READER_PARSE_WITH_ANNOTATIONS, IXDTF_READER_PARSE_WITH_ANNOTATIONS } },
    { "year-month", ixdtf_parse_year_month, ixdtf_parse_year_month, ixdtf_parse_year_month_with_annotations,
      ixdtf_parse_year_month_with_annotations,
      { IXDTF_READER_PARSE_YEAR_MONTH, IXDTF_READER_PARSE_YEAR_MONTH, IXDTF_READER_PARSE_YEAR_MONTH_WITH_ANNOTATIONS,
        IXDTF_READER_PARSE_YEAR_MONTH_WITH_ANNOTATIONS } },
    { "month-day", ixdtf_parse_month_day, ixdtf_parse_month_day_strict, ixdtf_parse_month_day_with_annotations,
      ixdtf_parse_month_day_with_annotations_strict,
      { IXDTF_READER_PARSE_MONTH_DAY, IXDTF_READER_PARSE_MONTH_DAY_STRICT, IXDTF_READER_PARSE_MONTH_DAY_WITH_ANNOTATIONS,
        IXDTF_READER_PARSE_MONTH_DAY_WITH_ANNOTATIONS_STRICT } },
    { "time", ixdtf_parse_time, ixdtf_parse_time_strict, ixdtf_parse_time_with_annotations, ixdtf_parse_time_with_annotations_strict,
      { IXDTF_READER_PARSE_TIME, IXDTF_READER_PARSE_TIME_STRICT, IXDTF_READER_PARSE_TIME_WITH_ANNOTATIONS,
        IXDTF_READER_PARSE_TIME_WITH_ANNOTATIONS_STRICT } },
    { "rfc3339", ixdtf_parse_rfc3339, ixdtf_parse_rfc3339, NULL, NULL, { IXDTF_READER_PARSE_RFC3339, IXDTF_READER_PARSE_RFC3339, 0, 0 } },
    { "rfc9557", ixdtf_parse_rfc9557, ixdtf_parse_rfc9557, ixdtf_parse_rfc9557_with_annotations, ixdtf_parse_rfc9557_with_annotations,
      { IXDTF_READER_PARSE_RFC9557, IXDTF_READER_PARSE_RFC9557, IXDTF_READER_PARSE_RFC9557_WITH_ANNOTATIONS,
        IXDTF_READER_PARSE_RFC9557_WITH_ANNOTATIONS } },
    { "offset", ixdtf_parse_offset, ixdtf_parse_offset, NULL, NULL, { IXDTF_READER_PARSE_OFFSET, IXDTF_READER_PARSE_OFFSET, 0, 0 } },
    { "zone", ixdtf_parse_identifier, ixdtf_parse_identifier, NULL, NULL, { IXDTF_READER_PARSE_IDENTIFIER, IXDTF_READER_PARSE_IDENTIFIER, 0, 0 } },
    { "zone-name", ixdtf_parse_iana_identifier, ixdtf_parse_iana_identifier, NULL, NULL,
      { IXDTF_READER_PARSE_IANA_IDENTIFIER, IXDTF_READER_PARSE_IANA_IDENTIFIER, 0, 0 } },
};

static const char KIND_OF_DURATION[] = "duration";

uint32_t run_reader(read_record *read, const text_bytes *text, ixdtf_record *out) {
    uint32_t error;
    if (text->length <= LONG_TEXT) {
        return read(text->at, (size_t)text->length, out);
    }
    Py_BEGIN_ALLOW_THREADS
    error = read(text->at, (size_t)text->length, out);
    Py_END_ALLOW_THREADS
    return error;
}

static uint32_t run_duration(int strict, const text_bytes *text, ixdtf_duration *out) {
    uint32_t (*read)(const uint8_t *, size_t, ixdtf_duration *) = strict ? ixdtf_parse_duration_strict : ixdtf_parse_duration;
    uint32_t error;
    if (text->length <= LONG_TEXT) {
        return read(text->at, (size_t)text->length, out);
    }
    Py_BEGIN_ALLOW_THREADS
    error = read(text->at, (size_t)text->length, out);
    Py_END_ALLOW_THREADS
    return error;
}

/* ---- Errors ---- */

/* Returns a number of code points for a str, and a number of bytes for any other text. `place` is a number of bytes. */
static Py_ssize_t index_in(PyObject *text, const text_bytes *bytes, size_t place) {
    if (!PyUnicode_Check(text) || PyUnicode_IS_ASCII(text)) {
        return (Py_ssize_t)place;
    }
    Py_ssize_t index = 0;
    for (size_t i = 0; i < place; i++) {
        index += (bytes->at[i] & 0xC0) != 0x80;
    }
    return index;
}

/* Replaces each surrogate in bytes that were encoded with "surrogatepass" by U+FFFD, which has three bytes too. Returns whether there was one. */
static int replace_surrogates(uint8_t *at, Py_ssize_t length) {
    int found = 0;
    for (Py_ssize_t i = 0; i + 2 < length; i++) {
        if (at[i] == 0xED && at[i + 1] >= 0xA0) {
            at[i] = 0xEF;
            at[i + 1] = 0xBF;
            at[i + 2] = 0xBD;
            found = 1;
        }
    }
    return found;
}

/* Returns the report of an error, as a str: the message, the text, the marks, and the hint, if there is one. */
static PyObject *report_of(const text_bytes *bytes, const ixdtf_explanation *why) {
    uint8_t report[IXDTF_REPORT_ROOM];
    size_t count = 0;
    uint32_t result;
    if (bytes->length <= LONG_TEXT) {
        result = ixdtf_describe(why, bytes->at, (size_t)bytes->length, report, sizeof report, &count);
    } else {
        Py_BEGIN_ALLOW_THREADS
        result = ixdtf_describe(why, bytes->at, (size_t)bytes->length, report, sizeof report, &count);
        Py_END_ALLOW_THREADS
    }
    return result == IXDTF_OK ? PyUnicode_DecodeUTF8((const char *)report, (Py_ssize_t)count, NULL) : PyUnicode_FromString(ixdtf_error_message(why->error));
}

/* Returns the report of an error in a str that is not ASCII. A surrogate is shown as U+FFFD. If the message is about a surrogate, it has the number of
 * this surrogate. */
static PyObject *report_of_str(PyObject *text, const text_bytes *bytes, const ixdtf_explanation *why, Py_ssize_t start) {
    text_bytes copy = { NULL, bytes->length, PyBytes_FromStringAndSize((const char *)bytes->at, bytes->length) };
    if (copy.owner == NULL) {
        return NULL;
    }
    copy.at = (const uint8_t *)PyBytes_AS_STRING(copy.owner);
    int has_surrogates = replace_surrogates((uint8_t *)PyBytes_AS_STRING(copy.owner), copy.length);
    PyObject *report = report_of(&copy, why);
    Py_DECREF(copy.owner);
    Py_UCS4 first = has_surrogates && start < PyUnicode_GET_LENGTH(text) ? PyUnicode_READ_CHAR(text, start) : 0;
    if (report == NULL || !Py_UNICODE_IS_SURROGATE(first)) {
        return report;
    }
    char digits[16];
    PyOS_snprintf(digits, sizeof digits, "U+%04X", (unsigned)first);
    PyObject *number = PyUnicode_FromString(digits), *shown = PyUnicode_FromString("U+FFFD");
    PyObject *result = number == NULL || shown == NULL ? NULL : PyUnicode_Replace(report, shown, number, 1);
    Py_XDECREF(number);
    Py_XDECREF(shown);
    Py_DECREF(report);
    return result;
}

/* Raises an IxdtfError for a text, and returns NULL. `location` says what was being parsed, if the error is IXDTF_ABRUPT_END. */
static PyObject *raise_explained(module_state *state, PyObject *text, const text_bytes *bytes, const ixdtf_explanation *why, ixdtf_text location) {
    Py_ssize_t position = index_in(text, bytes, why->place);
    Py_ssize_t start = index_in(text, bytes, why->begin), end = index_in(text, bytes, why->end);
    int is_wide = PyUnicode_Check(text) && !PyUnicode_IS_ASCII(text);
    PyObject *report = is_wide ? report_of_str(text, bytes, why, start) : report_of(bytes, why);
    if (report == NULL) {
        return NULL;
    }
    PyObject *shown = PyUnicode_Check(text) || PyBytes_Check(text) ? text : bytes->owner;
    PyObject *error = PyObject_CallFunction(state->error, "OsssnnnOs#", shown, ixdtf_error_name(why->error), ixdtf_error_message(why->error),
        ixdtf_reason_name(why->reason), position, start, end, report, location.at == NULL ? "" : location.at, (Py_ssize_t)location.length);
    Py_DECREF(report);
    if (error != NULL) {
        PyErr_SetObject(state->error, error);
        Py_DECREF(error);
    }
    return NULL;
}

/* Raises an IxdtfError for a text that the reader with this number refuses, and returns NULL. */
PyObject *raise_error(module_state *state, PyObject *text, const text_bytes *bytes, uint32_t reader, ixdtf_text location) {
    ixdtf_explanation why = IXDTF_EXPLANATION;
    uint32_t error;
    if (bytes->length <= LONG_TEXT) {
        error = ixdtf_explain(reader, bytes->at, (size_t)bytes->length, &why);
    } else {
        Py_BEGIN_ALLOW_THREADS
        error = ixdtf_explain(reader, bytes->at, (size_t)bytes->length, &why);
        Py_END_ALLOW_THREADS
    }
    (void)error; /* the explanation has the error too */
    return raise_explained(state, text, bytes, &why, location);
}

/* ---- The record ---- */

static PyObject *new_record(module_state *state, const ixdtf_record *fields, PyObject *owner) {
    PyTypeObject *type = (PyTypeObject *)state->record_type;
    record_object *self = PyObject_New(record_object, type);
    if (self != NULL) {
        self->fields = *fields;
        self->source = Py_NewRef(owner);
        self->list = NULL;
        for (int i = 0; i < PARTS; i++) {
            self->parts[i] = NULL;
        }
    }
    return (PyObject *)self;
}

/* Gives a new record its annotations. It takes the reference to them. `record` can be NULL. */
static void with_annotations(PyObject *record, PyObject *annotations) {
    if (record == NULL) {
        Py_DECREF(annotations);
    } else {
        ((record_object *)record)->parts[PART_ANNOTATIONS] = annotations;
    }
}

static void record_dealloc(PyObject *self) {
    PyTypeObject *type = Py_TYPE(self);
    for (int i = 0; i < PARTS; i++) {
        Py_XDECREF(((record_object *)self)->parts[i]);
    }
    Py_XDECREF(((record_object *)self)->source);
    type->tp_free(self);
    Py_DECREF(type);
}

static PyObject *units_as_str(ixdtf_units units) {
    return PyUnicode_DecodeASCII((const char *)units.at, (Py_ssize_t)units.length, NULL);
}

/* Makes a named tuple, a tuple of a subclass, with `count` items. It takes the references to the items. If an item is NULL, it drops the others, and
 * returns NULL. This does what tuple.__new__ does for a subclass, without the call of a function in Python. */
PyObject *named_tuple(PyObject *type, PyObject *const *items, Py_ssize_t count) {
    int failed = 0;
    for (Py_ssize_t i = 0; i < count; i++) {
        failed |= items[i] == NULL;
    }
    PyObject *made = failed ? NULL : ((PyTypeObject *)type)->tp_alloc((PyTypeObject *)type, count);
    for (Py_ssize_t i = 0; i < count; i++) {
        if (made != NULL) {
            PyTuple_SET_ITEM(made, i, items[i]);
        } else {
            Py_XDECREF(items[i]);
        }
    }
#if PY_VERSION_HEX >= 0x030E0000
    /* Python 3.14 keeps the hash of a tuple in the tuple. -1 says that it is not known. */
    if (made != NULL) {
        ((PyTupleObject *)made)->ob_hash = -1;
    }
#endif
    return made;
}

static PyObject *fraction_object(module_state *state, uint64_t value, uint8_t digits) {
    if (digits == 0) {
        Py_RETURN_NONE;
    }
    return NAMED(state->fraction_type, PyLong_FromLong(digits), PyLong_FromUnsignedLongLong(value));
}

static PyObject *date_object(module_state *state, const ixdtf_date *date) {
    if (!date->is_there) {
        Py_RETURN_NONE;
    }
    return NAMED(state->date_type, PyLong_FromLong(date->year), PyLong_FromLong(date->month), PyLong_FromLong(date->day));
}

static PyObject *time_object(module_state *state, const ixdtf_time *time) {
    if (!time->is_there) {
        Py_RETURN_NONE;
    }
    return NAMED(state->time_type, PyLong_FromLong(time->hour), PyLong_FromLong(time->minute), PyLong_FromLong(time->second),
        fraction_object(state, time->fraction, time->fraction_digits));
}

/* Makes an Offset. If it has no seconds, `second` and `fraction` are None. */
static PyObject *made_offset(module_state *state, int is_negative, int hour, int minute, PyObject *second, PyObject *fraction) {
    return NAMED(state->offset_type, PyLong_FromLong(is_negative ? -1 : 1), PyLong_FromLong(hour), PyLong_FromLong(minute), second, fraction);
}

static PyObject *offset_object(module_state *state, const ixdtf_offset *offset) {
    if (offset->form == IXDTF_NO_OFFSET) {
        Py_RETURN_NONE;
    }
    if (offset->form == IXDTF_UTC) {
        return Py_NewRef(state->utc);
    }
    int has_seconds = offset->form == IXDTF_SECONDS;
    return made_offset(state, offset->is_negative, offset->hour, offset->minute, has_seconds ? PyLong_FromLong(offset->second) : Py_NewRef(Py_None),
        has_seconds ? fraction_object(state, offset->fraction, offset->fraction_digits) : Py_NewRef(Py_None));
}

static PyObject *zone_object(module_state *state, const ixdtf_zone *zone) {
    if (zone->form == IXDTF_NO_ZONE) {
        Py_RETURN_NONE;
    }
    int has_name = zone->form == IXDTF_NAME;
    return NAMED(state->zone_type, has_name ? units_as_str(zone->name) : Py_NewRef(Py_None),
        has_name ? Py_NewRef(Py_None) : made_offset(state, zone->is_negative, zone->hour, zone->minute, Py_NewRef(Py_None), Py_NewRef(Py_None)),
        PyBool_FromLong(zone->is_critical));
}

/* Returns the tuple of some annotations. */
static PyObject *annotation_tuple(module_state *state, const ixdtf_annotation *list, size_t count) {
    PyObject *made = PyTuple_New((Py_ssize_t)count);
    for (size_t i = 0; made != NULL && i < count; i++) {
        PyObject *annotation = NAMED(state->annotation_type, units_as_str(list[i].key), units_as_str(list[i].value), PyBool_FromLong(list[i].is_critical));
        if (annotation == NULL) {
            Py_CLEAR(made);
        } else {
            PyTuple_SET_ITEM(made, (Py_ssize_t)i, annotation);
        }
    }
    return made;
}

/* Returns the tuple of the annotations of a text, which `list` accepts. */
static PyObject *listed_annotations(module_state *state, list_record *list, const uint8_t *at, size_t length) {
    size_t room = length / 5 + 1, count = 0; /* [a=b] has five bytes */
    ixdtf_record fields = IXDTF_RECORD;
    ixdtf_annotation *found = PyMem_Calloc(room, sizeof *found);
    if (found == NULL) {
        return PyErr_NoMemory();
    }
    (void)list(at, length, found, room, &count, &fields);
    PyObject *made = annotation_tuple(state, found, count);
    PyMem_Free(found);
    return made;
}

static PyObject *annotations_object(module_state *state, const record_object *record) {
    int is_bytes = PyBytes_Check(record->source);
    const void *at = is_bytes ? (const void *)PyBytes_AS_STRING(record->source) : PyUnicode_1BYTE_DATA(record->source);
    size_t length = (size_t)(is_bytes ? PyBytes_GET_SIZE(record->source) : PyUnicode_GET_LENGTH(record->source));
    int has_some = record->list != NULL && memchr(at, '=', length) != NULL;
    return has_some ? listed_annotations(state, record->list, at, length) : PyTuple_New(0);
}

static PyObject *part_object(module_state *state, const record_object *record, int number) {
    const ixdtf_record *fields = &record->fields;
    switch (number) {
    case PART_DATE:
        return date_object(state, &fields->date);
    case PART_TIME:
        return time_object(state, &fields->time);
    case PART_OFFSET:
        return offset_object(state, &fields->offset);
    case PART_ZONE:
        return zone_object(state, &fields->zone);
    case PART_ANNOTATIONS:
        return annotations_object(state, record);
    default:
        return fields->has_calendar ? units_as_str(fields->calendar) : Py_NewRef(Py_None);
    }
}

/* Returns a part of a record. It is made only once. While it is made, Python code can run, because an allocation can start the garbage collector. This code
 * can read the same part. Then the part that was made first is kept. */
static PyObject *get_part(PyObject *self, void *closure) {
    int number = (int)(intptr_t)closure;
    PyObject **place = &((record_object *)self)->parts[number];
    if (*place == NULL) {
        PyObject *made = part_object(state_of_record(self), (record_object *)self, number);
        if (made == NULL) {
            return NULL;
        }
        if (*place == NULL) {
            *place = made;
        } else {
            Py_DECREF(made);
        }
    }
    return Py_NewRef(*place);
}

static int same_units(ixdtf_units left, ixdtf_units right) {
    return left.length == right.length && memcmp(left.at, right.at, left.length) == 0;
}

static int same_date(const ixdtf_date *left, const ixdtf_date *right) {
    return left->is_there == right->is_there && left->year == right->year && left->month == right->month && left->day == right->day;
}

static int same_time(const ixdtf_time *left, const ixdtf_time *right) {
    return left->is_there == right->is_there && left->hour == right->hour && left->minute == right->minute && left->second == right->second
        && left->fraction_digits == right->fraction_digits && left->fraction == right->fraction;
}

static int same_offset(const ixdtf_offset *left, const ixdtf_offset *right) {
    return left->form == right->form && left->is_negative == right->is_negative && left->hour == right->hour && left->minute == right->minute
        && left->second == right->second && left->fraction_digits == right->fraction_digits && left->fraction == right->fraction;
}

static int same_zone(const ixdtf_zone *left, const ixdtf_zone *right) {
    return left->form == right->form && left->is_critical == right->is_critical && left->is_negative == right->is_negative && left->hour == right->hour
        && left->minute == right->minute && same_units(left->name, right->name);
}

static int same_record(const ixdtf_record *left, const ixdtf_record *right) {
    return same_date(&left->date, &right->date) && same_time(&left->time, &right->time) && same_offset(&left->offset, &right->offset)
        && same_zone(&left->zone, &right->zone) && left->has_calendar == right->has_calendar && same_units(left->calendar, right->calendar);
}

static PyObject *record_compare(PyObject *left, PyObject *right, int operation) {
    if ((operation != Py_EQ && operation != Py_NE) || Py_TYPE(left) != Py_TYPE(right)) {
        Py_RETURN_NOTIMPLEMENTED;
    }
    int same = same_record(&((record_object *)left)->fields, &((record_object *)right)->fields);
    return PyBool_FromLong(operation == Py_EQ ? same : !same);
}

/* The parts of a record, in the order of the constructor's arguments. */
static PyObject *record_parts(PyObject *self) {
    PyObject *parts = PyTuple_New(PART_ANNOTATIONS);
    for (int i = 0; parts != NULL && i < PART_ANNOTATIONS; i++) {
        PyObject *part = get_part(self, (void *)(intptr_t)i);
        if (part == NULL) {
            Py_CLEAR(parts);
        } else {
            PyTuple_SET_ITEM(parts, i, part);
        }
    }
    return parts;
}

static Py_hash_t record_hash(PyObject *self) {
    PyObject *parts = record_parts(self);
    if (parts == NULL) {
        return -1;
    }
    Py_hash_t hash = PyObject_Hash(parts);
    Py_DECREF(parts);
    return hash;
}

static PyObject *record_repr(PyObject *self) {
    PyObject *parts = record_parts(self);
    if (parts == NULL) {
        return NULL;
    }
    PyObject *shown = PyObject_CallObject(state_of_record(self)->describe, parts);
    Py_DECREF(parts);
    return shown;
}

/* For a record with annotations, the function `restore` makes an equal record again, and otherwise its type does. */
static PyObject *record_reduce(PyObject *self, PyObject *nothing) {
    (void)nothing;
    PyObject *annotations = get_part(self, (void *)(intptr_t)PART_ANNOTATIONS), *parts = annotations == NULL ? NULL : record_parts(self), *result = NULL;
    if (parts != NULL && PyTuple_GET_SIZE(annotations) == 0) {
        result = PyTuple_Pack(2, Py_TYPE(self), parts);
    } else if (parts != NULL) {
        result = Py_BuildValue("N(OO)", PyObject_GetAttrString(PyType_GetModule(Py_TYPE(self)), "_restore"), parts, annotations);
    }
    Py_XDECREF(annotations);
    Py_XDECREF(parts);
    return result;
}

/* ---- Making a record from its parts ---- */

/* Writes an attribute, which must be a number from `least` to `most`, to `out`. Returns 0, or -1 with an exception. */
static int number_of(PyObject *object, const char *name, long long least, long long most, long long *out) {
    PyObject *value = PyObject_GetAttrString(object, name);
    if (value == NULL) {
        return -1;
    }
    int overflow = 0;
    *out = PyLong_AsLongLongAndOverflow(value, &overflow);
    Py_DECREF(value);
    if (*out == -1 && overflow == 0 && PyErr_Occurred()) {
        return -1;
    }
    if (overflow != 0 || *out < least || *out > most) {
        PyErr_Format(PyExc_ValueError, "expected %s to be a number from %lld to %lld", name, least, most);
        return -1;
    }
    return 0;
}

/* Writes the value and the number of digits of the fraction of a part. Both are 0 if the fraction is None. Returns 0, or -1 with an exception. */
static int fraction_of(PyObject *part, uint64_t *number, uint8_t *digits) {
    PyObject *fraction = PyObject_GetAttrString(part, "fraction");
    if (fraction == NULL) {
        return -1;
    }
    long long value = 0, count = 0;
    int failed = 0;
    if (fraction != Py_None) {
        failed = number_of(fraction, "value", 0, 999999999999999999LL, &value) < 0 || number_of(fraction, "digits", 1, 255, &count) < 0;
    }
    Py_DECREF(fraction);
    *number = (uint64_t)value;
    *digits = (uint8_t)count;
    return failed ? -1 : 0;
}

static int set_date(ixdtf_record *out, PyObject *part) {
    long long year, month, day;
    if (part == Py_None) {
        return 0;
    }
    if (number_of(part, "year", -999999, 999999, &year) < 0 || number_of(part, "month", 1, 12, &month) < 0 || number_of(part, "day", 0, 31, &day) < 0) {
        return -1;
    }
    out->date.year = (int32_t)year;
    out->date.month = (uint8_t)month;
    out->date.day = (uint8_t)day;
    out->date.is_there = true;
    return 0;
}

static int set_time(ixdtf_record *out, PyObject *part) {
    long long hour, minute, second;
    if (part == Py_None) {
        return 0;
    }
    if (number_of(part, "hour", 0, 23, &hour) < 0 || number_of(part, "minute", 0, 59, &minute) < 0 || number_of(part, "second", 0, 60, &second) < 0
        || fraction_of(part, &out->time.fraction, &out->time.fraction_digits) < 0) {
        return -1;
    }
    out->time.hour = (uint8_t)hour;
    out->time.minute = (uint8_t)minute;
    out->time.second = (uint8_t)second;
    out->time.is_there = true;
    return 0;
}

/* Writes the sign, the hour and the minute of an offset. Returns 0, or -1 with an exception. */
static int minutes_of(PyObject *part, bool *is_negative, uint8_t *hour, uint8_t *minute) {
    long long sign, hours, minutes;
    if (number_of(part, "sign", -1, 1, &sign) < 0 || number_of(part, "hour", 0, 23, &hours) < 0 || number_of(part, "minute", 0, 59, &minutes) < 0) {
        return -1;
    }
    if (sign == 0) {
        PyErr_SetString(PyExc_ValueError, "expected sign to be 1 or -1");
        return -1;
    }
    *is_negative = sign < 0;
    *hour = (uint8_t)hours;
    *minute = (uint8_t)minutes;
    return 0;
}

static int set_offset(ixdtf_record *out, PyObject *part) {
    if (part == Py_None) {
        return 0;
    }
    PyObject *is_utc = PyObject_GetAttrString(part, "is_utc");
    if (is_utc == NULL) {
        return -1;
    }
    Py_DECREF(is_utc);
    if (is_utc == Py_True) {
        out->offset.form = IXDTF_UTC;
        return 0;
    }
    PyObject *second = PyObject_GetAttrString(part, "second");
    if (second == NULL) {
        return -1;
    }
    Py_DECREF(second);
    out->offset.form = second == Py_None ? IXDTF_MINUTES : IXDTF_SECONDS;
    long long seconds = 0;
    if (minutes_of(part, &out->offset.is_negative, &out->offset.hour, &out->offset.minute) < 0
        || (second != Py_None && number_of(part, "second", 0, 59, &seconds) < 0)
        || (second != Py_None && fraction_of(part, &out->offset.fraction, &out->offset.fraction_digits) < 0)) {
        return -1;
    }
    out->offset.second = (uint8_t)seconds;
    return 0;
}

/* Writes the bytes of a name, a key or a value, which must be an ASCII str. `what` describes it in the exception. Returns 0, or -1 with an exception. */
static int name_bytes(PyObject *name, const char *what, const char **at, Py_ssize_t *length) {
    if (!PyUnicode_Check(name) || !is_ready(name) || !PyUnicode_IS_ASCII(name)) {
        PyErr_Format(PyExc_ValueError, "expected %s to be a str of ASCII characters", what);
        return -1;
    }
    *at = (const char *)PyUnicode_1BYTE_DATA(name);
    *length = PyUnicode_GET_LENGTH(name);
    return 0;
}

/* Writes the zone, except its name. `name` becomes a new reference to the name, or NULL if the zone has none. Returns 0, or -1 with an exception. */
static int set_zone(ixdtf_record *out, PyObject *part, PyObject **name) {
    *name = NULL;
    if (part == Py_None) {
        return 0;
    }
    PyObject *is_critical = PyObject_GetAttrString(part, "is_critical");
    PyObject *offset = is_critical == NULL ? NULL : PyObject_GetAttrString(part, "offset");
    int critical = offset == NULL ? -1 : PyObject_IsTrue(is_critical);
    Py_XDECREF(is_critical);
    if (critical < 0) {
        Py_XDECREF(offset);
        return -1;
    }
    out->zone.is_critical = critical;
    if (offset != Py_None) {
        out->zone.form = IXDTF_ZONE_OFFSET;
        int failed = minutes_of(offset, &out->zone.is_negative, &out->zone.hour, &out->zone.minute);
        Py_DECREF(offset);
        return failed;
    }
    Py_DECREF(offset);
    out->zone.form = IXDTF_NAME;
    *name = PyObject_GetAttrString(part, "name");
    return *name == NULL ? -1 : 0;
}

/* Returns new bytes with the name of the zone and the calendar, and makes the slices of `out` point into these bytes. Returns NULL, with an exception, if
 * this fails. */
static PyObject *joined_names(ixdtf_record *out, PyObject *name, PyObject *calendar) {
    const char *name_at = "", *calendar_at = "";
    Py_ssize_t name_length = 0, calendar_length = 0;
    if ((name != NULL && name_bytes(name, "the name of a zone", &name_at, &name_length) < 0)
        || (calendar != Py_None && name_bytes(calendar, "a calendar", &calendar_at, &calendar_length) < 0)) {
        return NULL;
    }
    PyObject *source = PyBytes_FromStringAndSize(NULL, name_length + calendar_length);
    if (source == NULL) {
        return NULL;
    }
    char *bytes = PyBytes_AS_STRING(source);
    memcpy(bytes, name_at, (size_t)name_length);
    memcpy(bytes + name_length, calendar_at, (size_t)calendar_length);
    out->zone.name.at = (const uint8_t *)bytes;
    out->zone.name.length = (size_t)name_length;
    out->calendar.at = (const uint8_t *)bytes + name_length;
    out->calendar.length = (size_t)calendar_length;
    out->has_calendar = calendar != Py_None;
    return source;
}

static PyObject *record_new(PyTypeObject *type, PyObject *arguments, PyObject *keywords) {
    static char *names[] = { "date", "time", "offset", "zone", "calendar", NULL };
    PyObject *date = Py_None, *time = Py_None, *offset = Py_None, *zone = Py_None, *calendar = Py_None;
    if (!PyArg_ParseTupleAndKeywords(arguments, keywords, "|OOOOO:Record", names, &date, &time, &offset, &zone, &calendar)) {
        return NULL;
    }
    ixdtf_record fields = IXDTF_RECORD;
    PyObject *name = NULL, *source = NULL, *made = NULL;
    if (set_date(&fields, date) == 0 && set_time(&fields, time) == 0 && set_offset(&fields, offset) == 0 && set_zone(&fields, zone, &name) == 0) {
        source = joined_names(&fields, name, calendar);
    }
    if (source != NULL) {
        made = new_record((module_state *)PyType_GetModuleState(type), &fields, source);
        Py_DECREF(source);
    }
    Py_XDECREF(name);
    return made;
}

/* Whether an object is a tuple of annotations with attributes of the right types. */
static int are_annotations(module_state *state, PyObject *object) {
    int result = PyTuple_CheckExact(object);
    for (Py_ssize_t i = 0; result && i < PyTuple_GET_SIZE(object); i++) {
        PyObject *one = PyTuple_GET_ITEM(object, i);
        result = (PyObject *)Py_TYPE(one) == state->annotation_type && PyTuple_GET_SIZE(one) == 3 && PyUnicode_CheckExact(PyTuple_GET_ITEM(one, 0))
            && PyUnicode_CheckExact(PyTuple_GET_ITEM(one, 1)) && PyBool_Check(PyTuple_GET_ITEM(one, 2));
    }
    return result;
}

/* Makes a record from its parts and its annotations, for pickle and copy. */
static PyObject *restore(PyObject *module, PyObject *arguments) {
    module_state *state = state_of(module);
    PyObject *parts, *annotations;
    if (!PyArg_ParseTuple(arguments, "O!O:_restore", &PyTuple_Type, &parts, &annotations)) {
        return NULL;
    }
    if (!are_annotations(state, annotations)) {
        return PyErr_Format(PyExc_TypeError, "expected a tuple of annotations, and found %R", annotations);
    }
    PyObject *made = record_new((PyTypeObject *)state->record_type, parts, NULL);
    with_annotations(made, Py_NewRef(annotations));
    return made;
}

/* ---- datetime ---- */

/* Returns the microseconds of a fraction of a second. Returns -1 if the fraction has digits other than 0 after the sixth, or more than 18 digits. Also
 * returns -1 if the result would be more than 999999. No text gives such a fraction, but Record can be called with it. */
static long microseconds_of(uint64_t fraction, uint8_t digits) {
    unsigned known = digits < 18 ? digits : 18;
    if (known == 0) {
        return 0;
    }
    if (known < 6 && fraction > 999999) {
        return -1;
    }
    for (; known < 6; known++) {
        fraction *= 10;
    }
    for (; known > 6; known--) {
        if (fraction % 10 != 0) {
            return -1;
        }
        fraction /= 10;
    }
    return digits > 18 || fraction > 999999 ? -1 : (long)fraction;
}

/* Returns the tzinfo of Z, or of an offset of whole seconds. The last tzinfo is kept, because the texts of a list often have the same offset. */
static PyObject *fixed_zone(module_state *state, const ixdtf_offset *offset) {
    int32_t seconds = ixdtf_offset_seconds(offset);
    if (seconds == 0) {
        return Py_NewRef(PyDateTime_TimeZone_UTC);
    }
    if (state->last_zone != NULL && state->last_seconds == seconds) {
        return Py_NewRef(state->last_zone);
    }
    PyObject *delta = PyDelta_FromDSU(0, seconds, 0);
    if (delta == NULL) {
        return NULL;
    }
    PyObject *zone = PyTimeZone_FromOffset(delta);
    Py_DECREF(delta);
    if (zone != NULL) {
        Py_XSETREF(state->last_zone, Py_NewRef(zone));
        state->last_seconds = seconds;
    }
    return zone;
}

/* Whether a datetime can hold the date, the time and the offset of a record exactly. Writes the microseconds of the time. */
static int fits_datetime(const ixdtf_record *fields, long *microseconds) {
    const ixdtf_date *date = &fields->date;
    const ixdtf_time *time = &fields->time;
    *microseconds = microseconds_of(time->fraction, time->fraction_digits);
    return date->is_there && time->is_there && date->year >= 1 && date->year <= 9999 && date->day != 0 && time->second <= 59 && *microseconds >= 0
        && fields->offset.fraction == 0 && fields->offset.fraction_digits <= 18;
}

static PyObject *moment_of(const ixdtf_record *fields, long microseconds, PyObject *zone, int fold) {
    return PyDateTimeAPI->DateTime_FromDateAndTimeAndFold(fields->date.year, fields->date.month, fields->date.day, fields->time.hour, fields->time.minute,
        fields->time.second, (int)microseconds, zone, fold, PyDateTimeAPI->DateTimeType);
}

/* Returns the datetime of a record that has no zone, and that fits. Returns NULL, with an exception, if an object cannot be made. */
static PyObject *plain_datetime(module_state *state, const ixdtf_record *fields, long microseconds) {
    PyObject *zone = fields->offset.form == IXDTF_NO_OFFSET ? Py_NewRef(Py_None) : fixed_zone(state, &fields->offset);
    PyObject *made = zone == NULL ? NULL : moment_of(fields, microseconds, zone, 0);
    Py_XDECREF(zone);
    return made;
}

#define ZONES_KEPT 1024

/* Returns zoneinfo.ZoneInfo, as a borrowed reference, or NULL with an exception. */
static PyObject *zone_info(module_state *state) {
    if (state->zone_info == NULL) {
        PyObject *module = PyImport_ImportModule("zoneinfo");
        PyObject *found = module == NULL ? NULL : PyObject_GetAttrString(module, "ZoneInfo");
        Py_XDECREF(module);
        Py_XSETREF(state->zone_info, found);
    }
    return state->zone_info;
}

/* Keeps a zone, so that zoneinfo does not read its file again. Returns 0, or -1 with an exception. */
static int keep_zone(module_state *state, PyObject *key, PyObject *zone) {
    if (PyDict_GetItemWithError(state->zones, key) == zone) {
        return 0;
    }
    if (PyErr_Occurred()) {
        return -1;
    }
    if (PyDict_GET_SIZE(state->zones) >= ZONES_KEPT) {
        PyDict_Clear(state->zones);
    }
    return PyDict_SetItem(state->zones, key, zone);
}

/* Returns the ZoneInfo with this name. If there is none, returns NULL without an exception, and the function in _datetimes.py raises one that says more. If
 * an object cannot be made, returns NULL with an exception.
 *
 * ZoneInfo keeps only the last eight zones that were used, and zones to which something else refers. So `zones` refers to each of them. ZoneInfo is called
 * each time all the same: after ZoneInfo.clear_cache(), there is a new object for each name, and Python calculates differently with two datetimes whose
 * tzinfo is not the same object. */
static PyObject *named_zone(module_state *state, const ixdtf_units *name) {
    PyObject *type = zone_info(state), *key = type == NULL ? NULL : units_as_str(*name);
    if (key == NULL) {
        return NULL;
    }
    PyObject *zone = PyObject_CallOneArg(type, key);
    if (zone != NULL && keep_zone(state, key, zone) < 0) {
        Py_CLEAR(zone);
    } else if (zone == NULL && PyErr_ExceptionMatches(PyExc_Exception) && !PyErr_ExceptionMatches(PyExc_MemoryError)) {
        PyErr_Clear();
    }
    Py_DECREF(key);
    return zone;
}

/* Writes an offset that utcoffset() has returned, in microseconds. It drops the reference to this offset. Returns 0, 1 if the offset is None, or -1 with an
 * exception. */
static int take_offset(PyObject *delta, int64_t *out) {
    if (delta == NULL) {
        return -1;
    }
    int result = delta == Py_None ? 1 : PyDelta_Check(delta) ? 0 : -1;
    if (result == 0) {
        *out = ((int64_t)PyDateTime_DELTA_GET_DAYS(delta) * 86400 + PyDateTime_DELTA_GET_SECONDS(delta)) * 1000000 + PyDateTime_DELTA_GET_MICROSECONDS(delta);
    } else if (result < 0) {
        PyErr_Format(PyExc_TypeError, "expected utcoffset() to return a timedelta or None, and found %.100s", Py_TYPE(delta)->tp_name);
    }
    Py_DECREF(delta);
    return result;
}

/* Returns an offset in microseconds, rounded to minutes. If it is half a minute, it is rounded away from 0. */
static int64_t to_minutes(int64_t offset) {
    const int64_t minute = 60000000;
    int64_t size = offset < 0 ? -offset : offset;
    size = (size + minute / 2) / minute * minute;
    return offset < 0 ? -size : size;
}

/* Whether an offset is -00:00, which means the same as Z. */
static int is_negative_zero(const ixdtf_offset *offset) {
    return offset->is_negative && offset->hour == 0 && offset->minute == 0 && offset->second == 0 && offset->fraction == 0;
}

/* Returns the local time of a record in a zone with a name, if the zone has the offset of the record at this time. `fold` says which of two equal local times
 * it is. Otherwise returns NULL without an exception. By PEP 495, utcoffset() is greater with fold=1 than with fold=0 exactly if the clocks were set forward
 * over the local time, so that it does not exist. It is less if the local time occurs twice. */
static PyObject *agreed_datetime(module_state *state, const ixdtf_record *fields, long microseconds, PyObject *zone) {
    int64_t written = (int64_t)ixdtf_offset_seconds(&fields->offset) * 1000000, offsets[2] = { 0, 0 };
    PyObject *moments[2] = { NULL, NULL }, *found = NULL;
    for (int fold = 0; fold < 2; fold++) {
        moments[fold] = moment_of(fields, microseconds, zone, fold);
        if (moments[fold] == NULL || take_offset(PyObject_CallMethodOneArg(zone, state->word_utcoffset, moments[fold]), &offsets[fold]) != 0) {
            goto end;
        }
    }
    /* First the offsets are compared exactly, and then, if the record has no seconds in its offset, rounded to minutes. */
    int ways = offsets[0] < offsets[1] ? 0 : fields->offset.form == IXDTF_MINUTES ? 4 : 2;
    for (int way = 0; way < ways && found == NULL; way++) {
        if ((way < 2 ? offsets[way] : to_minutes(offsets[way - 2])) == written) {
            found = Py_NewRef(moments[way % 2]);
        }
    }
end:
    Py_XDECREF(moments[0]);
    Py_XDECREF(moments[1]);
    return found;
}

/* Returns an instant, given as a time in UTC, as a local time of a zone. Returns NULL without an exception if the year is then outside 1 to 9999. */
static PyObject *moved_datetime(module_state *state, const ixdtf_record *fields, long microseconds, PyObject *zone) {
    PyObject *known = moment_of(fields, microseconds, zone, 0);
    PyObject *made = known == NULL ? NULL : PyObject_CallMethodOneArg(zone, state->word_fromutc, known);
    Py_XDECREF(known);
    if (made == NULL && PyErr_ExceptionMatches(PyExc_OverflowError)) {
        PyErr_Clear();
    }
    return made;
}

/* Returns the datetime of a record that has a zone, and that fits. If its offset and its zone do not agree, if there is no such zone, or if a datetime cannot
 * hold the result, returns NULL without an exception. If an object cannot be made, returns NULL with an exception. */
static PyObject *zoned_datetime(module_state *state, const ixdtf_record *fields, long microseconds) {
    const ixdtf_offset *offset = &fields->offset;
    ixdtf_offset of_zone = { 0, 0, IXDTF_MINUTES, fields->zone.is_negative, fields->zone.hour, fields->zone.minute, 0 };
    int has_name = fields->zone.form == IXDTF_NAME;
    PyObject *zone = has_name ? named_zone(state, &fields->zone.name) : fixed_zone(state, &of_zone);
    PyObject *made = NULL;
    if (zone == NULL) {
        return NULL;
    }
    if (offset->form == IXDTF_UTC || is_negative_zero(offset)) {
        made = moved_datetime(state, fields, microseconds, zone);
    } else if (has_name && offset->form != IXDTF_NO_OFFSET) {
        made = agreed_datetime(state, fields, microseconds, zone);
    } else if (offset->form == IXDTF_NO_OFFSET || ixdtf_offset_seconds(offset) == ixdtf_offset_seconds(&of_zone)) {
        made = moment_of(fields, microseconds, zone, 0);
    }
    Py_DECREF(zone);
    return made;
}

/* Whether `on_conflict` is one of its three values. */
static int is_conflict_choice(PyObject *value) {
    return PyUnicode_Check(value) && (PyUnicode_CompareWithASCIIString(value, "error") == 0 || PyUnicode_CompareWithASCIIString(value, "offset") == 0
        || PyUnicode_CompareWithASCIIString(value, "zone") == 0);
}

/* Whether the arguments of to_datetime() are right, without a call of __bool__ of one of them. */
static int has_simple_arguments(PyObject *const *arguments, Py_ssize_t count, PyObject *keywords) {
    int is_simple = count == 0 || (count <= 2 && is_conflict_choice(arguments[0]));
    for (Py_ssize_t i = 0; keywords != NULL && is_simple && i < PyTuple_GET_SIZE(keywords); i++) {
        PyObject *keyword = PyTuple_GET_ITEM(keywords, i);
        is_simple = PyUnicode_CompareWithASCIIString(keyword, "on_conflict") == 0 ? count == 0 && is_conflict_choice(arguments[count + i])
            : PyUnicode_CompareWithASCIIString(keyword, "truncate") == 0 && count < 2;
    }
    return is_simple;
}

/* plain_datetime and zoned_datetime make most datetimes. The arguments say only what happens with the other records. For these, the function in
 * _datetimes.py is called, which checks the arguments and raises the exceptions. */
static PyObject *record_to_datetime(PyObject *self, PyObject *const *arguments, Py_ssize_t count, PyObject *keywords) {
    const ixdtf_record *fields = &((record_object *)self)->fields;
    module_state *state = state_of_record(self);
    long microseconds;
    if (has_simple_arguments(arguments, count, keywords) && fits_datetime(fields, &microseconds)) {
        PyObject *made = fields->zone.form == IXDTF_NO_ZONE ? plain_datetime(state, fields, microseconds) : zoned_datetime(state, fields, microseconds);
        if (made != NULL || PyErr_Occurred()) {
            return made;
        }
    }
    Py_ssize_t named = keywords == NULL ? 0 : PyTuple_GET_SIZE(keywords);
    PyObject **all = PyMem_Malloc((size_t)(1 + count + named) * sizeof *all);
    if (all == NULL) {
        return PyErr_NoMemory();
    }
    all[0] = self;
    memcpy(all + 1, arguments, (size_t)(count + named) * sizeof *all);
    PyObject *made = PyObject_Vectorcall(state_of_record(self)->to_datetime, all, (size_t)(1 + count), keywords);
    PyMem_Free(all);
    return made;
}

/* Writes the offset of a datetime to a record. `microseconds` is this offset. */
static void put_offset(ixdtf_offset *out, int64_t microseconds) {
    uint64_t size = (uint64_t)(microseconds < 0 ? -microseconds : microseconds), seconds = size / 1000000;
    out->is_negative = microseconds < 0;
    out->hour = (uint8_t)(seconds / 3600);
    out->minute = (uint8_t)(seconds / 60 % 60);
    out->second = (uint8_t)(seconds % 60);
    out->fraction = size % 1000000;
    out->fraction_digits = out->fraction == 0 ? 0 : 6;
    out->form = size % 60000000 == 0 ? IXDTF_MINUTES : IXDTF_SECONDS;
}

/* Writes a fraction of a second with `digits` digits, or with as few as possible if `digits` is -1. */
static void put_fraction(ixdtf_time *out, uint64_t nanoseconds, int digits) {
    int known = 9;
    for (; digits >= 0 ? known > digits : known > 0 && nanoseconds % 10 == 0; known--) {
        nanoseconds /= 10;
    }
    out->fraction = nanoseconds;
    out->fraction_digits = (uint8_t)known;
}

/* Returns the name of a tzinfo, or None: its attribute `key` (ZoneInfo), or `zone` (pytz). Returns NULL, with an exception, if this fails. */
static PyObject *name_of_zone(module_state *state, PyObject *tzinfo) {
    PyObject *words[2] = { state->word_key, state->word_zone };
    for (int i = 0; i < 2; i++) {
        PyObject *name = PyObject_GetAttr(tzinfo, words[i]);
        if (name == NULL) {
            if (!PyErr_ExceptionMatches(PyExc_AttributeError)) {
                return NULL;
            }
            PyErr_Clear();
        } else if (PyUnicode_Check(name) && is_ready(name) && PyUnicode_IS_ASCII(name) && PyUnicode_GET_LENGTH(name) > 0) {
            PyObject *same = PyUnicode_FromObject(name); /* a copy if it is of a subclass of str */
            Py_DECREF(name);
            return same;
        } else {
            Py_DECREF(name);
        }
    }
    Py_RETURN_NONE;
}

/* Rounds the offset of a record to minutes, because RFC 9557 has no seconds in an offset, and the zone of the record says them. But if the local time of
 * `moment` occurs twice in the zone, the offset is not rounded, because its seconds can be needed to say which of the two it is. Returns 0. If the local time
 * does not exist, or if this cannot be found out, returns -1 with an exception. */
static int round_offset(module_state *state, PyObject *moment, PyObject *tzinfo, PyObject *name, int64_t offset, ixdtf_record *out) {
    const int64_t day = 86400000000;
    int64_t other = 0, rounded = to_minutes(offset);
    int fold = PyDateTime_DATE_GET_FOLD(moment);
    PyObject *twin = moment_of(out, PyDateTime_DATE_GET_MICROSECOND(moment), tzinfo, !fold);
    int found = twin == NULL ? -1 : take_offset(PyObject_CallMethodOneArg(tzinfo, state->word_utcoffset, twin), &other);
    if (found == 0 && (fold ? other < offset : offset < other)) {
        PyObject *result = PyObject_CallFunctionObjArgs(state->raise_gap, twin, name, NULL);
        Py_XDECREF(result);
        found = -1;
    } else if (found == 0 && offset == other && rounded < day && rounded > -day) {
        put_offset(&out->offset, rounded);
    }
    Py_XDECREF(twin);
    return found < 0 ? -1 : 0;
}

/* Writes the offset and the zone of a datetime with a tzinfo. `source` becomes a new reference to the name of the zone, or None. Returns 0, or -1 with an
 * exception. */
static int put_zone(module_state *state, PyObject *moment, PyObject *tzinfo, ixdtf_record *out, PyObject **source) {
    int64_t offset = 0;
    int found = take_offset(PyObject_CallMethodNoArgs(moment, state->word_utcoffset), &offset);
    if (found < 0) {
        return -1;
    }
    /* If utcoffset() has returned None, the datetime is naive. */
    int has_name = found == 0 && Py_TYPE(tzinfo) != Py_TYPE(PyDateTime_TimeZone_UTC);
    *source = has_name ? name_of_zone(state, tzinfo) : Py_NewRef(Py_None);
    if (*source == NULL) {
        return -1;
    }
    if (found == 0) {
        put_offset(&out->offset, offset);
    }
    if (*source == Py_None) {
        return 0;
    }
    out->zone.form = IXDTF_NAME;
    out->zone.name.at = PyUnicode_1BYTE_DATA(*source);
    out->zone.name.length = (size_t)PyUnicode_GET_LENGTH(*source);
    if (round_offset(state, moment, tzinfo, *source, offset, out) < 0) {
        Py_CLEAR(*source);
        return -1;
    }
    return 0;
}

/* Writes the nanoseconds after the microseconds of a datetime of a subclass, such as pandas.Timestamp. Returns 0, or -1 with an exception. */
static int more_nanoseconds(PyObject *moment, long long *out) {
    PyObject *differs = PyObject_RichCompare(moment, moment, Py_NE);
    if (differs == NULL) {
        return -1;
    }
    Py_DECREF(differs);
    if (differs == Py_True) {
        PyErr_SetString(PyExc_ValueError, "the datetime is not equal to itself, as NaT of pandas, so it is not a time");
        return -1;
    }
    return PyObject_HasAttrString(moment, "nanosecond") ? number_of(moment, "nanosecond", 0, 999, out) : 0;
}

/* Writes the date and the time of a datetime. `digits` is the number of digits of the fraction, or -1. Returns 0, or -1 with an exception. */
static int put_local(PyObject *moment, int digits, ixdtf_record *out) {
    long long more = 0;
    if (!PyDateTime_CheckExact(moment) && more_nanoseconds(moment, &more) < 0) {
        return -1;
    }
    out->date = (ixdtf_date){ PyDateTime_GET_YEAR(moment), (uint8_t)PyDateTime_GET_MONTH(moment), (uint8_t)PyDateTime_GET_DAY(moment), true };
    out->time.hour = (uint8_t)PyDateTime_DATE_GET_HOUR(moment);
    out->time.minute = (uint8_t)PyDateTime_DATE_GET_MINUTE(moment);
    out->time.second = (uint8_t)PyDateTime_DATE_GET_SECOND(moment);
    out->time.is_there = true;
    put_fraction(&out->time, (uint64_t)PyDateTime_DATE_GET_MICROSECOND(moment) * 1000 + (uint64_t)more, digits);
    return 0;
}

/* Writes the fields of a datetime to a record. Its slices point into `source`, which becomes a new reference to a str or to bytes. Returns 0, or -1 with an
 * exception. */
static int fields_of_datetime(module_state *state, PyObject *moment, int digits, ixdtf_record *out, PyObject **source) {
    PyObject *tzinfo = PyDateTime_DATE_GET_TZINFO(moment), *name = NULL;
    if (put_local(moment, digits, out) < 0) {
        return -1;
    }
    if (tzinfo == PyDateTime_TimeZone_UTC) {
        out->offset.form = IXDTF_UTC;
    } else if (tzinfo != Py_None && put_zone(state, moment, tzinfo, out, &name) < 0) {
        return -1;
    }
    if (name != NULL && name != Py_None) {
        *source = name;
        return 0;
    }
    Py_XDECREF(name);
    *source = PyBytes_FromStringAndSize(NULL, 0);
    return *source == NULL ? -1 : 0;
}

static PyObject *record_from_datetime(PyObject *type, PyObject *arguments, PyObject *keywords) {
    static char *names[] = { "", "digits", NULL };
    module_state *state = (module_state *)PyType_GetModuleState((PyTypeObject *)type);
    PyObject *moment, *digits = Py_None, *source = NULL;
    if (!PyArg_ParseTupleAndKeywords(arguments, keywords, "O|$O:from_datetime", names, &moment, &digits)) {
        return NULL;
    }
    long number = digits == Py_None ? -1 : PyLong_AsLong(digits);
    if (number == -1 && PyErr_Occurred()) {
        return NULL;
    }
    if (number < -1 || number > 9 || (digits != Py_None && number < 0)) {
        return PyErr_Format(PyExc_ValueError, "expected digits to be a number from 0 to 9, or None");
    }
    if (!PyDateTime_Check(moment)) {
        return PyErr_Format(PyExc_TypeError, "from_datetime() expects a datetime, and found %.100s", Py_TYPE(moment)->tp_name);
    }
    ixdtf_record fields = IXDTF_RECORD;
    if (fields_of_datetime(state, moment, (int)number, &fields, &source) < 0) {
        return NULL;
    }
    PyObject *made = new_record(state, &fields, source);
    Py_DECREF(source);
    return made;
}

static PyObject *record_str(PyObject *self);

static PyGetSetDef record_getters[] = {
    { "date", get_part, NULL, "The Date, or None.", (void *)(intptr_t)PART_DATE },
    { "time", get_part, NULL, "The Time, or None.", (void *)(intptr_t)PART_TIME },
    { "offset", get_part, NULL, "The Offset, Z, or None.", (void *)(intptr_t)PART_OFFSET },
    { "zone", get_part, NULL, "The Zone, or None.", (void *)(intptr_t)PART_ZONE },
    { "calendar", get_part, NULL, "The calendar as a str, or None.", (void *)(intptr_t)PART_CALENDAR },
    { "annotations", get_part, NULL,
      "The annotations of the text, a tuple of Annotation, in the order of the text. A handler does not change them. They do not matter\n"
      "if two records are compared, and canonical() does not write them.", (void *)(intptr_t)PART_ANNOTATIONS },
    { NULL, NULL, NULL, NULL, NULL },
};

static PyMethodDef record_methods[] = {
    { "to_datetime", (PyCFunction)(void (*)(void))record_to_datetime, METH_FASTCALL | METH_KEYWORDS,
      "to_datetime($self, /, on_conflict='error', truncate=False)\n--\n\n"
      "Returns the datetime.datetime of a record that has a date and a time.\n\n"
      "If the record has neither an offset nor a zone, the datetime has no tzinfo. If it has an offset and no zone, tzinfo is a\n"
      "datetime.timezone. If it has a zone with a name, tzinfo is a zoneinfo.ZoneInfo. If its zone is an offset, such as [+05:30],\n"
      "tzinfo is a datetime.timezone.\n\n"
      "If the record has an offset and a zone, there are two cases. If the offset is Z or -00:00, the result is the same instant in\n"
      "the zone. If the record has any other offset, the zone should have this offset at this time. If the zone has a different one,\n"
      "on_conflict decides. 'error' raises ZoneConflictError. 'offset' computes the instant from the offset, and returns this instant\n"
      "in the zone. 'zone' ignores the offset, and returns the local time in the zone.\n\n"
      "Raises ValueError if the date or the time is missing, if the year is not 1 to 9999, or if the day is 0. If the record has an\n"
      "offset and a zone, the method sometimes computes the instant from the offset, as described above. Then it also raises ValueError\n"
      "if the year of this instant is not 1 to 9999, in UTC or in the zone.\n\n"
      "With truncate=True, the second 60 becomes 59, and digits after the sixth are dropped. With truncate=False, raises ValueError if\n"
      "the second is 60, if a fraction is not a whole number of microseconds, or if a fraction has more than 18 digits.\n\n"
      "Raises ZoneNotFoundError, which is a ValueError, if the name of the zone is unknown." },
    { "from_datetime", (PyCFunction)(void (*)(void))record_from_datetime, METH_VARARGS | METH_KEYWORDS | METH_CLASS,
      "from_datetime($type, moment, /, *, digits=None)\n--\n\n"
      "Returns the Record of a datetime. str() of the Record is a text of RFC 9557.\n\n"
      "If the datetime has no tzinfo, the Record has no offset. If tzinfo is datetime.timezone.utc, the offset is Z. For every other\n"
      "tzinfo, the offset is the one that utcoffset() returns. If tzinfo has a name in the attribute key, as a ZoneInfo has, or in the\n"
      "attribute zone, as the time zones of pytz have, the Record has a zone with this name. Then an offset with seconds is rounded to\n"
      "minutes, as in ECMAScript's Temporal, unless the local time occurs twice in the zone. to_datetime() returns an equal datetime.\n\n"
      "digits is the number of digits of the fraction, from 0 to 9. Further digits are dropped. With None, the fraction has as few digits\n"
      "as it needs. A pandas.Timestamp can have nine.\n\n"
      "Raises ZoneConflictError, which is a ValueError, if the local time does not exist in the zone." },
    { "__reduce__", record_reduce, METH_NOARGS, NULL },
    { NULL, NULL, 0, NULL },
};

static PyType_Slot record_slots[] = {
    { Py_tp_doc, "Record(date=None, time=None, offset=None, zone=None, calendar=None)\n--\n\nThe parts of a text that was read. A Record never changes.\n\n"
                 "A part is None if the text does not have it." },
    { Py_tp_new, record_new },
    { Py_tp_dealloc, record_dealloc },
    { Py_tp_repr, record_repr },
    { Py_tp_str, record_str },
    { Py_tp_hash, record_hash },
    { Py_tp_richcompare, record_compare },
    { Py_tp_getset, record_getters },
    { Py_tp_methods, record_methods },
    { 0, NULL },
};

static PyType_Spec record_spec = { "ixdtf.Record", sizeof(record_object), 0, Py_TPFLAGS_DEFAULT, record_slots };

/* ---- Handlers ---- */

/* Writes the code units of an attribute of a reply, which must be an ASCII str. `kept` becomes a reference to the str. Returns 0, or -1 with an
 * exception. */
static int reply_units(PyObject *reply, const char *name, ixdtf_units *out, PyObject **kept) {
    const char *at;
    Py_ssize_t length;
    *kept = PyObject_GetAttrString(reply, name);
    if (*kept == NULL || name_bytes(*kept, name, &at, &length) < 0) {
        return -1;
    }
    out->at = (const uint8_t *)at;
    out->length = (size_t)length;
    return 0;
}

/* Calls the handler with one annotation, and passes the reply to the library. The list `kept` gets the value of the reply, because the calendar can point
 * into it. Returns 1 if the reply is accepted or None, 0 if it is refused with the error `error`, and -1 with an exception. */
static int ask(module_state *state, PyObject *handler, const ixdtf_annotation *listed, ixdtf_calendar *calendar, PyObject *kept, uint32_t *error) {
    PyObject *annotation = NAMED(state->annotation_type, units_as_str(listed->key), units_as_str(listed->value), PyBool_FromLong(listed->is_critical));
    PyObject *reply = annotation == NULL ? NULL : PyObject_CallFunctionObjArgs(handler, annotation, NULL);
    Py_XDECREF(annotation);
    if (reply == NULL) {
        return -1;
    }
    if (reply == Py_None) {
        Py_DECREF(reply);
        return 1;
    }
    ixdtf_annotation given = IXDTF_ANNOTATION;
    PyObject *key = NULL, *value = NULL, *is_critical = NULL;
    int critical = -1, went = -1;
    if (reply_units(reply, "key", &given.key, &key) == 0 && reply_units(reply, "value", &given.value, &value) == 0
        && (is_critical = PyObject_GetAttrString(reply, "is_critical")) != NULL) {
        critical = PyObject_IsTrue(is_critical);
    }
    if (critical >= 0 && PyList_Append(kept, value) == 0) {
        given.is_critical = critical;
        *error = ixdtf_reply(calendar, &given);
        went = *error == IXDTF_OK;
    }
    Py_XDECREF(key);
    Py_XDECREF(value);
    Py_XDECREF(is_critical);
    Py_DECREF(reply);
    return went;
}

/* Makes a record whose calendar points into a reply. So it gets a copy of the name of its zone and of its calendar. */
static PyObject *record_of_reply(module_state *state, ixdtf_record *fields) {
    PyObject *name = fields->zone.form == IXDTF_NAME ? units_as_str(fields->zone.name) : NULL;
    PyObject *value = units_as_str(fields->calendar);
    PyObject *source = value == NULL || PyErr_Occurred() ? NULL : joined_names(fields, name, value);
    PyObject *made = source == NULL ? NULL : new_record(state, fields, source);
    Py_XDECREF(name);
    Py_XDECREF(value);
    Py_XDECREF(source);
    return made;
}

/* Reads a text with a handler: lists the annotations, calls the handler for each of them in order, and writes the calendar to the record. */
static PyObject *read_handled(module_state *state, const kind *what, int strict, PyObject *text, const text_bytes *bytes, PyObject *handler) {
    size_t room = (size_t)bytes->length / 5 + 1, count = 0;
    ixdtf_annotation *list = PyMem_Calloc(room, sizeof *list);
    PyObject *kept = PyList_New(0), *result = NULL;
    ixdtf_record fields = IXDTF_RECORD;
    ixdtf_calendar calendar = IXDTF_CALENDAR;
    if (list == NULL || kept == NULL) {
        if (list == NULL) {
            PyErr_NoMemory();
        }
        goto end;
    }
    uint32_t error = (strict ? what->list_strict : what->list)(bytes->at, (size_t)bytes->length, list, room, &count, &fields);
    for (size_t i = 0; i < count; i++) {
        uint32_t refused = IXDTF_OK;
        int went = ask(state, handler, &list[i], &calendar, kept, &refused);
        if (went < 0) {
            goto end;
        }
        if (went == 0) {
            ixdtf_explanation why = ixdtf_explain_reply(bytes->at, &list[i], refused);
            ixdtf_text none = { "", 0 };
            raise_explained(state, text, bytes, &why, none);
            goto end;
        }
    }
    if (error != IXDTF_OK) {
        raise_error(state, text, bytes, what->numbers[strict ? 3 : 2], fields.location);
        goto end;
    }
    ixdtf_keep_calendar(&fields, &calendar);
    PyObject *annotations = annotation_tuple(state, list, count);
    if (annotations != NULL) {
        result = calendar.is_there ? record_of_reply(state, &fields) : new_record(state, &fields, bytes->owner);
        with_annotations(result, annotations);
    }
end:
    PyMem_Free(list);
    Py_XDECREF(kept);
    return result;
}

/* ---- Calls ---- */

static PyObject *read_kind(PyObject *module, const kind *what, PyObject *text, int strict, PyObject *handler) {
    module_state *state = state_of(module);
    text_bytes bytes;
    if (take_text(text, &bytes) < 0) {
        return NULL;
    }
    PyObject *result;
    if (handler != NULL && handler != Py_None) {
        result = read_handled(state, what, strict, text, &bytes, handler);
    } else {
        ixdtf_record fields = IXDTF_RECORD;
        uint32_t error = run_reader(strict ? what->read_strict : what->read, &bytes, &fields);
        result = error == IXDTF_OK ? new_record(state, &fields, bytes.owner) : raise_error(state, text, &bytes, what->numbers[strict ? 1 : 0], fields.location);
        if (error == IXDTF_OK && result != NULL) {
            ((record_object *)result)->list = strict ? what->list_strict : what->list;
        }
    }
    Py_DECREF(bytes.owner);
    return result;
}

/* Reads one text, which is the only positional argument. `has_strict` and `has_handler` say which of the keywords strict and handler are allowed. */
static PyObject *call_kind(PyObject *module, PyObject *const *arguments, Py_ssize_t count, PyObject *keywords, const kind *what, const char *name,
    int has_strict, int has_handler) {
    PyObject *handler = NULL;
    int strict = 0;
    if (count != 1) {
        return PyErr_Format(PyExc_TypeError, "%s() expects one positional argument, the text, and found %zd", name, count);
    }
    for (Py_ssize_t i = 0; keywords != NULL && i < PyTuple_GET_SIZE(keywords); i++) {
        PyObject *keyword = PyTuple_GET_ITEM(keywords, i);
        if (has_strict && PyUnicode_CompareWithASCIIString(keyword, "strict") == 0) {
            strict = PyObject_IsTrue(arguments[count + i]);
        } else if (has_handler && PyUnicode_CompareWithASCIIString(keyword, "handler") == 0) {
            handler = arguments[count + i];
        } else {
            return PyErr_Format(PyExc_TypeError, "%s() has no keyword argument %R", name, keyword);
        }
        if (strict < 0) {
            return NULL;
        }
    }
    return read_kind(module, what, arguments[0], strict, handler);
}

#define READER(function, number, has_strict, has_handler) \
    static PyObject *function(PyObject *module, PyObject *const *arguments, Py_ssize_t count, PyObject *keywords) { \
        return call_kind(module, arguments, count, keywords, &KINDS[number], #function, has_strict, has_handler); \
    }
READER(parse, DATE_TIME, 0, 1)
READER(parse_year_month, YEAR_MONTH, 0, 1)
READER(parse_month_day, MONTH_DAY, 1, 1)
READER(parse_time, TIME, 1, 1)
READER(parse_rfc3339, RFC3339, 0, 0)
READER(parse_rfc9557, RFC9557, 0, 1)

/* Returns the Offset or the Zone of a text that is only an offset or a zone. */
static PyObject *read_part(PyObject *module, PyObject *text, const kind *what) {
    module_state *state = state_of(module);
    text_bytes bytes;
    if (take_text(text, &bytes) < 0) {
        return NULL;
    }
    ixdtf_record fields = IXDTF_RECORD;
    uint32_t error = run_reader(what->read, &bytes, &fields);
    PyObject *result;
    if (error != IXDTF_OK) {
        result = raise_error(state, text, &bytes, what->numbers[0], fields.location);
    } else if (what == &KINDS[OFFSET]) {
        result = offset_object(state, &fields.offset);
    } else {
        result = zone_object(state, &fields.zone);
    }
    Py_DECREF(bytes.owner);
    return result;
}

static PyObject *parse_offset(PyObject *module, PyObject *text) {
    return read_part(module, text, &KINDS[OFFSET]);
}

static PyObject *parse_zone(PyObject *module, PyObject *text) {
    return read_part(module, text, &KINDS[ZONE]);
}

static PyObject *parse_zone_name(PyObject *module, PyObject *text) {
    return read_part(module, text, &KINDS[ZONE_NAME]);
}

static PyObject *unit_object(int is_there, uint64_t number) {
    return is_there ? PyLong_FromUnsignedLongLong(number) : Py_NewRef(Py_None);
}

static PyObject *parse_duration(PyObject *module, PyObject *arguments, PyObject *keywords) {
    static char *names[] = { "", "strict", NULL };
    PyObject *text;
    int strict = 0;
    if (!PyArg_ParseTupleAndKeywords(arguments, keywords, "O|$p:parse_duration", names, &text, &strict)) {
        return NULL;
    }
    text_bytes bytes;
    if (take_text(text, &bytes) < 0) {
        return NULL;
    }
    module_state *state = state_of(module);
    ixdtf_duration fields = IXDTF_DURATION;
    uint32_t error = run_duration(strict, &bytes, &fields);
    PyObject *result;
    if (error != IXDTF_OK) {
        result = raise_error(state, text, &bytes, strict ? IXDTF_READER_PARSE_DURATION_STRICT : IXDTF_READER_PARSE_DURATION, fields.location);
    } else {
        result = NAMED(state->duration_type, PyLong_FromLong(fields.is_negative ? -1 : 1), unit_object(fields.has_date, fields.years),
            unit_object(fields.has_date, fields.months), unit_object(fields.has_date, fields.weeks), unit_object(fields.has_date, fields.days),
            unit_object(fields.time_form >= IXDTF_LAST_HOURS, fields.hours), unit_object(fields.time_form >= IXDTF_LAST_MINUTES, fields.minutes),
            unit_object(fields.time_form >= IXDTF_LAST_SECONDS, fields.seconds), fraction_object(state, fields.fraction, fields.fraction_digits));
    }
    Py_DECREF(bytes.owner);
    return result;
}

/* Returns the number of the kind with this name. It is RECORD_KINDS for a duration. Returns -1, with an exception, if there is no such kind. */
int kind_number(PyObject *name) {
    if (PyUnicode_Check(name)) {
        for (int i = 0; i < RECORD_KINDS; i++) {
            if (PyUnicode_CompareWithASCIIString(name, KINDS[i].name) == 0) {
                return i;
            }
        }
        if (PyUnicode_CompareWithASCIIString(name, KIND_OF_DURATION) == 0) {
            return RECORD_KINDS;
        }
    }
    PyErr_Format(PyExc_ValueError, "expected a kind of text, which is date-time, year-month, month-day, time, rfc3339, rfc9557, offset, zone, zone-name or duration, and found %R", name);
    return -1;
}

static PyObject *valid_of_kind(PyObject *text, int number, int strict) {
    text_bytes bytes;
    if (take_text(text, &bytes) < 0) {
        return NULL;
    }
    uint32_t error;
    if (number == RECORD_KINDS) {
        ixdtf_duration fields = IXDTF_DURATION;
        error = run_duration(strict, &bytes, &fields);
    } else {
        ixdtf_record fields = IXDTF_RECORD;
        error = run_reader(strict ? KINDS[number].read_strict : KINDS[number].read, &bytes, &fields);
    }
    Py_DECREF(bytes.owner);
    return PyBool_FromLong(error == IXDTF_OK);
}

static PyObject *is_valid(PyObject *module, PyObject *const *arguments, Py_ssize_t count, PyObject *keywords) {
    (void)module;
    int number = DATE_TIME, strict = 0;
    if (count < 1 || count > 2) {
        return PyErr_Format(PyExc_TypeError, "is_valid() expects one or two positional arguments, the text and the kind, and found %zd", count);
    }
    if (count == 2 && (number = kind_number(arguments[1])) < 0) {
        return NULL;
    }
    for (Py_ssize_t i = 0; keywords != NULL && i < PyTuple_GET_SIZE(keywords); i++) {
        PyObject *keyword = PyTuple_GET_ITEM(keywords, i);
        if (count == 1 && PyUnicode_CompareWithASCIIString(keyword, "kind") == 0) {
            number = kind_number(arguments[count + i]);
        } else if (PyUnicode_CompareWithASCIIString(keyword, "strict") == 0) {
            strict = PyObject_IsTrue(arguments[count + i]);
        } else {
            return PyErr_Format(PyExc_TypeError, "is_valid() has no keyword argument %R", keyword);
        }
        if (number < 0 || strict < 0) {
            return NULL;
        }
    }
    return valid_of_kind(arguments[0], number, strict);
}

/* Writes a number of a duration, which must be at most `most`, to `out`. If the attribute is None, writes 0 to `out` and to `there`. Otherwise writes 1 to
 * `there`. Returns 0, or -1 with an exception. */
static int unit_of(PyObject *duration, const char *name, unsigned long long most, unsigned long long *out, int *there) {
    PyObject *value = PyObject_GetAttrString(duration, name);
    if (value == NULL) {
        return -1;
    }
    *out = 0;
    *there = value != Py_None;
    if (*there) {
        *out = PyLong_AsUnsignedLongLong(value);
    }
    Py_DECREF(value);
    if (PyErr_Occurred()) {
        if (!PyErr_ExceptionMatches(PyExc_OverflowError)) {
            return -1;
        }
        PyErr_Clear();
    } else if (*out <= most) {
        return 0;
    }
    PyErr_Format(PyExc_ValueError, "expected %s to be a number from 0 to %llu, or None", name, most);
    return -1;
}

/* Writes the fields of a Duration to a struct. Returns 0, or -1 with an exception. */
static int duration_fields(PyObject *duration, ixdtf_duration *out) {
    static const char *const names[7] = { "years", "months", "weeks", "days", "hours", "minutes", "seconds" };
    unsigned long long numbers[7];
    int there[7];
    long long sign;
    if (number_of(duration, "sign", -1, 1, &sign) < 0) {
        return -1;
    }
    for (int i = 0; i < 7; i++) {
        if (unit_of(duration, names[i], i < 3 ? UINT32_MAX : UINT64_MAX, &numbers[i], &there[i]) < 0) {
            return -1;
        }
    }
    if (fraction_of(duration, &out->fraction, &out->fraction_digits) < 0) {
        return -1;
    }
    if (sign == 0 || there[0] != there[1] || there[0] != there[2] || there[0] != there[3] || there[4] < there[5] || there[5] < there[6]
        || (out->fraction_digits != 0 && !there[4])) {
        PyErr_SetString(PyExc_ValueError, "no text gives this Duration. Its sign must be 1 or -1. Either all or none of years, months, weeks and days must be None. "
                                          "If hours is None, minutes and fraction must be None, and if minutes is None, seconds must be None");
        return -1;
    }
    out->is_negative = sign < 0;
    out->has_date = there[0];
    out->years = (uint32_t)numbers[0];
    out->months = (uint32_t)numbers[1];
    out->weeks = (uint32_t)numbers[2];
    out->days = numbers[3];
    out->hours = numbers[4];
    out->minutes = numbers[5];
    out->seconds = numbers[6];
    out->time_form = there[6] ? IXDTF_LAST_SECONDS : there[5] ? IXDTF_LAST_MINUTES : there[4] ? IXDTF_LAST_HOURS : IXDTF_NO_TIME;
    return 0;
}

static PyObject *canonical_duration(PyObject *duration) {
    ixdtf_duration fields = IXDTF_DURATION;
    uint8_t text[512]; /* large enough: the text has at most 376 bytes */
    size_t count = 0;
    if (duration_fields(duration, &fields) < 0) {
        return NULL;
    }
    if (ixdtf_print_duration(&fields, text, sizeof text, &count) != IXDTF_OK) {
        PyErr_SetString(PyExc_ValueError, "no text that parse_duration() accepts gives this duration, so it has no canonical text");
        return NULL;
    }
    return PyUnicode_DecodeASCII((const char *)text, (Py_ssize_t)count, NULL);
}

/* The printers of records. Each has the name of its kind, and the name of the function of this module that reads its texts. */
static const struct { const char *kind, *reader; uint32_t (*print)(const ixdtf_record *, uint8_t *, size_t, size_t *); } PRINTERS[] = {
    { "date-time", "parse", ixdtf_print },
    { "year-month", "parse_year_month", ixdtf_print_year_month },
    { "month-day", "parse_month_day", ixdtf_print_month_day },
    { "time", "parse_time", ixdtf_print_time },
};

/* Returns the canonical text of a record, or NULL with or without an exception. Without one, the record has no canonical text. */
static PyObject *printed_record(const ixdtf_record *fields, int number) {
    uint8_t few[128];
    size_t count = 0;
    uint32_t error = PRINTERS[number].print(fields, few, sizeof few, &count);
    if (error == IXDTF_OK) {
        return PyUnicode_DecodeASCII((const char *)few, (Py_ssize_t)count, NULL);
    }
    if (error == IXDTF_NOT_PRINTABLE) {
        return NULL;
    }
    PyObject *made = PyUnicode_New((Py_ssize_t)count, 127);
    if (made != NULL && PRINTERS[number].print(fields, PyUnicode_1BYTE_DATA(made), count, &count) != IXDTF_OK) {
        Py_CLEAR(made);
        PyErr_SetString(PyExc_SystemError, "expected the length of the canonical text to be the length that the library counted before");
    }
    return made;
}

static PyObject *canonical_record(const ixdtf_record *fields, int number) {
    PyObject *made = printed_record(fields, number);
    if (made == NULL && !PyErr_Occurred()) {
        PyErr_Format(PyExc_ValueError, "no text that %s() accepts gives this record, so it has no canonical text", PRINTERS[number].reader);
    }
    return made;
}

/* Returns the canonical text of a record of parse() or of parse_time(). For any other record, returns what repr() returns. */
static PyObject *record_str(PyObject *self) {
    const ixdtf_record *fields = &((record_object *)self)->fields;
    PyObject *made = printed_record(fields, fields->date.is_there ? 0 : 3);
    return made != NULL || PyErr_Occurred() ? made : record_repr(self);
}

static PyObject *canonical_datetime(module_state *state, PyObject *moment) {
    ixdtf_record fields = IXDTF_RECORD;
    PyObject *source = NULL;
    if (fields_of_datetime(state, moment, -1, &fields, &source) < 0) {
        return NULL;
    }
    PyObject *made = canonical_record(&fields, 0);
    Py_DECREF(source);
    return made;
}

/* Writes the date of a day, which is a number of days since 1970-01-01. The algorithm counts years from 1 March, so that the leap day is the last one. Returns
 * 0 if the year is outside -999999 to 999999. */
static int put_day(ixdtf_date *out, int64_t day) {
    const int64_t days_of_400_years = 146097, most = 400000000;
    if (day < -most || day > most) {
        return 0;
    }
    int64_t since = day + 719468; /* since 0000-03-01 */
    int64_t era = (since >= 0 ? since : since - days_of_400_years + 1) / days_of_400_years, in_era = since - era * days_of_400_years;
    int64_t year = (in_era - in_era / 1460 + in_era / 36524 - in_era / 146096) / 365, in_year = in_era - (365 * year + year / 4 - year / 100);
    int64_t month = (5 * in_year + 2) / 153; /* 0 for March */
    year += era * 400 + (month >= 10);
    *out = (ixdtf_date){ (int32_t)year, (uint8_t)(month < 10 ? month + 3 : month - 9), (uint8_t)(in_year - (153 * month + 2) / 5 + 1), true };
    return year >= -999999 && year <= 999999;
}

/* Returns the text of an instant, in UTC. */
static PyObject *canonical_instant(PyObject *instant) {
    ixdtf_record fields = IXDTF_RECORD;
    long long seconds, nanoseconds;
    if (number_of(instant, "seconds", INT64_MIN, INT64_MAX, &seconds) < 0 || number_of(instant, "nanoseconds", 0, 999999999, &nanoseconds) < 0) {
        return NULL;
    }
    int64_t in_day = (seconds % 86400 + 86400) % 86400;
    if (!put_day(&fields.date, seconds / 86400 - (seconds % 86400 < 0))) {
        PyErr_SetString(PyExc_ValueError, "the year of the instant is outside -999999 to 999999, so it has no canonical text");
        return NULL;
    }
    fields.time.hour = (uint8_t)(in_day / 3600);
    fields.time.minute = (uint8_t)(in_day / 60 % 60);
    fields.time.second = (uint8_t)(in_day % 60);
    fields.time.is_there = true;
    put_fraction(&fields.time, (uint64_t)nanoseconds, -1);
    fields.offset.form = IXDTF_UTC;
    return canonical_record(&fields, 0);
}

static PyObject *canonical_offset(PyObject *offset) {
    ixdtf_record fields = IXDTF_RECORD;
    uint8_t text[512]; /* large enough: the text has at most 265 bytes */
    size_t count = 0;
    if (set_offset(&fields, offset) < 0) {
        return NULL;
    }
    if (ixdtf_print_offset(&fields.offset, text, sizeof text, &count) != IXDTF_OK) {
        PyErr_SetString(PyExc_ValueError, "no text that parse_offset() accepts gives this offset, so it has no canonical text");
        return NULL;
    }
    return PyUnicode_DecodeASCII((const char *)text, (Py_ssize_t)count, NULL);
}

static PyObject *canonical_zone(PyObject *zone) {
    ixdtf_record fields = IXDTF_RECORD;
    PyObject *name = NULL, *source = NULL, *made = NULL;
    size_t count = 0;
    if (set_zone(&fields, zone, &name) == 0) {
        source = joined_names(&fields, name, Py_None);
    }
    if (source != NULL) {
        size_t length = ixdtf_printed_zone_length(&fields.zone);
        made = length == 0 ? NULL : PyUnicode_New((Py_ssize_t)length, 127);
        if (length == 0 || (made != NULL && ixdtf_print_zone(&fields.zone, PyUnicode_1BYTE_DATA(made), length, &count) != IXDTF_OK)) {
            Py_CLEAR(made);
            PyErr_SetString(PyExc_ValueError, "no text that parse_zone() accepts gives this zone, so it has no canonical text");
        }
        Py_DECREF(source);
    }
    Py_XDECREF(name);
    return made;
}

/* Returns the index of the printer for this kind in PRINTERS. Returns -1, with an exception, if there is no such printer. */
static int printer_number(PyObject *name) {
    for (int i = 0; PyUnicode_Check(name) && i < (int)(sizeof PRINTERS / sizeof *PRINTERS); i++) {
        if (PyUnicode_CompareWithASCIIString(name, PRINTERS[i].kind) == 0) {
            return i;
        }
    }
    PyErr_Format(PyExc_ValueError, "expected a kind of record, which is date-time, year-month, month-day or time, and found %R", name);
    return -1;
}

static PyObject *canonical(PyObject *module, PyObject *arguments, PyObject *keywords) {
    static char *names[] = { "", "kind", NULL };
    module_state *state = state_of(module);
    PyObject *record, *kind = NULL;
    if (!PyArg_ParseTupleAndKeywords(arguments, keywords, "O|O:canonical", names, &record, &kind)) {
        return NULL;
    }
    if (PyObject_TypeCheck(record, (PyTypeObject *)state->record_type)) {
        int number = kind == NULL ? 0 : printer_number(kind);
        return number < 0 ? NULL : canonical_record(&((record_object *)record)->fields, number);
    }
    if (kind != NULL) {
        PyErr_SetString(PyExc_TypeError, "canonical() accepts a kind only for a Record");
        return NULL;
    }
    if (PyObject_TypeCheck(record, (PyTypeObject *)state->duration_type)) {
        return canonical_duration(record);
    }
    if (PyObject_TypeCheck(record, (PyTypeObject *)state->offset_type)) {
        return canonical_offset(record);
    }
    if (PyObject_TypeCheck(record, (PyTypeObject *)state->zone_type)) {
        return canonical_zone(record);
    }
    if (PyDateTime_Check(record)) {
        return canonical_datetime(state, record);
    }
    if (PyObject_TypeCheck(record, (PyTypeObject *)state->instant_type)) {
        return canonical_instant(record);
    }
    return PyErr_Format(PyExc_TypeError, "canonical() expects a Record, a Duration, an Offset, a Zone, an Instant or a datetime, and found %.100s", Py_TYPE(record)->tp_name);
}

static PyObject *instant(PyObject *module, PyObject *record) {
    module_state *state = state_of(module);
    if (!PyObject_TypeCheck(record, (PyTypeObject *)state->record_type)) {
        return PyErr_Format(PyExc_TypeError, "instant() expects a Record, and found %.100s", Py_TYPE(record)->tp_name);
    }
    const ixdtf_record *fields = &((record_object *)record)->fields;
    int64_t seconds = 0;
    uint32_t nanoseconds = 0;
    if (ixdtf_instant(fields, &seconds, &nanoseconds) != IXDTF_OK) {
        PyErr_SetString(PyExc_ValueError, !fields->date.is_there ? "the record has no date, so it has no instant"
                : !fields->time.is_there                         ? "the record has no time, so it has no instant"
                : fields->offset.form == IXDTF_NO_OFFSET         ? "the record has no offset, so it has no instant"
                                                                 : "the value of a fraction has more digits than its field digits says, so the record has no instant");
        return NULL;
    }
    return NAMED(state->instant_type, PyLong_FromLongLong(seconds), PyLong_FromUnsignedLong(nanoseconds));
}

#define FAST(function) (PyCFunction)(void (*)(void))function, METH_FASTCALL | METH_KEYWORDS

static PyMethodDef module_methods[] = {
    { "parse", FAST(parse),
      "parse(text, /, *, handler=None)\n--\n\n"
      "Reads a date, or a date and a time, and returns its Record. The text may have an offset, a zone and annotations.\n\n"
      "The text is str or bytes, such as '2024-03-02T08:48:00-05:00[America/New_York][u-ca=hebrew]'. Raises IxdtfError if the text is\n"
      "refused. handler is a function. parse() calls it with each Annotation in order, up to the first error. The handler returns\n"
      "this annotation, another annotation that replaces it, or None to drop it. So list.append, which returns None, drops all of them:\n"
      "to read the annotations of a text, use the attribute annotations of its Record." },
    { "parse_year_month", FAST(parse_year_month), "parse_year_month(text, /, *, handler=None)\n--\n\nReads a year and a month, such as '2020-11', and returns its Record. The day of the Record is 1." },
    { "parse_month_day", FAST(parse_month_day),
      "parse_month_day(text, /, *, strict=False, handler=None)\n--\n\nReads a month and a day, such as '11-07', and returns its Record. The year of the Record is 0.\n"
      "With strict=True, the day 00 is refused." },
    { "parse_time", FAST(parse_time),
      "parse_time(text, /, *, strict=False, handler=None)\n--\n\nReads a time, such as 'T12:30', and returns its Record.\n\n"
      "A text without T is refused if its beginning could also be a month and a day, or a year and a month. For example, '1200' is\n"
      "refused, because it could also mean month 12, day 00. With strict=True, there is no day 00, so '1200' is accepted." },
    { "parse_rfc3339", FAST(parse_rfc3339),
      "parse_rfc3339(text, /)\n--\n\nReads a date-time of RFC 3339, section 5.6, such as '2024-03-02T08:48:00.25-05:00', and returns its Record.\n\n"
      "Every other text is refused. If parse_rfc3339() accepts a text, parse() accepts it too, and returns an equal Record." },
    { "parse_rfc9557", FAST(parse_rfc9557),
      "parse_rfc9557(text, /, *, handler=None)\n--\n\nReads a date-time-ext of RFC 9557, section 4.1, such as\n"
      "'2024-03-02T08:48:00-05:00[America/New_York][u-ca=hebrew]', and returns its Record.\n\n"
      "Every other text is refused. If parse_rfc9557() accepts a text, parse() accepts it too, and returns an equal Record." },
    { "parse_offset", parse_offset, METH_O, "parse_offset(text, /)\n--\n\nReads an offset, such as '+05:30', and returns it as an Offset. 'Z' is refused." },
    { "parse_zone", parse_zone, METH_O, "parse_zone(text, /)\n--\n\nReads a time zone, which is a name or an offset, such as 'Europe/Berlin' or '+05:30', and returns its Zone." },
    { "parse_zone_name", parse_zone_name, METH_O, "parse_zone_name(text, /)\n--\n\nReads the name of a time zone, such as 'Europe/Berlin', and returns its Zone." },
    { "parse_duration", (PyCFunction)(void (*)(void))parse_duration, METH_VARARGS | METH_KEYWORDS,
      "parse_duration(text, /, *, strict=False)\n--\n\nReads a duration, such as '-P1Y2M3W4DT5H6M7.5S', and returns its Duration. With strict=True, a repeated unit is\n"
      "refused, as in 'P1Y2Y'." },
    { "is_valid", FAST(is_valid),
      "is_valid(text, /, kind='date-time', *, strict=False)\n--\n\n"
      "Returns whether a reader accepts the text. kind says which reader: for example, parse() for date-time, and parse_time() for\n"
      "time. The kinds are date-time, year-month, month-day, time, rfc3339, rfc9557, offset, zone, zone-name and duration." },
    { "is_valid_many", (PyCFunction)(void (*)(void))is_valid_many, METH_VARARGS | METH_KEYWORDS,
      "is_valid_many(texts, /, kind='date-time', *, strict=False, offsets=None)\n--\n\n"
      "Returns for each of many texts whether a reader accepts it, as a memoryview of bool. kind and strict are those of is_valid().\n\n"
      "texts is what instants() accepts. None and NaN in place of a text are not accepted, so their value is False. A memoryview cannot be\n"
      "pickled: tolist() makes a list of it." },
    { "instants", (PyCFunction)(void (*)(void))instants, METH_VARARGS | METH_KEYWORDS,
      "instants(texts, /, kind='date-time', *, errors='raise', unit='ns', offsets=None)\n--\n\n"
      "Returns the instants of many texts as an Instants: an array('q') of numbers since 1970-01-01T00:00:00Z, and a memoryview of bool that\n"
      "says which texts have no value. numpy.asarray(values).view('datetime64[ns]') makes an array of NumPy without a copy.\n\n"
      "texts is a list, a tuple or another iterable of str or bytes. It can also be one str, or bytes or another buffer of bytes, with one\n"
      "text in each line. It can be an array of NumPy with the type S, or with objects. With offsets, a buffer of n + 1 numbers of 32 or 64\n"
      "bits, the n texts are between these places of a buffer of bytes, as in an array of Arrow. kind is date-time, rfc3339 or rfc9557.\n\n"
      "unit is ns, us, ms or s. An instant is rounded down to this unit. As for instant(), the zone does not matter, and the second 60 is\n"
      "the same instant as the second 59.\n\n"
      "A text has no value if it is refused, if it has no time or no offset, or if 64 bits cannot hold its instant in this unit: for ns,\n"
      "the years 1678 to 2261 always fit. With errors='raise', the first such text raises IxdtfError, or another ValueError. Its attribute\n"
      "index is the number of the text, counted from 0. With errors='coerce', its number is -2**63, which is NaT in NumPy and pandas, and\n"
      "missing is True. None and NaN in place of a text then have no value either." },
    { "canonical", (PyCFunction)(void (*)(void))canonical, METH_VARARGS | METH_KEYWORDS,
      "canonical(record, /, kind='date-time')\n--\n\nReturns the canonical text of a Record, a Duration, an Offset or a Zone: the one text that the library writes for this value.\n"
      "Returns the text of an Instant in UTC, and of a datetime what str() of Record.from_datetime() returns.\n\n"
      "kind says which function reads the text of a Record: parse() for date-time, parse_year_month() for year-month,\n"
      "parse_month_day() for month-day, and parse_time() for time. parse_duration(), parse_offset() and parse_zone() read the texts\n"
      "of the other three types. The function that reads the text returns an equal value, except that the text of a Zone does not\n"
      "say whether the Zone is critical. Raises ValueError if a value has no such text: for example, if the date is 30 February." },
    { "_restore", restore, METH_VARARGS, NULL },
    { "instant", instant, METH_O,
      "instant(record, /)\n--\n\nReturns the Instant of a Record: the seconds since 1970-01-01T00:00:00Z, rounded down, and the nanoseconds after them.\n\n"
      "Raises ValueError if the record has no date, no time or no offset. The time zone does not matter. The second 60 is the same\n"
      "instant as the second 59." },
    { NULL, NULL, 0, NULL },
};

/* ---- The module ---- */

static int take_names(const char *from, const char *const *names, PyObject **out[], int count) {
    PyObject *other = PyImport_ImportModule(from);
    for (int i = 0; other != NULL && i < count; i++) {
        *out[i] = PyObject_GetAttrString(other, names[i]);
        if (*out[i] == NULL) {
            Py_CLEAR(other);
        }
    }
    if (other == NULL) {
        return -1;
    }
    Py_DECREF(other);
    return 0;
}

/* Makes the type Record. Returns 0, or -1 with an exception. */
static int add_record_type(PyObject *module, module_state *state) {
    state->record_type = PyType_FromModuleAndSpec(module, &record_spec, NULL);
    if (state->record_type == NULL) {
        return -1;
    }
    PyObject *arguments = Py_BuildValue("(sssss)", "date", "time", "offset", "zone", "calendar");
    int failed = arguments == NULL || PyObject_SetAttrString(state->record_type, "__match_args__", arguments) < 0;
    Py_XDECREF(arguments);
    if (failed) {
        return -1;
    }
    Py_INCREF(state->record_type);
    if (PyModule_AddObject(module, "Record", state->record_type) < 0) {
        Py_DECREF(state->record_type);
        return -1;
    }
    return 0;
}

static int execute(PyObject *module) {
    module_state *state = state_of(module);
    static const char *const records[] = { "Fraction", "Date", "Time", "Offset", "Zone", "Annotation", "Duration", "Instant", "Instants", "Z", "describe" };
    PyObject **places[] = { &state->fraction_type, &state->date_type, &state->time_type, &state->offset_type, &state->zone_type, &state->annotation_type,
                             &state->duration_type, &state->instant_type, &state->instants_type, &state->utc, &state->describe };
    static const char *const errors[] = { "IxdtfError" };
    static const char *const datetimes[] = { "to_datetime", "raise_gap" };
    if (ixdtf_interface_version() != IXDTF_INTERFACE_VERSION) {
        PyErr_SetString(PyExc_ImportError, "expected the version of the library for C to be the version of its header");
        return -1;
    }
    PyDateTime_IMPORT;
    if (PyDateTimeAPI == NULL || take_names("ixdtf._records", records, places, (int)(sizeof places / sizeof *places)) < 0
        || take_names("ixdtf._errors", errors, (PyObject **[]){ &state->error }, 1) < 0
        || take_names("ixdtf._datetimes", datetimes, (PyObject **[]){ &state->to_datetime, &state->raise_gap }, 2) < 0) {
        return -1;
    }
    state->zones = PyDict_New();
    state->word_fromutc = PyUnicode_InternFromString("fromutc");
    state->word_utcoffset = PyUnicode_InternFromString("utcoffset");
    state->word_key = PyUnicode_InternFromString("key");
    state->word_zone = PyUnicode_InternFromString("zone");
    if (state->zones == NULL || state->word_fromutc == NULL || state->word_utcoffset == NULL || state->word_key == NULL || state->word_zone == NULL) {
        return -1;
    }
    return add_record_type(module, state);
}

/* All members of module_state before `last_seconds` are references to objects. */
static int traverse(PyObject *module, visitproc visit, void *arg) {
    PyObject **objects = (PyObject **)state_of(module);
    for (size_t i = 0; i < OBJECTS_OF_STATE; i++) {
        Py_VISIT(objects[i]);
    }
    return 0;
}

static int clear(PyObject *module) {
    PyObject **objects = (PyObject **)state_of(module);
    for (size_t i = 0; i < OBJECTS_OF_STATE; i++) {
        Py_CLEAR(objects[i]);
    }
    return 0;
}

/* Frees the state of a module that is freed without `clear`, such as one whose import failed. */
static void release(void *module) {
    clear((PyObject *)module);
}

static PyModuleDef_Slot module_slots[] = {
    { Py_mod_exec, execute },
    { 0, NULL },
};

static struct PyModuleDef module_definition = {
    PyModuleDef_HEAD_INIT, "ixdtf._reader", "The functions that call the library for C, and the type Record.", sizeof(module_state), module_methods, module_slots, traverse, clear, release,
};

PyMODINIT_FUNC PyInit__reader(void) {
    return PyModuleDef_Init(&module_definition);
}
