/* What _reader.c and _columns.c share. */
#ifndef IXDTF_READER_H
#define IXDTF_READER_H

#define PY_SSIZE_T_CLEAN
#include <Python.h>
#include <ixdtf.h>
#include <stddef.h>

/* Python 3.10 added this function. */
#if PY_VERSION_HEX < 0x030A0000
static inline PyObject *Py_NewRef(PyObject *object) {
    Py_INCREF(object);
    return object;
}
#endif

/* The objects of other modules that the extension uses, and its own type. `names` of `execute` says from where they are. */
typedef struct {
    PyObject *error;         /* IxdtfError of _errors.py */
    PyObject *fraction_type; /* this and the next eight: the named tuples of _records.py */
    PyObject *date_type;
    PyObject *time_type;
    PyObject *offset_type;
    PyObject *zone_type;
    PyObject *annotation_type;
    PyObject *duration_type;
    PyObject *instant_type;
    PyObject *instants_type;
    PyObject *utc;           /* Z of _records.py */
    PyObject *describe;      /* a function of _records.py, which returns the text of repr() */
    PyObject *to_datetime;   /* this and the next one: functions of _datetimes.py */
    PyObject *raise_gap;
    PyObject *record_type;
    PyObject *zone_info;     /* zoneinfo.ZoneInfo, or NULL before it is needed for the first time */
    PyObject *zones;         /* a dict of each ZoneInfo that was needed, so that zoneinfo does not read its file again */
    PyObject *array_type;    /* array.array, or NULL before it is needed for the first time */
    PyObject *word_fromutc;  /* this and the next three: names of attributes */
    PyObject *word_utcoffset;
    PyObject *word_key;
    PyObject *word_zone;
    PyObject *last_zone;     /* the last tzinfo that fixed_zone made, for the offset of `last_seconds` seconds; or NULL */
    int32_t last_seconds;
} module_state;

#define OBJECTS_OF_STATE (offsetof(module_state, last_seconds) / sizeof(PyObject *))

static inline module_state *state_of(PyObject *module) {
    return (module_state *)PyModule_GetState(module);
}

/* ---- Texts ---- */

/* Before Python 3.12, the characters of a str may be missing until PyUnicode_READY is called. Returns 0, with an exception, if this call fails. */
static inline int is_ready(PyObject *text) {
#if PY_VERSION_HEX < 0x030C0000
    return PyUnicode_READY(text) == 0;
#else
    (void)text;
    return 1;
#endif
}

/* The bytes of a text, and a reference to the object that contains them. */
typedef struct {
    const uint8_t *at;
    Py_ssize_t length;
    PyObject *owner;
} text_bytes;

/* Whether a buffer has one dimension, and its items are bytes. */
int has_bytes(const Py_buffer *view);

/* Returns a copy of a buffer as bytes, or NULL with an exception. */
PyObject *bytes_of_buffer(PyObject *text);

/* Writes the bytes of a text to `out`, with a new reference to their owner. Returns 0, or -1 with an exception. */
int take_text(PyObject *text, text_bytes *out);

/* ---- Kinds ---- */

typedef uint32_t read_record(const uint8_t *text, size_t length, ixdtf_record *out);
typedef uint32_t list_record(const uint8_t *text, size_t length, ixdtf_annotation *annotations, size_t room, size_t *count, ixdtf_record *out);

/* A kind of text, with its readers for both profiles. `list` and `list_strict` are the readers that list annotations. They are NULL if a text of this
 * kind has no annotations. `numbers` has the numbers of these four readers, for ixdtf_explain. */
typedef struct {
    const char *name;
    read_record *read, *read_strict;
    list_record *list, *list_strict;
    uint32_t numbers[4];
} kind;

enum { DATE_TIME, YEAR_MONTH, MONTH_DAY, TIME, RFC3339, RFC9557, OFFSET, ZONE, ZONE_NAME, RECORD_KINDS };

extern const kind KINDS[RECORD_KINDS];

/* Returns the number of the kind with this name. It is RECORD_KINDS for a duration. Returns -1, with an exception, if there is no such kind. */
int kind_number(PyObject *name);

/* Reads a text. Returns the error, or IXDTF_OK. */
uint32_t run_reader(read_record *read, const text_bytes *text, ixdtf_record *out);

/* Raises an IxdtfError for a text that the reader with this number refuses, and returns NULL. */
PyObject *raise_error(module_state *state, PyObject *text, const text_bytes *bytes, uint32_t reader, ixdtf_text location);

/* ---- Results ---- */

/* Makes a named tuple with `count` items. It takes the references to the items. If an item is NULL, it drops the others, and returns NULL. */
PyObject *named_tuple(PyObject *type, PyObject *const *items, Py_ssize_t count);

#define NAMED(type, ...) named_tuple(type, (PyObject *[]){ __VA_ARGS__ }, (Py_ssize_t)(sizeof(PyObject *[]){ __VA_ARGS__ } / sizeof(PyObject *)))

/* ---- Functions of the module that are in _columns.c ---- */

PyObject *instants(PyObject *module, PyObject *arguments, PyObject *keywords);
PyObject *is_valid_many(PyObject *module, PyObject *arguments, PyObject *keywords);

#endif
