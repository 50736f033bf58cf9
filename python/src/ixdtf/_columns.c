/* The functions that read many texts in one call: instants() and is_valid_many(). While a block of texts is read, other threads can run. */
#include "_reader.h"

#include <string.h>

/* Says that the memory at a place is soon read. The objects of a long list are often at places that are not in a cache. */
#ifdef __GNUC__
#define PREFETCH(at) __builtin_prefetch(at)
#else
#define PREFETCH(at) ((void)0)
#endif

/* How many texts are read before the GIL is taken again, and signals are handled. For objects, it is fewer, so that what `gather` has read is still in a
 * cache. */
#define BLOCK 131072
#define BLOCK_OF_OBJECTS 8192
/* For fewer texts, the GIL is not released. */
#define FEW_TEXTS 64

/* The bytes of one text. `at` is NULL if the text is missing. */
typedef struct {
    const uint8_t *at;
    size_t length;
} span;

/* Where the texts are: in the objects of a tuple, in lines of bytes, in items of the same width, or between offsets, as in Arrow. */
typedef enum { IN_OBJECTS, IN_LINES, IN_ITEMS, BETWEEN_OFFSETS } column_form;

typedef struct {
    column_form form;
    Py_ssize_t count;
    PyObject *objects;        /* IN_OBJECTS: a tuple, to which only this call refers, or which never changes */
    PyObject *kept;           /* IN_OBJECTS: a list of copies of buffers, for one block; or NULL */
    span *spans;              /* IN_OBJECTS: the texts of one block */
    PyObject *owner;          /* the bytes or the str that are read in place; or NULL */
    Py_buffer view, offsets;  /* `obj` of each is NULL if there is none */
    const uint8_t *at, *end;  /* the bytes of all texts. IN_LINES: `at` is the beginning of the next line. */
    Py_ssize_t width, stride; /* IN_ITEMS */
    int is_stable;            /* whether no other thread can change the bytes. If not, each text is copied before it is read. */
    uint8_t *copy;            /* the copy of a text, if it does not fit into `few` */
    size_t room;
    span failed;              /* the text that a block stopped at */
    uint8_t few[512];
} column;

/* What is done with each text. */
typedef struct {
    const kind *what;  /* NULL for a duration */
    read_record *read; /* the reader, or NULL for a duration */
    int strict;
    int stops;         /* whether the first text without a value ends the call */
    int64_t unit;      /* instants(): the number of units in a second; is_valid_many(): 0 */
    uint32_t part;     /* instants(): the number of nanoseconds in a unit, from 1 to 1,000,000,000 */
    int64_t safe;      /* instants(): if the seconds of an instant are from -safe to safe, 64 bits can hold it */
    int64_t *values;   /* instants() */
    uint8_t *flags;    /* is_valid_many(): whether a text is accepted; instants(): whether it has no value */
} column_work;

/* What run_block returns, besides the number of the text at which the call must end. */
enum { ALL_READ = -1, NO_MEMORY = -2, WRONG_OFFSETS = -3 };

/* ---- One text ---- */

/* Writes an instant as a number of units. Returns 0 if 64 bits cannot hold it, or if it would be the number that stands for no instant. */
static inline int scaled(const column_work *work, int64_t seconds, uint32_t nanoseconds, int64_t *out) {
    int64_t rest = work->part == 1 ? nanoseconds : nanoseconds / work->part;
    if (seconds >= -work->safe && seconds <= work->safe) {
        *out = seconds * work->unit + rest;
        return 1;
    }
    if (seconds >= 0) {
        if (seconds > (INT64_MAX - rest) / work->unit) {
            return 0;
        }
        *out = seconds * work->unit + rest;
    } else {
        if (seconds + 1 < (INT64_MIN + 1 + (work->unit - rest)) / work->unit) {
            return 0;
        }
        *out = (seconds + 1) * work->unit + (rest - work->unit);
    }
    return 1;
}

static inline uint32_t read_one(const column_work *work, span text, ixdtf_record *record) {
    if (work->read != NULL) {
        return work->read(text.at, text.length, record);
    }
    ixdtf_duration duration = IXDTF_DURATION;
    return work->strict ? ixdtf_parse_duration_strict(text.at, text.length, &duration) : ixdtf_parse_duration(text.at, text.length, &duration);
}

/* Reads one text, and writes the results of the number `i`. Returns 0 if the text has no value, and the call must end. */
static inline int do_one(const column_work *work, span text, ixdtf_record *record, Py_ssize_t i) {
    int is_read = text.at != NULL && read_one(work, text, record) == IXDTF_OK;
    if (work->unit == 0) {
        work->flags[i] = (uint8_t)is_read;
        return 1;
    }
    int64_t seconds, value = INT64_MIN;
    uint32_t nanoseconds;
    int has_value = is_read && ixdtf_instant(record, &seconds, &nanoseconds) == IXDTF_OK && scaled(work, seconds, nanoseconds, &value);
    work->values[i] = value;
    work->flags[i] = !has_value;
    return has_value || !work->stops;
}

/* Returns a text whose bytes do not change. Its `at` is NULL if there is no memory for it. */
static inline span stable_text(column *texts, span text) {
    if (texts->is_stable) {
        return text;
    }
    uint8_t *copy = texts->few;
    if (text.length > sizeof texts->few) {
        if (text.length > texts->room) {
            uint8_t *larger = PyMem_RawRealloc(texts->copy, text.length);
            if (larger == NULL) {
                return (span){ NULL, 0 };
            }
            texts->copy = larger;
            texts->room = text.length;
        }
        copy = texts->copy;
    }
    memcpy(copy, text.at, text.length);
    return (span){ copy, text.length };
}

static span next_line(column *texts) {
    const uint8_t *begin = texts->at;
    const uint8_t *found = begin == texts->end ? NULL : memchr(begin, '\n', (size_t)(texts->end - begin));
    size_t length = (size_t)((found == NULL ? texts->end : found) - begin);
    texts->at = found == NULL ? texts->end : found + 1;
    return (span){ begin, length > 0 && begin[length - 1] == '\r' ? length - 1 : length };
}

static span item_of(const column *texts, Py_ssize_t i) {
    const uint8_t *at = texts->at + i * texts->stride;
    size_t length = (size_t)texts->width;
    while (length > 0 && at[length - 1] == 0) {
        length--;
    }
    return (span){ at, length };
}

/* Writes the text between two offsets to `out`. Returns 0 if the offsets are wrong. */
static int between(const column *texts, Py_ssize_t i, span *out) {
    const char *at = (const char *)texts->offsets.buf + i * texts->offsets.itemsize;
    int32_t narrow[2];
    int64_t wide[2];
    if (texts->offsets.itemsize == 4) {
        memcpy(narrow, at, sizeof narrow); /* the numbers need not be aligned */
    } else {
        memcpy(wide, at, sizeof wide);
    }
    int64_t first = texts->offsets.itemsize == 4 ? narrow[0] : wide[0], next = texts->offsets.itemsize == 4 ? narrow[1] : wide[1];
    if (first < 0 || next < first || next > texts->end - texts->at) {
        return 0;
    }
    *out = (span){ texts->at + first, (size_t)(next - first) };
    return 1;
}

/* ---- A block of texts ---- */

static Py_ssize_t run_objects(const column *texts, const column_work *work, Py_ssize_t first, Py_ssize_t last) {
    ixdtf_record record = IXDTF_RECORD;
    for (Py_ssize_t i = first; i < last; i++) {
        /* Most texts begin in the cache line of the object. */
        PREFETCH((const void *)((uintptr_t)texts->spans[i + 8 < last ? i + 8 - first : 0].at + 31));
        if (!do_one(work, texts->spans[i - first], &record, i)) {
            return i;
        }
    }
    return ALL_READ;
}

static Py_ssize_t run_bytes(column *texts, const column_work *work, Py_ssize_t first, Py_ssize_t last) {
    ixdtf_record record = IXDTF_RECORD;
    for (Py_ssize_t i = first; i < last; i++) {
        span text;
        if (texts->form == IN_LINES) {
            text = next_line(texts);
        } else if (texts->form == IN_ITEMS) {
            text = item_of(texts, i);
        } else if (!between(texts, i, &text)) {
            return WRONG_OFFSETS;
        }
        text = stable_text(texts, text);
        if (text.at == NULL) {
            return NO_MEMORY;
        }
        if (!do_one(work, text, &record, i)) {
            texts->failed = text;
            return i;
        }
    }
    return ALL_READ;
}

/* Reads the texts from `first` to before `last`. Returns the number of the text at which the call must end, or ALL_READ, NO_MEMORY or WRONG_OFFSETS. It
 * calls no function of Python that needs the GIL. */
static Py_ssize_t run_block(column *texts, const column_work *work, Py_ssize_t first, Py_ssize_t last) {
    return texts->form == IN_OBJECTS ? run_objects(texts, work, first, last) : run_bytes(texts, work, first, last);
}

/* Adds the number of the text to the exception that is set: as the attribute `index`, and as a note, if this Python has notes. */
static void add_index(Py_ssize_t index) {
    PyObject *type, *value, *trace;
    PyErr_Fetch(&type, &value, &trace);
    PyErr_NormalizeException(&type, &value, &trace);
    PyObject *number = PyLong_FromSsize_t(index);
    if (number != NULL && PyObject_SetAttrString(value, "index", number) == 0) {
#if PY_VERSION_HEX >= 0x030B0000
        PyObject *note = PyUnicode_FromFormat("This is the text with the number %zd, counted from 0.", index);
        PyObject *added = note == NULL ? NULL : PyObject_CallMethod(value, "add_note", "O", note);
        Py_XDECREF(note);
        Py_XDECREF(added);
#endif
    }
    Py_XDECREF(number);
    PyErr_Clear();
    PyErr_Restore(type, value, trace);
}

/* Whether an object stands for a missing text: None, or an object that is not equal to itself, such as NaN, and NaT of pandas. NA of pandas is neither equal
 * nor unequal to itself. */
static int is_missing(PyObject *object) {
    const char *point = strrchr(Py_TYPE(object)->tp_name, '.');
    if (object == Py_None || strcmp(point == NULL ? Py_TYPE(object)->tp_name : point + 1, "NAType") == 0) {
        return 1;
    }
    PyObject *differs = PyObject_RichCompare(object, object, Py_NE);
    int result = differs != NULL && PyObject_IsTrue(differs) > 0; /* a bool of NumPy is not Py_True */
    PyErr_Clear();
    Py_XDECREF(differs);
    return result;
}

/* Writes the bytes of a copy of a buffer, which the list `kept` then has. Returns 0, or -1 with an exception. */
static int copy_buffer(column *texts, PyObject *object, span *out) {
    PyObject *bytes = bytes_of_buffer(object);
    if (bytes == NULL || (texts->kept == NULL && (texts->kept = PyList_New(0)) == NULL) || PyList_Append(texts->kept, bytes) < 0) {
        Py_XDECREF(bytes);
        return -1;
    }
    *out = (span){ (const uint8_t *)PyBytes_AS_STRING(bytes), (size_t)PyBytes_GET_SIZE(bytes) };
    Py_DECREF(bytes);
    return 0;
}

/* Writes the bytes of a text. Returns 0, or -1 with an exception. */
static inline int span_of(column *texts, const column_work *work, PyObject *object, span *out) {
    static const uint8_t refused[1] = { 0x80 }; /* no reader accepts this byte */
    if (PyUnicode_Check(object)) {
        if (!is_ready(object)) {
            return -1;
        }
        *out = PyUnicode_IS_ASCII(object) ? (span){ PyUnicode_1BYTE_DATA(object), (size_t)PyUnicode_GET_LENGTH(object) } : (span){ refused, 1 };
    } else if (PyBytes_Check(object)) {
        *out = (span){ (const uint8_t *)PyBytes_AS_STRING(object), (size_t)PyBytes_GET_SIZE(object) };
    } else if (!work->stops && is_missing(object)) { /* before the buffers, because NaN and NaT of NumPy have one */
        *out = (span){ NULL, 0 };
    } else if (PyObject_CheckBuffer(object)) {
        return copy_buffer(texts, object, out);
    } else {
        PyErr_Format(PyExc_TypeError, "expected a text to be str or bytes, and found %.100s", Py_TYPE(object)->tp_name);
        return -1;
    }
    return 0;
}

/* Writes the texts of a block to `spans`. Returns 0, or -1 with an exception. */
static int gather(column *texts, const column_work *work, Py_ssize_t first, Py_ssize_t last) {
    for (Py_ssize_t i = first; i < last; i++) {
        PREFETCH(PyTuple_GET_ITEM(texts->objects, i + 16 < last ? i + 16 : first));
        if (span_of(texts, work, PyTuple_GET_ITEM(texts->objects, i), &texts->spans[i - first]) < 0) {
            if (PyErr_ExceptionMatches(PyExc_TypeError)) {
                add_index(i);
            }
            return -1;
        }
    }
    return 0;
}

/* Returns the text that a call of instants() ends at, as the caller gave it. Returns NULL, with an exception, if it cannot be made. */
static PyObject *failed_text(const column *texts, Py_ssize_t index) {
    if (texts->form == IN_OBJECTS) {
        return Py_NewRef(PyTuple_GET_ITEM(texts->objects, index));
    }
    const char *at = (const char *)texts->failed.at;
    Py_ssize_t length = (Py_ssize_t)texts->failed.length;
    return texts->owner != NULL && PyUnicode_Check(texts->owner) ? PyUnicode_DecodeASCII(at, length, NULL) : PyBytes_FromStringAndSize(at, length);
}

/* Raises the exception of the text with the number `index`, at which a call of instants() ends. */
static void raise_for_text(module_state *state, const column *texts, const column_work *work, Py_ssize_t index) {
    PyObject *text = failed_text(texts, index);
    text_bytes bytes;
    if (text == NULL || take_text(text, &bytes) < 0) {
        Py_XDECREF(text);
        return;
    }
    ixdtf_record fields = IXDTF_RECORD;
    uint32_t error = run_reader(work->read, &bytes, &fields), nanoseconds;
    int64_t seconds;
    if (error != IXDTF_OK) {
        raise_error(state, text, &bytes, work->what->numbers[0], fields.location);
    } else if (ixdtf_instant(&fields, &seconds, &nanoseconds) != IXDTF_OK) {
        PyErr_Format(PyExc_ValueError, "the text %R has no %s, so it has no instant", text, fields.time.is_there ? "offset" : "time");
    } else {
        PyErr_Format(PyExc_ValueError, "64 bits cannot hold the instant of the text %R in this unit. With unit='s', they can.", text);
    }
    add_index(index);
    Py_DECREF(bytes.owner);
    Py_DECREF(text);
}

/* ---- The forms of many texts ---- */

static void release_texts(column *texts) {
    if (texts->view.obj != NULL) {
        PyBuffer_Release(&texts->view);
    }
    if (texts->offsets.obj != NULL) {
        PyBuffer_Release(&texts->offsets);
    }
    PyMem_RawFree(texts->copy);
    PyMem_Free(texts->spans);
    Py_XDECREF(texts->kept);
    Py_XDECREF(texts->objects);
    Py_XDECREF(texts->owner);
}

/* Returns the number of lines. The last line need not end with a newline. The inner loop has a fixed length, so that a compiler can use vectors for it. */
static Py_ssize_t count_lines(const uint8_t *at, const uint8_t *end) {
    Py_ssize_t count = at != end && end[-1] != '\n';
    for (; end - at >= 240; at += 240) {
        uint8_t found = 0;
        for (int i = 0; i < 240; i++) {
            found += at[i] == '\n';
        }
        count += found;
    }
    for (; at < end; at++) {
        count += *at == '\n';
    }
    return count;
}

/* Returns the format of the items of a buffer without the sign of the order of bytes, or "" if the order is not that of this machine. */
static const char *plain_format(const Py_buffer *view) {
    const char *format = view->format == NULL ? "B" : view->format;
    if (*format == (PY_LITTLE_ENDIAN ? '<' : '>') || *format == '@' || *format == '=' || *format == '|') {
        return format + 1;
    }
    return *format == '<' || *format == '>' || *format == '!' ? "" : format;
}

/* Whether a format is a number of bytes and s, as the one of an array of NumPy with the type S25. */
static int is_format_of_items(const char *format) {
    const char *begin = format;
    while (*format >= '0' && *format <= '9') {
        format++;
    }
    return format > begin && format[0] == 's' && format[1] == 0;
}

/* Takes the offsets of texts. Returns 0, or -1 with an exception. */
static int take_offsets(PyObject *offsets, column *out) {
    if (PyObject_GetBuffer(offsets, &out->offsets, PyBUF_FULL_RO) < 0) {
        return -1;
    }
    const Py_buffer *view = &out->offsets;
    const char *format = plain_format(view);
    int has_numbers = (view->itemsize == 4 || view->itemsize == 8) && *format != 0 && strchr("ilqILQ", *format) != NULL && format[1] == 0;
    if (view->ndim != 1 || !has_numbers || !PyBuffer_IsContiguous(view, 'C') || view->len == 0) {
        PyErr_SetString(PyExc_TypeError, "expected offsets to be a buffer with one dimension and at least one number, which has 32 or 64 bits, such as an array('i')");
        return -1;
    }
    out->form = BETWEEN_OFFSETS;
    out->count = view->len / view->itemsize - 1;
    return 0;
}

/* Takes one str or bytes, in which each line is a text. Returns 0, or -1 with an exception. */
static int take_lines(PyObject *texts, column *out) {
    if (PyUnicode_Check(texts) && !is_ready(texts)) {
        return -1;
    }
    /* If a str is not ASCII, its lines are bytes in the messages of errors, as if the caller had encoded it. */
    int is_kept = PyBytes_Check(texts) || PyUnicode_IS_ASCII(texts);
    out->owner = is_kept ? Py_NewRef(texts) : PyUnicode_AsEncodedString(texts, "utf-8", "surrogatepass");
    if (out->owner == NULL) {
        return -1;
    }
    int is_bytes = PyBytes_Check(out->owner);
    out->at = is_bytes ? (const uint8_t *)PyBytes_AS_STRING(out->owner) : PyUnicode_1BYTE_DATA(out->owner);
    out->end = out->at + (is_bytes ? PyBytes_GET_SIZE(out->owner) : PyUnicode_GET_LENGTH(out->owner));
    out->is_stable = 1;
    out->form = IN_LINES;
    return 0;
}

/* Takes a buffer of bytes, in which each line is a text, or of items, each of which is a text. The form of an array of NumPy with objects or with str stays
 * IN_OBJECTS, because its items are read as those of any iterable. Returns 0, or -1 with an exception. */
static int take_array(PyObject *texts, column *out) {
    Py_buffer *view = &out->view;
    if (PyObject_GetBuffer(texts, view, PyBUF_FULL_RO) < 0) {
        return -1;
    }
    const char *format = plain_format(view);
    int is_array = view->ndim == 1 && view->suboffsets == NULL;
    if (is_array && is_format_of_items(format)) {
        out->form = IN_ITEMS;
        out->at = view->buf;
        out->width = view->itemsize;
        out->stride = view->strides == NULL ? out->width : view->strides[0];
        out->count = out->width == 0 ? 0 : view->len / out->width;
    } else if (is_array && has_bytes(view) && PyBuffer_IsContiguous(view, 'C')) {
        out->form = IN_LINES;
        out->at = view->buf;
        out->end = out->at + view->len;
    } else if (is_array && (strcmp(format, "O") == 0 || strchr(format, 'w') != NULL)) {
        PyBuffer_Release(view);
    } else {
        PyErr_Format(PyExc_TypeError, "expected texts to be a list, or a buffer with one dimension and items that are bytes or texts, and found %.100s with %d dimensions and the format %.100s",
            Py_TYPE(texts)->tp_name, view->ndim, view->format == NULL ? "B" : view->format);
        return -1;
    }
    return 0;
}

/* Takes the objects of an iterable, each of which is a text. Returns 0, or -1 with an exception. */
static int take_objects(PyObject *texts, column *out) {
    out->objects = PyList_CheckExact(texts) ? PyList_AsTuple(texts) : PySequence_Tuple(texts);
    if (out->objects == NULL) {
        return -1;
    }
    out->count = PyTuple_GET_SIZE(out->objects);
    out->spans = PyMem_Malloc((size_t)(out->count < BLOCK_OF_OBJECTS ? out->count + 1 : BLOCK_OF_OBJECTS) * sizeof *out->spans);
    if (out->spans == NULL) {
        PyErr_NoMemory();
        return -1;
    }
    return 0;
}

/* Takes the arguments `texts` and `offsets` of a call. Returns 0, or -1 with an exception. Call release_texts after both. */
static int take_texts(PyObject *texts, PyObject *offsets, column *out) {
    memset(out, 0, offsetof(column, few));
    int failed = 0;
    if (PyUnicode_Check(texts) || PyBytes_Check(texts)) {
        failed = take_lines(texts, out);
    } else if (!PyList_Check(texts) && !PyTuple_Check(texts) && PyObject_CheckBuffer(texts)) {
        failed = take_array(texts, out);
    }
    if (failed) {
        return -1;
    }
    if (offsets != Py_None && out->form == IN_LINES) {
        return take_offsets(offsets, out);
    }
    if (offsets != Py_None) {
        PyErr_SetString(PyExc_TypeError, "offsets are allowed only if the texts are bytes, or another buffer of bytes");
        return -1;
    }
    if (out->form == IN_LINES) {
        out->count = count_lines(out->at, out->end);
    }
    return out->form == IN_OBJECTS ? take_objects(texts, out) : 0;
}

/* ---- The calls ---- */

/* Raises the exception of a block that returned `stopped`. */
static void raise_stopped(module_state *state, const column *texts, const column_work *work, Py_ssize_t stopped) {
    if (stopped == NO_MEMORY) {
        PyErr_NoMemory();
    } else if (stopped == WRONG_OFFSETS) {
        PyErr_SetString(PyExc_ValueError, "expected offsets that do not decrease, and that are not greater than the number of bytes");
    } else {
        raise_for_text(state, texts, work, stopped);
    }
}

/* Reads all texts. Returns 0, or -1 with an exception. */
static int run_texts(module_state *state, column *texts, const column_work *work) {
    Py_ssize_t block = texts->form == IN_OBJECTS ? BLOCK_OF_OBJECTS : BLOCK;
    for (Py_ssize_t first = 0; first < texts->count; first += block) {
        Py_ssize_t last = texts->count - first < block ? texts->count : first + block, stopped;
        if (texts->form == IN_OBJECTS && gather(texts, work, first, last) < 0) {
            return -1;
        }
        if (last - first < FEW_TEXTS) {
            stopped = run_block(texts, work, first, last);
        } else {
            Py_BEGIN_ALLOW_THREADS
            stopped = run_block(texts, work, first, last);
            Py_END_ALLOW_THREADS
        }
        if (stopped != ALL_READ) {
            raise_stopped(state, texts, work, stopped);
        }
        Py_CLEAR(texts->kept);
        if (stopped != ALL_READ || PyErr_CheckSignals() < 0) {
            return -1;
        }
    }
    return 0;
}

/* Returns a bytearray of `count` bytes, whose bytes are not set yet. If PyByteArray_FromStringAndSize has no memory for the bytes, it frees a bytearray whose
 * fields are not set (at least up to Python 3.13). So it makes an empty one. */
static PyObject *new_flags(Py_ssize_t count, column_work *work) {
    PyObject *made = PyByteArray_FromStringAndSize(NULL, 0);
    if (made != NULL && PyByteArray_Resize(made, count) < 0) {
        Py_CLEAR(made);
    }
    work->flags = made == NULL ? NULL : (uint8_t *)PyByteArray_AS_STRING(made);
    return made;
}

/* Returns a bytearray as a memoryview of bool. It drops the reference to the bytearray. */
static PyObject *flags_as_bool(PyObject *flags) {
    PyObject *view = PyMemoryView_FromObject(flags);
    PyObject *made = view == NULL ? NULL : PyObject_CallMethod(view, "cast", "s", "?");
    Py_XDECREF(view);
    Py_DECREF(flags);
    return made;
}

PyObject *is_valid_many(PyObject *module, PyObject *arguments, PyObject *keywords) {
    static char *names[] = { "", "kind", "strict", "offsets", NULL };
    PyObject *texts, *name = NULL, *offsets = Py_None;
    int strict = 0, number = DATE_TIME;
    if (!PyArg_ParseTupleAndKeywords(arguments, keywords, "O|O$pO:is_valid_many", names, &texts, &name, &strict, &offsets)
        || (name != NULL && (number = kind_number(name)) < 0)) {
        return NULL;
    }
    column all;
    const kind *what = number == RECORD_KINDS ? NULL : &KINDS[number];
    column_work work = { what, what == NULL ? NULL : strict ? what->read_strict : what->read, strict, 0, 0, 1, 0, NULL, NULL };
    PyObject *flags = take_texts(texts, offsets, &all) < 0 ? NULL : new_flags(all.count, &work);
    if (flags != NULL && run_texts(state_of(module), &all, &work) < 0) {
        Py_CLEAR(flags);
    }
    release_texts(&all);
    return flags == NULL ? NULL : flags_as_bool(flags);
}

/* Returns an array.array('q') of `count` zeros. */
static PyObject *new_values(module_state *state, Py_ssize_t count) {
    if (state->array_type == NULL) {
        PyObject *module = PyImport_ImportModule("array");
        PyObject *found = module == NULL ? NULL : PyObject_GetAttrString(module, "array");
        Py_XDECREF(module);
        if (found == NULL) {
            return NULL;
        }
        Py_XSETREF(state->array_type, found);
    }
    PyObject *one = PyObject_CallFunction(state->array_type, "s(i)", "q", 0);
    PyObject *made = one == NULL ? NULL : PySequence_Repeat(one, count);
    Py_XDECREF(one);
    return made;
}

/* Returns 0 if the argument is the first word, 1 if it is the second, and so on. Returns -1, with an exception, if it is none of them. */
static int choice_of(PyObject *argument, const char *name, const char *const *words, int count) {
    for (int i = 0; PyUnicode_Check(argument) && i < count; i++) {
        if (PyUnicode_CompareWithASCIIString(argument, words[i]) == 0) {
            return i;
        }
    }
    PyErr_Format(PyExc_ValueError, "expected %s to be '%s' or '%s', and found %R", name, words[0], count == 2 ? words[1] : "us', 'ms' or 's", argument);
    return -1;
}

/* The arguments of instants(), as numbers. */
typedef struct {
    int kind, stops;
    int64_t unit;
} instants_choice;

/* Writes what the arguments `kind`, `errors` and `unit` say. Each of them can be NULL. Returns 0, or -1 with an exception. */
static int take_choice(PyObject *name, PyObject *errors, PyObject *unit, instants_choice *out) {
    static const char *const errors_words[] = { "raise", "coerce" }, *const unit_words[] = { "ns", "us", "ms", "s" };
    static const int64_t units[] = { 1000000000, 1000000, 1000, 1 };
    int kind = name == NULL ? DATE_TIME : kind_number(name);
    int errors_number = kind < 0 ? -1 : errors == NULL ? 0 : choice_of(errors, "errors", errors_words, 2);
    int unit_number = errors_number < 0 ? -1 : unit == NULL ? 0 : choice_of(unit, "unit", unit_words, 4);
    if (unit_number < 0) {
        return -1;
    }
    if (kind != DATE_TIME && kind != RFC3339 && kind != RFC9557) {
        PyErr_Format(PyExc_ValueError, "expected a kind of text that has an instant, which is date-time, rfc3339 or rfc9557, and found %R", name);
        return -1;
    }
    *out = (instants_choice){ kind, errors_number == 0, units[unit_number] };
    return 0;
}

/* Fills `values` and `flags`, and returns them as an Instants. Returns NULL with an exception if a text ends the call. */
static PyObject *filled_instants(module_state *state, column *texts, column_work *work, PyObject *values, PyObject *flags) {
    Py_buffer view = { 0 };
    if (PyObject_GetBuffer(values, &view, PyBUF_WRITABLE) < 0) {
        return NULL;
    }
    work->values = view.buf;
    int failed = run_texts(state, texts, work);
    PyBuffer_Release(&view);
    return failed ? NULL : NAMED(state->instants_type, Py_NewRef(values), flags_as_bool(Py_NewRef(flags)));
}

PyObject *instants(PyObject *module, PyObject *arguments, PyObject *keywords) {
    static char *names[] = { "", "kind", "errors", "unit", "offsets", NULL };
    module_state *state = state_of(module);
    PyObject *texts, *name = NULL, *errors = NULL, *unit = NULL, *offsets = Py_None;
    instants_choice choice;
    if (!PyArg_ParseTupleAndKeywords(arguments, keywords, "O|O$OOO:instants", names, &texts, &name, &errors, &unit, &offsets)
        || take_choice(name, errors, unit, &choice) < 0) {
        return NULL;
    }
    column all;
    column_work work = { &KINDS[choice.kind], KINDS[choice.kind].read, 0, choice.stops, choice.unit, (uint32_t)(1000000000 / choice.unit),
        INT64_MAX / choice.unit - 1, NULL, NULL };
    PyObject *values = NULL, *flags = NULL, *result = NULL;
    if (take_texts(texts, offsets, &all) == 0 && (values = new_values(state, all.count)) != NULL && (flags = new_flags(all.count, &work)) != NULL) {
        result = filled_instants(state, &all, &work, values, flags);
    }
    release_texts(&all);
    Py_XDECREF(values);
    Py_XDECREF(flags);
    return result;
}
