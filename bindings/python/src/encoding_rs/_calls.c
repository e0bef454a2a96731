/* encoding_rs._calls: decoders and encoders for Python, over the exports of crates/encoding_c.
 *
 * The exports are proved, and this file is not. Text is UTF-16 between them and Python: that is how
 * most strings beyond ASCII lie in memory. */
#define PY_SSIZE_T_CLEAN
#include <Python.h>

#include "encoding_c.h"

/* Units of text that a call first has room for. A call that fills its room gets four times as much.
 */
enum { FIRST_ROOM = 4096, FACTOR = 4 };

typedef struct {
    PyObject_HEAD uint64_t room[2];
} Decoder;

typedef struct {
    PyObject_HEAD uint64_t room[8];
} Encoder;

/* Some place for a slice without units. */
static uint64_t nowhere;

/* -- Decoder(number, marks): marks are 0 for all, 1 for that of its own encoding, 2 for none -- */

static PyObject *decoder_new(PyTypeObject *type, PyObject *args, PyObject *Py_UNUSED(words)) {
    static bool (*const put[])(encoding_c_at *, uint32_t) = {
        encoding_c_new_decoder,
        encoding_c_new_decoder_with_bom_removal,
        encoding_c_new_decoder_without_bom_handling,
    };
    unsigned number, marks;
    if (!PyArg_ParseTuple(args, "II", &number, &marks)) {
        return NULL;
    }
    Decoder *self = (Decoder *)type->tp_alloc(type, 0);
    encoding_c_at at = {self ? self->room : NULL};
    if (self && (marks > 2 || !put[marks](&at, number))) {
        Py_DECREF(self);
        PyErr_SetString(PyExc_LookupError, "no encoding and byte order marks of these numbers");
        return NULL;
    }
    return (PyObject *)self;
}

/* Room for units of text, which grows. */
typedef struct {
    uint16_t *units;
    size_t len, capacity;
} Text;

/* Makes the room larger, or sets an error. */
static bool grow(Text *text) {
    size_t capacity = text->capacity ? text->capacity * FACTOR : FIRST_ROOM;
    uint16_t *units = PyMem_Realloc(text->units, capacity * sizeof *units);
    if (!units) {
        PyErr_NoMemory();
        return false;
    }
    text->units = units;
    text->capacity = capacity;
    return true;
}

/* Decodes until all bytes are read, or a sequence is malformed. Returns whether there was memory.
 */
static bool decode_on(Decoder *self, const uint8_t *bytes, size_t len, bool last, bool replaces,
                      Text *text, encoding_c_outcome *end) {
    encoding_c_at at = {self->room};
    size_t read = 0;
    for (;;) {
        if (text->len + 2 > text->capacity && !grow(text)) {
            return false;
        }
        encoding_c_outcome it = (replaces ? encoding_c_decode_to_utf16
                                          : encoding_c_decode_to_utf16_without_replacement)(
            &at, bytes + read, len - read, text->units + text->len, text->capacity - text->len,
            last);
        read += it.read;
        text->len += it.written;
        if (it.stop != ENCODING_C_OUTPUT_FULL) {
            *end = it;
            end->read = read;
            return true;
        }
        if (!grow(text)) {
            return false;
        }
    }
}

/* decode(data, start, last, replaces): the text of the bytes from `start` on, up to a malformed
 * sequence if it doesn't replace them; the place in the bytes after what is read; the length of the
 * sequence, or 0; and the number of bytes read after it. */
static PyObject *decoder_decode(Decoder *self, PyObject *args) {
    Py_buffer data;
    Py_ssize_t start;
    int last, replaces;
    if (!PyArg_ParseTuple(args, "y*npp", &data, &start, &last, &replaces)) {
        return NULL;
    }
    PyObject *result = NULL;
    Text text = {0};
    encoding_c_outcome end;
    if (start < 0 || start > data.len) {
        PyErr_SetString(PyExc_IndexError, "the start is not in the bytes");
    } else {
        size_t len = (size_t)(data.len - start);
        const uint8_t *bytes = len ? (const uint8_t *)data.buf + start : (const uint8_t *)&nowhere;
        if (decode_on(self, bytes, len, last, replaces, &text, &end)) {
            int order = PY_LITTLE_ENDIAN ? -1 : 1;
            PyObject *str = PyUnicode_DecodeUTF16((const char *)text.units,
                                                  (Py_ssize_t)(2 * text.len), NULL, &order);
            if (end.stop == ENCODING_C_FINISHED) {
                PyErr_SetString(PyExc_ValueError, "the decoder is finished");
                Py_CLEAR(str);
            }
            if (str) {
                result = Py_BuildValue("Nnii", str, start + (Py_ssize_t)end.read,
                                       (int)(end.report >> 8), (int)(end.report & 0xFF));
            }
        }
    }
    PyMem_Free(text.units);
    PyBuffer_Release(&data);
    return result;
}

static PyObject *decoder_encoding(Decoder *self, void *Py_UNUSED(closure)) {
    encoding_c_at at = {self->room};
    return PyLong_FromUnsignedLong(encoding_c_decoder_encoding(&at));
}

static PyObject *decoder_copy(Decoder *self, PyObject *Py_UNUSED(none)) {
    Decoder *copy = (Decoder *)Py_TYPE(self)->tp_alloc(Py_TYPE(self), 0);
    if (copy) {
        memcpy(copy->room, self->room, sizeof self->room);
    }
    return (PyObject *)copy;
}

/* The bytes of a decoder, which are the same for the same state. */
static PyObject *decoder_state(Decoder *self, void *Py_UNUSED(closure)) {
    return PyBytes_FromStringAndSize((const char *)self->room, sizeof self->room);
}

static PyMethodDef decoder_methods[] = {
    {"decode", (PyCFunction)decoder_decode, METH_VARARGS,
     "Decodes bytes up to a malformed sequence."},
    {"copy", (PyCFunction)decoder_copy, METH_NOARGS, "Returns a decoder that goes on by itself."},
    {0},
};

static PyGetSetDef decoder_members[] = {
    {"encoding", (getter)decoder_encoding, NULL, "The number of the encoding.", NULL},
    {"state", (getter)decoder_state, NULL, "What tells whether two decoders are in one state.",
     NULL},
    {0},
};

static PyTypeObject decoder_type = {
    PyVarObject_HEAD_INIT(NULL, 0).tp_name = "encoding_rs._calls.Decoder",
    .tp_basicsize = sizeof(Decoder),
    .tp_flags = Py_TPFLAGS_DEFAULT,
    .tp_doc = "Converts bytes into text, in chunks.",
    .tp_new = decoder_new,
    .tp_methods = decoder_methods,
    .tp_getset = decoder_members,
};

/* -- Encoder(number) -- */

static PyObject *encoder_new(PyTypeObject *type, PyObject *args, PyObject *Py_UNUSED(words)) {
    unsigned number;
    if (!PyArg_ParseTuple(args, "I", &number)) {
        return NULL;
    }
    Encoder *self = (Encoder *)type->tp_alloc(type, 0);
    encoding_c_at at = {self ? self->room : NULL};
    if (self && !encoding_c_new_encoder(&at, number)) {
        Py_DECREF(self);
        PyErr_SetString(PyExc_LookupError, "no encoding of this number");
        return NULL;
    }
    return (PyObject *)self;
}

/* The characters of a string from one on, up to a surrogate, as UTF-16: `*end` is the place of that
 * or of the end. NULL and an error where memory is refused. */
static uint16_t *units_of(PyObject *string, Py_ssize_t start, Py_ssize_t *end, size_t *len) {
    Py_ssize_t length = PyUnicode_GET_LENGTH(string);
    int kind = PyUnicode_KIND(string);
    const void *data = PyUnicode_DATA(string);
    size_t width = kind == PyUnicode_4BYTE_KIND ? 2 : 1;
    uint16_t *units = PyMem_Malloc((width * (size_t)(length - start) + 1) * sizeof *units);
    if (!units) {
        return (uint16_t *)PyErr_NoMemory();
    }
    size_t count = 0;
    Py_ssize_t at = start;
    for (; at < length; at++) {
        Py_UCS4 c = PyUnicode_READ(kind, data, at);
        if (Py_UNICODE_IS_SURROGATE(c)) {
            break;
        }
        if (c > 0xFFFF) {
            units[count++] = Py_UNICODE_HIGH_SURROGATE(c);
            units[count++] = Py_UNICODE_LOW_SURROGATE(c);
        } else {
            units[count++] = (uint16_t)c;
        }
    }
    *end = at;
    *len = count;
    return units;
}

/* The number of characters of some units that end where one ends. */
static Py_ssize_t characters_of(const uint16_t *units, size_t len) {
    Py_ssize_t count = 0;
    for (size_t i = 0; i < len; i++) {
        count += !Py_UNICODE_IS_LOW_SURROGATE(units[i]);
    }
    return count;
}

/* encode(text, start, last): the bytes of the characters from `start` on, up to one that is
 * unmappable or a surrogate; the place after what is read; and that character, or -1. */
static PyObject *encoder_encode(Encoder *self, PyObject *args) {
    PyObject *string;
    Py_ssize_t start, end;
    int last;
    if (!PyArg_ParseTuple(args, "Unp", &string, &start, &last)) {
        return NULL;
    }
    if (start < 0 || start > PyUnicode_GET_LENGTH(string)) {
        PyErr_SetString(PyExc_IndexError, "the start is not in the text");
        return NULL;
    }
    size_t len, read = 0, written = 0;
    uint16_t *units = units_of(string, start, &end, &len);
    if (!units) {
        return NULL;
    }
    bool is_all = end == PyUnicode_GET_LENGTH(string);
    encoding_c_at at = {self->room};
    size_t room = encoding_c_max_buffer_length_from_utf16_without_replacement(&at, len);
    PyObject *bytes = room <= PY_SSIZE_T_MAX ? PyBytes_FromStringAndSize(NULL, (Py_ssize_t)room)
                                             : PyErr_NoMemory();
    encoding_c_outcome it = {.stop = ENCODING_C_INPUT_EMPTY};
    if (bytes) {
        uint8_t *to = room ? (uint8_t *)PyBytes_AS_STRING(bytes) : (uint8_t *)&nowhere;
        it = encoding_c_encode_from_utf16_without_replacement(&at, units, len, to, room,
                                                              last && is_all);
        read = it.read;
        written = it.written;
    }
    Py_ssize_t place = start + characters_of(units, read);
    long character = -1;
    if (it.stop == ENCODING_C_REPORTED) {
        character = (long)it.report;
    } else if (!is_all) {
        character = (long)PyUnicode_READ_CHAR(string, end);
        place = end + 1;
    }
    PyMem_Free(units);
    if (!bytes || _PyBytes_Resize(&bytes, (Py_ssize_t)written)) {
        return NULL;
    }
    return Py_BuildValue("Nnl", bytes, place, character);
}

static PyObject *encoder_pending(Encoder *self, void *Py_UNUSED(closure)) {
    encoding_c_at at = {self->room};
    return PyBool_FromLong(encoding_c_encoder_has_pending_state(&at));
}

static PyMethodDef encoder_methods[] = {
    {"encode", (PyCFunction)encoder_encode, METH_VARARGS,
     "Encodes text up to an unmappable character."},
    {0},
};

static PyGetSetDef encoder_members[] = {
    {"is_pending", (getter)encoder_pending, NULL, "Whether an escape sequence is due at the end.",
     NULL},
    {0},
};

static PyTypeObject encoder_type = {
    PyVarObject_HEAD_INIT(NULL, 0).tp_name = "encoding_rs._calls.Encoder",
    .tp_basicsize = sizeof(Encoder),
    .tp_flags = Py_TPFLAGS_DEFAULT,
    .tp_doc = "Converts text into bytes, in chunks.",
    .tp_new = encoder_new,
    .tp_methods = encoder_methods,
    .tp_getset = encoder_members,
};

/* -- The module -- */

static PyObject *for_label(PyObject *Py_UNUSED(module), PyObject *label) {
    char *bytes;
    Py_ssize_t len;
    if (PyBytes_AsStringAndSize(label, &bytes, &len)) {
        return NULL;
    }
    return PyLong_FromUnsignedLong(encoding_c_for_label((const uint8_t *)bytes, (size_t)len));
}

static PyObject *output_encoding(PyObject *Py_UNUSED(module), PyObject *number) {
    unsigned long value = PyLong_AsUnsignedLong(number);
    if (PyErr_Occurred()) {
        return NULL;
    }
    return PyLong_FromUnsignedLong(encoding_c_output_encoding((uint32_t)(value < 40 ? value : 40)));
}

static PyMethodDef functions[] = {
    {"for_label", for_label, METH_O,
     "Returns the number of the encoding that a label names, or 255."},
    {"output_encoding", output_encoding, METH_O,
     "Returns the number of the output encoding, or 255."},
    {0},
};

static struct PyModuleDef module = {
    PyModuleDef_HEAD_INIT,
    .m_name = "encoding_rs._calls",
    .m_size = -1,
    .m_methods = functions,
};

PyMODINIT_FUNC PyInit__calls(void) {
    PyObject *made = PyModule_Create(&module);
    if (!made || PyModule_AddType(made, &decoder_type) || PyModule_AddType(made, &encoder_type)) {
        Py_XDECREF(made);
        return NULL;
    }
    return made;
}
