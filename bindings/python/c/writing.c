/* The JSON texts of Python's values. */
#include "glue.h"

enum {
  DEEPEST = 126, /* levels of a document */
  FIRST = 256    /* bytes of a buffer */
};

/* A text that grows. */
typedef struct buffer {
  char *bytes;
  size_t length, capacity;
} buffer;

/* How far a value was written. */
typedef enum written { DONE, NO_DOCUMENT, FAILED } written;

static written push(buffer *out, const char *bytes, size_t length) {
  if (out->capacity - out->length < length) {
    size_t capacity = out->capacity * 2 + length;
    char *longer = PyMem_Realloc(out->bytes, capacity);
    if (!longer) {
      PyErr_NoMemory();
      return FAILED;
    }
    out->bytes = longer;
    out->capacity = capacity;
  }
  memcpy(out->bytes + out->length, bytes, length);
  out->length += length;
  return DONE;
}

/* An error of a value becomes its answer: it is not a document. All others, as those of a class of the caller, stay errors. */
static written refused(void) {
  if (!PyErr_ExceptionMatches(PyExc_UnicodeEncodeError) && !PyErr_ExceptionMatches(PyExc_OverflowError)) return FAILED;
  PyErr_Clear();
  return NO_DOCUMENT;
}

static written push_string(buffer *out, PyObject *value) {
  static const char hexadecimal[] = "0123456789abcdef";
  Py_ssize_t length = 0;
  const char *text = PyUnicode_AsUTF8AndSize(value, &length);
  if (!text) return refused();
  const char *end = text + length, *from = text;
  written status = push(out, "\"", 1);
  for (const char *at = text; at < end && status == DONE; at += 1) {
    unsigned char byte = (unsigned char)*at;
    if (byte >= ' ' && byte != '"' && byte != '\\') continue;
    const char escape[] = {'\\', 'u', '0', '0', hexadecimal[byte >> 4], hexadecimal[byte & 15]};
    status = push(out, from, (size_t)(at - from));
    if (status == DONE) status = push(out, escape, sizeof escape);
    from = at + 1;
  }
  if (status == DONE) status = push(out, from, (size_t)(end - from));
  return status == DONE ? push(out, "\"", 1) : status;
}

static written push_whole(buffer *out, PyObject *value) {
  char digits[24];
  int overflow = 0;
  long long number = PyLong_AsLongLongAndOverflow(value, &overflow);
  if (overflow < 0) return NO_DOCUMENT;
  int length = snprintf(digits, sizeof digits, "%lld", number);
  if (overflow > 0) {
    unsigned long long large = PyLong_AsUnsignedLongLong(value);
    if (PyErr_Occurred()) return refused();
    length = snprintf(digits, sizeof digits, "%llu", large);
  }
  return push(out, digits, (size_t)length);
}

static written push_value(buffer *out, PyObject *value, int level);

static written push_member(buffer *out, PyObject *name, PyObject *value, int level) {
  if (!PyUnicode_Check(name)) return NO_DOCUMENT;
  written status = out->bytes[out->length - 1] == '{' ? DONE : push(out, ",", 1);
  if (status == DONE) status = push_string(out, name);
  if (status == DONE) status = push(out, ":", 1);
  return status == DONE ? push_value(out, value, level) : status;
}

/* Of a class that is derived from dict its own items() count, as for json. */
static written push_items(buffer *out, PyObject *value, int level) {
  PyObject *items = PyMapping_Items(value);
  written status = items ? DONE : FAILED;
  for (Py_ssize_t number = 0; status == DONE && number < PyList_Size(items); number += 1) {
    PyObject *item = PyList_GetItem(items, number);
    status = PyTuple_Check(item) && PyTuple_Size(item) == 2
                 ? push_member(out, PyTuple_GetItem(item, 0), PyTuple_GetItem(item, 1), level)
                 : NO_DOCUMENT;
  }
  Py_XDECREF(items);
  return status;
}

static written push_object(buffer *out, PyObject *value, int level) {
  PyObject *name = NULL, *part = NULL;
  Py_ssize_t place = 0;
  written status = push(out, "{", 1);
  if (status == DONE && !PyDict_CheckExact(value)) {
    status = push_items(out, value, level);
  } else {
    while (status == DONE && PyDict_Next(value, &place, &name, &part)) {
      Py_INCREF(name);
      Py_INCREF(part);
      status = push_member(out, name, part, level);
      Py_DECREF(part);
      Py_DECREF(name);
    }
  }
  return status == DONE ? push(out, "}", 1) : status;
}

static written push_array(buffer *out, PyObject *value, int level) {
  int is_list = PyList_Check(value);
  written status = push(out, "[", 1);
  for (Py_ssize_t number = 0; status == DONE && number < (is_list ? PyList_Size(value) : PyTuple_Size(value)); number += 1) {
    PyObject *part = Py_NewRef(is_list ? PyList_GetItem(value, number) : PyTuple_GetItem(value, number));
    if (number) status = push(out, ",", 1);
    if (status == DONE) status = push_value(out, part, level);
    Py_DECREF(part);
  }
  return status == DONE ? push(out, "]", 1) : status;
}

static written push_value(buffer *out, PyObject *value, int level) {
  if (value == Py_None) return push(out, "null", 4);
  if (value == Py_True) return push(out, "true", 4);
  if (value == Py_False) return push(out, "false", 5);
  if (PyUnicode_Check(value)) return push_string(out, value);
  if (PyLong_Check(value)) return push_whole(out, value);
  if (level == DEEPEST) return NO_DOCUMENT;
  if (PyDict_Check(value)) return push_object(out, value, level + 1);
  if (PyList_Check(value) || PyTuple_Check(value)) return push_array(out, value, level + 1);
  return NO_DOCUMENT;
}

PyObject *written_of(PyObject *module, PyObject *value) {
  (void)module;
  buffer out = {PyMem_Malloc(FIRST), 0, FIRST};
  if (!out.bytes) return PyErr_NoMemory();
  written status = push_value(&out, value, 0);
  PyObject *text = NULL;
  if (status == DONE) text = PyBytes_FromStringAndSize(out.bytes, (Py_ssize_t)out.length);
  if (status == NO_DOCUMENT) text = Py_NewRef(Py_None);
  PyMem_Free(out.bytes);
  return text;
}
