/* The arguments of calls. */
#include "glue.h"

/* A number of 64 bits, of an int or of what has __index__. */
static int number_of(PyObject *given, uint64_t *number) {
  PyObject *taken = PyNumber_Index(given);
  *number = taken ? PyLong_AsUnsignedLongLong(taken) : 0;
  Py_XDECREF(taken);
  return PyErr_Occurred() ? -1 : 0;
}

static int limit_of(PyObject *given, size_t *limit) {
  if (given == Py_None) return 0;
  PyObject *taken = PyNumber_Index(given);
  *limit = taken ? PyLong_AsSize_t(taken) : 0;
  Py_XDECREF(taken);
  return PyErr_Occurred() ? -1 : 0;
}

/* Each identity is a pair of numbers. */
static int identities_of(PyObject *given, mergejoin_identity **chosen, size_t *count) {
  PyObject *all = all_of(given, "identities");
  Py_ssize_t length = all ? PyTuple_Size(all) : 0;
  *chosen = all ? PyMem_Malloc(sizeof **chosen * (size_t)(length ? length : 1)) : NULL;
  if (all && !*chosen) PyErr_NoMemory();
  for (Py_ssize_t number = 0; *chosen && !PyErr_Occurred() && number < length; number += 1) {
    PyObject *pair = PyTuple_GetItem(all, number);
    if (!PyTuple_Check(pair) || PyTuple_Size(pair) != 2) {
      PyErr_SetString(PyExc_TypeError, "an identity is a tuple of a sender and a number");
    } else if (!number_of(PyTuple_GetItem(pair, 0), &(*chosen)[number].sender)) {
      number_of(PyTuple_GetItem(pair, 1), &(*chosen)[number].number);
    }
  }
  Py_XDECREF(all);
  *count = (size_t)length;
  return PyErr_Occurred() ? -1 : 0;
}

static int take_one(given *it, PyObject *argument, char kind) {
  switch (kind) {
    case 't': return texts_of_one(argument, it->text++);
    case 'a': return texts_of_all(argument, it->text++);
    case 'n': return number_of(argument, it->number++);
    case 'i': return identities_of(argument, &it->chosen, &it->count);
    case 'l': return limit_of(argument, &it->limit);
    default: it->other = argument; return 0;
  }
}

int take(given *it, PyObject *const *arguments, Py_ssize_t count, const char *kinds) {
  Py_ssize_t wanted = (Py_ssize_t)strlen(kinds);
  *it = (given){.limit = SIZE_MAX};
  it->text = it->texts;
  it->number = it->numbers;
  if (count != wanted) PyErr_Format(PyExc_TypeError, "%zd arguments in the place of %zd", count, wanted);
  for (Py_ssize_t number = 0; number < wanted && !PyErr_Occurred(); number += 1) take_one(it, arguments[number], kinds[number]);
  if (!PyErr_Occurred()) return 0;
  drop(it);
  return -1;
}

void drop(given *it) {
  texts_drop(&it->texts[0]);
  texts_drop(&it->texts[1]);
  PyMem_Free(it->chosen);
}
