/* What the files of the extension module share: what calls are given, and their answers. Each function that returns an object or an int sets
 * an error if it returns NULL or -1. */
#ifndef MERGEJOIN_PYTHON_GLUE_H
#define MERGEJOIN_PYTHON_GLUE_H

#define PY_SSIZE_T_CLEAN
#define Py_LIMITED_API 0x030A0000 /* of Python 3.10 and later */
#include <Python.h>

#include <mergejoin.h>

/* Texts, one after the other, and what keeps their bytes until they are dropped. */
typedef struct texts {
  PyObject *kept;
  mergejoin_text *at;
  size_t count;
} texts;

/* What a call is given, in the order of its arguments: each text, or several, the numbers, the identities, the other object, and the limit. */
typedef struct given {
  texts texts[2], *text;
  uint64_t numbers[3], *number;
  mergejoin_identity *chosen;
  size_t count;
  PyObject *other;
  size_t limit;
} given;

/* In a call: its text of that number, or its texts. */
#define TEXT_(number) it->texts[number].at->bytes, it->texts[number].at->length
#define ALL_(number) it->texts[number].at, it->texts[number].count

/* Takes the arguments of a call, which are as many as the characters that say of what kind they are: t a text, a all texts of an iterable, n a
 * number of 64 bits, i identities, o an object, and l a limit, of which None is none. */
int take(given *it, PyObject *const *arguments, Py_ssize_t count, const char *kinds);

void drop(given *it);

/* Takes a str, bytes, or by a copy a bytearray or a memoryview, as a text of UTF-8. Half of a surrogate pair becomes bytes that are
 * not UTF-8, so that the library refuses it. */
int texts_of_one(PyObject *given, texts *taken);

/* Takes each text of an iterable. */
int texts_of_all(PyObject *given, texts *taken);

void texts_drop(texts *taken);

/* Gives what an iterable has as a tuple. What the package's ordered() refuses sets its error, which has this word. */
PyObject *all_of(PyObject *given, const char *what);

/* The result of a call as a str, or the error that its reply reports. The text is freed. Without one memory ran out, unless an error is
 * set. */
PyObject *answer_of(char *text, const mergejoin_reply *reply);

/* Adds the types of what stays in memory to the module. */
int live_add_types(PyObject *module);

/* Gives the JSON text of a value as bytes, or None if the value is not a document by its types. */
PyObject *written_of(PyObject *module, PyObject *value);

#endif
