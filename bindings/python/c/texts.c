/* Texts that calls borrow, and the answers of calls. */
#include "glue.h"

/* The bytes of one text. If they are those of a new object, that is added to the list of what is kept. */
static int text_of(PyObject *given, PyObject *kept, mergejoin_text *text) {
  PyObject *made = NULL;
  const char *bytes = NULL;
  char *own = NULL;
  Py_ssize_t length = 0;
  if (PyUnicode_Check(given)) {
    bytes = PyUnicode_AsUTF8AndSize(given, &length);
    if (bytes) {
      *text = mergejoin_text_of(bytes, (size_t)length);
      return 0;
    }
    if (!PyErr_ExceptionMatches(PyExc_UnicodeEncodeError)) return -1;
    PyErr_Clear();
    made = PyUnicode_AsEncodedString(given, "utf-8", "surrogatepass");
  } else if (PyBytes_Check(given)) {
    made = Py_NewRef(given);
  } else if (PyByteArray_Check(given) || PyObject_TypeCheck(given, &PyMemoryView_Type)) {
    made = PyBytes_FromObject(given);
  } else {
    PyErr_Format(PyExc_TypeError, "a text is a str or bytes, not %R", (PyObject *)Py_TYPE(given));
  }
  if (!made) return -1;
  int status = PyBytes_AsStringAndSize(made, &own, &length);
  if (!status && made != given) status = PyList_Append(kept, made);
  Py_DECREF(made);
  if (!status) *text = mergejoin_text_of(own, (size_t)length);
  return status;
}

/* The objects, each of which is kept, and the list of those that are made of them. */
static int take_objects(PyObject *objects, texts *taken) {
  Py_ssize_t count = objects ? PyTuple_Size(objects) : -1;
  *taken = (texts){NULL, NULL, 0};
  if (count < 0) return -1;
  PyObject *made = PyList_New(0);
  taken->kept = made ? PyTuple_Pack(2, objects, made) : NULL;
  Py_XDECREF(made);
  taken->at = PyMem_Malloc(sizeof *taken->at * (size_t)(count ? count : 1));
  if (!taken->at) PyErr_NoMemory();
  if (!taken->kept || !taken->at) goto failed;
  for (Py_ssize_t number = 0; number < count; number += 1) {
    if (text_of(PyTuple_GetItem(objects, number), made, &taken->at[number])) goto failed;
  }
  taken->count = (size_t)count;
  Py_DECREF(objects);
  return 0;
failed:
  Py_DECREF(objects);
  texts_drop(taken);
  return -1;
}

int texts_of_one(PyObject *given, texts *taken) { return take_objects(PyTuple_Pack(1, given), taken); }

PyObject *all_of(PyObject *given, const char *what) {
  if (PyList_Check(given) || PyTuple_Check(given) || PyIter_Check(given)) return PySequence_Tuple(given);
  PyObject *errors = PyImport_ImportModule("mergejoin._errors");
  PyObject *taken = errors ? PyObject_CallMethod(errors, "ordered", "Os", given, what) : NULL;
  Py_XDECREF(errors);
  PyObject *all = taken ? PySequence_Tuple(taken) : NULL;
  Py_XDECREF(taken);
  return all;
}

int texts_of_all(PyObject *given, texts *taken) { return take_objects(all_of(given, "texts"), taken); }

void texts_drop(texts *taken) {
  Py_CLEAR(taken->kept);
  PyMem_Free(taken->at);
  taken->at = NULL;
}

/* Raises what the package makes of a reply without a result: of its line, and of the array of places at the end of its text. */
static PyObject *raised(const char *text, const mergejoin_reply *reply) {
  PyObject *errors = PyImport_ImportModule("mergejoin._errors"), *error = NULL;
  size_t line = reply->length - reply->places;
  if (errors) {
    error = PyObject_CallMethod(errors, "error_of", "Innns#s#O", (unsigned)reply->status, (Py_ssize_t)reply->first, (Py_ssize_t)reply->second,
                                (Py_ssize_t)reply->total, text, (Py_ssize_t)line, text + line, (Py_ssize_t)reply->places,
                                reply->flags & MERGEJOIN_MORE ? Py_True : Py_False);
  }
  if (error) PyErr_SetObject((PyObject *)Py_TYPE(error), error);
  Py_XDECREF(error);
  Py_XDECREF(errors);
  return NULL;
}

PyObject *answer_of(char *text, const mergejoin_reply *reply) {
  PyObject *answer = NULL;
  if (!text || reply->status == MERGEJOIN_NO_MEMORY) {
    if (!PyErr_Occurred()) PyErr_NoMemory();
  } else if (reply->status == MERGEJOIN_RESULT) {
    answer = PyUnicode_DecodeUTF8(text, (Py_ssize_t)reply->length, "strict");
  } else {
    answer = raised(text, reply);
  }
  free(text);
  return answer;
}
