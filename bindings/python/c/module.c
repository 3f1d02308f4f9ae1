/* The module mergejoin._library: the six calls over texts, what stays in memory, and the texts of values. Its functions are called by the
 * Python of the package alone, with as many arguments as they have. */
#include "glue.h"

/* A function of the module: the kinds of what its call is given, and the call, which is made without the interpreter's lock. */
#define FUNCTION_(name, kinds, call)                                                       \
  static PyObject *name(PyObject *module, PyObject *const *arguments, Py_ssize_t count) { \
    mergejoin_reply reply;                                                                 \
    given all, *it = &all;                                                                 \
    char *text;                                                                            \
    (void)module;                                                                          \
    if (take(it, arguments, count, kinds)) return NULL;                                    \
    Py_BEGIN_ALLOW_THREADS text = call;                                                    \
    Py_END_ALLOW_THREADS drop(it);                                                         \
    return answer_of(text, &reply);                                                        \
  }

FUNCTION_(join, "al", mergejoin_join_new(ALL_(0), it->limit, &reply))
FUNCTION_(replay, "tal", mergejoin_replay_new(TEXT_(0), ALL_(1), it->limit, &reply))
FUNCTION_(merge, "tal", mergejoin_merge_new(TEXT_(0), ALL_(1), it->limit, &reply))
FUNCTION_(rewrite, "ttl", mergejoin_rewrite_new(TEXT_(0), TEXT_(1), it->limit, &reply))
FUNCTION_(patch, "ttl", mergejoin_patch_new(TEXT_(0), TEXT_(1), it->limit, &reply))
FUNCTION_(get, "ttl", mergejoin_get_new(TEXT_(0), TEXT_(1), it->limit, &reply))

#define ENTRY_(name) {#name, (PyCFunction)(void (*)(void))(name), METH_FASTCALL, NULL}

static PyMethodDef functions[] = {
    ENTRY_(join), ENTRY_(replay), ENTRY_(merge), ENTRY_(rewrite), ENTRY_(patch), ENTRY_(get),
    {"written", written_of, METH_O, NULL},
    {NULL, NULL, 0, NULL},
};

/* The statuses of the header, by their names. */
static int add_numbers(PyObject *module) {
#define NUMBER_(name) PyModule_AddIntConstant(module, #name, MERGEJOIN_##name)
  return NUMBER_(CONFLICT) || NUMBER_(NO_PATCHES) || NUMBER_(REFUSED) || NUMBER_(MISSING) || NUMBER_(DOCUMENT) || NUMBER_(PATCH) ||
         NUMBER_(FORM) || NUMBER_(POINTER) || NUMBER_(PENDING) || NUMBER_(TOO_LARGE)
             ? -1
             : PyModule_AddStringConstant(module, "VERSION", MERGEJOIN_VERSION_STRING);
}

static int execute(PyObject *module) { return live_add_types(module) || add_numbers(module) ? -1 : 0; }

static PyModuleDef_Slot slots[] = {{Py_mod_exec, (void *)execute}, {0, NULL}};

static struct PyModuleDef definition = {
    PyModuleDef_HEAD_INIT, .m_name = "mergejoin._library", .m_methods = functions, .m_slots = slots,
};

PyMODINIT_FUNC PyInit__library(void) { return PyModuleDef_Init(&definition); }
