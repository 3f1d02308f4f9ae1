/* What stays in memory: the types Replica, Patches and PatchLog of the module. Each object has one handle of the library, and a lock, so
 * that threads take it one after the other. A thread gives up the interpreter's lock before it waits for that one.
 *
 * Of the threads a child has the one that forked. If another had the lock of an object, nobody gives it back there, and the handle may be
 * half changed. So the lock is looked at when the child first uses the object: if it is held, each use is an error. */
#include "glue.h"

#include <pthread.h>

enum {
  WORDS = 256,  /* bytes of a buffer for the line of an error and for the word for a message */
  PART = 4096,  /* for what is of a length that is not known */
  SPARE = 65536 /* in addition to what the text had before */
};

/* How many forks led to this process since the module was loaded. */
static unsigned forks;

static void count_fork(void) { forks += 1; }

/* An object with a handle. `forks` is how many there were when its lock was last looked at, and `is_lost` whether it was held by a thread
 * that is not in this process. `length` is how many bytes the text of its document, or of patches that of their join, had when it was last
 * read; `more` how many that of a replica's join or of a log's pairs had. `epoch` is the number of a log's start. */
typedef struct live {
  PyObject_HEAD
  PyThread_type_lock lock;
  unsigned forks;
  int is_lost;
  size_t length, more;
  uint64_t epoch;
  union {
    mergejoin_replica replica;
    mergejoin_patches patches;
    mergejoin_patch_log log;
  } it;
} live;

/* Whether the handle of an object is as a call left it. The interpreter's lock is held, so that no other thread of this process uses the
 * object for the first time. */
static int is_whole(live *self) {
  if (self->forks == forks) return !self->is_lost;
  self->forks = forks;
  self->is_lost = self->is_lost || !PyThread_acquire_lock(self->lock, NOWAIT_LOCK);
  if (!self->is_lost) PyThread_release_lock(self->lock);
  return !self->is_lost;
}

static int is_usable(live *self) {
  int is_it = is_whole(self);
  if (!is_it) PyErr_SetString(PyExc_RuntimeError, "another thread was in this object when the process forked");
  return is_it;
}

/* A call of the library on the handle of an object. If that is not usable, the error is set, and nothing is called. */
#define ALONE_(self, call)                          \
  if (is_usable(self)) {                            \
    Py_BEGIN_ALLOW_THREADS                          \
    PyThread_acquire_lock((self)->lock, WAIT_LOCK); \
    call;                                           \
    PyThread_release_lock((self)->lock);            \
    Py_END_ALLOW_THREADS                            \
  }

static PyObject *live_new(PyTypeObject *type, PyObject *arguments, PyObject *names) {
  allocfunc allocate = (allocfunc)PyType_GetSlot(type, Py_tp_alloc);
  live *self = (live *)allocate(type, 0);
  (void)arguments;
  (void)names;
  if (!self) return NULL;
  self->forks = forks;
  self->lock = PyThread_allocate_lock();
  if (self->lock) return (PyObject *)self;
  Py_DECREF(self);
  return PyErr_NoMemory();
}

/* Gives the memory of an object back, whose handle is freed. */
static void give_back(live *self) {
  PyTypeObject *type = Py_TYPE((PyObject *)self);
  freefunc release = (freefunc)PyType_GetSlot(type, Py_tp_free);
  if (self->lock) PyThread_free_lock(self->lock);
  release(self);
  Py_DECREF(type);
}

/* A call on the handle of an object. */
typedef mergejoin_reply calling(live *self, const given *it, uint8_t *out, size_t capacity);

/* The text of a call, in a buffer of so many bytes. If it is longer, the call is made again with a buffer for it: after a call that has
 * changed something it has a few bytes, which fit. */
static char *text_by(live *self, const given *it, calling *call, size_t capacity, mergejoin_reply *reply) {
  uint8_t *out = malloc(capacity);
  if (!out) out = malloc(capacity = WORDS); /* the text may be shorter */
  while (out) {
    *reply = call(self, it, out, capacity);
    if (reply->length <= capacity) break;
    free(out);
    out = malloc(capacity = reply->length);
  }
  return (char *)out;
}

/* A method of an object: the kinds of what it is given, the bytes of its first buffer, what makes its answer of the text, and its call. */
#define METHOD_(name, kinds, bytes, made_of, call)                                                                \
  static mergejoin_reply name##_call(live *self, const given *it, uint8_t *out, size_t capacity) { return call; } \
  static PyObject *name(live *self, PyObject *const *arguments, Py_ssize_t count) {                               \
    mergejoin_reply reply = {0};                                                                                  \
    given all, *it = &all;                                                                                        \
    char *text = NULL;                                                                                            \
    if (take(it, arguments, count, kinds)) return NULL;                                                           \
    ALONE_(self, text = text_by(self, it, name##_call, bytes, &reply));                                           \
    drop(it);                                                                                                     \
    return made_of(text, &reply);                                                                                 \
  }

#define INTO_ out, capacity, it->limit

/* What is said of a refused patch has its places twice, in the line and in the array after it. They are mostly no longer than the patch. */
#define TWICE_ (WORDS + 2 * it->texts[0].at->length)

/* Half as many bytes again as a text had when it was last read. What was received since is not counted: repeats change no text. */
static size_t after(size_t length, const given *it) {
  length += length / 2 + SPARE;
  return WORDS + (length < it->limit ? length : it->limit);
}

static mergejoin_reply kept(size_t *length, mergejoin_reply reply) {
  if (reply.status == MERGEJOIN_RESULT) *length = reply.length;
  return reply;
}

static mergejoin_reply begun(live *self, const given *it, mergejoin_reply reply) {
  if (reply.status != MERGEJOIN_RESULT) return reply;
  self->length = it->texts[0].at->length;
  self->more = 0;
  self->epoch = it->numbers[0];
  return reply;
}

/* Begins an object with what it is given, by one of its methods. */
static int begin(live *self, PyObject *arguments, PyObject *(*method)(live *, PyObject *const *, Py_ssize_t)) {
  PyObject *given[2] = {NULL, NULL};
  Py_ssize_t count = PyTuple_Size(arguments);
  for (Py_ssize_t number = 0; number < count && number < 2; number += 1) given[number] = PyTuple_GetItem(arguments, number);
  PyObject *answer = method(self, given, count);
  Py_XDECREF(answer);
  return answer ? 0 : -1;
}

/* Replica */

METHOD_(replica_start, "t", WORDS, answer_of, begun(self, it, mergejoin_replica_start(&self->it.replica, TEXT_(0), INTO_)))
METHOD_(replica_receive, "tl", TWICE_, answer_of, mergejoin_replica_receive(&self->it.replica, TEXT_(0), INTO_))
METHOD_(replica_document, "l", after(self->length, it), answer_of, kept(&self->length, mergejoin_replica_document(&self->it.replica, INTO_)))
METHOD_(replica_joined, "l", after(self->more, it), answer_of, kept(&self->more, mergejoin_replica_joined(&self->it.replica, INTO_)))
METHOD_(replica_get, "tl", PART, answer_of, mergejoin_replica_get(&self->it.replica, TEXT_(0), INTO_))

static int replica_init(live *self, PyObject *arguments, PyObject *names) { return (void)names, begin(self, arguments, replica_start); }

static void replica_dealloc(live *self) {
  if (is_whole(self)) mergejoin_replica_free(&self->it.replica);
  give_back(self);
}

/* Patches. That those which were taken conflict is no error, but of the call that asks for their join. So no call that takes patches wants
 * places, of which there may be very many. */

#define NO_PLACES 0
#define TAKEN_ out, capacity, NO_PLACES

static mergejoin_reply taken(mergejoin_reply reply) {
  return reply.status == MERGEJOIN_CONFLICT ? (mergejoin_reply){.status = MERGEJOIN_RESULT} : reply;
}

METHOD_(patches_add, "t", WORDS, answer_of, taken(mergejoin_patches_add(&self->it.patches, TEXT_(0), TAKEN_)))
METHOD_(patches_from_kept, "t", WORDS, answer_of, begun(self, it, taken(mergejoin_patches_from_kept(&self->it.patches, TEXT_(0), TAKEN_))))
METHOD_(patches_text, "l", after(self->length, it), answer_of, kept(&self->length, mergejoin_patches_text(&self->it.patches, INTO_)))
METHOD_(patches_kept, "l", after(self->length, it), answer_of, kept(&self->length, mergejoin_patches_kept(&self->it.patches, INTO_)))
METHOD_(patches_take_all, "o", WORDS, answer_of,
        taken(mergejoin_patches_combine(&self->it.patches, &((live *)it->other)->it.patches, TAKEN_)))

/* Takes all that another has, and leaves it without patches. The other is new, and no other thread has it. */
static PyObject *patches_combine(live *self, PyObject *const *arguments, Py_ssize_t count) {
  if (count == 1 && arguments[0] != (PyObject *)self && Py_TYPE(arguments[0]) == Py_TYPE((PyObject *)self)) {
    return patches_take_all(self, arguments, count);
  }
  PyErr_SetString(PyExc_TypeError, "another Patches is wanted");
  return NULL;
}

static void patches_dealloc(live *self) {
  if (is_whole(self)) mergejoin_patches_free(&self->it.patches);
  give_back(self);
}

/* PatchLog */

/* The text of pairs, and whether it has less than there is. */
static PyObject *pairs_of(char *text, const mergejoin_reply *reply) {
  PyObject *answer = answer_of(text, reply);
  return answer ? Py_BuildValue("Ni", answer, (reply->flags & MERGEJOIN_MORE) != 0) : NULL;
}

static mergejoin_reply decided(live *self, mergejoin_reply reply) {
  self->epoch += reply.status == MERGEJOIN_RESULT;
  return reply;
}

METHOD_(log_start, "nt", WORDS, answer_of, begun(self, it, mergejoin_patch_log_start(&self->it.log, it->numbers[0], TEXT_(0), INTO_)))
METHOD_(log_receive, "nnnt", WORDS, answer_of,
        mergejoin_patch_log_receive(&self->it.log, it->numbers[0], it->numbers[1], it->numbers[2], TEXT_(0), INTO_))
METHOD_(log_document, "l", after(self->length, it), answer_of, kept(&self->length, mergejoin_patch_log_document(&self->it.log, INTO_)))
METHOD_(log_conflicts, "l", after(self->more, it), pairs_of, kept(&self->more, mergejoin_patch_log_conflicts(&self->it.log, INTO_)))
METHOD_(log_conflicts_of, "nnl", PART, pairs_of,
        mergejoin_patch_log_conflicts_of(&self->it.log, it->numbers[0], it->numbers[1], INTO_))
METHOD_(log_count, "", WORDS, answer_of, mergejoin_patch_log_count(&self->it.log, INTO_))
METHOD_(log_decide, "il", PART, answer_of, decided(self, mergejoin_patch_log_decide(&self->it.log, it->chosen, it->count, INTO_)))

static int log_init(live *self, PyObject *arguments, PyObject *names) { return (void)names, begin(self, arguments, log_start); }

static void log_dealloc(live *self) {
  if (is_whole(self)) mergejoin_patch_log_free(&self->it.log);
  give_back(self);
}

static PyObject *log_epoch(live *self, PyObject *nothing) {
  uint64_t epoch = 0;
  (void)nothing;
  ALONE_(self, epoch = self->epoch);
  return PyErr_Occurred() ? NULL : PyLong_FromUnsignedLongLong(epoch);
}

/* The types. Each is used by a class of the package, which looks at the arguments. */

#define ENTRY_(name, function) {name, (PyCFunction)(void (*)(void))(function), METH_FASTCALL, NULL}

static PyMethodDef replica_methods[] = {
    ENTRY_("receive", replica_receive), ENTRY_("document", replica_document), ENTRY_("joined", replica_joined), ENTRY_("get", replica_get),
    {NULL, NULL, 0, NULL},
};

static PyMethodDef patches_methods[] = {
    ENTRY_("add", patches_add), ENTRY_("combine", patches_combine), ENTRY_("text", patches_text), ENTRY_("kept", patches_kept),
    ENTRY_("from_kept", patches_from_kept), {NULL, NULL, 0, NULL},
};

static PyMethodDef log_methods[] = {
    ENTRY_("receive", log_receive), ENTRY_("document", log_document), ENTRY_("conflicts", log_conflicts),
    ENTRY_("conflicts_of", log_conflicts_of), ENTRY_("count", log_count), ENTRY_("decide", log_decide),
    {"epoch", (PyCFunction)(void (*)(void))log_epoch, METH_NOARGS, NULL}, {NULL, NULL, 0, NULL},
};

static PyType_Slot replica_slots[] = {
    {Py_tp_new, (void *)live_new}, {Py_tp_init, (void *)replica_init}, {Py_tp_dealloc, (void *)replica_dealloc},
    {Py_tp_methods, replica_methods}, {0, NULL},
};

static PyType_Slot patches_slots[] = {
    {Py_tp_new, (void *)live_new}, {Py_tp_dealloc, (void *)patches_dealloc}, {Py_tp_methods, patches_methods}, {0, NULL},
};

static PyType_Slot log_slots[] = {
    {Py_tp_new, (void *)live_new}, {Py_tp_init, (void *)log_init}, {Py_tp_dealloc, (void *)log_dealloc},
    {Py_tp_methods, log_methods}, {0, NULL},
};

static PyType_Spec specs[] = {
    {"mergejoin._library.Replica", sizeof(live), 0, Py_TPFLAGS_DEFAULT, replica_slots},
    {"mergejoin._library.Patches", sizeof(live), 0, Py_TPFLAGS_DEFAULT, patches_slots},
    {"mergejoin._library.PatchLog", sizeof(live), 0, Py_TPFLAGS_DEFAULT, log_slots},
};

int live_add_types(PyObject *module) {
  if (pthread_atfork(NULL, NULL, count_fork)) {
    PyErr_NoMemory();
    return -1;
  }
  for (size_t number = 0; number < sizeof specs / sizeof *specs; number += 1) {
    PyObject *type = PyType_FromModuleAndSpec(module, &specs[number], NULL);
    int status = type ? PyModule_AddType(module, (PyTypeObject *)type) : -1;
    Py_XDECREF(type);
    if (status) return -1;
  }
  return 0;
}
