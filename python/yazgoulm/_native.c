/* The calls of the library by Python's C API: handles and readers as those of _by_ctypes.py, at an eighth of the cost.
   Arguments that don't fit at once go to _arguments.py, which takes them or says why not; exceptions are made by
   _types.py. */
#define PY_SSIZE_T_CLEAN
#include <Python.h>
#include <dlfcn.h>
#include <errno.h>
#include <lq.h>
#include <lq_journal.h>
#include <stddef.h>
#include <structmember.h>
#include <unistd.h>

/* ---- what one import of the package has ---- */

/* drawn by tools/api */
#define CALLS(X) \
    X(version) X(status_name) X(volume_open_as) X(volume_close) X(fault_place) X(save) X(load_as) X(volume_copy) \
 X(fault_node) X(fault_reason) X(answer) X(text) X(create) X(remove) X(move) X(write) X(set_text) X(set_int32) \
 X(set_int64) X(set_uint32) X(set_uint64) X(unset) X(take) X(next) X(query_open) X(ready) X(on_ready) X(read) \
 X(read_many) X(hang_up) X(query_close) X(finish) X(drop) X(result) X(fetch) X(find) X(find_path) X(entry) X(attr_at) \
 X(attr_named) X(children) X(path) X(changes) X(push_attr) X(push_text) X(push_int32) X(push_int64) X(push_uint32) \
 X(push_uint64) X(push_op) X(clear_pushed) X(query_open_pushed) X(fetch_pushed) X(quote) X(bind_text) X(bind_int64) \
 X(bind_uint64) X(clear_bound) X(query_open_bound) X(fetch_bound) X(journal_open_as) X(journal_close) X(journal_turn) \
 X(journal_due) X(journal_sync) X(journal_hold)
/* end of what tools/api draws */

/* What is taken of _arguments.py and _types.py. */
#define ARGUMENTS(X) X(encode) X(encode_name) X(kind) X(natural) X(no_value) X(whole)
#define TYPES(X) \
    X(Applied) X(Attr) X(Attribute) X(Entry) X(Info) X(Mark) X(Message) X(Op) X(Opcode) X(CAUSES) X(TYPES) X(FILE) \
    X(FOLDER) X(refusal)

/* The calls of its library, and what it takes of its modules. A process may import the package more than once: into
   another interpreter, or again after its modules were taken out of sys.modules. Each import has classes of its own,
   and what came of an earlier one goes on with those. */
typedef struct {
    void *library;
#define X(name) __typeof__(&lq_##name) name;
    CALLS(X)
#undef X
#define X(name) PyObject *py_##name;
    ARGUMENTS(X)
    TYPES(X)
#undef X
    PyObject *opcodes[6], *causes[4], *types[5];
} Own;

/* The numbers of the types, as `types` has them. */
static const uint32_t type_codes[] = {LQ_TYPE_TEXT, LQ_TYPE_INT32, LQ_TYPE_INT64, LQ_TYPE_UINT32, LQ_TYPE_UINT64};

static void free_own(Own *own) {
#define X(name) Py_XDECREF(own->py_##name);
    ARGUMENTS(X)
    TYPES(X)
#undef X
    for (int number = 1; number < 6; number++) Py_XDECREF(own->opcodes[number]);
    for (int number = 1; number < 4; number++) Py_XDECREF(own->causes[number]);
    for (int at = 0; at < 5; at++) Py_XDECREF(own->types[at]);
    PyMem_Free(own);
}

/* The word of a number, in one of the dictionaries of _types.py. */
static PyObject *word(PyObject *words, uint32_t number) {
    PyObject *key = PyLong_FromUnsignedLong(number), *found = key ? PyObject_GetItem(words, key) : NULL;
    Py_XDECREF(key);
    return found;
}

/* Fills it. -1, with an exception: the path is not the library, or one of another version. */
static int fill_own(Own *own, const char *path, PyObject *arguments, PyObject *types) {
    void *opened = own->library = dlopen(path, RTLD_NOW | RTLD_LOCAL);
    if (!opened) {
        PyErr_Format(PyExc_ImportError, "%s is not the library: %s", path, dlerror());
        return -1;
    }
#define X(name) \
    *(void **)&own->name = dlsym(opened, "lq_" #name); \
    if (!own->name) { \
        PyErr_Format(PyExc_ImportError, "%s is not the library: it has no lq_" #name, path); \
        return -1; \
    }
    CALLS(X)
#undef X
    uint32_t version = own->version();
    if (version / 1000 != LQ_VERSION / 1000 || version < LQ_VERSION) {
        PyErr_Format(PyExc_ImportError, "%s has version %u, and this module is for %d", path, version, LQ_VERSION);
        return -1;
    }
#define X(name) \
    if (!(own->py_##name = PyObject_GetAttrString(arguments, #name))) return -1;
    ARGUMENTS(X)
#undef X
#define X(name) \
    if (!(own->py_##name = PyObject_GetAttrString(types, #name))) return -1;
    TYPES(X)
#undef X
    for (uint32_t number = 1; number < 6; number++)
        if (!(own->opcodes[number] = PyObject_CallFunction(own->py_Opcode, "I", number))) return -1;
    for (uint32_t number = 1; number < 4; number++)
        if (!(own->causes[number] = word(own->py_CAUSES, number))) return -1;
    for (int at = 0; at < 5; at++)
        if (!(own->types[at] = word(own->py_TYPES, type_codes[at]))) return -1;
    return 0;
}

/* ---- what is given ---- */

/* A tuple of a class of _types.py. It takes the items, one of which may be null, with an exception set. Where none of
   them can refer to it, the collector of cycles needn't look at it: a fetch may give millions. */
static PyObject *record(PyObject *class, bool is_flat, Py_ssize_t count, PyObject *const items[]) {
    PyTypeObject *type = (PyTypeObject *)class;
    bool is_whole = true;
#if PY_VERSION_HEX >= 0x030E0000
    PyObject *tuple = PyTuple_New(count);
#else
    PyObject *tuple = type->tp_alloc(type, count);
#endif
    for (Py_ssize_t at = 0; at < count; at++) {
        is_whole = is_whole && items[at];
        if (tuple) PyTuple_SET_ITEM(tuple, at, items[at]);
        else Py_XDECREF(items[at]);
    }
    if (!is_whole || !tuple) {
        Py_XDECREF(tuple);
        return NULL;
    }
#if PY_VERSION_HEX >= 0x030E0000 /* whose tuples keep their hash, so a class of tuples is filled by Python itself */
    PyObject *given = PyTuple_Pack(1, tuple);
    Py_DECREF(tuple);
    tuple = given ? PyTuple_Type.tp_new(type, given, NULL) : NULL;
    Py_XDECREF(given);
#endif
    if (is_flat && tuple) PyObject_GC_UnTrack(tuple);
    return tuple;
}

#define COUNT(...) (sizeof((PyObject *[]){__VA_ARGS__}) / sizeof(PyObject *))
#define RECORD(class, ...) record(class, class != own->py_Info, COUNT(__VA_ARGS__), (PyObject *[]){__VA_ARGS__})

static PyObject *same(PyObject *object) {
    Py_INCREF(object);
    return object;
}

static PyObject *natural(uint64_t number) {
    return PyLong_FromUnsignedLongLong(number);
}

static PyObject *text(const char *at, size_t size) {
    return PyUnicode_DecodeUTF8(at, (Py_ssize_t)size, NULL);
}

static PyObject *type(const Own *own, uint32_t number) {
    int at = 0;
    while (at < 4 && type_codes[at] != number) at++;
    return same(own->types[at]);
}

static PyObject *kind(const Own *own, uint32_t number) {
    return same(number == LQ_FOLDER ? own->py_FOLDER : own->py_FILE);
}

/* ---- what is taken ---- */

/* A number from 0 to 2^64 - 1. -1: it is none, with an exception that names the argument. */
static int take_natural(const Own *own, const char *argument, PyObject *given, uint64_t *out) {
    if (PyLong_CheckExact(given)) {
        *out = PyLong_AsUnsignedLongLong(given);
        if (*out != (uint64_t)-1 || !PyErr_Occurred()) return 0;
        PyErr_Clear();
    }
    PyObject *number = PyObject_CallFunction(own->py_natural, "sO", argument, given);
    if (!number) return -1;
    *out = PyLong_AsUnsignedLongLong(number);
    Py_DECREF(number);
    return *out == (uint64_t)-1 && PyErr_Occurred() ? -1 : 0;
}

/* A number from -2^63 to 2^63 - 1, in the same way. */
static int take_whole(const Own *own, const char *argument, PyObject *given, int64_t *out) {
    if (PyLong_CheckExact(given)) {
        *out = PyLong_AsLongLong(given);
        if (*out != -1 || !PyErr_Occurred()) return 0;
        PyErr_Clear();
    }
    PyObject *number = PyObject_CallFunction(own->py_whole, "sO", argument, given);
    if (!number) return -1;
    *out = PyLong_AsLongLong(number);
    Py_DECREF(number);
    return *out == -1 && PyErr_Occurred() ? -1 : 0;
}

/* The number of a kind, in the same way. */
static int take_kind(const Own *own, PyObject *given, uint32_t *out) {
    *out = given == own->py_FOLDER ? LQ_FOLDER : LQ_FILE;
    if (given == own->py_FOLDER || given == own->py_FILE) return 0;
    PyObject *number = PyObject_CallFunctionObjArgs(own->py_kind, given, NULL);
    if (!number) return -1;
    *out = (uint32_t)PyLong_AsUnsignedLong(number);
    Py_DECREF(number);
    return 0;
}

/* A text in UTF-8. It stands in the given object, or in `owner`, which leave_text frees. */
typedef struct text_given {
    const char *at;
    Py_ssize_t size;
    PyObject *owner;
} text_given;

/* A text, which `encode` takes where it is no UTF-8 or no str. -1: it doesn't, with an exception. */
static int take_text(PyObject *encode, const char *argument, PyObject *given, text_given *out) {
    out->owner = NULL;
    if (PyUnicode_Check(given)) {
        out->at = PyUnicode_AsUTF8AndSize(given, &out->size);
        if (out->at) return 0;
        PyErr_Clear();
    }
    out->owner = PyObject_CallFunction(encode, "sO", argument, given);
    char *at;
    if (!out->owner || PyBytes_AsStringAndSize(out->owner, &at, &out->size)) {
        Py_CLEAR(out->owner);
        return -1;
    }
    out->at = at;
    return 0;
}

static void leave_text(text_given *it) {
    Py_CLEAR(it->owner);
}

#define TEXT(it) (it).at, (size_t)(it).size

/* ---- handles ---- */

/* A handle, with the lock of its volume: a call takes it, and `locked` does for what takes several. The thread that
   has it, `depth` times, may take it again, from a finalizer say. All of it is read and written under the
   interpreter's lock, so it is free or taken by its fields alone. Who waits for it does so at a gate, which is shut but
   for the moment in which one thread passes. A call that takes long lets the interpreter's lock go, and keeps this. */
typedef struct {
    PyObject_HEAD
    lq handle;
    lq_journal journal; /* where the volume is kept */
    const Own *own; /* which the type owns */
    bool is_open;
    char is_unsure; /* whether a slot may be open that no query has: see Volume */
    uint64_t untold; /* the slot of the last opening, until a query has it; else 0 */
    unsigned long owner;
    int depth, waiting;
    PyThread_type_lock gate;
    bool is_gate_open;
} Handle;

/* Takes the lock. False: another thread has it, and this one may not wait. */
static bool enter_if(Handle *self, bool waits) {
    unsigned long me = PyThread_get_thread_ident();
    while (self->depth > 0 && self->owner != me) {
        if (!waits) return false;
        self->waiting++;
        Py_BEGIN_ALLOW_THREADS
        PyThread_acquire_lock(self->gate, WAIT_LOCK);
        Py_END_ALLOW_THREADS
        self->waiting--;
        self->is_gate_open = false;
    }
    self->owner = me;
    self->depth++;
    return true;
}

static void enter(Handle *self) {
    enter_if(self, true);
}

static void open_gate(Handle *self) {
    self->is_gate_open = true;
    PyThread_release_lock(self->gate);
}

static void leave(Handle *self) {
    if (--self->depth == 0 && self->waiting > 0 && !self->is_gate_open) open_gate(self);
}

/* What stands for a status where the call wasn't made: the volume is closed, or an exception is set. */
static const lq_status CLOSED = (lq_status)UINT32_MAX, RAISED = (lq_status)(UINT32_MAX - 1);

/* The status of a call that is made under the lock. One of a kept volume may wait for a disk. */
#define LOCKED(call) ({ \
        enter(self); \
        PyThreadState *state = self->journal.at ? PyEval_SaveThread() : NULL; \
        lq_status answered = self->is_open ? own->call : CLOSED; \
        if (state) PyEval_RestoreThread(state); \
        leave(self); \
        answered; \
    })

/* A call under the lock that may take long, so that other threads run meanwhile: it lets the interpreter's lock go. In
   a volume of few changes, which has fewer entries, no call takes long, and letting go would cost more. */
enum { FEW_CHANGES = 1000 };
#define LONG_CALL(call) ({ \
        bool is_long = self->journal.at || own->changes(&self->handle) > FEW_CHANGES; \
        PyThreadState *state = is_long ? PyEval_SaveThread() : NULL; \
        lq_status answered = own->call; \
        if (state) PyEval_RestoreThread(state); \
        answered; \
    })

/* Raises what a status says of a call, with what the caller gave. `place` is that of a fault in a query. `bound`, which
   it takes, is the formula with its values that the place is in, or null. */
static PyObject *refused_in(Handle *self, lq_status status, uint64_t place, PyObject *bound, const char *name,
                            PyObject *const *args, Py_ssize_t count) {
    const Own *own = self->own;
    if (status == RAISED) return NULL;
    if (status == CLOSED) return PyErr_SetString(PyExc_ValueError, "the volume is closed"), NULL;
    const char *word = own->status_name(status);
    PyObject *said = PyTuple_New(count);
    if (!said) {
        Py_XDECREF(bound);
        return NULL;
    }
    for (Py_ssize_t at = 0; at < count; at++) PyTuple_SET_ITEM(said, at, same(args[at]));
    PyObject *why = PyObject_CallFunction(own->py_refusal, bound ? "isKsNN" : "isKsN", (int)status, word ? word : "",
                                          (unsigned long long)place, name, said, bound);
    if (why) PyErr_SetObject((PyObject *)Py_TYPE(why), why);
    Py_XDECREF(why);
    return NULL;
}

static PyObject *refused_at(Handle *self, lq_status status, uint64_t place, const char *name, PyObject *const *args,
                            Py_ssize_t count) {
    return refused_in(self, status, place, NULL, name, args, count);
}

#define REFUSED(name) refused_at(self, status, 0, name, args, count)

/* The name in the type's dictionary of what owns its Own. */
static const char OWN[] = "_own";

static const Own *own_of(PyObject *type) {
    PyObject *owner = PyObject_GetAttrString(type, OWN);
    const Own *own = owner ? PyCapsule_GetPointer(owner, OWN) : NULL;
    Py_XDECREF(owner); /* the type has it */
    return own;
}

static PyObject *Handle_new(PyTypeObject *type, PyObject *Py_UNUSED(args), PyObject *Py_UNUSED(named)) {
    const Own *own = own_of((PyObject *)type);
    Handle *self = own ? (Handle *)type->tp_alloc(type, 0) : NULL;
    if (!self) return NULL;
    self->own = own;
    self->gate = PyThread_allocate_lock();
    if (!self->gate) {
        Py_DECREF(self);
        return PyErr_NoMemory();
    }
    PyThread_acquire_lock(self->gate, WAIT_LOCK);
    lq_status status = own->volume_open_as(&self->handle, LQ_VERSION);
    if (status != LQ_OK) {
        refused_at(self, status, 0, "Volume", NULL, 0);
        Py_DECREF(self);
        return NULL;
    }
    self->is_open = true;
    return (PyObject *)self;
}

/* LQ_UNKEPT: what wasn't on disk may not be there. */
static lq_status close_handle(Handle *self) {
    if (!self->is_open) return LQ_OK;
    lq_status status = LQ_OK;
    self->is_open = false;
    Py_BEGIN_ALLOW_THREADS
    if (self->journal.at) status = self->own->journal_close(&self->journal);
    self->own->volume_close(&self->handle); /* which the journal has closed, but after a fork */
    Py_END_ALLOW_THREADS
    return status;
}

static void Handle_dealloc(Handle *self) {
    PyTypeObject *type = Py_TYPE(self);
    close_handle(self);
    if (self->gate) {
        if (!self->is_gate_open) open_gate(self);
        PyThread_free_lock(self->gate);
    }
    type->tp_free((PyObject *)self);
    Py_DECREF(type);
}

static PyObject *Handle_free(Handle *self, PyObject *Py_UNUSED(none)) {
    enter(self);
    lq_status status = close_handle(self);
    leave(self);
    return PyLong_FromLong((long)status);
}

static PyObject *Handle_is_open(Handle *self, PyObject *Py_UNUSED(none)) {
    return PyBool_FromLong(self->is_open);
}

/* What a call gives, made under the lock. No handler of a signal can run between the call and what gives it back. */
static PyObject *Handle_locked(Handle *self, PyObject *const *args, Py_ssize_t count) {
    if (count < 1) return PyErr_SetString(PyExc_TypeError, "no call"), NULL;
    enter(self);
    PyObject *given = PyObject_Vectorcall(args[0], args + 1, (size_t)count - 1, NULL);
    leave(self);
    return given;
}

/* Makes a call under the lock, unless another thread has it, or this one has and it isn't to be made within. True: it
   was made. */
static PyObject *Handle_tried(Handle *self, PyObject *const *args, Py_ssize_t count) {
    if (count != 2) return PyErr_SetString(PyExc_TypeError, "no call and no word on calls within"), NULL;
    if ((self->depth > 0 && args[1] != Py_True) || !enter_if(self, false)) Py_RETURN_FALSE;
    PyObject *given = PyObject_CallNoArgs(args[0]);
    leave(self);
    if (!given) return NULL;
    Py_DECREF(given);
    Py_RETURN_TRUE;
}

/* In the child of a fork, where nobody waits: a thread of the parent may have passed the gate and not said so. */
static PyObject *Handle_forked(Handle *self, PyObject *Py_UNUSED(none)) {
    PyThread_acquire_lock(self->gate, NOWAIT_LOCK);
    self->waiting = 0;
    self->is_gate_open = false;
    Py_RETURN_NONE;
}

static PyObject *Handle_acquire(Handle *self, PyObject *const *args, Py_ssize_t count) {
    int waits = count > 0 ? PyObject_IsTrue(args[0]) : 1;
    return waits < 0 ? NULL : PyBool_FromLong(enter_if(self, waits));
}

static PyObject *Handle_release(Handle *self, PyObject *Py_UNUSED(none)) {
    if (self->depth == 0 || self->owner != PyThread_get_thread_ident())
        return PyErr_SetString(PyExc_RuntimeError, "this thread hasn't the lock"), NULL;
    leave(self);
    Py_RETURN_NONE;
}

static PyObject *Handle_is_mine(Handle *self, PyObject *Py_UNUSED(none)) {
    return PyBool_FromLong(self->depth > 0 && self->owner == PyThread_get_thread_ident());
}

/* A method. */
#define METHOD(name) static PyObject *Handle_##name(Handle *self, PyObject *const *args, Py_ssize_t count)
/* Begins one of `wanted` arguments. They are taken before the lock is, since what they are may call Python, and in
   their order: of two that are wrong the first is named. */
#define TAKES(wanted) \
    const Own *own = self->own; \
    if (count != (wanted)) return PyErr_Format(PyExc_TypeError, "%zd arguments, not %d", count, wanted); \
    if (!self->is_open) return refused_at(self, CLOSED, 0, "", args, 0)

static PyObject *applied(const Own *own, const lq_applied *it) {
    return RECORD(own->py_Applied, natural(it->change), natural(it->node));
}

/* ---- changes ---- */

METHOD(create) {
    TAKES(5);
    uint64_t dir, size;
    int64_t time;
    uint32_t what;
    text_given name;
    lq_applied out;
    if (take_text(own->py_encode_name, "name", args[0], &name)) return NULL;
    if (take_natural(own, "dir", args[1], &dir) || take_kind(own, args[2], &what) ||
        take_natural(own, "size", args[3], &size) || take_whole(own, "time", args[4], &time))
        return leave_text(&name), NULL;
    lq_status status = LOCKED(create(&self->handle, dir, TEXT(name), what, size, time, &out));
    leave_text(&name);
    return status == LQ_OK ? applied(own, &out) : REFUSED("create");
}

METHOD(remove) {
    TAKES(1);
    uint64_t node;
    lq_applied out;
    if (take_natural(own, "node", args[0], &node)) return NULL;
    lq_status status = LOCKED(remove(&self->handle, node, &out));
    return status == LQ_OK ? applied(own, &out) : REFUSED("remove");
}

METHOD(move) {
    TAKES(4);
    uint64_t node, dir;
    text_given name;
    lq_applied out;
    if (take_natural(own, "node", args[0], &node) || take_natural(own, "dir", args[1], &dir) ||
        take_text(own->py_encode_name, "name", args[2], &name))
        return NULL;
    int clobber = PyObject_IsTrue(args[3]);
    if (clobber < 0) return leave_text(&name), NULL;
    lq_status status = LOCKED(move(&self->handle, node, dir, TEXT(name), clobber, &out));
    leave_text(&name);
    return status == LQ_OK ? applied(own, &out) : REFUSED("move");
}

METHOD(write) {
    TAKES(3);
    uint64_t node, size;
    int64_t time;
    lq_applied out;
    if (take_natural(own, "node", args[0], &node) || take_natural(own, "size", args[1], &size) ||
        take_whole(own, "time", args[2], &time))
        return NULL;
    lq_status status = LOCKED(write(&self->handle, node, size, time, &out));
    return status == LQ_OK ? applied(own, &out) : REFUSED("write");
}

/* Has _arguments.py say why a value and its type aren't those of an attribute. */
static lq_status no_value(const Own *own, PyObject *value, PyObject *type) {
    Py_XDECREF(PyObject_CallFunctionObjArgs(own->py_no_value, value, type, NULL));
    return RAISED;
}

/* Sets a number of the type that `type` names. RAISED: it names none, or the number doesn't fit. */
static lq_status set_number(Handle *self, uint64_t node, const text_given *attr, PyObject *value, PyObject *type,
                            lq_applied *out) {
    const Own *own = self->own;
    const char *named = type == Py_None ? "LLNG" : PyUnicode_Check(type) ? PyUnicode_AsUTF8(type) : "";
    if (!named) PyErr_Clear(); /* a text with surrogates names none */
    bool is_signed = named && (!strcmp(named, "LONG") || !strcmp(named, "LLNG"));
    bool is_short = named && (!strcmp(named, "LONG") || !strcmp(named, "ULNG"));
    bool is_type = is_signed || is_short || (named && !strcmp(named, "ULLG"));
    if (!is_type || !PyIndex_Check(value)) return no_value(own, value, type);
    PyObject *number;
    if (is_signed && is_short)
        number = PyObject_CallFunction(own->py_whole, "sOLL", "value", value, (long long)INT32_MIN,
                                       (long long)INT32_MAX);
    else if (is_signed) number = PyObject_CallFunction(own->py_whole, "sO", "value", value);
    else number = PyObject_CallFunction(own->py_natural, "sOi", "value", value, is_short ? 32 : 64);
    if (!number) return RAISED;
    int64_t whole = is_signed ? PyLong_AsLongLong(number) : 0;
    uint64_t free_of_sign = is_signed ? 0 : PyLong_AsUnsignedLongLong(number);
    Py_DECREF(number);
    lq *handle = &self->handle;
    if (is_signed && is_short) return LOCKED(set_int32(handle, node, TEXT(*attr), (int32_t)whole, out));
    if (is_signed) return LOCKED(set_int64(handle, node, TEXT(*attr), whole, out));
    if (is_short) return LOCKED(set_uint32(handle, node, TEXT(*attr), (uint32_t)free_of_sign, out));
    return LOCKED(set_uint64(handle, node, TEXT(*attr), free_of_sign, out));
}

/* Sets a text. RAISED: the type is another, or it is no text for the library. */
static lq_status set_text(Handle *self, uint64_t node, const text_given *attr, PyObject *value, PyObject *type,
                          lq_applied *out) {
    const Own *own = self->own;
    if (type != Py_None && (!PyUnicode_Check(type) || PyUnicode_CompareWithASCIIString(type, "CSTR")))
        return no_value(own, value, type);
    text_given text;
    if (take_text(own->py_encode, "value", value, &text)) return RAISED;
    lq_status status = LOCKED(set_text(&self->handle, node, TEXT(*attr), TEXT(text), out));
    leave_text(&text);
    return status;
}

METHOD(set) {
    TAKES(4);
    uint64_t node;
    text_given attr;
    lq_applied out;
    if (take_natural(own, "node", args[0], &node) || take_text(own->py_encode_name, "attr", args[1], &attr))
        return NULL;
    lq_status status = (PyUnicode_Check(args[2]) ? set_text : set_number)(self, node, &attr, args[2], args[3], &out);
    leave_text(&attr);
    return status == LQ_OK ? applied(own, &out) : REFUSED("set");
}

METHOD(unset) {
    TAKES(2);
    uint64_t node;
    text_given attr;
    lq_applied out;
    if (take_natural(own, "node", args[0], &node) || take_text(own->py_encode_name, "attr", args[1], &attr))
        return NULL;
    lq_status status = LOCKED(unset(&self->handle, node, TEXT(attr), &out));
    leave_text(&attr);
    return status == LQ_OK ? applied(own, &out) : REFUSED("unset");
}

/* ---- lines ---- */

METHOD(answer) {
    TAKES(1);
    text_given line = {NULL, 0, NULL};
    if (PyBytes_Check(args[0])) {
        line.at = PyBytes_AS_STRING(args[0]);
        line.size = PyBytes_GET_SIZE(args[0]);
    } else if (take_text(own->py_encode, "line", args[0], &line)) return NULL;
    size_t size;
    PyObject *reply = NULL;
    enter(self);
    if (self->is_unsure) { /* a sweep is due before it */
        leave(self);
        leave_text(&line);
        Py_RETURN_NONE;
    }
    lq_status status = self->is_open ? LONG_CALL(answer(&self->handle, TEXT(line), &size)) : CLOSED;
    if (status == LQ_OK) reply = PyBytes_FromStringAndSize(NULL, (Py_ssize_t)size);
    if (reply) own->text(&self->handle, PyBytes_AS_STRING(reply), size);
    leave(self);
    leave_text(&line);
    return status == LQ_OK ? reply : REFUSED("answer");
}

METHOD(path) {
    TAKES(1);
    uint64_t node;
    size_t size;
    char *room = NULL;
    if (take_natural(own, "node", args[0], &node)) return NULL;
    enter(self);
    lq_status status = LOCKED(path(&self->handle, node, &size));
    if (status == LQ_OK) room = PyMem_Malloc(size);
    if (room) own->text(&self->handle, room, size);
    leave(self);
    if (status != LQ_OK) return REFUSED("path");
    if (!room) return PyErr_NoMemory();
    PyObject *path = text(room, size);
    PyMem_Free(room);
    return path;
}

METHOD(changes) {
    TAKES(0);
    enter(self);
    uint64_t changes = own->changes(&self->handle);
    leave(self);
    return natural(changes);
}

/* ---- a volume that is kept ---- */

/* A file that is written or read, and the errno of what failed. */
typedef struct {
    int descriptor, fault;
} kept_file;

static ptrdiff_t write_to(void *user, const void *bytes, size_t size) {
    kept_file *file = user;
    ptrdiff_t took = write(file->descriptor, bytes, size);
    if (took < 0) file->fault = errno;
    return took;
}

static ptrdiff_t read_from(void *user, void *bytes, size_t room) {
    kept_file *file = user;
    ptrdiff_t got = read(file->descriptor, bytes, room);
    if (got < 0) file->fault = errno;
    return got;
}

/* Raises what a call with a file was refused by: the fault of the file, or the status. */
static PyObject *refused_file(Handle *self, lq_status status, const kept_file *file, const char *name) {
    if (status != LQ_SYSTEM) return refused_at(self, status, 0, name, NULL, 0);
    errno = file->fault;
    return PyErr_SetFromErrno(PyExc_OSError);
}

/* Writes the volume to a descriptor. */
METHOD(save) {
    TAKES(1);
    kept_file file = {(int)PyLong_AsLong(args[0]), 0};
    if (PyErr_Occurred()) return NULL;
    enter(self);
    lq_status status = self->is_open ? LONG_CALL(save(&self->handle, write_to, &file)) : CLOSED;
    leave(self);
    if (status != LQ_OK) return refused_file(self, status, &file, "save");
    Py_RETURN_NONE;
}

/* Puts a volume that is read from a descriptor in place of its own. Where the bytes are refused, it gives what they are
   refused by; in each case but success the handle is closed then. */
METHOD(load) {
    TAKES(1);
    lq *handle = &self->handle;
    kept_file file = {(int)PyLong_AsLong(args[0]), 0};
    if (PyErr_Occurred()) return NULL;
    enter(self);
    close_handle(self);
    PyThreadState *state = PyEval_SaveThread();
    lq_status status = own->load_as(handle, LQ_VERSION, read_from, &file);
    PyEval_RestoreThread(state);
    self->is_open = status == LQ_OK;
    leave(self);
    if (status == LQ_OK) Py_RETURN_NONE;
    if (status != LQ_BAD_SAVE && status != LQ_OTHER_VERSION) return refused_file(self, status, &file, "load");
    return Py_BuildValue("isKKs", (int)status, own->status_name(status), (unsigned long long)own->fault_place(handle),
                         (unsigned long long)own->fault_node(handle), own->fault_reason(handle));
}

/* Puts a copy of another handle's volume in place of its own. */
METHOD(copy) {
    TAKES(1);
    if (Py_TYPE(args[0]) != Py_TYPE(self)) return PyErr_SetString(PyExc_TypeError, "no handle"), NULL;
    Handle *other = (Handle *)args[0];
    enter(other);
    enter(self);
    close_handle(self);
    lq_status status = CLOSED;
    if (other->is_open) {
        PyThreadState *state = own->changes(&other->handle) > FEW_CHANGES ? PyEval_SaveThread() : NULL;
        status = own->volume_copy(&other->handle, &self->handle);
        if (state) PyEval_RestoreThread(state);
    }
    self->is_open = status == LQ_OK;
    leave(self);
    leave(other);
    if (status != LQ_OK) return refused_at(self, status, 0, "copy", args, 0);
    Py_RETURN_NONE;
}

/* Puts the volume that a folder keeps in place of its own. What the opening answers and has found; if it is refused, the
   handle is closed then. */
METHOD(keep) {
    TAKES(3);
    char *path;
    Py_ssize_t size;
    lq_journal_options options = LQ_JOURNAL_OPTIONS_INIT;
    lq_journal_report it = {0};
    if (PyBytes_AsStringAndSize(args[0], &path, &size)) return NULL;
    options.sync = PyLong_AsUnsignedLongLong(args[1]);
    options.damaged = PyObject_IsTrue(args[2]) == 1;
    if (PyErr_Occurred()) return NULL;
    enter(self);
    close_handle(self);
    PyThreadState *state = PyEval_SaveThread();
    lq_status status =
        own->journal_open_as(&self->journal, &self->handle, LQ_VERSION, path, (size_t)size, &options, &it);
    PyEval_RestoreThread(state);
    self->is_open = status == LQ_OK;
    leave(self);
    return Py_BuildValue("isKKKzi", (int)status, own->status_name(status), (unsigned long long)it.replayed,
                         (unsigned long long)it.dropped, (unsigned long long)it.place, it.reason, (int)it.fault);
}

/* Makes a turn of the journal. None: there is none. */
METHOD(keep_turn) {
    (void)args;
    TAKES(0);
    lq_journal_turned it = {0};
    enter(self);
    bool is_kept = self->is_open && self->journal.at;
    lq_status status = LQ_OK;
    if (is_kept) {
        PyThreadState *state = PyEval_SaveThread();
        status = own->journal_turn(&self->journal, &it);
        PyEval_RestoreThread(state);
    }
    leave(self);
    if (!is_kept) Py_RETURN_NONE;
    return Py_BuildValue("isKKKOOi", (int)status, own->status_name(status), (unsigned long long)it.due,
                         (unsigned long long)it.size, (unsigned long long)it.unsynced, it.cutting ? Py_True : Py_False,
                         it.halted ? Py_True : Py_False, (int)it.fault);
}

/* Syncs the journal: the status. */
METHOD(keep_sync) {
    (void)args;
    TAKES(0);
    lq_status status = self->journal.at ? LOCKED(journal_sync(&self->journal)) : LQ_OK;
    if (status == CLOSED) return refused_at(self, CLOSED, 0, "", NULL, 0);
    return PyLong_FromLong((long)status);
}

/* Begins a batch of the journal: the status. */
METHOD(keep_hold) {
    (void)args;
    TAKES(0);
    lq_status status = self->journal.at ? LOCKED(journal_hold(&self->journal)) : LQ_OK;
    if (status == CLOSED) return refused_at(self, CLOSED, 0, "", NULL, 0);
    return PyLong_FromLong((long)status);
}

/* ---- results ---- */

static PyObject *entry(const Own *own, const lq_row *it) {
    return RECORD(own->py_Entry, natural(it->dir), natural(it->node), text(it->name, it->name_size),
                  kind(own, it->kind), natural(it->size), PyLong_FromLongLong(it->time));
}

/* The entries of a result that was just made, under the same lock. Of many it lets the interpreter's lock go after each
   4,096, and nobody meets the list before it is whole. */
static PyObject *taken(Handle *self, size_t whole, uint64_t result) {
    enum { ROOM = 64, PIECE = 4096 };
    const Own *own = self->own;
    lq_row rows[ROOM];
    PyObject *list = PyList_New((Py_ssize_t)whole);
    size_t got = 0;
    if (list) PyObject_GC_UnTrack(list);
    for (size_t done = 0; list && done < whole; done += got) {
        bool is_piece = done > 0 && done % PIECE == 0;
        lq_status status = is_piece ? LONG_CALL(take(&self->handle, result, rows, ROOM, &got))
                                    : own->take(&self->handle, result, rows, ROOM, &got);
        if (status != LQ_OK || got == 0 || got > whole - done) {
            PyErr_Format(PyExc_RuntimeError, "the volume was used while it gave a result: %d", (int)status);
            Py_CLEAR(list);
        }
        for (size_t at = 0; list && at < got; at++) {
            PyObject *made = entry(own, &rows[at]);
            if (made) PyList_SET_ITEM(list, (Py_ssize_t)(done + at), made);
            else Py_CLEAR(list);
        }
    }
    if (list) PyObject_GC_Track(list);
    return list;
}

/* Pushes one item, which the library may refuse. RAISED: it is none. */
static lq_status push(Handle *self, PyObject *item) {
    const Own *own = self->own;
    lq *handle = &self->handle;
    if ((PyObject *)Py_TYPE(item) == own->py_Op) return own->push_op(handle, (uint32_t)PyLong_AsUnsignedLong(item));
    bool is_attr = PyObject_TypeCheck(item, (PyTypeObject *)own->py_Attr);
    if (is_attr || PyUnicode_Check(item)) {
        PyObject *given = is_attr ? PyTuple_GET_ITEM(item, 0) : item;
        text_given text;
        if (take_text(is_attr ? own->py_encode_name : own->py_encode, "formula", given, &text)) return RAISED;
        lq_status status = (is_attr ? own->push_attr : own->push_text)(handle, TEXT(text));
        leave_text(&text);
        return status;
    }
    PyObject *number = PyObject_CallFunction(own->py_whole, "sOLK", "formula", item, (long long)INT64_MIN,
                                             (unsigned long long)UINT64_MAX);
    if (!number) return RAISED;
    int is_over;
    lq_status status;
    int64_t whole = PyLong_AsLongLongAndOverflow(number, &is_over);
    if (is_over) status = own->push_uint64(handle, PyLong_AsUnsignedLongLong(number));
    else if (INT32_MIN <= whole && whole <= INT32_MAX) status = own->push_int32(handle, (int32_t)whole);
    else if (0 <= whole && whole <= UINT32_MAX) status = own->push_uint32(handle, (uint32_t)whole);
    else status = own->push_int64(handle, whole);
    Py_DECREF(number);
    return status;
}

/* Pushes each item of a tuple, under the lock. Where one doesn't fit none stays; `place` is how many came before it. */
static lq_status push_all(Handle *self, PyObject *pushes, uint64_t *place) {
    const Own *own = self->own;
    lq_status status = LQ_OK;
    own->clear_pushed(&self->handle);
    for (Py_ssize_t at = 0; status == LQ_OK && at < PyTuple_GET_SIZE(pushes); at++)
        status = push(self, PyTuple_GET_ITEM(pushes, at));
    if (status == LQ_OK) return LQ_OK;
    *place = own->fault_place(&self->handle);
    own->clear_pushed(&self->handle);
    return status;
}

/* A formula: a text, or a tuple of pushes. -1: it is neither, with an exception. */
static int take_formula(const Own *own, PyObject *given, text_given *out) {
    *out = (text_given){NULL, 0, NULL};
    if (PyUnicode_Check(given)) return take_text(own->py_encode, "formula", given, out);
    if (PyTuple_Check(given)) return 0;
    PyErr_Format(PyExc_TypeError, "formula must be a str or pushes, not %s", Py_TYPE(given)->tp_name);
    return -1;
}

/* Binds one value, which the library may refuse. RAISED: it is none. */
static lq_status bind(Handle *self, PyObject *value) {
    const Own *own = self->own;
    lq *handle = &self->handle;
    if (PyUnicode_Check(value)) {
        text_given text;
        if (take_text(own->py_encode, "values", value, &text)) return RAISED;
        lq_status status = own->bind_text(handle, TEXT(text));
        leave_text(&text);
        return status;
    }
    PyObject *number = PyObject_CallFunction(own->py_whole, "sOLK", "values", value, (long long)INT64_MIN,
                                             (unsigned long long)UINT64_MAX);
    if (!number) return RAISED;
    int is_over;
    int64_t whole = PyLong_AsLongLongAndOverflow(number, &is_over);
    lq_status status = is_over ? own->bind_uint64(handle, PyLong_AsUnsignedLongLong(number))
                               : own->bind_int64(handle, whole);
    Py_DECREF(number);
    return status;
}

/* Binds each value of a tuple, under the lock. Where one is refused none stays. */
static lq_status bind_all(Handle *self, PyObject *values) {
    const Own *own = self->own;
    lq_status status = LQ_OK;
    own->clear_bound(&self->handle);
    for (Py_ssize_t at = 0; status == LQ_OK && at < PyTuple_GET_SIZE(values); at++)
        status = bind(self, PyTuple_GET_ITEM(values, at));
    if (status != LQ_OK) own->clear_bound(&self->handle);
    return status;
}

/* What a query is asked by: a formula, with a tuple of values or without, or pushes where `formula` is no text. */
typedef struct asked {
    PyObject *given, *values;
    text_given formula;
} asked;

/* Takes it. -1: it is none, with an exception. */
static int take_asked(const Own *own, PyObject *given, PyObject *values, asked *out) {
    *out = (asked){given, values == Py_None ? NULL : values, {NULL, 0, NULL}};
    if (take_formula(own, given, &out->formula)) return -1;
    if (!out->values || (PyTuple_Check(values) && out->formula.at)) return 0;
    PyErr_SetString(PyExc_TypeError, "values must be a tuple, beside a formula that is a str");
    leave_text(&out->formula);
    return -1;
}

/* The formula with its values in place, if the place of its fault is one of it. */
static PyObject *bound_formula(Handle *self) {
    const Own *own = self->own;
    size_t size = own->text(&self->handle, NULL, 0);
    char *room = size ? PyMem_Malloc(size) : NULL;
    if (!room) return NULL;
    own->text(&self->handle, room, size);
    PyObject *made = text(room, size);
    PyMem_Free(room);
    if (!made) PyErr_Clear();
    return made;
}

/* Opens a query, or fetches where there are no options, under the lock. `place` is that of a fault, and `bound`
   as refused_in takes it. */
static lq_status ask(Handle *self, const asked *it, const lq_options *options, lq_opening *out, uint64_t *place,
                     PyObject **bound) {
    const Own *own = self->own;
    lq *handle = &self->handle;
    lq_fetched fetched = {0, 0, 0};
    bool is_formula = it->formula.at;
    *place = 0;
    *bound = NULL;
    if (!self->is_open) return CLOSED;
    lq_status status = !is_formula ? push_all(self, it->given, place) : it->values ? bind_all(self, it->values) : LQ_OK;
    if (status != LQ_OK) return status;
    if (options && !is_formula) status = LONG_CALL(query_open_pushed(handle, options, out));
    else if (options && it->values) status = LONG_CALL(query_open_bound(handle, TEXT(it->formula), options, out));
    else if (options) status = LONG_CALL(query_open(handle, TEXT(it->formula), options, out));
    else {
        if (!is_formula) status = LONG_CALL(fetch_pushed(handle, &fetched));
        else if (it->values) status = LONG_CALL(fetch_bound(handle, TEXT(it->formula), &fetched));
        else status = LONG_CALL(fetch(handle, TEXT(it->formula), &fetched));
        out->count = fetched.count;
        out->result = fetched.result;
    }
    *place = own->fault_place(handle);
    if (status == LQ_BAD_QUERY && it->values) *bound = bound_formula(self);
    return status;
}

METHOD(fetch) {
    TAKES(count == 2 ? 2 : 1);
    lq_opening out;
    asked it;
    uint64_t place;
    PyObject *bound, *entries = NULL;
    if (take_asked(own, args[0], count > 1 ? args[1] : Py_None, &it)) return NULL;
    enter(self);
    lq_status status = ask(self, &it, NULL, &out, &place, &bound);
    if (status == LQ_OK) entries = taken(self, out.count, out.result);
    leave(self);
    leave_text(&it.formula);
    return status == LQ_OK ? entries : refused_in(self, status, place, bound, "fetch", args, count);
}

/* A text as a literal of a formula. */
static PyObject *Handle_quote(PyObject *type, PyObject *given) {
    char literal[2 * LQ_TEXT_SIZE + 2];
    const Own *own = own_of(type);
    text_given it;
    if (!own || take_text(own->py_encode, "text", given, &it)) return NULL;
    size_t size = own->quote(TEXT(it), literal, sizeof literal);
    if (size == 0)
        PyErr_Format(PyExc_ValueError, "text must have at most %d bytes in UTF-8, not %zd", LQ_TEXT_SIZE, it.size);
    leave_text(&it);
    return size == 0 ? NULL : text(literal, size);
}

METHOD(children) {
    TAKES(1);
    uint64_t dir;
    lq_listing out;
    PyObject *entries = NULL;
    if (take_natural(own, "dir", args[0], &dir)) return NULL;
    enter(self);
    lq_status status = self->is_open ? LONG_CALL(children(&self->handle, dir, &out)) : CLOSED;
    if (status == LQ_OK) entries = taken(self, out.count, out.result);
    leave(self);
    return status == LQ_OK ? entries : REFUSED("children");
}

/* ---- looks ---- */

static PyObject *found(Handle *self, bool is_path, PyObject *const *args, Py_ssize_t count) {
    TAKES(2);
    uint64_t dir, node;
    text_given name;
    if (take_text(own->py_encode_name, is_path ? "path" : "name", args[0], &name)) return NULL;
    if (take_natural(own, "dir", args[1], &dir)) return leave_text(&name), NULL;
    lq_status status = is_path ? LOCKED(find_path(&self->handle, dir, TEXT(name), &node))
                               : LOCKED(find(&self->handle, dir, TEXT(name), &node));
    leave_text(&name);
    return status == LQ_OK ? natural(node) : REFUSED(is_path ? "find_path" : "find");
}

METHOD(find) {
    return found(self, false, args, count);
}

METHOD(find_path) {
    return found(self, true, args, count);
}

static PyObject *value(const lq_attr *it) {
    if (it->type == LQ_TYPE_TEXT) return text(it->text, it->text_size);
    bool is_signed = it->type == LQ_TYPE_INT32 || it->type == LQ_TYPE_INT64;
    return is_signed ? PyLong_FromLongLong(it->whole) : natural(it->natural);
}

static PyObject *attribute(const Own *own, const lq_attr *it) {
    return RECORD(own->py_Attribute, text(it->name, it->name_size), type(own, it->type), value(it));
}

/* Puts an attribute's value and its type under its name. -1, with an exception: it can't. */
static int put_attribute(const Own *own, const lq_attr *it, PyObject *values, PyObject *types) {
    PyObject *name = text(it->name, it->name_size), *its = value(it), *of = type(own, it->type);
    int failed = !name || !its || PyDict_SetItem(values, name, its) || PyDict_SetItem(types, name, of);
    Py_XDECREF(name);
    Py_XDECREF(its);
    Py_DECREF(of);
    return failed ? -1 : 0;
}

METHOD(entry) {
    TAKES(1);
    uint64_t node;
    lq_info it;
    lq_attr attr;
    if (take_natural(own, "node", args[0], &node)) return NULL;
    PyObject *values = PyDict_New(), *types = PyDict_New();
    bool is_whole = values && types;
    enter(self);
    lq_status status = LOCKED(entry(&self->handle, node, &it));
    for (size_t at = 0; is_whole && status == LQ_OK && at < it.attr_count; at++) {
        status = own->attr_at(&self->handle, node, at, &attr);
        is_whole = status == LQ_OK && put_attribute(own, &attr, values, types) == 0;
    }
    leave(self);
    if (status == LQ_OK && is_whole)
        return RECORD(own->py_Info, natural(it.dir), natural(it.node), text(it.name, it.name_size), kind(own, it.kind),
                      natural(it.size), PyLong_FromLongLong(it.time), values, types);
    Py_XDECREF(values);
    Py_XDECREF(types);
    return status == LQ_OK ? NULL : REFUSED("entry");
}

METHOD(attribute) {
    TAKES(2);
    uint64_t node;
    text_given name;
    lq_attr out;
    if (take_natural(own, "node", args[0], &node) || take_text(own->py_encode_name, "name", args[1], &name))
        return NULL;
    lq_status status = LOCKED(attr_named(&self->handle, node, TEXT(name), &out));
    leave_text(&name);
    return status == LQ_OK ? attribute(own, &out) : REFUSED("attribute");
}

/* ---- live queries ---- */

METHOD(open) {
    TAKES(count == 5 ? 5 : 4);
    lq_options options = LQ_OPTIONS_INIT;
    lq_opening out;
    asked it;
    uint64_t place;
    PyObject *bound, *entries = NULL;
    int moved = PyObject_IsTrue(args[2]), values = PyObject_IsTrue(args[3]);
    if (moved < 0 || values < 0 || take_natural(own, "backlog", args[1], &options.backlog) ||
        take_asked(own, args[0], count > 4 ? args[4] : Py_None, &it))
        return NULL;
    options.moved = moved;
    options.values = values;
    options.no_result = true; /* a Query keeps rows of its own */
    enter(self);
    lq_status status = ask(self, &it, &options, &out, &place, &bound);
    if (status == LQ_OK) entries = taken(self, out.count, out.result);
    if (status == LQ_OK && !entries) own->drop(&self->handle, out.slot);
    if (entries) self->untold = out.slot;
    leave(self);
    leave_text(&it.formula);
    if (status != LQ_OK) return refused_in(self, status, place, bound, "open", args, count);
    if (!entries) return NULL;
    return Py_BuildValue("KKN", (unsigned long long)out.slot, (unsigned long long)out.at, entries);
}

/* The slot of the last opening, where no query has it yet, else 0. */
static PyObject *Handle_untold(Handle *self, PyObject *Py_UNUSED(none)) {
    return natural(self->untold);
}

/* A query has it. */
static PyObject *Handle_told(Handle *self, PyObject *Py_UNUSED(none)) {
    self->untold = 0;
    Py_RETURN_NONE;
}

/* A call of a slot that gives nothing. */
#define OF_SLOT(name) \
    METHOD(name) { \
        TAKES(1); \
        uint64_t slot; \
        if (take_natural(own, "slot", args[0], &slot)) return NULL; \
        lq_status status = LOCKED(name(&self->handle, slot)); \
        if (status != LQ_OK) return REFUSED(#name); \
        Py_RETURN_NONE; \
    }
OF_SLOT(hang_up)
OF_SLOT(finish)
OF_SLOT(drop)

METHOD(close) {
    TAKES(1);
    uint64_t slot, change;
    if (take_natural(own, "slot", args[0], &slot)) return NULL;
    lq_status status = LOCKED(query_close(&self->handle, slot, &change));
    return status == LQ_OK ? natural(change) : REFUSED("close");
}

METHOD(ready) {
    TAKES(0);
    enter(self);
    uint64_t ready = own->ready(&self->handle);
    leave(self);
    return natural(ready);
}

/* ---- readers ---- */

/* What a query is read by, and a Query is one: `slot` is None where it has none, `mark` where its end wasn't read, and
   `is_closed` where `close` has ended it, after the change `covered`. Under the nodes of the result stand `placed`,
   what says where an entry is, and `rows`, those that were asked for. */
typedef struct {
    PyObject_HEAD
    Handle *handle;
    PyObject *slot, *mark, *latest, *placed, *rows;
    bool is_closed;
    uint64_t covered;
} Reader;

static int Reader_traverse(Reader *self, visitproc visit, void *arg) {
    Py_VISIT(Py_TYPE(self));
    Py_VISIT(self->handle);
    Py_VISIT(self->slot);
    Py_VISIT(self->mark);
    Py_VISIT(self->latest);
    Py_VISIT(self->placed);
    Py_VISIT(self->rows);
    return 0;
}

static int Reader_clear(Reader *self) {
    Py_CLEAR(self->handle);
    Py_CLEAR(self->slot);
    Py_CLEAR(self->mark);
    Py_CLEAR(self->latest);
    Py_CLEAR(self->placed);
    Py_CLEAR(self->rows);
    return 0;
}

static void Reader_dealloc(Reader *self) {
    PyTypeObject *type = Py_TYPE(self);
    PyObject_GC_UnTrack(self);
    Reader_clear(self);
    type->tp_free((PyObject *)self);
    Py_DECREF(type);
}

/* Begins to read by a handle, in a slot that was opened: its number, and the dicts `placed` and `rows`. */
static PyObject *Reader_begin(Reader *self, PyObject *const *args, Py_ssize_t count) {
    if (count != 4 || Py_TYPE(args[0])->tp_dealloc != (destructor)Handle_dealloc || !PyDict_Check(args[2]) ||
        !PyDict_Check(args[3]))
        return PyErr_SetString(PyExc_TypeError, "no handle, slot and dicts"), NULL;
    PyObject **fields[] = {(PyObject **)&self->handle, &self->slot, &self->placed, &self->rows};
    for (int at = 0; at < 4; at++) {
        PyObject *old = *fields[at];
        *fields[at] = same(args[at]);
        Py_XDECREF(old);
    }
    self->is_closed = false;
    Py_CLEAR(self->mark);
    Py_CLEAR(self->latest);
    Py_RETURN_NONE;
}

static PyObject *message(const Own *own, const lq_message *it) {
    bool is_moved = it->op == LQ_ENTRY_MOVED;
    return RECORD(own->py_Message, natural(it->seq), natural(it->change), PyBool_FromLong(it->last),
                  same(own->opcodes[it->op]), natural(it->dir), natural(it->node), text(it->name, it->name_size),
                  is_moved ? natural(it->from_dir) : same(Py_None),
                  is_moved ? text(it->from_name, it->from_name_size) : same(Py_None),
                  it->op == LQ_ATTR_CHANGED ? text(it->attr, it->attr_size) : same(Py_None));
}

/* Takes a node out of the dicts. Its row, if it has one, keeps the place that it had. */
static int leave_result(Reader *self, PyObject *node) {
    PyObject *placed = PyDict_GetItemWithError(self->placed, node);
    if (!placed) return PyErr_Occurred() ? -1 : 0;
    PyObject *row = PyDict_GET_SIZE(self->rows) > 0 ? PyDict_GetItemWithError(self->rows, node) : NULL;
    if (!row && PyErr_Occurred()) return -1;
    if (row && (PyObject_SetAttrString(row, "_placed", placed) || PyDict_DelItem(self->rows, node))) return -1;
    return PyDict_DelItem(self->placed, node);
}

/* Puts a message under its node. Where it is one of a value, the node's row, if it has one, is to look the entry up
   again. */
static int put_message(Reader *self, PyObject *node, PyObject *made, uint32_t op) {
    bool is_value = op == LQ_STAT_CHANGED || op == LQ_ATTR_CHANGED;
    PyObject *row = is_value && PyDict_GET_SIZE(self->rows) > 0 ? PyDict_GetItemWithError(self->rows, node) : NULL;
    if (!row && PyErr_Occurred()) return -1;
    if (row && PyObject_SetAttrString(row, "_is_old", Py_True)) return -1;
    return PyDict_SetItem(self->placed, node, made);
}

/* The next message, under the lock. Null without an exception: none waits, or the end was read, and `mark` is there. */
static PyObject *read_next(Reader *self) {
    enum { NODE = 5 };
    Handle *handle = self->handle;
    const Own *own = handle->own;
    uint64_t slot;
    lq_message out;
    if (take_natural(own, "slot", self->slot, &slot)) return NULL;
    lq_status status = handle->is_open ? own->read(&handle->handle, slot, &out) : CLOSED;
    if (status == LQ_EMPTY || status == LQ_ENDED) return NULL;
    if (status != LQ_OK) return refused_at(handle, status, 0, "read", &self->slot, 1);
    if (out.what == LQ_END) {
        PyObject *mark = RECORD(own->py_Mark, natural(out.seq), natural(out.change), same(own->causes[out.cause]));
        if (mark) Py_XSETREF(self->mark, mark);
        return NULL;
    }
    PyObject *made = message(own, &out);
    if (!made) return NULL;
    PyObject *node = PyTuple_GET_ITEM(made, NODE);
    int failed = out.op == LQ_ENTRY_REMOVED ? leave_result(self, node) : put_message(self, node, made, out.op);
    if (failed) Py_CLEAR(made);
    else Py_XSETREF(self->latest, same(made));
    return made;
}

static bool is_there(PyObject *field) {
    return field && field != Py_None;
}

/* Ends the query, under the lock, unless it has ended. The last change that is covered; None: it ended by itself, and
   the mark that says so wasn't read. */
static PyObject *close_reader(Reader *self) {
    enum { CHANGE = 1 };
    Handle *handle = self->handle;
    const Own *own = handle->own;
    uint64_t slot;
    if (is_there(self->mark)) return same(PyTuple_GET_ITEM(self->mark, CHANGE));
    if (self->is_closed) return natural(self->covered);
    if (take_natural(own, "slot", self->slot, &slot)) return NULL;
    lq_status status = handle->is_open ? own->query_close(&handle->handle, slot, &self->covered) : CLOSED;
    if (status == LQ_NOT_OPEN) Py_RETURN_NONE;
    if (status != LQ_OK) return refused_at(handle, status, 0, "close", &self->slot, 1);
    self->is_closed = true;
    return natural(self->covered);
}

static PyObject *Reader_close(Reader *self, PyObject *Py_UNUSED(none)) {
    Handle *handle = self->handle;
    PyObject *covered = NULL;
    if (handle) enter(handle);
    if (!handle || !is_there(self->slot)) PyErr_SetString(PyExc_ValueError, "the query was dropped or finished");
    else covered = close_reader(self);
    if (handle) leave(handle);
    return covered;
}

/* One step of the iteration. After the end `_ended` says whether it stops or raises. */
static PyObject *Reader_next(Reader *self) {
    PyObject *made = NULL, *mark = NULL;
    Handle *handle = self->handle;
    if (handle) enter(handle);
    if (!handle || !is_there(self->slot)) PyErr_SetString(PyExc_ValueError, "the query was dropped or finished");
    else {
        if (!is_there(self->mark)) made = read_next(self);
        if (!made && !PyErr_Occurred() && is_there(self->mark)) mark = same(self->mark);
    }
    if (handle) leave(handle);
    if (mark) Py_XDECREF(PyObject_CallMethod((PyObject *)self, "_ended", "(N)", mark));
    return made;
}

/* ---- folders ---- */

#define IS_PART 1
#include "_native_folder.c"

/* ---- the module ---- */

#define FAST(name) {#name, (PyCFunction)(void (*)(void))Handle_##name, METH_FASTCALL, NULL},

static PyMethodDef handle_methods[] = {
    {"free", (PyCFunction)Handle_free, METH_NOARGS, NULL},
    {"is_open", (PyCFunction)Handle_is_open, METH_NOARGS, NULL},
    {"release", (PyCFunction)Handle_release, METH_NOARGS, NULL},
    {"quote", Handle_quote, METH_O | METH_CLASS, NULL},
    {"is_mine", (PyCFunction)Handle_is_mine, METH_NOARGS, NULL},
    {"untold", (PyCFunction)Handle_untold, METH_NOARGS, NULL},
    {"told", (PyCFunction)Handle_told, METH_NOARGS, NULL},
    FAST(locked) FAST(acquire) FAST(create) FAST(remove) FAST(move) FAST(write) FAST(set) FAST(unset) FAST(answer)
    FAST(path) FAST(changes) FAST(fetch) FAST(children) FAST(find) FAST(find_path) FAST(entry) FAST(attribute)
    FAST(open) FAST(hang_up) FAST(finish) FAST(drop) FAST(close) FAST(ready) FAST(save) FAST(load) FAST(copy)
    FAST(keep) FAST(keep_turn) FAST(keep_sync) FAST(keep_hold) FAST(tried)
    {"forked", (PyCFunction)Handle_forked, METH_NOARGS, NULL},
    {NULL, NULL, 0, NULL}
};

static PyMemberDef handle_fields[] = {
    {"is_unsure", T_BOOL, offsetof(Handle, is_unsure), 0, NULL},
    {NULL, 0, 0, 0, NULL},
};

static PyType_Slot handle_slots[] = {
    {Py_tp_doc, (void *)"A handle of the library. Each call takes its lock."},
    {Py_tp_new, Handle_new},
    {Py_tp_dealloc, Handle_dealloc},
    {Py_tp_methods, handle_methods},
    {Py_tp_members, handle_fields},
    {0, NULL},
};

static PyType_Spec handle_spec = {"yazgoulm._native.Handle", sizeof(Handle), 0, Py_TPFLAGS_DEFAULT, handle_slots};

static PyMethodDef reader_methods[] = {
    {"_begin", (PyCFunction)(void (*)(void))Reader_begin, METH_FASTCALL, NULL},
    {"_close", (PyCFunction)Reader_close, METH_NOARGS, NULL},
    {NULL, NULL, 0, NULL},
};

static PyMemberDef reader_fields[] = {
    {"slot", T_OBJECT, offsetof(Reader, slot), 0, NULL},
    {"mark", T_OBJECT, offsetof(Reader, mark), 0, NULL},
    {"_latest", T_OBJECT, offsetof(Reader, latest), 0, NULL},
    {NULL, 0, 0, 0, NULL},
};

static PyType_Slot reader_slots[] = {
    {Py_tp_doc, (void *)"What a query is read by."},
    {Py_tp_traverse, Reader_traverse},
    {Py_tp_clear, Reader_clear},
    {Py_tp_dealloc, Reader_dealloc},
    {Py_tp_iter, PyObject_SelfIter},
    {Py_tp_iternext, Reader_next},
    {Py_tp_methods, reader_methods},
    {Py_tp_members, reader_fields},
    {0, NULL},
};

static PyType_Spec reader_spec = {
    "yazgoulm._native.Reader", sizeof(Reader), 0, Py_TPFLAGS_DEFAULT | Py_TPFLAGS_BASETYPE | Py_TPFLAGS_HAVE_GC,
    reader_slots,
};

static void free_owner(PyObject *owner) {
    free_own(PyCapsule_GetPointer(owner, OWN));
}

/* The types of handles and of readers for a path of the library, and for the modules of _arguments.py and _types.py. */
static PyObject *load(PyObject *Py_UNUSED(module), PyObject *args) {
    const char *path;
    PyObject *arguments, *types;
    if (!PyArg_ParseTuple(args, "sOO", &path, &arguments, &types)) return NULL;
    Own *own = PyMem_Calloc(1, sizeof *own);
    if (!own) return PyErr_NoMemory();
    PyObject *owner = fill_own(own, path, arguments, types) ? NULL : PyCapsule_New(own, OWN, free_owner);
    if (!owner) {
        free_own(own);
        return NULL;
    }
    PyObject *handle = PyType_FromSpec(&handle_spec), *reader = PyType_FromSpec(&reader_spec), *both = NULL;
    if (handle && reader && PyObject_SetAttrString(handle, OWN, owner) == 0) both = PyTuple_Pack(2, handle, reader);
    Py_XDECREF(handle);
    Py_XDECREF(reader);
    Py_DECREF(owner);
    return both;
}

/* The sum of the sources of which this was built: see _sources.py. */
static PyObject *sources(PyObject *Py_UNUSED(module), PyObject *Py_UNUSED(none)) {
    return PyUnicode_FromString(SOURCES);
}

static PyMethodDef module_methods[] = {
    {"load", load, METH_VARARGS, NULL}, {"load_folder", load_folder, METH_VARARGS, NULL},
    {"sources", sources, METH_NOARGS, NULL}, {NULL, NULL, 0, NULL},
};

/* Nothing here is written after it is compiled, so each interpreter may have the module, with a lock of its own. */
static PyModuleDef_Slot module_slots[] = {
#if PY_VERSION_HEX >= 0x030C0000
    {Py_mod_multiple_interpreters, Py_MOD_PER_INTERPRETER_GIL_SUPPORTED},
#endif
    {0, NULL},
};

static struct PyModuleDef module = {
    PyModuleDef_HEAD_INIT, .m_name = "yazgoulm._native", .m_methods = module_methods, .m_slots = module_slots,
};

PyMODINIT_FUNC PyInit__native(void) {
    return PyModuleDef_Init(&module);
}
