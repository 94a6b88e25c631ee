/* Folders by Python's C API, as those of folder/_by_ctypes.py. A part of _native.c, whose handles hold their locks. A
   call answers a status, of which folder/_folder.py makes an exception. By itself it is compiled to nothing. */
#ifdef IS_PART
#include <lq_folder.h>

#define FOLDER_CALLS(X) \
    X(open) X(close) X(fd) X(turn) X(query_open) X(query_close) X(rows) X(read) X(path) X(node) X(entry) X(fold) \
    X(leave_out)

enum { WHATS = LQ_LINE_NOTICE + 1, LINES_AT_ONCE = 256, SHORT_PATH = 1024 };

/* The calls, and what the lines of one import of the package are made of. */
typedef struct {
#define X(name) __typeof__(&lq_folder_##name) name;
    FOLDER_CALLS(X)
#undef X
    PyObject *line, *whats[WHATS], *file, *folder, *link, *other;
} FolderOwn;

/* A folder over the volume of a handle. `begin` stands before each path. */
typedef struct {
    PyObject_HEAD
    Handle *handle;
    const FolderOwn *own; /* which the type owns */
    lq_folder folder;
    PyObject *begin;
} FolderCalls;

static const char FOLDER_OWN[] = "_folder_own";

static void free_folder_own(FolderOwn *own) {
    Py_XDECREF(own->line);
    for (int what = 1; what < WHATS; what++) Py_XDECREF(own->whats[what]);
    Py_XDECREF(own->file);
    Py_XDECREF(own->folder);
    Py_XDECREF(own->link);
    Py_XDECREF(own->other);
    PyMem_Free(own);
}

static void free_folder_owner(PyObject *owner) {
    free_folder_own(PyCapsule_GetPointer(owner, FOLDER_OWN));
}

/* Fills it. -1, with an exception: the library has no folders. */
static int fill_folder_own(FolderOwn *own, void *library, PyObject *line) {
    static const char *const whats[] = {"", "there", "came", "left", "moved", "changed", "anew", "notice"};
#define X(name) \
    *(void **)&own->name = dlsym(library, "lq_folder_" #name); \
    if (!own->name) { \
        PyErr_SetString(PyExc_ImportError, "the library has no lq_folder_" #name); \
        return -1; \
    }
    FOLDER_CALLS(X)
#undef X
    own->line = same(line);
    for (int what = 1; what < WHATS; what++)
        if (!(own->whats[what] = PyUnicode_InternFromString(whats[what]))) return -1;
    own->file = PyUnicode_InternFromString("file");
    own->folder = PyUnicode_InternFromString("folder");
    own->link = PyUnicode_InternFromString("link");
    own->other = PyUnicode_InternFromString("other");
    return own->file && own->folder && own->link && own->other ? 0 : -1;
}

static PyObject *FolderCalls_new(PyTypeObject *type, PyObject *args, PyObject *Py_UNUSED(named)) {
    PyObject *handle, *begin, *owner = PyObject_GetAttrString((PyObject *)type, FOLDER_OWN);
    const FolderOwn *own = owner ? PyCapsule_GetPointer(owner, FOLDER_OWN) : NULL;
    Py_XDECREF(owner); /* the type has it */
    if (!own || !PyArg_ParseTuple(args, "OS", &handle, &begin)) return NULL;
    if (Py_TYPE(handle)->tp_dealloc != (destructor)Handle_dealloc)
        return PyErr_SetString(PyExc_TypeError, "no handle"), NULL;
    FolderCalls *self = (FolderCalls *)type->tp_alloc(type, 0);
    if (!self) return NULL;
    self->handle = (Handle *)same(handle);
    self->own = own;
    self->begin = same(begin);
    return (PyObject *)self;
}

static PyObject *FolderCalls_close(FolderCalls *self, PyObject *Py_UNUSED(none)) {
    enter(self->handle);
    self->own->close(&self->folder);
    leave(self->handle);
    Py_RETURN_NONE;
}

static void FolderCalls_dealloc(FolderCalls *self) {
    PyTypeObject *type = Py_TYPE(self);
    if (self->folder.at) Py_XDECREF(FolderCalls_close(self, NULL));
    Py_XDECREF((PyObject *)self->handle);
    Py_XDECREF(self->begin);
    type->tp_free((PyObject *)self);
    Py_DECREF(type);
}

/* The status of a call of the folder, under the lock. */
#define OF_FOLDER(call) ({ \
        enter(self->handle); \
        lq_status answered = self->handle->is_open ? self->own->call : LQ_MISUSE; \
        leave(self->handle); \
        answered; \
    })

/* The skipped names, each with a NUL after it. Null, with an exception: one is no bytes. */
static const char **take_skipped(PyObject *given) {
    const char **skip = PyMem_New(const char *, (size_t)PyTuple_GET_SIZE(given) + 1);
    if (!skip) return (const char **)PyErr_NoMemory();
    for (Py_ssize_t at = 0; at < PyTuple_GET_SIZE(given); at++) {
        skip[at] = PyBytes_AsString(PyTuple_GET_ITEM(given, at));
        if (!skip[at]) {
            PyMem_Free(skip);
            return NULL;
        }
    }
    return skip;
}

/* Opens it. The status, and the errno of LQ_SYSTEM. */
static PyObject *FolderCalls_open(FolderCalls *self, PyObject *args) {
    const char *path;
    Py_ssize_t size;
    unsigned long long node, poll;
    PyObject *skipped;
    int once, no_attributes, one_file_system;
    int32_t fault = 0;
    if (!PyArg_ParseTuple(args, "y#KO!Kppp", &path, &size, &node, &PyTuple_Type, &skipped, &poll, &once, &no_attributes,
                          &one_file_system))
        return NULL;
    const char **skip = take_skipped(skipped);
    if (!skip) return NULL;
    size_t count = (size_t)PyTuple_GET_SIZE(skipped);
    lq_folder_options options = {.node = node, .skip = skip, .skip_count = count, .poll = poll, .once = once,
                                 .no_attributes = no_attributes, .one_file_system = one_file_system};
    lq_status status = OF_FOLDER(open(&self->folder, &self->handle->handle, path, (size_t)size, &options, &fault));
    PyMem_Free(skip);
    return Py_BuildValue("ii", (int)status, (int)fault);
}

static PyObject *FolderCalls_fd(FolderCalls *self, PyObject *Py_UNUSED(none)) {
    return PyLong_FromLong(self->own->fd(&self->folder));
}

/* A turn, during which other threads run. The status, and what the turn did. */
static PyObject *FolderCalls_turn(FolderCalls *self, PyObject *Py_UNUSED(none)) {
    lq_folder_turned out = {.due = UINT64_MAX};
    lq_status status = LQ_MISUSE;
    enter(self->handle);
    if (self->handle->is_open) {
        Py_BEGIN_ALLOW_THREADS
        status = self->own->turn(&self->folder, &out);
        Py_END_ALLOW_THREADS
    }
    leave(self->handle);
    return Py_BuildValue("iiKKKNNN", (int)status, (int)out.fault, (unsigned long long)out.due,
                         (unsigned long long)out.entries, (unsigned long long)out.lines, PyBool_FromLong(out.more),
                         PyBool_FromLong(out.listed), PyBool_FromLong(out.settled));
}

/* Opens a window. The status, and the place of a fault. The slot comes into the 8 bytes that the caller gives: so who is
   interrupted after the call finds it. */
static PyObject *FolderCalls_query_open(FolderCalls *self, PyObject *args) {
    PyObject *opened;
    const char *formula;
    Py_ssize_t size;
    int values, no_there;
    uint64_t slot = 0, place = 0;
    if (!PyArg_ParseTuple(args, "Yy#pp", &opened, &formula, &size, &values, &no_there)) return NULL;
    if (PyByteArray_GET_SIZE(opened) != sizeof slot) return PyErr_SetString(PyExc_ValueError, "no 8 bytes"), NULL;
    lq_folder_query_options options = {.values = values, .no_there = no_there};
    enter(self->handle);
    lq_status status = LQ_MISUSE;
    if (self->handle->is_open) {
        status = self->own->query_open(&self->folder, formula, (size_t)size, &options, &slot);
        place = self->handle->own->fault_place(&self->handle->handle);
    }
    if (status == LQ_OK) memcpy(PyByteArray_AS_STRING(opened), &slot, sizeof slot);
    leave(self->handle);
    return Py_BuildValue("iK", (int)status, (unsigned long long)place);
}

static PyObject *FolderCalls_query_close(FolderCalls *self, PyObject *given) {
    uint64_t slot = PyLong_AsUnsignedLongLong(given);
    if (slot == (uint64_t)-1 && PyErr_Occurred()) return NULL;
    return PyLong_FromLong(OF_FOLDER(query_close(&self->folder, slot)));
}

/* The status, and the nodes of a window's result. */
static PyObject *FolderCalls_rows(FolderCalls *self, PyObject *given) {
    uint64_t slot = PyLong_AsUnsignedLongLong(given), *nodes = NULL;
    size_t count = 0;
    if (slot == (uint64_t)-1 && PyErr_Occurred()) return NULL;
    enter(self->handle);
    lq_status status = OF_FOLDER(rows(&self->folder, slot, NULL, 0, &count));
    if (status == LQ_OK && !(nodes = PyMem_New(uint64_t, count + 1))) status = LQ_NO_MEMORY;
    if (status == LQ_OK) status = OF_FOLDER(rows(&self->folder, slot, nodes, count, &count));
    leave(self->handle);
    PyObject *list = PyList_New(status == LQ_OK ? (Py_ssize_t)count : 0);
    for (size_t at = 0; list && status == LQ_OK && at < count; at++) {
        PyObject *node = natural(nodes[at]);
        if (node) PyList_SET_ITEM(list, (Py_ssize_t)at, node);
        else Py_CLEAR(list);
    }
    PyMem_Free(nodes);
    return list ? Py_BuildValue("iN", (int)status, list) : NULL;
}

/* A path as Python's own calls have it, with what stands before it. */
static PyObject *whole_path(const FolderCalls *self, const char *path, size_t size) {
    char small[SHORT_PATH], *room = small;
    size_t begin = (size_t)PyBytes_GET_SIZE(self->begin), whole = begin + size;
    if (whole > sizeof small && !(room = PyMem_Malloc(whole))) return PyErr_NoMemory();
    memcpy(room, PyBytes_AS_STRING(self->begin), begin);
    if (size) memcpy(room + begin, path, size);
    PyObject *made = PyUnicode_DecodeFSDefaultAndSize(room, (Py_ssize_t)whole);
    if (room != small) PyMem_Free(room);
    return made;
}

static PyObject *word_of_kind(const FolderOwn *own, uint32_t kind) {
    if (kind == 'f') return same(own->file);
    if (kind == 'd') return same(own->folder);
    if (kind == 'l') return same(own->link);
    return kind == 'o' ? same(own->other) : same(Py_None);
}

static PyObject *line(const FolderCalls *self, const lq_folder_line *it) {
    const FolderOwn *own = self->own;
    PyObject *items[] = {
        natural(it->number), same(own->whats[it->what]), whole_path(self, it->path, it->path_size),
        it->what == LQ_LINE_MOVED ? whole_path(self, it->old_path, it->old_path_size) : same(Py_None),
        natural(it->slot), natural(it->node), natural(it->size), PyLong_FromLongLong(it->time),
        word_of_kind(own, it->kind), natural(it->inode), PyLong_FromLongLong(it->ctime), PyLong_FromLongLong(it->mtime),
        PyLong_FromUnsignedLong(it->notice)};
    return record(own->line, true, sizeof items / sizeof *items, items);
}

/* The status, and the lines after the one that is numbered `seen`: `most` at most. Those up to it are forgotten, so who
   is interrupted asks again with the same number. */
static PyObject *FolderCalls_read(FolderCalls *self, PyObject *args) {
    unsigned long long seen, most;
    if (!PyArg_ParseTuple(args, "KK", &seen, &most)) return NULL;
    lq_folder_line lines[LINES_AT_ONCE];
    size_t got = 0, room = most < LINES_AT_ONCE ? (size_t)most : LINES_AT_ONCE;
    enter(self->handle);
    lq_status status = OF_FOLDER(read(&self->folder, seen, lines, room, &got));
    PyObject *list = PyList_New(status == LQ_OK ? (Py_ssize_t)got : 0);
    for (size_t at = 0; list && status == LQ_OK && at < got; at++) {
        PyObject *made = line(self, &lines[at]);
        if (made) PyList_SET_ITEM(list, (Py_ssize_t)at, made);
        else Py_CLEAR(list);
    }
    leave(self->handle);
    return list ? Py_BuildValue("iN", (int)status, list) : NULL;
}

/* A text that grows. */
typedef struct {
    char *at;
    size_t size, room;
} Printed;

/* Puts bytes at the end. False: they don't fit, or aren't all characters that are printed as they are. */
static bool put(Printed *out, const char *bytes, size_t size) {
    if (size > out->room - out->size) return false;
    for (size_t at = 0; at < size; at++)
        if (bytes[at] < ' ' || bytes[at] > '~' || bytes[at] == '\\') return false;
    memcpy(out->at + out->size, bytes, size);
    out->size += size;
    return true;
}

/* Puts a line as yazgoulm-folder prints it. False: it isn't put. */
static bool put_line(const FolderCalls *self, Printed *out, const lq_folder_line *it) {
    static const char *const signs[WHATS] = {NULL, "= ", "+ ", "- ", "> ", "~ ", NULL, NULL};
    const char *begin = PyBytes_AS_STRING(self->begin);
    size_t size = (size_t)PyBytes_GET_SIZE(self->begin), before = out->size;
    bool is_moved = it->what == LQ_LINE_MOVED;
    if (signs[it->what] && put(out, signs[it->what], 2) &&
        (!is_moved || (put(out, begin, size) && put(out, it->old_path, it->old_path_size) && put(out, " > ", 3))) &&
        put(out, begin, size) && put(out, it->path, it->path_size) && out->size < out->room) {
        out->at[out->size++] = '\n';
        return true;
    }
    out->size = before;
    return false;
}

/* The status, the lines after the one that is numbered `seen` as yazgoulm-folder prints them, the number of the last one,
   and whether more may wait. It stops before a line with characters that aren't printed as they are, and where the room
   ends. */
static PyObject *FolderCalls_printed(FolderCalls *self, PyObject *args) {
    enum { ROOM = 1 << 16 };
    unsigned long long seen;
    if (!PyArg_ParseTuple(args, "K", &seen)) return NULL;
    PyObject *text = PyBytes_FromStringAndSize(NULL, ROOM);
    if (!text) return NULL;
    Printed out = {PyBytes_AS_STRING(text), 0, ROOM};
    lq_folder_line lines[LINES_AT_ONCE];
    size_t got = 0, done = 0;
    lq_status status = LQ_OK;
    enter(self->handle);
    do {
        status = OF_FOLDER(read(&self->folder, seen, lines, LINES_AT_ONCE, &got));
        if (status != LQ_OK) got = 0;
        for (done = 0; done < got && put_line(self, &out, &lines[done]); done++) seen = lines[done].number;
    } while (got > 0 && done == got);
    leave(self->handle);
    if (_PyBytes_Resize(&text, (Py_ssize_t)out.size)) return NULL;
    return Py_BuildValue("iNKN", (int)status, text, seen, PyBool_FromLong(got > 0));
}

/* The status, and the path of a node. */
static PyObject *FolderCalls_path(FolderCalls *self, PyObject *given) {
    uint64_t node = PyLong_AsUnsignedLongLong(given);
    char small[SHORT_PATH], *room = small;
    size_t size = 0;
    if (node == (uint64_t)-1 && PyErr_Occurred()) return NULL;
    enter(self->handle);
    lq_status status = OF_FOLDER(path(&self->folder, node, small, sizeof small, &size));
    if (status == LQ_OK && size > sizeof small) {
        room = PyMem_Malloc(size);
        status = room ? OF_FOLDER(path(&self->folder, node, room, size, &size)) : LQ_NO_MEMORY;
    }
    leave(self->handle);
    PyObject *made = status == LQ_OK ? whole_path(self, room, size) : same(Py_None);
    if (room != small) PyMem_Free(room);
    return made ? Py_BuildValue("iN", (int)status, made) : NULL;
}

/* The status, and the node of a path below the folder. */
static PyObject *FolderCalls_node(FolderCalls *self, PyObject *given) {
    char *path;
    Py_ssize_t size;
    uint64_t node = 0;
    if (PyBytes_AsStringAndSize(given, &path, &size)) return NULL;
    lq_status status = OF_FOLDER(node(&self->folder, path, (size_t)size, &node));
    return Py_BuildValue("iK", (int)status, (unsigned long long)node);
}

/* The status, and what was last read of a node's entry. */
static PyObject *FolderCalls_entry(FolderCalls *self, PyObject *given) {
    uint64_t node = PyLong_AsUnsignedLongLong(given);
    lq_folder_stat it = {0};
    if (node == (uint64_t)-1 && PyErr_Occurred()) return NULL;
    lq_status status = OF_FOLDER(entry(&self->folder, node, &it));
    return Py_BuildValue("iNKKLLL", (int)status, word_of_kind(self->own, it.kind), (unsigned long long)it.inode,
                         (unsigned long long)it.device, (long long)it.born, (long long)it.ctime, (long long)it.mtime);
}

/* Leaves out a folder by its device and inode, or no longer. The status. */
static PyObject *FolderCalls_leave_out(FolderCalls *self, PyObject *given) {
    unsigned long long device, inode;
    int is_out;
    if (!PyArg_ParseTuple(given, "KKp", &device, &inode, &is_out)) return NULL;
    return PyLong_FromLong((long)OF_FOLDER(leave_out(&self->folder, device, inode, is_out)));
}

/* A text with its case folded: bytes, of bytes. */
static PyObject *FolderCalls_fold(PyObject *type, PyObject *given) {
    char *text;
    Py_ssize_t size;
    PyObject *owner = PyObject_GetAttrString(type, FOLDER_OWN);
    const FolderOwn *own = owner ? PyCapsule_GetPointer(owner, FOLDER_OWN) : NULL;
    Py_XDECREF(owner);
    if (!own || PyBytes_AsStringAndSize(given, &text, &size)) return NULL;
    size_t folded = own->fold(text, (size_t)size, NULL, 0);
    PyObject *made = PyBytes_FromStringAndSize(NULL, (Py_ssize_t)folded);
    if (made) own->fold(text, (size_t)size, PyBytes_AS_STRING(made), folded);
    return made;
}

static PyMethodDef folder_methods[] = {
    {"open", (PyCFunction)FolderCalls_open, METH_VARARGS, NULL},
    {"close", (PyCFunction)FolderCalls_close, METH_NOARGS, NULL},
    {"fd", (PyCFunction)FolderCalls_fd, METH_NOARGS, NULL},
    {"turn", (PyCFunction)FolderCalls_turn, METH_NOARGS, NULL},
    {"query_open", (PyCFunction)FolderCalls_query_open, METH_VARARGS, NULL},
    {"query_close", (PyCFunction)FolderCalls_query_close, METH_O, NULL},
    {"rows", (PyCFunction)FolderCalls_rows, METH_O, NULL},
    {"read", (PyCFunction)FolderCalls_read, METH_VARARGS, NULL},
    {"printed", (PyCFunction)FolderCalls_printed, METH_VARARGS, NULL},
    {"path", (PyCFunction)FolderCalls_path, METH_O, NULL},
    {"node", (PyCFunction)FolderCalls_node, METH_O, NULL},
    {"entry", (PyCFunction)FolderCalls_entry, METH_O, NULL},
    {"leave_out", (PyCFunction)FolderCalls_leave_out, METH_VARARGS, NULL},
    {"fold", FolderCalls_fold, METH_O | METH_CLASS, NULL},
    {NULL, NULL, 0, NULL}
};

static PyType_Slot folder_slots[] = {
    {Py_tp_doc, (void *)"A folder of the library. Each call takes the lock of its volume's handle."},
    {Py_tp_new, FolderCalls_new},
    {Py_tp_dealloc, FolderCalls_dealloc},
    {Py_tp_methods, folder_methods},
    {0, NULL},
};

static PyType_Spec folder_spec = {
    "yazgoulm._native.FolderCalls", sizeof(FolderCalls), 0, Py_TPFLAGS_DEFAULT, folder_slots,
};

/* The type of folders for a type of handles, and for the class of lines. */
static PyObject *load_folder(PyObject *Py_UNUSED(module), PyObject *args) {
    PyObject *handle, *line;
    if (!PyArg_ParseTuple(args, "OO", &handle, &line)) return NULL;
    const Own *library = own_of(handle);
    FolderOwn *own = library ? PyMem_Calloc(1, sizeof *own) : NULL;
    if (!own) return library ? PyErr_NoMemory() : NULL;
    PyObject *owner = NULL;
    if (fill_folder_own(own, library->library, line) == 0) owner = PyCapsule_New(own, FOLDER_OWN, free_folder_owner);
    if (!owner) {
        free_folder_own(own);
        return NULL;
    }
    PyObject *type = PyType_FromSpec(&folder_spec);
    if (type && PyObject_SetAttrString(type, FOLDER_OWN, owner)) Py_CLEAR(type);
    Py_DECREF(owner);
    return type;
}
#endif
