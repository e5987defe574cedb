/* The calls of a hub, for chanhub.py: by ctypes a call takes several times what the hub takes.
 *
 * Calls(hub, things) makes calls on the hub at this address, one at a time for each process. `things` is None, or the dict of the objects
 * whose numbers are in the hub. What a call asked and what it was answered is noted here, so an exception of a signal handler comes before
 * a call or behind it, and loses no answer:
 *
 *     calls[pid, port]                makes a receive, and gives its result. Gives itself if there is none yet, or it is an exception:
 *     calls[pid, port, value]         then the call is open. The same for a send
 *     calls.ask(pid, cases, is_select, default, word[, deadline]), calls.ask_other(pid, name, number[, cap])
 *                                     make any other call, which is open then. A case is (port,) or (port, value)
 *     calls.send_all(pid, port, values[, deadline]), calls.recv_up_to(pid, port, most[, deadline])
 *                                     make a call of many values, which is open then. `values` is a tuple
 *     calls.told(pid)                 what, fault, index, number or port of the open call's answer, and how many of its many values were
 *                                     passed; None if no call is open
 *     calls.wait(pid, nanoseconds)    waits for its answer; with 0, only picks up what there is. Gives False, and does nothing, if a
 *                                     thread is in the library for the process
 *     calls[pid], del calls[pid]      end the open call, whose answer has come; the first gives its result
 *
 * The interpreter handles signals behind a call, but not behind a subscript. So no exception comes between `calls[pid]` and a `return`.
 * If `keeps_open` is set, each call stays open until it is ended so.
 *
 * One file serves every Python from 3.8 on, since it keeps to the stable interface.
 */
#define Py_LIMITED_API 0x03080000
#define PY_SSIZE_T_CLEAN
#include <Python.h>
#include <structmember.h>

#include "chanhub.h"

enum {
    MOST_PROCS = 64,
    MOST_CASES = 16,
    MOST_AT_ONCE = 2048, /* more than a buffer and the processes that wait for its room hold */
    SLICE = 50000000     /* nanoseconds in which no signal is handled */
};

typedef chanhub_told other(chanhub *hub, unsigned pid, unsigned number);

/* What `use` was given: the functions of the library, and of chanhub.py what packs a case, and two types. */
static struct used {
    chanhub_told (*begin)(chanhub *hub, unsigned pid, const chanhub_case *cases, size_t count, bool has_default, uint64_t word);
    chanhub_told (*begin_until)(chanhub *hub, unsigned pid, const chanhub_case *cases, size_t count, bool has_default, uint64_t word,
                                uint64_t deadline);
    chanhub_told (*begin_send_all)(chanhub *hub, unsigned pid, unsigned port, const chanhub_value *values, size_t count, uint64_t deadline,
                                   size_t *sent);
    chanhub_told (*begin_recv_up_to)(chanhub *hub, unsigned pid, unsigned port, chanhub_value *values, size_t most, uint64_t deadline,
                                     size_t *received);
    chanhub_told (*resume)(chanhub *hub, unsigned pid, uint64_t nanoseconds);
    bool (*turn)(chanhub *hub, unsigned pid, uint64_t nanoseconds);
    other *make, *close, *cancel, *start;
    chanhub_told (*reopen)(chanhub *hub, unsigned pid, unsigned port, uint32_t cap);
    PyObject *pack, *fired, *fault;
} used;

/* The values of a call that passes many. */
struct many {
    chanhub_value *values; /* NULL in any other call */
    bool sends;
    bool is_between;       /* none of it is open in the hub: the rest is to be asked for */
    unsigned port;
    size_t count, done;    /* how many there may be, and how many were passed */
    uint64_t deadline;
};

/* What is asked: the rest of many values, another call with a number, a reopen, or a call of these cases. */
struct asked {
    struct many *many;
    other *other;
    bool is_reopen;
    unsigned number, cap;
    chanhub_case *cases;
    PyObject **values; /* what the cases send; NULL for a receive */
    size_t count;
    bool is_select, has_default, has_deadline;
    uint64_t word, deadline;
};

/* The call of a process. */
struct call {
    bool is_open;   /* it was asked, and has not been ended */
    bool is_inside; /* a thread is in the library for it */
    bool is_select;
    uint32_t sends; /* a bit for each case that sends an object */
    uint64_t put;   /* how many objects the process has sent, or tried to */
    chanhub_told told;
    struct many many;
};

struct calls {
    PyObject_HEAD
    chanhub *hub;
    PyObject *things; /* NULL if values are numbers and bytes */
    char keeps_open;
    struct call of[MOST_PROCS + 1]; /* the last one for processes that no hub has */
};

static struct call *call_of(struct calls *calls, unsigned pid) {
    return &calls->of[pid < MOST_PROCS ? pid : MOST_PROCS];
}

/* ---- The table of objects. ---- */

/* The number of the k-th object that a process puts, from 1: it is of the process and its own count alone. No object has 0, for a
 * process that no hub has: its numbers would be those of others. */
static uint64_t numbered(unsigned pid, uint64_t k) {
    return pid < MOST_PROCS ? 100 * k + pid : 0;
}

/* Puts an object into the table. Otherwise an exception is set. */
static bool puts_thing(struct calls *calls, uint64_t number, PyObject *thing) {
    PyObject *key = PyLong_FromUnsignedLongLong(number);
    bool is_put = key && PyDict_SetItem(calls->things, key, thing) == 0;
    Py_XDECREF(key);
    return is_put;
}

static void forget(struct calls *calls, uint64_t number) {
    PyObject *key = PyLong_FromUnsignedLongLong(number);
    if (!key || PyDict_DelItem(calls->things, key) < 0) PyErr_Clear();
    Py_XDECREF(key);
}

/* Forgets the objects that are no longer in the hub after this call: those that it did not send, and the one that it received. */
static void settle(struct calls *calls, unsigned pid, const struct call *call) {
    const chanhub_told *told = &call->told;
    uint64_t k = call->put;
    for (unsigned index = MOST_CASES + 1; index-- > 0;) {
        if (!(call->sends >> index & 1)) continue;
        if (told->what != CHANHUB_SENT || told->index != index) forget(calls, numbered(pid, k));
        k--;
    }
    if (calls->things && told->what == CHANHUB_GOT) forget(calls, told->value.number);
}

/* Forgets the objects of these values, from this one on. */
static void forget_values(struct calls *calls, const chanhub_value *values, size_t count) {
    for (size_t k = 0; calls->things && k < count; k++) forget(calls, values[k].number);
}

/* The same as settle, after a call that passes many values. */
static void settle_many(struct calls *calls, const struct many *many) {
    if (many->sends) forget_values(calls, many->values + many->done, many->count - many->done);
    else forget_values(calls, many->values, many->done);
    PyMem_Free(many->values);
}

/* Puts the objects that the call sends into the table. If there is no memory, none is there. */
static bool puts_things(struct calls *calls, unsigned pid, const struct asked *asked) {
    if (pid >= MOST_PROCS) return true;
    struct call *call = call_of(calls, pid);
    for (size_t index = 0; index < asked->count; index++) {
        if (!asked->values[index]) continue;
        uint64_t number = numbered(pid, ++call->put);
        call->sends |= (uint32_t)1 << index;
        if (!puts_thing(calls, number, asked->values[index])) return false;
        asked->cases[index].value.number = number;
    }
    return true;
}

/* The same for a call that passes many values. */
static bool puts_many(struct calls *calls, unsigned pid, PyObject *things, const struct many *many) {
    uint64_t put = call_of(calls, pid)->put;
    for (size_t k = 0; k < many->count; k++) {
        uint64_t number = numbered(pid, put + k + 1);
        many->values[k] = (chanhub_value){ .number = number };
        if (!number || puts_thing(calls, number, PyTuple_GetItem(things, (Py_ssize_t)k))) continue;
        PyObject *type, *error, *trace;
        PyErr_Fetch(&type, &error, &trace);
        forget_values(calls, many->values, k);
        PyErr_Restore(type, error, trace);
        return false;
    }
    return true;
}

/* ---- How a call begins, waits and ends. ---- */

/* Makes what is left of a call that passes many values, as far as that needs no wait. */
static chanhub_told ask_for_rest(struct calls *calls, unsigned pid, struct many *many) {
    size_t done = 0, left = many->count - many->done;
    chanhub_value *rest = many->values + many->done;
    chanhub_told told = many->sends
                            ? used.begin_send_all(calls->hub, pid, many->port, rest, left, many->deadline, &done)
                            : used.begin_recv_up_to(calls->hub, pid, many->port, rest, left, many->deadline, &done);
    many->done += done;
    return told;
}

static chanhub_told ask_once(struct calls *calls, unsigned pid, const struct asked *asked) {
    if (asked->many) return ask_for_rest(calls, pid, asked->many);
    if (asked->other) return asked->other(calls->hub, pid, asked->number);
    if (asked->is_reopen) return used.reopen(calls->hub, pid, asked->number, asked->cap);
    if (!asked->has_deadline) return used.begin(calls->hub, pid, asked->cases, asked->count, asked->has_default, asked->word);
    return used.begin_until(calls->hub, pid, asked->cases, asked->count, asked->has_default, asked->word, asked->deadline);
}

/* Makes the call once its turn has come, in a hub that follows a journal. Its fault is NOT_YET, and an exception is set, if a
 * signal handler raised one before. */
static chanhub_told ask_in_turn(struct calls *calls, unsigned pid, const struct asked *asked) {
    chanhub_told told;
    do {
        Py_BEGIN_ALLOW_THREADS
        told = ask_once(calls, pid, asked);
        if (told.fault == CHANHUB_NOT_YET) used.turn(calls->hub, pid, SLICE);
        Py_END_ALLOW_THREADS
    } while (told.fault == CHANHUB_NOT_YET && PyErr_CheckSignals() == 0);
    return told;
}

/* Whether a call of the process is open, or being made. Then an exception is set. */
static bool is_busy(const struct call *call) {
    if (!call->is_open && !call->is_inside) return false;
    PyObject *busy = PyObject_CallFunction(used.fault, "i", CHANHUB_BUSY);
    if (busy) PyErr_SetObject(used.fault, busy);
    Py_XDECREF(busy);
    return true;
}

/* Whether the call is open now. Otherwise nothing was asked, and an exception is set. */
static bool opens(struct calls *calls, unsigned pid, const struct asked *asked) {
    struct call *call = call_of(calls, pid);
    if (is_busy(call)) return false;
    uint64_t put = call->put;
    call->sends = 0;
    call->told = (chanhub_told){ 0 };
    call->is_select = asked->is_select;
    call->is_inside = true;
    if (!calls->things || puts_things(calls, pid, asked)) {
        chanhub_told told = ask_in_turn(calls, pid, asked);
        if (told.fault != CHANHUB_NOT_YET) call->told = told;
    }
    call->is_inside = false;
    call->is_open = call->told.what;
    if (!call->is_open) {
        PyObject *type, *error, *trace;
        PyErr_Fetch(&type, &error, &trace);
        settle(calls, pid, call);
        PyErr_Restore(type, error, trace);
        call->put = put;
    }
    return call->is_open;
}

/* Goes on with a call that passes many values, where the rest is to be asked for. If an exception is set, it still is. */
static void go_on(struct calls *calls, unsigned pid) {
    struct call *call = call_of(calls, pid);
    const struct asked asked = { .many = &call->many };
    call->is_inside = true;
    chanhub_told told = ask_in_turn(calls, pid, &asked);
    call->is_inside = false;
    if (told.fault == CHANHUB_NOT_YET) return;
    call->told = told;
    call->many.is_between = false;
}

/* Notes that the one of many values that waited was passed, if that is the answer. */
static void note_one(struct call *call) {
    struct many *many = &call->many;
    if (!many->values || (call->told.what != CHANHUB_SENT && call->told.what != CHANHUB_GOT)) return;
    if (!many->sends) many->values[many->done] = call->told.value;
    many->is_between = ++many->done < many->count && many->sends;
    if (many->is_between) call->told = (chanhub_told){ .what = CHANHUB_WAITING };
}

/* Whether the call of these many values is open now. Then it owns them. */
static bool opens_many(struct calls *calls, unsigned pid, PyObject *things, const struct many *many) {
    struct call *call = call_of(calls, pid);
    if (is_busy(call)) return false;
    call->is_inside = true;
    call->is_open = !things || puts_many(calls, pid, things, many);
    call->is_inside = false;
    if (!call->is_open) return false;
    call->told = (chanhub_told){ .what = CHANHUB_WAITING };
    call->sends = 0;
    call->is_select = false;
    call->many = *many;
    call->many.is_between = true;
    return true;
}

/* What a receive got. */
static PyObject *value_got(struct calls *calls, const chanhub_value *value) {
    if (value->is_bytes) return PyBytes_FromStringAndSize((const char *)value->bytes, value->length);
    PyObject *number = PyLong_FromUnsignedLongLong(value->number);
    if (!calls->things || !number) return number;
    PyObject *thing = PyDict_GetItemWithError(calls->things, number);
    if (!thing && !PyErr_Occurred()) PyErr_SetObject(PyExc_KeyError, number);
    Py_DECREF(number);
    Py_XINCREF(thing);
    return thing;
}

/* What a receive of many values got. */
static PyObject *values_got(struct calls *calls, const struct many *many) {
    PyObject *got = PyList_New((Py_ssize_t)many->done);
    for (size_t k = 0; got && k < many->done; k++) {
        PyObject *value = value_got(calls, &many->values[k]);
        if (value) PyList_SetItem(got, (Py_ssize_t)k, value);
        else Py_CLEAR(got);
    }
    return got;
}

/* The result of an answer that is no exception. */
static PyObject *result_of(struct calls *calls, const struct call *call) {
    const chanhub_told *told = &call->told;
    if (call->many.values && !call->many.sends) return values_got(calls, &call->many);
    if (told->what == CHANHUB_MADE) return PyLong_FromLong(told->port);
    PyObject *value = told->what == CHANHUB_GOT ? value_got(calls, &told->value) : Py_BuildValue("");
    if (!value || !call->is_select || told->what == CHANHUB_DEFAULT) return value;
    return PyObject_CallFunction(used.fired, "iN", told->index, value);
}

static void end_call(struct calls *calls, unsigned pid) {
    struct call *call = call_of(calls, pid), ended = *call;
    const struct many *many = &ended.many;
    call->is_open = false;
    call->many = (struct many){ 0 };
    if (!many->values) {
        settle(calls, pid, &ended);
        return;
    }
    /* As if each value had been sent by itself, and the one that was refused too. */
    if (many->sends) call->put += many->done + (many->done < many->count);
    settle_many(calls, many);
}

static PyObject *take(struct calls *calls, unsigned pid) {
    if (PyErr_CheckSignals() < 0) return NULL;
    PyObject *result = result_of(calls, call_of(calls, pid));
    if (result) end_call(calls, pid);
    return result;
}

/* ---- What Python calls. ---- */

/* Whether it is an integer from 0 to `most`, which is stored then. */
static bool reads(PyObject *object, uint64_t most, uint64_t *number) {
    if (!PyLong_Check(object)) return false;
    *number = PyLong_AsUnsignedLongLong(object);
    if (*number == UINT64_MAX && PyErr_Occurred()) {
        PyErr_Clear();
        return false;
    }
    return *number <= most;
}

/* Whether it is a number or bytes that can be sent, which are stored then. */
static bool reads_value(PyObject *object, chanhub_value *value) {
    char *bytes;
    Py_ssize_t length;
    *value = (chanhub_value){ 0 };
    if (!PyBytes_Check(object)) return reads(object, UINT64_MAX, &value->number);
    if (PyBytes_AsStringAndSize(object, &bytes, &length) < 0 || (size_t)length > sizeof value->bytes) return false;
    value->is_bytes = true;
    value->length = (uint8_t)length;
    memcpy(value->bytes, bytes, (size_t)length);
    return true;
}

/* Whether this port, and this value if it is not NULL, make a case. Otherwise an exception is set. */
static bool reads_case(const struct calls *calls, PyObject *port, PyObject *value, chanhub_case *one) {
    uint64_t number;
    PyObject *sent = calls->things ? NULL : value;
    *one = (chanhub_case){ .sends = value };
    if (reads(port, UINT16_MAX, &number) && (!sent || reads_value(sent, &one->value))) {
        one->port = (uint16_t)number;
        return true;
    }
    PyObject *packed = PyObject_CallFunctionObjArgs(used.pack, port, sent, NULL);
    if (!packed) return false;
    memcpy(one, PyBytes_AsString(packed), sizeof *one);
    one->sends = value; /* an object is not packed: its number comes later */
    Py_DECREF(packed);
    return true;
}

static PyObject *subscript(PyObject *self, PyObject *key) {
    struct calls *calls = (struct calls *)self;
    if (!PyTuple_Check(key)) return take(calls, (unsigned)PyLong_AsUnsignedLong(key));
    unsigned pid = (unsigned)PyLong_AsUnsignedLong(PyTuple_GetItem(key, 0));
    PyObject *value = PyTuple_Size(key) == 3 ? PyTuple_GetItem(key, 2) : NULL;
    chanhub_case one;
    struct asked asked = { .cases = &one, .values = &value, .count = 1 };
    if (!reads_case(calls, PyTuple_GetItem(key, 1), value, &one) || !opens(calls, pid, &asked)) return NULL;
    uint8_t what = call_of(calls, pid)->told.what;
    if (!calls->keeps_open && (what == CHANHUB_SENT || what == CHANHUB_GOT)) return take(calls, pid);
    Py_INCREF(self);
    return self;
}

static int delete(PyObject *self, PyObject *key, PyObject *Py_UNUSED(none)) {
    end_call((struct calls *)self, (unsigned)PyLong_AsUnsignedLong(key));
    return 0;
}

static PyObject *ask(PyObject *self, PyObject *arguments) {
    struct calls *calls = (struct calls *)self;
    unsigned pid;
    PyObject *cases, *values[MOST_CASES + 1];
    int is_select, has_default;
    unsigned long long word, deadline = 0;
    chanhub_case packed[MOST_CASES + 1];
    if (!PyArg_ParseTuple(arguments, "IO!ppK|K", &pid, &PyTuple_Type, &cases, &is_select, &has_default, &word, &deadline)) return NULL;
    struct asked asked = { .cases = packed, .values = values, .is_select = is_select, .has_default = has_default, .word = word,
                           .has_deadline = PyTuple_Size(arguments) > 5, .deadline = deadline };
    /* One more than the most is refused as any more are. */
    for (; asked.count < (size_t)PyTuple_Size(cases) && asked.count <= MOST_CASES; asked.count++) {
        PyObject *port;
        PyObject *one = PyTuple_GetItem(cases, (Py_ssize_t)asked.count);
        values[asked.count] = NULL;
        if (!PyTuple_Check(one)) return PyErr_Format(PyExc_TypeError, "a case must be a Send or a Recv, not %R", one);
        if (!PyArg_ParseTuple(one, "O|O", &port, &values[asked.count]) ||
            !reads_case(calls, port, values[asked.count], &packed[asked.count])) return NULL;
    }
    return opens(calls, pid, &asked) ? Py_BuildValue("") : NULL;
}

/* Whether all of these can be sent, and are stored. Otherwise an exception is set. */
static bool reads_values(const struct calls *calls, PyObject *port, PyObject *sent, chanhub_value *values) {
    Py_ssize_t count = PyTuple_Size(sent);
    for (Py_ssize_t k = 0; k < count; k++) {
        PyObject *value = PyTuple_GetItem(sent, k);
        chanhub_case one;
        if (reads_value(value, &values[k])) continue;
        if (!reads_case(calls, port, value, &one)) return false;
        values[k] = one.value;
    }
    return true;
}

/* Makes a call of as many values: those of the tuple, or where it is NULL, those that are received. */
static PyObject *ask_many(struct calls *calls, unsigned pid, PyObject *port, PyObject *sent, size_t count, uint64_t deadline) {
    chanhub_case one;
    if (!reads_case(calls, port, NULL, &one)) return NULL;
    struct many many = { .sends = sent, .port = one.port, .count = count, .deadline = deadline };
    if (count <= (size_t)PY_SSIZE_T_MAX / sizeof *many.values) many.values = PyMem_Malloc(count * sizeof *many.values);
    if (!many.values) return PyErr_NoMemory();
    if ((!calls->things && sent && !reads_values(calls, port, sent, many.values)) ||
        !opens_many(calls, pid, calls->things ? sent : NULL, &many)) {
        PyMem_Free(many.values);
        return NULL;
    }
    go_on(calls, pid);
    return PyErr_Occurred() ? NULL : Py_BuildValue("");
}

static PyObject *send_all(PyObject *self, PyObject *arguments) {
    unsigned pid;
    PyObject *port, *values;
    unsigned long long deadline = CHANHUB_NEVER;
    if (!PyArg_ParseTuple(arguments, "IOO!|K", &pid, &port, &PyTuple_Type, &values, &deadline)) return NULL;
    return ask_many((struct calls *)self, pid, port, values, (size_t)PyTuple_Size(values), deadline);
}

static PyObject *recv_up_to(PyObject *self, PyObject *arguments) {
    unsigned pid;
    PyObject *port;
    Py_ssize_t most;
    unsigned long long deadline = CHANHUB_NEVER;
    if (!PyArg_ParseTuple(arguments, "IOn|K", &pid, &port, &most, &deadline)) return NULL;
    return ask_many((struct calls *)self, pid, port, NULL, most < MOST_AT_ONCE ? (size_t)most : MOST_AT_ONCE, deadline);
}

/* The function of this name that takes one number. */
static other *other_of(const char *name) {
    if (strcmp(name, "make") == 0) return used.make;
    if (strcmp(name, "close") == 0) return used.close;
    return strcmp(name, "start") == 0 ? used.start : used.cancel;
}

static PyObject *ask_other(PyObject *self, PyObject *arguments) {
    struct asked asked = { 0 };
    unsigned pid;
    const char *name;
    if (!PyArg_ParseTuple(arguments, "IsI|I", &pid, &name, &asked.number, &asked.cap)) return NULL;
    asked.is_reopen = strcmp(name, "reopen") == 0;
    if (!asked.is_reopen) asked.other = other_of(name);
    return opens((struct calls *)self, pid, &asked) ? Py_BuildValue("") : NULL;
}

static PyObject *told_of(PyObject *self, PyObject *pid) {
    const struct call *call = call_of((struct calls *)self, (unsigned)PyLong_AsUnsignedLong(pid));
    const chanhub_told *told = &call->told;
    if (!call->is_open) return Py_BuildValue("");
    return Py_BuildValue("iiiKn", told->what, told->fault, told->index,
                         (unsigned long long)(told->what == CHANHUB_MADE ? told->port : told->value.number), (Py_ssize_t)call->many.done);
}

static PyObject *wait_for(PyObject *self, PyObject *arguments) {
    struct calls *calls = (struct calls *)self;
    unsigned pid;
    unsigned long long nanoseconds;
    if (!PyArg_ParseTuple(arguments, "IK", &pid, &nanoseconds)) return NULL;
    struct call *call = call_of(calls, pid);
    if (call->is_inside) return PyBool_FromLong(false);
    if (call->is_open && call->told.what == CHANHUB_WAITING && !call->many.is_between) {
        chanhub_told told;
        call->is_inside = true;
        Py_BEGIN_ALLOW_THREADS
        told = used.resume(calls->hub, pid, nanoseconds);
        Py_END_ALLOW_THREADS
        call->told = told;
        call->is_inside = false;
        note_one(call);
    }
    if (call->many.is_between && nanoseconds) go_on(calls, pid);
    return PyErr_Occurred() ? NULL : PyBool_FromLong(true);
}

/* ---- The type. ---- */

static PyObject *new_calls(PyTypeObject *type, PyObject *arguments, PyObject *Py_UNUSED(named)) {
    unsigned long long hub;
    PyObject *things;
    if (!PyArg_ParseTuple(arguments, "KO", &hub, &things)) return NULL;
    struct calls *calls = (struct calls *)((allocfunc)PyType_GetSlot(type, Py_tp_alloc))(type, 0);
    if (!calls) return NULL;
    calls->hub = (chanhub *)(uintptr_t)hub;
    if (things != Py_None) {
        Py_INCREF(things);
        calls->things = things;
    }
    return (PyObject *)calls;
}

static int traverse(PyObject *self, visitproc visit, void *arg) {
    Py_VISIT(Py_TYPE(self));
    Py_VISIT(((struct calls *)self)->things);
    return 0;
}

static int clear(PyObject *self) {
    Py_CLEAR(((struct calls *)self)->things);
    return 0;
}

static void deallocate(PyObject *self) {
    PyTypeObject *type = Py_TYPE(self);
    PyObject_GC_UnTrack(self);
    clear(self);
    for (unsigned pid = 0; pid <= MOST_PROCS; pid++) PyMem_Free(((struct calls *)self)->of[pid].many.values);
    ((freefunc)PyType_GetSlot(type, Py_tp_free))(self);
    Py_DECREF(type);
}

static PyMethodDef methods[] = { { "ask", ask, METH_VARARGS, NULL },
                                 { "ask_other", ask_other, METH_VARARGS, NULL },
                                 { "send_all", send_all, METH_VARARGS, NULL },
                                 { "recv_up_to", recv_up_to, METH_VARARGS, NULL },
                                 { "told", told_of, METH_O, NULL },
                                 { "wait", wait_for, METH_VARARGS, NULL },
                                 { NULL, NULL, 0, NULL } };
static PyMemberDef members[] = { { "keeps_open", T_BOOL, offsetof(struct calls, keeps_open), 0, NULL }, { NULL, 0, 0, 0, NULL } };
static PyType_Slot slots[] = { { Py_tp_new, new_calls },        { Py_tp_traverse, traverse },         { Py_tp_clear, clear },
                               { Py_tp_dealloc, deallocate },   { Py_tp_methods, methods },           { Py_tp_members, members },
                               { Py_mp_subscript, subscript },  { Py_mp_ass_subscript, delete },      { 0, NULL } };
static PyType_Spec spec = { .name = "chanhub_calls.Calls", .basicsize = sizeof(struct calls),
                            .flags = Py_TPFLAGS_DEFAULT | Py_TPFLAGS_HAVE_GC, .slots = slots };

/* use(addresses, pack, fired, fault): what all calls use, with the addresses in the order of the struct. */
static PyObject *use(PyObject *Py_UNUSED(self), PyObject *arguments) {
    enum { COUNT = offsetof(struct used, pack) / sizeof(void *) };
    PyObject *addresses;
    void *from[COUNT];
    if (!PyArg_ParseTuple(arguments, "O!OOO", &PyTuple_Type, &addresses, &used.pack, &used.fired, &used.fault)) return NULL;
    Py_INCREF(used.pack), Py_INCREF(used.fired), Py_INCREF(used.fault);
    for (int i = 0; i < COUNT; i++) {
        PyObject *address = PyTuple_GetItem(addresses, i);
        from[i] = address ? PyLong_AsVoidPtr(address) : NULL;
        if (!from[i]) return NULL;
    }
    memcpy(&used, from, sizeof from);
    return Py_BuildValue("");
}

static PyMethodDef functions[] = { { "use", use, METH_VARARGS, NULL }, { NULL, NULL, 0, NULL } };
static struct PyModuleDef module = { PyModuleDef_HEAD_INIT, .m_name = "chanhub_calls", .m_size = -1, .m_methods = functions };

PyMODINIT_FUNC PyInit_chanhub_calls(void) {
    PyObject *made = PyModule_Create(&module), *type = PyType_FromSpec(&spec);
    return made && type && PyModule_AddObject(made, "Calls", type) == 0 ? made : NULL;
}
