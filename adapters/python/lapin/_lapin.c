/* The package's session without ctypes: the calls of lapin.h that are made for each message or each turn, on a handle that lies in a Python object,
 * and the number of a publish, which no exception parts from its call. `_library.py` has the class that stands on it: the calls that are not made
 * so often, over the same handle by its address (`_by`), and in `check` and `elsewhere` the words of what is refused.
 *
 * Built for the stable ABI of Python 3.10: it was the first with calls by an array of arguments and with a text's own UTF-8. Nothing is linked: the
 * package tells the addresses of the calls (`bind`), so the shared object is the very one that it loaded. The interpreter's lock is never let go.
 * No pointer and no object that a call is given is kept; no Python code runs between a call of the library and the moment its answer is stored,
 * but that memory is asked for. Where there is none, what was given once is lost with its connection (`is_astray`), and a MemoryError says so. */
#define Py_LIMITED_API 0x030a0000
#define PY_SSIZE_T_CLEAN
#include <Python.h>
#include <structmember.h>

#include <stdbool.h>
#include <string.h>

#include "_lapin_values.h"
#include "lapin.h"

/* The calls that are made here, in the order in which `bind` takes their addresses. Each is of the type that lapin.h declares. */
#define CALLS(OF)                                                                                                    \
    OF(close) OF(call) OF(reply) OF(publish) OF(outcome) OF(delivery) OF(ack) OF(nack) OF(reject) OF(answer_length)     \
    OF(answer) OF(send) OF(leaving_length) OF(leaving) OF(receive)

#define FIELD(name) __typeof__(&lapin_##name) name;
#define NAME(name) #name,

static struct { CALLS(FIELD) } library;
static const char *const names[] = {CALLS(NAME)};
enum { COUNT = sizeof names / sizeof *names };
typedef char each_is_an_address[sizeof library == COUNT * sizeof(void *) ? 1 : -1];

/* So long a message's octets lie on the stack as they are cut, and above so many its body is copied once. */
enum { SMALL = 4096, LARGE = 1 << 18 };

typedef struct {
    PyTypeObject *numbered;
} State;

/* What is asked of a publish: the number of its confirm, 0 until it was accepted. */
typedef struct {
    PyObject_HEAD
    uint64_t number;
} Numbered;

typedef struct {
    PyObject_HEAD
    lapin_handle handle;
    unsigned long thread;
    char is_forked;
    char is_astray;
    uint64_t last;
    uint64_t last_confirm;
} Handle;

/* ---- what is refused */

/* Whether another thread or another process is at work than the one whose session it is: an error is raised then. */
static bool is_elsewhere(Handle *self)
{
    if (PyThread_get_thread_ident() == self->thread)
        return false;
    PyObject *error = PyObject_CallMethod((PyObject *)self, "elsewhere", NULL);
    if (error != NULL) {
        PyErr_SetObject((PyObject *)Py_TYPE(error), error);
        Py_DECREF(error);
    }
    return true;
}

/* Raises the error that a status is. */
static PyObject *failed(Handle *self, uint32_t status)
{
    PyObject *none = PyObject_CallMethod((PyObject *)self, "check", "I", (unsigned int)status);
    if (none != NULL) {
        Py_DECREF(none);
        PyErr_Format(PyExc_SystemError, "status %u is no error", (unsigned int)status);
    }
    return NULL;
}

/* What the session gave once can't be told, for want of memory. */
static PyObject *gone_astray(Handle *self)
{
    self->is_astray = true;
    return NULL;
}

/* ---- what is told */

/* Copies the answer out, which has so many octets. */
static bool is_copied(Handle *self, char *room, size_t length)
{
    if (library.answer(&self->handle, room, length) == length)
        return true;
    PyErr_SetString(PyExc_SystemError, "the answer isn't as long as it was said to be");
    return false;
}

/* The text that is the answer. */
static PyObject *answer_of(Handle *self)
{
    size_t length = library.answer_length(&self->handle);
    char *room = PyMem_Malloc(length + 1);
    if (room == NULL)
        return PyErr_NoMemory();
    PyObject *text = is_copied(self, room, length) ? text_of(room, length) : NULL;
    PyMem_Free(room);
    return text;
}

/* A large message, whose body is copied once: `_split` gives what stands in front of it, and the body. */
static PyObject *large_message(Handle *self, const lapin_message *message, size_t head)
{
    PyObject *pair = PyObject_CallMethod((PyObject *)self, "_split", "nn", (Py_ssize_t)head, (Py_ssize_t)message->body), *parts = NULL;
    PyObject *first = pair == NULL ? NULL : PyTuple_GetItem(pair, 0), *body = first == NULL ? NULL : PyTuple_GetItem(pair, 1);
    if (body != NULL && PyBytes_Check(first) && PyBytes_Size(first) == (Py_ssize_t)head) {
        Py_INCREF(body);
        parts = parts_of(message, PyBytes_AsString(first), body);
    }
    Py_XDECREF(pair);
    return parts;
}

/* The message that is the answer. */
static PyObject *message_of(Handle *self, const lapin_message *message)
{
    char small[SMALL], *room = small;
    size_t head = message->exchange + message->routing_key + message->properties, length = head + message->body;
    if (length > LARGE)
        return large_message(self, message, head);
    if (length > SMALL && (room = PyMem_Malloc(length)) == NULL)
        return PyErr_NoMemory();
    PyObject *parts = NULL;
    if (is_copied(self, room, length))
        parts = parts_of(message, room, PyBytes_FromStringAndSize(room + head, (Py_ssize_t)message->body));
    if (room != small)
        PyMem_Free(room);
    return parts;
}

/* ---- the session's calls */

static PyObject *handle_check_thread(Handle *self, PyObject *none)
{
    (void)none;
    if (is_elsewhere(self))
        return NULL;
    Py_RETURN_NONE;
}

static PyObject *handle_call(Handle *self, PyObject *const *given, Py_ssize_t count)
{
    uint16_t channel;
    uint64_t ticket;
    const char *method;
    size_t length;
    if (is_elsewhere(self) || !is_count("call", count, 2, 2) || !as_channel(given[0], &channel) || !as_octets(given[1], &method, &length))
        return NULL;
    uint32_t status = library.call(&self->handle, channel, method, length, &ticket);
    if (status != LAPIN_DONE)
        return failed(self, status);
    PyObject *found = PyLong_FromUnsignedLongLong(ticket);
    return found != NULL ? found : gone_astray(self);
}

/* The fields of a reply, in the order of `Reply`. */
static PyObject *fields_of(Handle *self, const lapin_fields *fields)
{
    PyObject *found = PyTuple_New(6), *text = NULL, *message = NULL;
    bool has_text = fields->kind == LAPIN_REPLY_QUEUE || fields->kind == LAPIN_REPLY_CONSUMER;
    text = has_text ? answer_of(self) : PyUnicode_FromStringAndSize("", 0);
    if (fields->kind == LAPIN_REPLY_MESSAGE)
        message = message_of(self, &fields->message);
    else
        Py_INCREF(Py_None), message = Py_None;
    if (found != NULL && text != NULL && message != NULL && put(found, 0, PyLong_FromUnsignedLong(fields->kind)) &&
        put(found, 1, PyLong_FromUnsignedLongLong(fields->number)) && put(found, 2, PyLong_FromUnsignedLong(fields->messages)) &&
        put(found, 3, PyLong_FromUnsignedLong(fields->consumers))) {
        PyTuple_SetItem(found, 4, text), PyTuple_SetItem(found, 5, message);
        return found;
    }
    Py_XDECREF(found);
    Py_XDECREF(text);
    Py_XDECREF(message);
    return NULL;
}

static PyObject *handle_fields(Handle *self, PyObject *given)
{
    uint64_t ticket;
    lapin_fields fields;
    if (is_elsewhere(self) || !as_number(given, &ticket))
        return NULL;
    uint32_t status = library.reply(&self->handle, ticket, &fields);
    if (status == LAPIN_PENDING)
        Py_RETURN_NONE;
    if (status == LAPIN_REFUSED)
        return PyObject_CallMethod((PyObject *)self, "refuse_reply", NULL);
    if (status != LAPIN_DONE)
        return failed(self, status);
    PyObject *found = fields_of(self, &fields);
    return found != NULL ? found : gone_astray(self);
}

static PyObject *handle_publish_as(PyObject *it, PyTypeObject *defining, PyObject *const *given, Py_ssize_t count, PyObject *keywords)
{
    Handle *self = (Handle *)it;
    const State *state = PyType_GetModuleState(defining);
    const char *exchange, *routing_key, *body, *properties;
    size_t exchange_length, routing_key_length, length, properties_length;
    uint16_t channel;
    if (is_elsewhere(self) || !is_count("publish_as", keywords == NULL ? count : -1, 7, 7))
        return NULL;
    if (state == NULL || !PyObject_TypeCheck(given[0], state->numbered)) {
        PyErr_SetString(PyExc_TypeError, "a publish has its number in a Numbered");
        return NULL;
    }
    int is_mandatory = PyObject_IsTrue(given[6]);
    if (is_mandatory < 0 || !as_channel(given[1], &channel) || !as_text(given[2], &exchange, &exchange_length) ||
        !as_text(given[3], &routing_key, &routing_key_length) || !as_octets(given[4], &body, &length) ||
        !as_octets(given[5], &properties, &properties_length))
        return NULL;
    uint64_t number;
    uint32_t status = library.publish(&self->handle, channel, exchange, exchange_length, routing_key, routing_key_length, is_mandatory != 0, false,
                                      body, length, properties, properties_length, &number);
    if (status != LAPIN_DONE)
        return failed(self, status);
    ((Numbered *)given[0])->number = self->last = self->last_confirm = number;
    Py_RETURN_NONE;
}

static PyObject *handle_outcome(Handle *self, PyObject *given)
{
    uint64_t number;
    if (is_elsewhere(self) || !as_number(given, &number))
        return NULL;
    return PyLong_FromUnsignedLong(library.outcome(&self->handle, number)); /* a small number, which takes no memory */
}

static PyObject *handle_delivery(Handle *self, PyObject *given)
{
    uint64_t consumer;
    lapin_message message;
    if (is_elsewhere(self) || !as_number(given, &consumer))
        return NULL;
    uint32_t status = library.delivery(&self->handle, consumer, &message);
    if (status == LAPIN_PENDING)
        Py_RETURN_NONE;
    if (status != LAPIN_DONE && status != LAPIN_GONE)
        return failed(self, status);
    PyObject *found = status == LAPIN_GONE ? PyUnicode_FromString("end") : message_of(self, &message);
    return found != NULL ? found : gone_astray(self);
}

static PyObject *handle_settle(Handle *self, PyObject *const *given, Py_ssize_t count)
{
    uint64_t acker;
    if (is_elsewhere(self) || !is_count("settle", count, 3, 4) || !as_number(given[1], &acker))
        return NULL;
    if (!PyUnicode_Check(given[0]))
        return PyErr_Format(PyExc_TypeError, "the name of a call is a text");
    bool is_nack = PyUnicode_CompareWithASCIIString(given[0], "nack") == 0, is_ack = PyUnicode_CompareWithASCIIString(given[0], "ack") == 0;
    if (!is_nack && !is_ack && PyUnicode_CompareWithASCIIString(given[0], "reject") != 0)
        return PyErr_Format(PyExc_AttributeError, "no call %R settles a message", given[0]);
    int mark = PyObject_IsTrue(given[2]), further = count == 4 ? PyObject_IsTrue(given[3]) : 0;
    if (mark < 0 || further < 0 || !is_count("settle", count, is_nack ? 4 : 3, is_nack ? 4 : 3))
        return NULL;
    uint32_t status = is_ack    ? library.ack(&self->handle, acker, mark != 0)
                      : is_nack ? library.nack(&self->handle, acker, mark != 0, further != 0)
                                : library.reject(&self->handle, acker, mark != 0);
    if (status != LAPIN_DONE && status != LAPIN_GONE)
        return failed(self, status);
    return PyBool_FromLong(status == LAPIN_DONE);
}

static PyObject *handle_send(Handle *self, PyObject *const *given, Py_ssize_t count)
{
    if (is_elsewhere(self) || !is_count("send", count, 0, 2))
        return NULL;
    int flow = count > 0 ? PyObject_IsTrue(given[0]) : 1;
    size_t enough = count > 1 ? PyLong_AsSize_t(given[1]) : (size_t)1 << 17;
    if (flow < 0 || (enough == (size_t)-1 && PyErr_Occurred() != NULL))
        return NULL;
    uint32_t status = library.send(&self->handle, flow != 0, enough);
    if (status != LAPIN_DONE)
        return failed(self, status);
    size_t length = library.leaving_length(&self->handle);
    PyObject *octets = PyBytes_FromStringAndSize(NULL, (Py_ssize_t)length);
    if (octets != NULL && length != 0)
        library.leaving(&self->handle, PyBytes_AsString(octets), length);
    return octets;
}

static PyObject *handle_receive(Handle *self, PyObject *given)
{
    const char *octets;
    size_t length;
    if (is_elsewhere(self) || !as_octets(given, &octets, &length))
        return NULL;
    uint32_t status = library.receive(&self->handle, octets, length);
    if (status == LAPIN_DONE)
        Py_RETURN_NONE;
    if (status == LAPIN_REFUSED)
        return PyObject_CallMethod((PyObject *)self, "refusal", NULL);
    if (status == LAPIN_MALFORMED)
        return PyErr_Format(PyExc_ValueError, "what came is no frame");
    return failed(self, status);
}

static PyObject *handle_by(Handle *self, void *none)
{
    (void)none;
    return PyLong_FromVoidPtr(&self->handle);
}

static void handle_dealloc(Handle *self)
{
    PyTypeObject *type = Py_TYPE(self);
    if (library.close != NULL)
        library.close(&self->handle);
    ((freefunc)PyType_GetSlot(type, Py_tp_free))(self);
    Py_DECREF(type);
}

static void numbered_dealloc(PyObject *self)
{
    PyTypeObject *type = Py_TYPE(self);
    ((freefunc)PyType_GetSlot(type, Py_tp_free))(self);
    Py_DECREF(type);
}

/* ---- the module */

#define METHOD(function) ((PyCFunction)(void (*)(void))(function))

static PyMethodDef handle_methods[] = {
    {"check_thread", METHOD(handle_check_thread), METH_NOARGS,
     "check_thread($self, /)\n--\n\nRaises an error where another thread or process is at work."},
    {"call", METHOD(handle_call), METH_FASTCALL, "call($self, channel, method, /)\n--\n\nMakes the call of a method. What its reply is asked by."},
    {"fields", METHOD(handle_fields), METH_O,
     "fields($self, ticket, /)\n--\n\nThe fields of a call's reply, given once; None where there is none yet."},
    {"publish_as", METHOD(handle_publish_as), METH_METHOD | METH_FASTCALL | METH_KEYWORDS,
     "publish_as($self, confirm, channel, exchange, routing_key, body, properties, mandatory, /)\n--\n\n"
     "Publishes, and stores the number of the confirm."},
    {"outcome", METHOD(handle_outcome), METH_O, "outcome($self, confirm, /)\n--\n\nThe outcome of a publish by its number, given once."},
    {"delivery", METHOD(handle_delivery), METH_O, "delivery($self, consumer, /)\n--\n\nWhat a consumer was handed next."},
    {"settle", METHOD(handle_settle), METH_FASTCALL, "settle($self, call, acker, /, *marks)\n--\n\nCalls an acker. Whether the call is sent."},
    {"send", METHOD(handle_send), METH_FASTCALL, "send($self, flow=True, enough=131072, /)\n--\n\nThe bytes of the frames that may leave."},
    {"receive", METHOD(handle_receive), METH_O, "receive($self, data, /)\n--\n\nTakes bytes of the broker. The words of a refusal."},
    {NULL, NULL, 0, NULL}};

static PyMemberDef handle_members[] = {{"_thread", T_ULONG, offsetof(Handle, thread), 0, "The thread that uses it; 0 in a process that was forked."},
                                       {"is_forked", T_BOOL, offsetof(Handle, is_forked), 0, "Whether this process was forked from its own."},
                                       {"is_astray", T_BOOL, offsetof(Handle, is_astray), 0, "Whether something that it gave couldn't be told."},
                                       {"last", T_ULONGLONG, offsetof(Handle, last), 0, "The number of the last publish that its caller was told."},
                                       {"last_confirm", T_ULONGLONG, offsetof(Handle, last_confirm), READONLY, "That of the last that was accepted."},
                                       {NULL, 0, 0, 0, NULL}};

static PyGetSetDef handle_gets[] = {{"_by", (getter)handle_by, NULL, "The address of the handle.", NULL}, {NULL, NULL, NULL, NULL, NULL}};

static PyType_Slot handle_slots[] = {{Py_tp_doc, "A handle of the library, and the calls that are made for each message."},
                                     {Py_tp_dealloc, handle_dealloc},
                                     {Py_tp_methods, handle_methods},
                                     {Py_tp_members, handle_members},
                                     {Py_tp_getset, handle_gets},
                                     {0, NULL}};
static PyType_Spec handle_spec = {"lapin._lapin.Handle", sizeof(Handle), 0, Py_TPFLAGS_DEFAULT | Py_TPFLAGS_BASETYPE, handle_slots};

static PyMemberDef numbered_members[] = {{"_number", T_ULONGLONG, offsetof(Numbered, number), 0, "The number of its confirm; 0 before."},
                                         {NULL, 0, 0, 0, NULL}};
static PyType_Slot numbered_slots[] = {{Py_tp_doc, "A publish by the number of its confirm."},
                                       {Py_tp_dealloc, numbered_dealloc},
                                       {Py_tp_members, numbered_members},
                                       {0, NULL}};
static PyType_Spec numbered_spec = {"lapin._lapin.Numbered", sizeof(Numbered), 0, Py_TPFLAGS_DEFAULT | Py_TPFLAGS_BASETYPE, numbered_slots};

/* Takes the addresses of the calls, in the order of `NAMES`. There is one shared object in a process: another one is refused. */
static PyObject *bind(PyObject *module, PyObject *const *given, Py_ssize_t count)
{
    static bool is_bound;
    void *found[COUNT];
    (void)module;
    if (!is_count("bind", count, COUNT, COUNT))
        return NULL;
    for (int at = 0; at < COUNT; at++)
        if ((found[at] = PyLong_AsVoidPtr(given[at])) == NULL)
            return PyErr_Occurred() != NULL ? NULL : PyErr_Format(PyExc_ImportError, "lapin_%s has no address", names[at]);
    if (is_bound && memcmp(&library, found, sizeof found) != 0)
        return PyErr_Format(PyExc_ImportError, "the extension stands over another shared object in this process");
    memcpy(&library, found, sizeof found);
    is_bound = true;
    Py_RETURN_NONE;
}

static int add_type(PyObject *module, const char *name, PyType_Spec *spec, PyTypeObject **held)
{
    PyObject *type = PyType_FromModuleAndSpec(module, spec, NULL);
    if (type == NULL)
        return -1;
    int status = PyModule_AddObjectRef(module, name, type);
    if (status == 0 && held != NULL)
        *held = (PyTypeObject *)type;
    else
        Py_DECREF(type);
    return status;
}

static int filled(PyObject *module)
{
    State *state = PyModule_GetState(module);
    PyObject *named = PyTuple_New(COUNT), *sizes = Py_BuildValue("nn", (Py_ssize_t)sizeof(lapin_message), (Py_ssize_t)sizeof(lapin_fields));
    bool is_well = named != NULL && sizes != NULL;
    for (int at = 0; is_well && at < COUNT; at++)
        is_well = put(named, at, PyUnicode_FromString(names[at]));
    is_well = is_well && PyModule_AddObjectRef(module, "NAMES", named) == 0 && PyModule_AddObjectRef(module, "SIZES", sizes) == 0 &&
              add_type(module, "Handle", &handle_spec, NULL) == 0 && add_type(module, "Numbered", &numbered_spec, &state->numbered) == 0;
    Py_XDECREF(named);
    Py_XDECREF(sizes);
    return is_well ? 0 : -1;
}

static int visited(PyObject *module, visitproc visit, void *arg)
{
    State *state = PyModule_GetState(module);
    if (state != NULL)
        Py_VISIT(state->numbered);
    return 0;
}

static int cleared(PyObject *module)
{
    State *state = PyModule_GetState(module);
    if (state != NULL)
        Py_CLEAR(state->numbered);
    return 0;
}

static void freed(void *module)
{
    cleared(module);
}

static PyMethodDef functions[] = {{"bind", METHOD(bind), METH_FASTCALL,
                                   "bind(*addresses)\n--\n\nTakes the addresses of the calls, in the order of NAMES."},
                                  {NULL, NULL, 0, NULL}};
static PyModuleDef_Slot slots[] = {{Py_mod_exec, filled}, {0, NULL}};
static struct PyModuleDef definition = {PyModuleDef_HEAD_INIT, "lapin._lapin", "The session's calls without ctypes.", sizeof(State), functions, slots,
                                        visited,               cleared,        freed};

PyMODINIT_FUNC PyInit__lapin(void)
{
    return PyModuleDef_Init(&definition);
}
