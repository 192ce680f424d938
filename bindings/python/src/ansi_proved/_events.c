/* Makes the events of event.py: Reader, an iterator over the events of an iterator of pieces, each of which is bytes. And the
 * text of a short str: Whole.
 *
 * They are given the addresses of the library's functions, and the classes and events of event.py; this is not linked with the
 * library. An event is made when it is asked for. Where an error comes, or the end, nothing more comes. */
#define Py_LIMITED_API 0x03080000
#define PY_SSIZE_T_CLEAN
#include <Python.h>

#include <stdint.h>
#include <string.h>

#include "ansi_events.h"

/* As in event.py: bytes that one call is given at most, and records and bytes of room that it writes at most. */
#define MOST 16384
#define EVENTS 4096
#define ROOM 65536

/* Bytes from which on a call leaves the interpreter to other threads while it runs. */
#define LONG 2048

#define KINDS (ANSI_EVENTS_ESC + 1)
#define BYTES 256

/* ISO C converts between functions and numbers, but not between functions and objects. */
#define AS_OBJECT(function) ((void *)(uintptr_t)(function))

typedef bool feed_function(ansi_events *, const unsigned char *, size_t, ansi_event *, size_t, unsigned char *, size_t,
                           size_t *, size_t *, size_t *);

typedef struct {
    PyObject_HEAD
    PyObject *pieces; /* the iterator, or NULL where all is read */
    PyObject *piece;  /* the bytes that are read, or NULL */
    PyObject *made;   /* by kind: a class; the events of each byte, of EXECUTE and PUT; the event, of UNHOOK */
    feed_function *feed;
    const unsigned char *bytes; /* what is left of the piece */
    size_t count;
    size_t most; /* bytes that the room is for */
    ansi_event *events;
    unsigned char *room;
    size_t next; /* of the records that are written, the one that is read next */
    size_t written;
    bool is_running; /* from here Python code and other threads may run, which may ask for an event */
    unsigned long runner; /* the thread that does */
    size_t waiting;       /* how many others wait for their turn */
    PyThread_type_lock turn; /* what they wait for, or NULL where none ever did */
    ansi_events state;
} Reader;

static size_t smaller(size_t one, size_t other)
{
    return one < other ? one : other;
}

/* ------------------------------------------------------------------ the parts of an event */

/* Puts an item, which is given away, into a tuple that is made. Answers false where the item could not be made. */
static bool is_put(PyObject *tuple, Py_ssize_t at, PyObject *item)
{
    return item != NULL && PyTuple_SetItem(tuple, at, item) == 0;
}

/* The tuple where it is whole, or NULL, and then it is let go. */
static PyObject *whole(PyObject *tuple, bool is_whole)
{
    if (!is_whole) {
        Py_DECREF(tuple);
        return NULL;
    }
    return tuple;
}

/* How many fields the first group has. */
static Py_ssize_t fields_of_group(const unsigned char *fields)
{
    Py_ssize_t count = 1;

    while (fields[ANSI_EVENTS_FIELD * count - 1] != 0)
        count++;
    return count;
}

/* How many groups there are: as many as fields behind which none of the same group comes. */
static Py_ssize_t groups_in(const unsigned char *fields, size_t length)
{
    Py_ssize_t count = 0;
    size_t at;

    for (at = ANSI_EVENTS_FIELD; at <= length; at += ANSI_EVENTS_FIELD)
        count += fields[at - 1] == 0;
    return count;
}

static PyObject *group_of(const unsigned char *fields, Py_ssize_t count)
{
    PyObject *group = PyTuple_New(count);
    bool is_whole = true;
    Py_ssize_t at;

    for (at = 0; group != NULL && is_whole && at < count; at++, fields += ANSI_EVENTS_FIELD)
        is_whole = is_put(group, at, PyLong_FromLong(fields[0] + 256L * fields[1]));
    return group == NULL ? NULL : whole(group, is_whole);
}

static PyObject *groups_of(const unsigned char *fields, size_t length)
{
    Py_ssize_t count = groups_in(fields, length), at, of_group;
    PyObject *groups = PyTuple_New(count);
    bool is_whole = true;

    for (at = 0; groups != NULL && is_whole && at < count; at++, fields += ANSI_EVENTS_FIELD * of_group) {
        of_group = fields_of_group(fields);
        is_whole = is_put(groups, at, group_of(fields, of_group));
    }
    return groups == NULL ? NULL : whole(groups, is_whole);
}

static Py_ssize_t parts_in(const unsigned char *bytes, size_t length)
{
    Py_ssize_t count = 1;
    size_t at;

    for (at = 0; at < length; at++)
        count += bytes[at] == ';';
    return count;
}

/* The bytes between the `;`. */
static PyObject *parts_of(const unsigned char *bytes, size_t length)
{
    Py_ssize_t count = parts_in(bytes, length), at;
    PyObject *parts = PyTuple_New(count);
    const unsigned char *end = bytes + length, *found;
    bool is_whole = true;

    for (at = 0; parts != NULL && is_whole && at < count; at++) {
        found = at + 1 < count ? memchr(bytes, ';', (size_t)(end - bytes)) : end;
        is_whole = is_put(parts, at, PyBytes_FromStringAndSize((const char *)bytes, found - bytes));
        bytes = found < end ? found + 1 : end;
    }
    return parts == NULL ? NULL : whole(parts, is_whole);
}

/* ------------------------------------------------------------------ an event */

/* An event of a class, with nothing in it. */
static PyObject *new_event(PyObject *class, Py_ssize_t fields)
{
    allocfunc alloc = (allocfunc)(uintptr_t)PyType_GetSlot((PyTypeObject *)class, Py_tp_alloc);

    return alloc((PyTypeObject *)class, fields);
}

static PyObject *text_event(PyObject *class, const unsigned char *bytes, size_t length)
{
    PyObject *text = PyUnicode_DecodeUTF8((const char *)bytes, (Py_ssize_t)length, NULL);
    PyObject *event = text == NULL ? NULL : new_event(class, 1);

    if (event == NULL) {
        Py_XDECREF(text);
        return NULL;
    }
    return whole(event, is_put(event, 0, text));
}

static PyObject *osc_event(PyObject *class, const unsigned char *bytes, const ansi_event *record)
{
    PyObject *event = new_event(class, 2);

    if (event == NULL)
        return NULL;
    return whole(event, is_put(event, 0, parts_of(bytes, record->length)) &&
                            is_put(event, 1, PyBool_FromLong(record->flag)));
}

/* Puts what an escape sequence has, and the others have behind their groups. */
static bool is_ended(PyObject *event, Py_ssize_t at, const ansi_event *record)
{
    const char *intermediates = (const char *)record->intermediates;

    return is_put(event, at, PyUnicode_DecodeLatin1(intermediates, record->intermediate_count, NULL)) &&
           is_put(event, at + 1, PyBool_FromLong(record->flag)) &&
           is_put(event, at + 2, PyUnicode_FromOrdinal(record->byte));
}

static PyObject *escape_event(PyObject *class, const ansi_event *record)
{
    PyObject *event = new_event(class, 3);

    return event == NULL ? NULL : whole(event, is_ended(event, 0, record));
}

static PyObject *sequence_event(PyObject *class, const unsigned char *fields, const ansi_event *record)
{
    PyObject *event = new_event(class, 4);

    if (event == NULL)
        return NULL;
    return whole(event, is_put(event, 0, groups_of(fields, record->length)) && is_ended(event, 1, record));
}

/* The event of a byte, which is there already. */
static PyObject *event_of_byte(PyObject *events, size_t byte)
{
    PyObject *event = PyTuple_GetItem(events, (Py_ssize_t)byte);

    Py_XINCREF(event);
    return event;
}

static PyObject *event_of(Reader *reader, const ansi_event *record)
{
    PyObject *made = PyTuple_GetItem(reader->made, record->kind); /* (NULL, with an error, of an unknown kind) */
    const unsigned char *bytes = reader->room + record->start;

    if (made == NULL)
        return NULL;
    switch (record->kind) {
    case ANSI_EVENTS_TEXT:
        return text_event(made, bytes, record->length);
    case ANSI_EVENTS_EXECUTE:
    case ANSI_EVENTS_PUT:
        return event_of_byte(made, record->byte);
    case ANSI_EVENTS_UNHOOK:
        Py_INCREF(made);
        return made;
    case ANSI_EVENTS_OSC:
        return osc_event(made, bytes, record);
    case ANSI_EVENTS_ESC:
        return escape_event(made, record);
    default:
        return sequence_event(made, bytes, record);
    }
}

/* ------------------------------------------------------------------ the iterator */

/* Lets go of what is left to read, and of the memory for it. */
static void finish(Reader *reader)
{
    ansi_event *events = reader->events;
    unsigned char *room = reader->room;

    reader->events = NULL;
    reader->room = NULL;
    reader->count = reader->next = reader->written = reader->most = 0;
    PyMem_Free(events);
    PyMem_Free(room);
    Py_CLEAR(reader->piece);
    Py_CLEAR(reader->pieces);
}

/* Makes room for the events of so many bytes, or for what one call writes at most; all that was there is read. */
static bool has_room(Reader *reader, size_t most)
{
    size_t count = smaller(ANSI_EVENTS_EVENTS(most), EVENTS), size = smaller(ANSI_EVENTS_ROOM(most), ROOM);

    if (most <= reader->most)
        return true;
    PyMem_Free(reader->events);
    PyMem_Free(reader->room);
    reader->most = most;
    reader->events = PyMem_Malloc(count * sizeof *reader->events);
    reader->room = PyMem_Malloc(size);
    if (reader->events == NULL || reader->room == NULL)
        PyErr_NoMemory();
    return reader->events != NULL && reader->room != NULL;
}

/* Takes a piece, which is given away, to be read next. Answers false where it is no bytes, or memory is wanting. */
static bool is_taken(Reader *reader, PyObject *piece)
{
    PyObject *old = reader->piece;
    Py_ssize_t count;
    char *bytes;

    reader->piece = piece;
    Py_XDECREF(old);
    if (PyBytes_AsStringAndSize(piece, &bytes, &count) != 0)
        return false;
    reader->bytes = (const unsigned char *)bytes;
    reader->count = (size_t)count;
    return has_room(reader, smaller(reader->count, MOST));
}

/* Takes the next piece. Answers false where there is none, or an error. */
static bool has_piece(Reader *reader)
{
    PyObject *piece = reader->pieces == NULL ? NULL : PyIter_Next(reader->pieces);

    return piece != NULL && is_taken(reader, piece);
}

/* Calls the library with what is left of the piece. */
static bool is_fed(Reader *reader)
{
    size_t taken, used, count = smaller(ANSI_EVENTS_EVENTS(reader->most), EVENTS);
    size_t size = smaller(ANSI_EVENTS_ROOM(reader->most), ROOM);
    PyThreadState *left = NULL;
    bool is_well;

    if (PyErr_CheckSignals() != 0)
        return false;
    reader->next = reader->written = 0;
    if (reader->count >= LONG)
        left = PyEval_SaveThread();
    is_well = reader->feed(&reader->state, reader->bytes, smaller(reader->count, MOST), reader->events, count, reader->room,
                           size, &taken, &reader->written, &used);
    if (left != NULL)
        PyEval_RestoreThread(left);
    if (!is_well) {
        PyErr_SetString(PyExc_RuntimeError, "the library asks for more room than this version of the package gives");
        return false;
    }
    reader->bytes += taken;
    reader->count -= taken;
    return true;
}

/* Whether a record is there to be read; where none is left, of the bytes that come next. */
static bool has_record(Reader *reader)
{
    bool goes_on = true;

    while (goes_on && reader->next == reader->written)
        goes_on = reader->count > 0 ? is_fed(reader) : has_piece(reader);
    return goes_on;
}

/* A lock that is held, so that the next to take it waits until it is released. */
static PyThread_type_lock held_lock(void)
{
    PyThread_type_lock lock = PyThread_allocate_lock();

    if (lock == NULL)
        PyErr_NoMemory();
    else
        PyThread_acquire_lock(lock, NOWAIT_LOCK);
    return lock;
}

/* Waits until no other thread is at work. Answers false where a signal leads to an error. What is released once too often wakes
 * one that looks again; what is awaited is released at the end of each turn. */
static bool is_awaited(Reader *reader)
{
    bool is_well = reader->turn != NULL || (reader->turn = held_lock()) != NULL;
    PyLockStatus status;

    reader->waiting++;
    while (is_well && reader->is_running) {
        Py_BEGIN_ALLOW_THREADS
        status = PyThread_acquire_lock_timed(reader->turn, -1, 1);
        Py_END_ALLOW_THREADS
        is_well = status == PY_LOCK_ACQUIRED || PyErr_CheckSignals() == 0;
    }
    reader->waiting--;
    return is_well;
}

/* Whether it is this thread's turn: after another thread's, but not within its own. */
static bool has_turn(Reader *reader)
{
    unsigned long thread = PyThread_get_thread_ident();

    if (reader->is_running && reader->runner == thread) {
        PyErr_SetString(PyExc_ValueError, "events already executing");
        return false;
    }
    if (reader->is_running && !is_awaited(reader))
        return false;
    reader->is_running = true;
    reader->runner = thread;
    return true;
}

/* The next event where it is one of a byte, which is there already, or NULL: it takes no turn, since meanwhile nothing else
 * runs. */
static PyObject *ready_event(Reader *reader)
{
    const ansi_event *record;

    if (reader->is_running || reader->next == reader->written)
        return NULL;
    record = &reader->events[reader->next];
    if (record->kind != ANSI_EVENTS_PUT && record->kind != ANSI_EVENTS_EXECUTE)
        return NULL;
    reader->next++;
    return event_of_byte(PyTuple_GetItem(reader->made, record->kind), record->byte);
}

/* Its turn is over. */
static void end_turn(Reader *reader)
{
    reader->is_running = false;
    if (reader->waiting > 0)
        PyThread_release_lock(reader->turn);
}

static PyObject *reader_next(PyObject *self)
{
    Reader *reader = (Reader *)self;
    PyObject *event = ready_event(reader);

    if (event != NULL || !has_turn(reader))
        return event;
    if (has_record(reader))
        event = event_of(reader, &reader->events[reader->next++]);
    if (event == NULL)
        finish(reader);
    end_turn(reader);
    return event;
}

/* The events of what was taken, as a list, or NULL. */
static PyObject *all_events(Reader *reader)
{
    PyObject *events = PyList_New(0), *event;
    bool is_well = events != NULL;

    while (is_well && has_record(reader)) {
        event = event_of(reader, &reader->events[reader->next++]);
        is_well = event != NULL && PyList_Append(events, event) == 0;
        Py_XDECREF(event);
    }
    if (PyErr_Occurred())
        Py_CLEAR(events);
    return events;
}

/* The events of the piece that comes next, where pieces are given one by one and the iterator has none. */
static PyObject *reader_feed(PyObject *self, PyObject *piece)
{
    Reader *reader = (Reader *)self;
    PyObject *events = NULL;

    if (!has_turn(reader))
        return NULL;
    Py_INCREF(piece);
    if (is_taken(reader, piece))
        events = all_events(reader);
    if (events == NULL)
        reader->count = reader->next = reader->written = 0;
    end_turn(reader);
    return events;
}

static int reader_traverse(PyObject *self, visitproc visit, void *arg)
{
    Reader *reader = (Reader *)self;

    Py_VISIT(Py_TYPE(self));
    Py_VISIT(reader->pieces);
    Py_VISIT(reader->piece);
    Py_VISIT(reader->made);
    return 0;
}

static int reader_clear(PyObject *self)
{
    finish((Reader *)self);
    Py_CLEAR(((Reader *)self)->made);
    return 0;
}

static void reader_dealloc(PyObject *self)
{
    PyTypeObject *type = Py_TYPE(self);
    freefunc release = (freefunc)(uintptr_t)PyType_GetSlot(type, Py_tp_free);

    PyObject_GC_UnTrack(self);
    reader_clear(self);
    if (((Reader *)self)->turn != NULL)
        PyThread_free_lock(((Reader *)self)->turn);
    release(self);
    Py_DECREF(type);
}

/* Whether an item is what events of this kind are made of. */
static bool is_made(PyObject *item, int kind)
{
    if (kind == ANSI_EVENTS_EXECUTE || kind == ANSI_EVENTS_PUT)
        return PyTuple_Check(item) && PyTuple_Size(item) == BYTES;
    return kind == ANSI_EVENTS_UNHOOK ||
           (PyType_Check(item) && PyType_IsSubtype((PyTypeObject *)item, &PyTuple_Type));
}

/* Whether there is an item for each kind. */
static bool are_made(PyObject *made)
{
    bool are = PyTuple_Size(made) == KINDS;
    int kind;

    for (kind = 0; are && kind < KINDS; kind++)
        are = is_made(PyTuple_GetItem(made, kind), kind);
    return are;
}

static PyObject *reader_new(PyTypeObject *type, PyObject *words, PyObject *named)
{
    allocfunc alloc = (allocfunc)(uintptr_t)PyType_GetSlot(type, Py_tp_alloc);
    PyObject *pieces, *address, *made;
    Reader *reader;
    void *feed;

    if (named != NULL || !PyArg_ParseTuple(words, "OO!O!", &pieces, &PyLong_Type, &address, &PyTuple_Type, &made) ||
        !PyIter_Check(pieces) || !are_made(made) || (feed = PyLong_AsVoidPtr(address)) == NULL) {
        if (!PyErr_Occurred())
            PyErr_SetString(PyExc_TypeError, "an iterator, an address, and what events are made of");
        return NULL;
    }
    reader = (Reader *)alloc(type, 0); /* (all zero bytes, and so the state begins a stream) */
    if (reader == NULL)
        return NULL;
    reader->feed = (feed_function *)(uintptr_t)feed;
    Py_INCREF(pieces);
    Py_INCREF(made);
    reader->pieces = pieces;
    reader->made = made;
    return (PyObject *)reader;
}

/* ------------------------------------------------------------------ short wholes */

typedef bool convert_function(void *, const unsigned char *, size_t, unsigned char *, size_t, size_t *, size_t *);
typedef bool end_function(void *, unsigned char *, size_t, size_t *);

/* What a str or bytes of few bytes go through, a stream each. The interpreter is this thread's for a whole call: no other call
 * uses the state or the room. */
typedef struct {
    PyObject_HEAD
    PyObject *begin; /* the bytes of a state that begins a stream */
    PyObject *plain; /* for each byte, not 0 where a whole of such bytes alone is its own text */
    convert_function *feed;
    end_function *end;
    Py_ssize_t few;   /* the bytes that a whole has at most */
    Py_ssize_t size;  /* of the room, for what they lead to */
    Py_ssize_t after; /* and for what comes at the end */
    unsigned char *state;
    unsigned char *room;
} Whole;

static void begin_stream(Whole *whole)
{
    memcpy(whole->state, PyBytes_AsString(whole->begin), (size_t)PyBytes_Size(whole->begin));
}

/* Reads a whole, and answers whether there was room for what it leads to. After its end the next one begins. */
static bool is_read(Whole *whole, PyObject *bytes, size_t *written)
{
    size_t count = (size_t)PyBytes_Size(bytes), taken, more;

    if (whole->feed(whole->state, (const unsigned char *)PyBytes_AsString(bytes), count, whole->room, (size_t)whole->size, &taken, written) &&
        taken == count && whole->end(whole->state, whole->room + *written, (size_t)whole->after, &more)) {
        *written += more;
        return true;
    }
    begin_stream(whole);
    return false;
}

/* Whether a whole is its own text, so that it need not be read. */
static bool is_plain(Whole *whole, PyObject *bytes)
{
    const unsigned char *at = (const unsigned char *)PyBytes_AsString(bytes), *end = at + PyBytes_Size(bytes);
    const char *plain = PyBytes_AsString(whole->plain);

    while (at < end && plain[*at] != 0)
        at++;
    return at == end;
}

/* The text, as what was given: it itself where nothing is another. */
static PyObject *text_as(Whole *whole, PyObject *given, PyObject *bytes, size_t count)
{
    const char *made = (const char *)whole->room;

    if (count == (size_t)PyBytes_Size(bytes) && memcmp(made, PyBytes_AsString(bytes), count) == 0) {
        Py_INCREF(given);
        return given;
    }
    if (PyUnicode_Check(given))
        return PyUnicode_DecodeUTF8(made, (Py_ssize_t)count, NULL);
    return PyBytes_FromStringAndSize(made, (Py_ssize_t)count);
}

/* The bytes of a str or of bytes where these are no type of their own and not too long, as a reference; or NULL, as where a str
 * has surrogates. */
static PyObject *few_bytes(Whole *whole, PyObject *given)
{
    PyObject *bytes = NULL;

    if (PyBytes_CheckExact(given)) {
        Py_INCREF(given);
        return given;
    }
    if (PyUnicode_CheckExact(given) && PyUnicode_GetLength(given) <= whole->few) {
        bytes = PyUnicode_AsUTF8String(given);
        if (bytes == NULL && PyErr_ExceptionMatches(PyExc_UnicodeEncodeError))
            PyErr_Clear();
    }
    return bytes;
}

/* The text of a whole, or None where it has to be made otherwise. */
static PyObject *whole_text(PyObject *self, PyObject *given)
{
    Whole *whole = (Whole *)self;
    PyObject *bytes = few_bytes(whole, given), *text = Py_None;
    size_t written;

    if (bytes == NULL && PyErr_Occurred())
        return NULL;
    if (bytes != NULL && is_plain(whole, bytes))
        text = given;
    if (text == given || bytes == NULL || PyBytes_Size(bytes) > whole->few || !is_read(whole, bytes, &written))
        Py_INCREF(text);
    else
        text = text_as(whole, given, bytes, written);
    Py_XDECREF(bytes);
    return text;
}

static void whole_dealloc(PyObject *self)
{
    PyTypeObject *type = Py_TYPE(self);
    freefunc release = (freefunc)(uintptr_t)PyType_GetSlot(type, Py_tp_free);
    Whole *whole = (Whole *)self;

    Py_XDECREF(whole->begin);
    Py_XDECREF(whole->plain);
    PyMem_Free(whole->state);
    PyMem_Free(whole->room);
    release(self);
    Py_DECREF(type);
}

/* Gives it its memory. */
static PyObject *whole_begun(Whole *whole, PyObject *begin, PyObject *plain)
{
    Py_INCREF(begin);
    Py_INCREF(plain);
    whole->begin = begin;
    whole->plain = plain;
    whole->state = PyMem_Malloc((size_t)PyBytes_Size(begin));
    whole->room = PyMem_Malloc((size_t)(whole->size + whole->after));
    if (whole->state == NULL || whole->room == NULL) {
        Py_DECREF((PyObject *)whole);
        return PyErr_NoMemory();
    }
    begin_stream(whole);
    return (PyObject *)whole;
}

static PyObject *whole_new(PyTypeObject *type, PyObject *words, PyObject *named)
{
    allocfunc alloc = (allocfunc)(uintptr_t)PyType_GetSlot(type, Py_tp_alloc);
    PyObject *feed, *end, *begin, *plain;
    Py_ssize_t few, size, after;
    Whole *whole;

    if (named != NULL || !PyArg_ParseTuple(words, "O!O!O!O!nnn", &PyLong_Type, &feed, &PyLong_Type, &end, &PyBytes_Type, &begin,
                                           &PyBytes_Type, &plain, &few, &size, &after) ||
        PyLong_AsVoidPtr(feed) == NULL || PyLong_AsVoidPtr(end) == NULL || PyBytes_Size(plain) != BYTES || few < 0 ||
        size < 0 || after < 0) {
        if (!PyErr_Occurred())
            PyErr_SetString(PyExc_TypeError, "two addresses, a state that begins a stream, what is plain, and three numbers");
        return NULL;
    }
    whole = (Whole *)alloc(type, 0);
    if (whole == NULL)
        return NULL;
    whole->feed = (convert_function *)(uintptr_t)PyLong_AsVoidPtr(feed);
    whole->end = (end_function *)(uintptr_t)PyLong_AsVoidPtr(end);
    whole->few = few;
    whole->size = size;
    whole->after = after;
    return whole_begun(whole, begin, plain);
}

static PyMethodDef whole_methods[] = {
    {"of", whole_text, METH_O, NULL},
    {NULL, NULL, 0, NULL},
};

static PyType_Slot whole_slots[] = {
    {Py_tp_new, AS_OBJECT(whole_new)},
    {Py_tp_dealloc, AS_OBJECT(whole_dealloc)},
    {Py_tp_methods, whole_methods},
    {0, NULL},
};

static PyType_Spec whole_spec = {"ansi_proved._events.Whole", sizeof(Whole), 0, Py_TPFLAGS_DEFAULT, whole_slots};

/* ------------------------------------------------------------------ the module */

static PyMethodDef reader_methods[] = {{"feed", reader_feed, METH_O, NULL}, {NULL, NULL, 0, NULL}};

static PyType_Slot slots[] = {
    {Py_tp_new, AS_OBJECT(reader_new)},           {Py_tp_dealloc, AS_OBJECT(reader_dealloc)},
    {Py_tp_traverse, AS_OBJECT(reader_traverse)}, {Py_tp_clear, AS_OBJECT(reader_clear)},
    {Py_tp_iter, AS_OBJECT(PyObject_SelfIter)},   {Py_tp_iternext, AS_OBJECT(reader_next)},
    {Py_tp_methods, reader_methods},              {0, NULL},
};

static PyType_Spec reader_spec = {"ansi_proved._events.Reader", sizeof(Reader), 0,
                                  Py_TPFLAGS_DEFAULT | Py_TPFLAGS_HAVE_GC, slots};

static int add_type(PyObject *module, const char *name, PyType_Spec *spec)
{
    PyObject *type = PyType_FromSpec(spec);

    if (type == NULL || PyModule_AddObject(module, name, type) != 0) {
        Py_XDECREF(type);
        return -1;
    }
    return 0;
}

static int add_types(PyObject *module)
{
    return add_type(module, "Reader", &reader_spec) != 0 ? -1 : add_type(module, "Whole", &whole_spec);
}

static PyModuleDef_Slot module_slots[] = {{Py_mod_exec, AS_OBJECT(add_types)}, {0, NULL}};

static PyModuleDef module = {PyModuleDef_HEAD_INIT, "_events", NULL, 0, NULL, module_slots, NULL, NULL, NULL};

PyMODINIT_FUNC PyInit__events(void)
{
    return PyModuleDef_Init(&module);
}
