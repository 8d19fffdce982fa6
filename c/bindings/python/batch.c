/*
 * tcpcore._batch: the calls that move text and segments, made from Python by C and not by ctypes, and turns of many segments in one call.
 * It has no library of its own: `bind` takes the addresses of the calls that ctypes has found, and what a call's answer is in Python. An
 * end is the address of its struct. Only tcpcore.py uses it, which makes the same calls by ctypes where it is missing. It uses the
 * stable ABI of Python 3.9.
 */
#define PY_SSIZE_T_CLEAN
#define Py_LIMITED_API 0x03090000
#include <Python.h>

#include "tcpcore.h"

#include <string.h>

enum { KNOWN = 64 };

static uint32_t (*send_call)(tcpcore_end *, const void *, size_t, size_t *);
static uint32_t (*receive_call)(tcpcore_end *, void *, size_t, size_t *);
static uint32_t (*emit_call)(tcpcore_end *, void *, size_t, tcpcore_addr *, size_t *);
static uint32_t (*arrive_call)(tcpcore_end *, tcpcore_addr, tcpcore_addr, const void *, size_t, uint32_t *);
/* Answers by their numbers; the class of them; the fault of a refusal; and the bytes of a buffer, and of an address. */
static PyObject *answers, *answer_class, *refused, *octets, *packed;

/* Argument `at`, of those that the caller has counted. */
static PyObject *argument(PyObject *arguments, Py_ssize_t at) { return PyTuple_GetItem(arguments, at); }

static int has(PyObject *arguments, Py_ssize_t count)
{
    if (send_call && PyTuple_Size(arguments) == count)
        return 1;
    PyErr_Format(PyExc_TypeError, "%zd arguments are wanted, behind bind", count);
    return 0;
}

static void *pointer(PyObject *number) { return PyLong_AsVoidPtr(number); }

static PyObject *refusal(uint32_t answer)
{
    PyObject *fault = PyObject_CallFunction(refused, "k", (unsigned long)answer);
    if (fault) {
        PyErr_SetObject(refused, fault);
        Py_DECREF(fault);
    }
    return NULL;
}

/* The answer as Python has it; a fault where it says that the call wasn't made. */
static PyObject *arrival(uint32_t answer)
{
    if (answer >= TCPCORE_NO_END && answer < TCPCORE_NOTHING)
        return refusal(answer);
    PyObject *found = answer < KNOWN ? PyTuple_GetItem(answers, (Py_ssize_t)answer) : Py_None;
    if (found == Py_None)
        return PyObject_CallFunction(answer_class, "k", (unsigned long)answer);
    Py_XINCREF(found);
    return found;
}

/* A new reference to the bytes of a buffer. */
static PyObject *bytes_of(PyObject *buffer)
{
    if (PyBytes_CheckExact(buffer)) {
        Py_INCREF(buffer);
        return buffer;
    }
    return PyObject_CallFunctionObjArgs(octets, buffer, NULL);
}

static int take_addr(PyObject *found, tcpcore_addr *addr)
{
    PyObject *bytes = NULL;
    if (!PyBytes_CheckExact(found) || PyBytes_Size(found) != (Py_ssize_t)sizeof *addr) {
        bytes = PyObject_CallFunctionObjArgs(packed, found, NULL);
        if (!bytes)
            return 0;
        found = bytes;
    }
    memcpy(addr, PyBytes_AsString(found), sizeof *addr);
    Py_XDECREF(bytes);
    return 1;
}

static PyObject *bind(PyObject *self, PyObject *arguments)
{
    PyObject *calls[4], *kept[5];
    (void)self;
    if (!PyArg_ParseTuple(arguments, "OOOOOOOOO", &calls[0], &calls[1], &calls[2], &calls[3], &kept[0], &kept[1], &kept[2], &kept[3],
                          &kept[4]))
        return NULL;
    PyObject **keeps[5] = {&answers, &answer_class, &refused, &octets, &packed};
    void *found[4];
    for (int i = 0; i < 4; i++)
        if (!(found[i] = pointer(calls[i]))) {
            if (!PyErr_Occurred())
                PyErr_SetString(PyExc_ValueError, "a call has no address");
            return NULL;
        }
    if (!PyTuple_Check(kept[0]) || PyTuple_Size(kept[0]) != KNOWN) {
        PyErr_SetString(PyExc_ValueError, "the answers are a tuple of 64");
        return NULL;
    }
    for (int i = 0; i < 5; i++) {
        Py_INCREF(kept[i]);
        Py_XDECREF(*keeps[i]);
        *keeps[i] = kept[i];
    }
    /* ISO C has no conversion from an object's address to a function's; POSIX has. */
    memcpy(&receive_call, &found[1], sizeof receive_call);
    memcpy(&emit_call, &found[2], sizeof emit_call);
    memcpy(&arrive_call, &found[3], sizeof arrive_call);
    memcpy(&send_call, &found[0], sizeof send_call);
    Py_RETURN_NONE;
}

/* send(end, text): how many bytes were taken. */
static PyObject *send_text(PyObject *self, PyObject *arguments)
{
    (void)self;
    PyObject *text;
    size_t taken;
    if (!has(arguments, 2) || !(text = bytes_of(argument(arguments, 1))))
        return NULL;
    uint32_t answer = send_call(pointer(argument(arguments, 0)), PyBytes_AsString(text), (size_t)PyBytes_Size(text), &taken);
    Py_DECREF(text);
    return answer == TCPCORE_DONE ? PyLong_FromSize_t(taken) : refusal(answer);
}

/* receive(end, buffer, room): bytes, b"" at the end of the stream, None where there is nothing yet. */
static PyObject *receive_text(PyObject *self, PyObject *arguments)
{
    (void)self;
    if (!has(arguments, 3))
        return NULL;
    size_t count;
    char *buffer = pointer(argument(arguments, 1));
    uint32_t answer = receive_call(pointer(argument(arguments, 0)), buffer, PyLong_AsSize_t(argument(arguments, 2)), &count);
    if (answer == TCPCORE_NOTHING)
        Py_RETURN_NONE;
    if (answer == TCPCORE_END_OF_STREAM)
        count = 0;
    else if (answer != TCPCORE_DONE)
        return refusal(answer);
    return PyBytes_FromStringAndSize(buffer, (Py_ssize_t)count);
}

/* The address and the bytes of the segment that is due, None where none is. `last` has the address of the segment before, or NULL. */
static PyObject *emit_next(tcpcore_end *end, PyObject **last)
{
    char room[TCPCORE_EMIT_ROOM];
    tcpcore_addr to;
    size_t length;
    uint32_t answer = emit_call(end, room, sizeof room, &to, &length);
    if (answer == TCPCORE_NOT_DUE)
        Py_RETURN_NONE;
    if (answer != TCPCORE_DONE)
        return refusal(answer);
    if (!*last || memcmp(PyBytes_AsString(*last), &to, sizeof to) != 0) {
        Py_XDECREF(*last);
        if (!(*last = PyBytes_FromStringAndSize((const char *)&to, sizeof to)))
            return NULL;
    }
    PyObject *segment = PyBytes_FromStringAndSize(room, (Py_ssize_t)length);
    PyObject *both = segment ? PyTuple_Pack(2, *last, segment) : NULL;
    Py_XDECREF(segment);
    return both;
}

/* emit(end): the address and the bytes of a segment, or None. */
static PyObject *emit_one(PyObject *self, PyObject *arguments)
{
    (void)self;
    PyObject *last = NULL;
    if (!has(arguments, 1))
        return NULL;
    PyObject *found = emit_next(pointer(argument(arguments, 0)), &last);
    Py_XDECREF(last);
    return found;
}

/* Emits until nothing is due. */
static int emit_until_none(tcpcore_end *end, PyObject *out, PyObject **last)
{
    for (;;) {
        PyObject *found = emit_next(end, last);
        if (!found)
            return 0;
        int none = found == Py_None, added = none || PyList_Append(out, found) == 0;
        Py_DECREF(found);
        if (none || !added)
            return added;
    }
}

/* emit_all(end): a list of what emit gives until nothing is due. */
static PyObject *emit_all(PyObject *self, PyObject *arguments)
{
    (void)self;
    PyObject *last = NULL, *out = has(arguments, 1) ? PyList_New(0) : NULL;
    if (out && !emit_until_none(pointer(argument(arguments, 0)), out, &last))
        Py_CLEAR(out);
    Py_XDECREF(last);
    return out;
}

/* arrive(end, src, dst, segment): the answer, and whether the segment has to be answered at once. */
static PyObject *arrive_one(PyObject *self, PyObject *arguments)
{
    (void)self;
    tcpcore_addr src, dst;
    PyObject *segment;
    uint32_t at_once;
    if (!has(arguments, 4) || !take_addr(argument(arguments, 1), &src) || !take_addr(argument(arguments, 2), &dst) ||
        !(segment = bytes_of(argument(arguments, 3))))
        return NULL;
    tcpcore_end *end = pointer(argument(arguments, 0));
    PyObject *answer = arrival(arrive_call(end, src, dst, PyBytes_AsString(segment), (size_t)PyBytes_Size(segment), &at_once));
    PyObject *both = answer ? PyTuple_Pack(2, answer, at_once ? Py_True : Py_False) : NULL;
    Py_XDECREF(answer);
    Py_DECREF(segment);
    return both;
}

/* A tuple of the bytes of each buffer: all are found before any arrives. */
static PyObject *all_bytes(PyObject *buffers)
{
    PyObject *found = PySequence_Tuple(buffers);
    Py_ssize_t count = found ? PyTuple_Size(found) : 0, at = 0;
    while (at < count && PyBytes_CheckExact(PyTuple_GetItem(found, at)))
        at++;
    if (at == count)
        return found;
    PyObject *converted = PyTuple_New(count);
    for (at = 0; converted && at < count; at++) {
        PyObject *bytes = bytes_of(PyTuple_GetItem(found, at));
        if (!bytes || PyTuple_SetItem(converted, at, bytes) != 0)
            Py_CLEAR(converted);
    }
    Py_DECREF(found);
    return converted;
}

/* Hands in each segment; with `out` it emits behind each that has to be answered at once, and behind the last one. A list of answers;
   without `out` of each answer and whether the segment has to be answered at once. */
static PyObject *hand_in(tcpcore_end *end, tcpcore_addr src, tcpcore_addr dst, PyObject *segments, PyObject *out)
{
    Py_ssize_t count = PyTuple_Size(segments);
    PyObject *told = PyList_New(count), *last = NULL;
    int is_fine = told && (!out || count > 0 || emit_until_none(end, out, &last));
    for (Py_ssize_t at = 0; is_fine && at < count; at++) {
        PyObject *segment = PyTuple_GetItem(segments, at);
        uint32_t at_once;
        PyObject *answer = arrival(arrive_call(end, src, dst, PyBytes_AsString(segment), (size_t)PyBytes_Size(segment), &at_once));
        if (answer && !out) {
            PyObject *both = PyTuple_Pack(2, answer, at_once ? Py_True : Py_False);
            Py_DECREF(answer);
            answer = both;
        }
        is_fine = answer && PyList_SetItem(told, at, answer) == 0;
        if (is_fine && out && (at_once || at + 1 == count))
            is_fine = emit_until_none(end, out, &last);
    }
    Py_XDECREF(last);
    if (!is_fine)
        Py_CLEAR(told);
    return told;
}

/* arrive_all(end, src, dst, segments) and turn(..). */
static PyObject *arrivals(PyObject *arguments, PyObject *out)
{
    tcpcore_addr src, dst;
    PyObject *segments;
    if (!has(arguments, 4) || !take_addr(argument(arguments, 1), &src) || !take_addr(argument(arguments, 2), &dst) ||
        !(segments = all_bytes(argument(arguments, 3))))
        return NULL;
    PyObject *told = hand_in(pointer(argument(arguments, 0)), src, dst, segments, out);
    Py_DECREF(segments);
    return told;
}

static PyObject *arrive_all(PyObject *self, PyObject *arguments)
{
    (void)self;
    return arrivals(arguments, NULL);
}

static PyObject *turn(PyObject *self, PyObject *arguments)
{
    (void)self;
    PyObject *out = PyList_New(0), *told = out ? arrivals(arguments, out) : NULL, *both = told ? PyTuple_Pack(2, told, out) : NULL;
    Py_XDECREF(told);
    Py_XDECREF(out);
    return both;
}

static PyMethodDef methods[] = {{"bind", bind, METH_VARARGS, NULL},
                                {"send", send_text, METH_VARARGS, NULL},
                                {"receive", receive_text, METH_VARARGS, NULL},
                                {"emit", emit_one, METH_VARARGS, NULL},
                                {"arrive", arrive_one, METH_VARARGS, NULL},
                                {"emit_all", emit_all, METH_VARARGS, NULL},
                                {"arrive_all", arrive_all, METH_VARARGS, NULL},
                                {"turn", turn, METH_VARARGS, NULL},
                                {NULL, NULL, 0, NULL}};
static struct PyModuleDef module = {PyModuleDef_HEAD_INIT, "_batch", "Calls of tcpcore.h by C.", -1, methods, NULL, NULL, NULL, NULL};

PyMODINIT_FUNC PyInit__batch(void) { return PyModule_Create(&module); }
