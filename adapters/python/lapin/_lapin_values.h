/* Python's values as numbers and octets of lapin.h, and these as Python's values. What isn't of its type or range raises an error; nothing is
 * kept. */
#ifndef LAPIN_VALUES_H
#define LAPIN_VALUES_H

#include <Python.h>

#include <stdbool.h>

#include "lapin.h"

static bool is_count(const char *name, Py_ssize_t count, Py_ssize_t least, Py_ssize_t most)
{
    if (count >= least && count <= most)
        return true;
    PyErr_Format(PyExc_TypeError, "%s takes %zd to %zd arguments, not %zd", name, least, most, count);
    return false;
}

static bool as_number(PyObject *given, uint64_t *number)
{
    *number = PyLong_AsUnsignedLongLong(given);
    return *number != (uint64_t)-1 || PyErr_Occurred() == NULL;
}

static bool as_channel(PyObject *given, uint16_t *channel)
{
    unsigned long number = PyLong_AsUnsignedLong(given);
    if (number == (unsigned long)-1 && PyErr_Occurred() != NULL)
        return false;
    if (number > UINT16_MAX) {
        PyErr_SetString(PyExc_ValueError, "a channel's number has 16 bits");
        return false;
    }
    *channel = (uint16_t)number;
    return true;
}

static bool as_octets(PyObject *given, const char **at, size_t *length)
{
    char *found;
    Py_ssize_t count;
    if (PyBytes_AsStringAndSize(given, &found, &count) != 0)
        return false;
    *at = found, *length = (size_t)count;
    return true;
}

/* The octets of a text: its UTF-8, which the text holds itself, or of bytes. */
static bool as_text(PyObject *given, const char **at, size_t *length)
{
    Py_ssize_t count;
    if (!PyUnicode_Check(given))
        return as_octets(given, at, length);
    *at = PyUnicode_AsUTF8AndSize(given, &count);
    *length = (size_t)count;
    return *at != NULL;
}

static bool put(PyObject *tuple, Py_ssize_t place, PyObject *item)
{
    return item != NULL && PyTuple_SetItem(tuple, place, item) == 0;
}

static PyObject *text_of(const char *at, size_t length)
{
    return PyUnicode_DecodeUTF8(at, (Py_ssize_t)length, "replace");
}

/* A message as `Parts`: what stands in front of its body begins here. The body is given away. */
static PyObject *parts_of(const lapin_message *message, const char *at, PyObject *body)
{
    size_t names_end = message->exchange + message->routing_key;
    PyObject *parts = body == NULL ? NULL : PyTuple_New(7);
    if (parts == NULL) {
        Py_XDECREF(body);
        return NULL;
    }
    if (put(parts, 6, body) && put(parts, 0, PyLong_FromUnsignedLongLong(message->delivery_tag)) &&
        put(parts, 1, PyLong_FromUnsignedLongLong(message->acker)) && put(parts, 2, PyBool_FromLong(message->redelivered)) &&
        put(parts, 3, text_of(at, message->exchange)) && put(parts, 4, text_of(at + message->exchange, message->routing_key)) &&
        put(parts, 5, PyBytes_FromStringAndSize(at + names_end, (Py_ssize_t)message->properties)))
        return parts;
    Py_DECREF(parts);
    return NULL;
}

#endif
