/*
 * firnuubal._fast: the readers of _records.py in C, over the stable ABI of Python 3.8 and later.
 *
 * A reader is handed bytes that were taken of a tokenizer, the next ones at each call. It reads them with what firnuubal.h
 * has for records, which checks each length, and calls nothing of the library. The classes of what it makes are handed in.
 * `Py_DecRef` takes null, as no reference.
 */
#define Py_LIMITED_API 0x03080000
#include <Python.h>

#include "firnuubal.h"

/* ---- a reader's parts */

/* A name that was met: its str once a caller needed it, and what the reader's table says of it, or null. */
typedef struct {
    bool is_met;
    PyObject *str;
    PyObject *meaning;
    size_t len;
    char bytes[24];
} name;

/* Names are kept at a place that their bytes say, and longer ones at the last. */
enum { NAMES = 256, KINDS = HTML5_END, MOST_MEMBERS = 5 };

typedef struct reader reader;

struct reader {
    PyObject_HEAD
    /* What is made of the next part of a text, which ends unless a text is open, and of any other token. */
    bool (*on_text)(reader *self, html5_text part, PyObject *found);
    bool (*on_token)(reader *self, html5_token *token, PyObject *found);
    /* What is made after all that was taken is read, or null. */
    bool (*on_end)(reader *self, PyObject *found);
    PyObject *classes; /* those of the tokens by their kind, from 1 on; or that of links */
    PyObject *placed;  /* with places the class of a token with its place, else null */
    PyObject *table;   /* a dict by names of tags in bytes; null where all tags are read */
    PyObject *words[MOST_MEMBERS + 1]; /* what `tuple.__new__` is called with, by how many members a tuple has */
    bool errors, texts;
    bool is_busy;      /* a call has not returned */
    bool is_open;      /* what was taken last ends within a text */
    bool is_hidden;    /* texts are passed over up to an end tag */
    bool has_run;      /* a text is held that only a token ends */
    bool has_places;   /* places were read, of the next token and of the run before it */
    uint64_t line;     /* the line that was reached */
    uint64_t run_line; /* the line on which the text begins that is held */
    uint64_t places[3]; /* where the run and the token begin, and where the token ends */
    PyObject *number;  /* a line as an int, the last one requested */
    uint64_t numbered;
    char *held;        /* bytes of texts, kept from one call to the next */
    size_t held_len, held_room, held_whole;
    name names[NAMES + 1];
};

/* `tuple.__new__`. */
static newfunc new_tuple;

/* ---- bytes that are held */

static bool hold(reader *self, html5_text part) {
    if (self->held_room - self->held_len < part.len) {
        size_t room = 2 * self->held_room > self->held_len + part.len ? 2 * self->held_room : self->held_len + part.len;
        char *held = PyMem_Realloc(self->held, room);
        if (!held) {
            PyErr_NoMemory();
            return false;
        }
        self->held = held;
        self->held_room = room;
    }
    if (part.len > 0) memcpy(self->held + self->held_len, part.at, part.len);
    self->held_len += part.len;
    return true;
}

/* A text as a str; or null, with an exception, as where one was raised before. */
static PyObject *str_of(html5_text text) {
    return PyErr_Occurred() ? NULL : PyUnicode_DecodeUTF8(text.at, (Py_ssize_t)text.len, NULL);
}

/* The held text, as a str. Then nothing is held. */
static PyObject *held_str(reader *self) {
    html5_text all = {self->held ? self->held : "", self->held_len};
    self->held_len = 0;
    return str_of(all);
}

/* ---- names */

static void forget(name *known) {
    Py_DecRef(known->str);
    known->str = NULL;
    known->is_met = false;
}

/* Sets what the reader's table says of a name. The table keeps it. */
static bool look_up(reader *self, name *known, html5_text text) {
    known->meaning = NULL;
    if (!self->table) return true;
    PyObject *bytes = PyBytes_FromStringAndSize(text.at, (Py_ssize_t)text.len);
    if (!bytes) return false;
    known->meaning = PyDict_GetItemWithError(self->table, bytes);
    Py_DecRef(bytes);
    return known->meaning || !PyErr_Occurred();
}

/* Keeps a name at its place. */
static bool learn(reader *self, name *known, html5_text text) {
    forget(known);
    if (!look_up(self, known, text)) return false;
    known->len = text.len;
    if (text.len <= sizeof known->bytes) memcpy(known->bytes, text.at, text.len);
    known->is_met = true;
    return true;
}

/* The name of these bytes, which stays until the next request; or null, with an exception. */
static name *name_of(reader *self, html5_text text) {
    if (text.len > sizeof self->names->bytes) return learn(self, &self->names[NAMES], text) ? &self->names[NAMES] : NULL;
    size_t sum = text.len;
    for (size_t at = 0; at < text.len; at++) sum = sum * 31 + (unsigned char)text.at[at];
    name *known = &self->names[sum % NAMES];
    if (known->is_met && known->len == text.len && memcmp(known->bytes, text.at, text.len) == 0) return known;
    return learn(self, known, text) ? known : NULL;
}

static PyObject *name_str(reader *self, html5_text text) {
    name *known = name_of(self, text);
    if (!known) return NULL;
    if (!known->str) known->str = str_of(text);
    Py_IncRef(known->str);
    return known->str;
}

/* ---- what is made */

/* A line as an int. Often many tokens stand on one. */
static PyObject *line_of(reader *self, uint64_t line) {
    if (!self->number || self->numbered != line) {
        Py_DecRef(self->number);
        self->number = PyLong_FromUnsignedLongLong(line);
        self->numbered = line;
    }
    Py_IncRef(self->number);
    return self->number;
}

/* A tuple that the collector of garbage passes over, which is sound where it is part of no cycle. That saves its time. */
static PyObject *untracked_tuple(Py_ssize_t count) {
    PyObject *made = PyTuple_New(count);
    if (made && count > 0) PyObject_GC_UnTrack(made);
    return made;
}

/* Sets the members of a tuple that nothing else has. It takes them over, and fails where one or the tuple is null. */
static bool set_members(PyObject *tuple, PyObject *const *members, Py_ssize_t count) {
    bool is_whole = tuple;
    for (Py_ssize_t at = 0; at < count; at++) is_whole = is_whole && members[at];
    for (Py_ssize_t at = 0; at < count; at++) {
        if (is_whole)
            is_whole = PyTuple_SetItem(tuple, at, members[at]) == 0;
        else
            Py_DecRef(members[at]);
    }
    return is_whole;
}

/*
 * What `tuple.__new__` is called with: a tuple of a tuple of so many members. They are used again for each token, since
 * nothing else sees them.
 */
static PyObject *words_of(reader *self, Py_ssize_t count) {
    PyObject **words = &self->words[count];
    if (*words) return *words;
    PyObject *plain = untracked_tuple(count);
    *words = untracked_tuple(1);
    if (set_members(*words, &plain, 1)) return *words;
    Py_DecRef(*words);
    return *words = NULL;
}

/* A tuple of a class and of these members, which it takes over; or null, with an exception. */
static PyObject *made_of(reader *self, PyObject *class, PyObject *const *members, Py_ssize_t count) {
    PyObject *words = words_of(self, count);
    bool is_set = set_members(words ? PyTuple_GetItem(words, 0) : NULL, members, count);
    PyObject *made = is_set ? new_tuple((PyTypeObject *)class, words, NULL) : NULL;
    if (made) PyObject_GC_UnTrack(made);
    return made;
}

/* Appends what was made, which it takes over, unless that is null. */
static bool append_made(PyObject *found, PyObject *made) {
    bool is_appended = made && PyList_Append(found, made) == 0;
    Py_DecRef(made);
    return is_appended;
}

/* A token, which it takes over, with its place: a text has that of its run. */
static PyObject *with_place(reader *self, enum html5_kind kind, PyObject *token) {
    if (!token) return NULL;
    const uint64_t *place = kind == HTML5_TEXT ? self->places : self->places + 1;
    PyObject *members[] = {token, PyLong_FromUnsignedLongLong(place[0]), PyLong_FromUnsignedLongLong(place[1])};
    return made_of(self, self->placed, members, 3);
}

static bool append_token(reader *self, PyObject *found, enum html5_kind kind, PyObject *const *members, Py_ssize_t count) {
    PyObject *token = made_of(self, PyTuple_GetItem(self->classes, kind - 1), members, count);
    return append_made(found, self->placed ? with_place(self, kind, token) : token);
}

static bool append_text(reader *self, PyObject *found, enum html5_kind kind, uint64_t line, PyObject *text) {
    PyObject *members[] = {line_of(self, line), text};
    return append_token(self, found, kind, members, 2);
}

/* A pair of a name and a value. */
static PyObject *pair_of(reader *self, html5_text named, html5_text value) {
    PyObject *members[] = {name_str(self, named), str_of(value)};
    PyObject *pair = untracked_tuple(2);
    if (set_members(pair, members, 2)) return pair;
    Py_DecRef(pair);
    return NULL;
}

/* The attributes of a tag. */
static PyObject *attributes_of(reader *self, html5_attributes left) {
    PyObject *pairs = untracked_tuple((Py_ssize_t)left.count);
    html5_text named, value;
    for (Py_ssize_t at = 0; pairs && html5_next_attribute(&left, &named, &value); at++) {
        PyObject *pair = pair_of(self, named, value);
        if (pair && PyTuple_SetItem(pairs, at, pair) == 0) continue;
        Py_DecRef(pairs);
        pairs = NULL;
    }
    return pairs;
}

static bool append_tag(reader *self, PyObject *found, const html5_token *tag) {
    PyObject *members[] = {
        line_of(self, tag->line),
        name_str(self, tag->text),
        attributes_of(self, tag->attributes),
        PyBool_FromLong(tag->self_closing),
        PyBool_FromLong(tag->duplicate_attributes),
    };
    return append_token(self, found, tag->kind, members, 5);
}

/* A part of a DOCTYPE, or None. */
static PyObject *part_of(bool has, html5_text text) {
    if (has) return str_of(text);
    Py_IncRef(Py_None);
    return Py_None;
}

static bool append_doctype(reader *self, PyObject *found, const html5_token *doctype) {
    PyObject *members[] = {
        line_of(self, doctype->line),
        part_of(doctype->has_name, doctype->text),
        part_of(doctype->has_public_id, doctype->public_id),
        part_of(doctype->has_system_id, doctype->system_id),
        PyBool_FromLong(doctype->force_quirks),
    };
    return append_token(self, found, HTML5_DOCTYPE, members, 5);
}

/* A token other than a tag or a text. */
static bool append_other(reader *self, PyObject *found, const html5_token *token) {
    switch (token->kind) {
    case HTML5_DOCTYPE:
        return append_doctype(self, found, token);
    case HTML5_COMMENT:
    case HTML5_INSTRUCTION:
    case HTML5_PARSE_ERROR:
        return append_text(self, found, token->kind, token->line, str_of(token->text));
    default: {
        PyObject *members[] = {line_of(self, token->line)};
        return append_token(self, found, token->kind, members, 1);
    }
    }
}

static bool is_tag(const html5_token *token) { return token->kind == HTML5_START_TAG || token->kind == HTML5_END_TAG; }

/* ---- Reader: all tokens */

/* Ends the text that is held, where errors are left out. */
static bool end_run(reader *self, PyObject *found) {
    if (!self->has_run) return true;
    self->has_run = false;
    return append_text(self, found, HTML5_TEXT, self->run_line, held_str(self));
}

static bool text_as_token(reader *self, html5_text part, PyObject *found) {
    if (!self->texts) return true;
    bool is_whole = self->errors || self->placed;
    if (is_whole && !self->is_open && self->held_len == 0)
        return append_text(self, found, HTML5_TEXT, self->line, str_of(part));
    if (!hold(self, part)) return false;
    if (self->is_open) return true;
    if (is_whole) return append_text(self, found, HTML5_TEXT, self->line, held_str(self));
    if (!self->has_run) self->run_line = self->line;
    self->has_run = true;
    return true;
}

static bool tag_as_token(reader *self, html5_token *tag, PyObject *found) {
    name *named = name_of(self, tag->text);
    if (!named) return false;
    return (self->table && !named->meaning) || append_tag(self, found, tag);
}

/* With places an error comes before the text in which it stands. So the line where that begins stays. */
static bool token_as_token(reader *self, html5_token *token, PyObject *found) {
    if (token->kind != HTML5_PARSE_ERROR || !self->placed) self->line = token->line;
    if (token->kind == HTML5_PARSE_ERROR && !self->errors) return true;
    if (!end_run(self, found)) return false;
    return is_tag(token) ? tag_as_token(self, token, found) : append_other(self, found, token);
}

/* ---- LinkReader: an attribute of some tags */

static bool no_text(reader *self, html5_text part, PyObject *found) {
    (void)self, (void)part, (void)found;
    return true;
}

static bool token_as_link(reader *self, html5_token *token, PyObject *found) {
    if (token->kind != HTML5_START_TAG) return true;
    name *named = name_of(self, token->text);
    if (!named || !named->meaning) return named;
    char *at;
    Py_ssize_t len;
    if (PyBytes_AsStringAndSize(named->meaning, &at, &len) < 0) return false;
    html5_text attribute, value;
    while (html5_next_attribute(&token->attributes, &attribute, &value)) {
        if (attribute.len != (size_t)len || memcmp(attribute.at, at, attribute.len) != 0) continue;
        PyObject *members[] = {line_of(self, token->line), str_of(value)};
        return append_made(found, made_of(self, self->classes, members, 2));
    }
    return true;
}

/* ---- TextReader: all texts but those in some elements */

static bool text_as_text(reader *self, html5_text part, PyObject *found) {
    (void)found;
    if (self->is_hidden) return true;
    if (!hold(self, part)) return false;
    if (!self->is_open) self->held_whole = self->held_len;
    return true;
}

static bool token_as_border(reader *self, html5_token *token, PyObject *found) {
    (void)found;
    if (!is_tag(token)) return true;
    name *named = name_of(self, token->text);
    if (named && named->meaning) self->is_hidden = token->kind == HTML5_START_TAG;
    return named;
}

/* Appends the texts that have ended. One that is open stays held. */
static bool append_texts(reader *self, PyObject *found) {
    if (self->held_whole == 0) return true;
    html5_text whole = {self->held, self->held_whole};
    PyObject *text = str_of(whole);
    bool is_appended = text && PyList_Append(found, text) == 0;
    Py_DecRef(text);
    self->held_len -= self->held_whole;
    memmove(self->held, self->held + self->held_whole, self->held_len);
    self->held_whole = 0;
    return is_appended;
}

/* ---- reading */

/* Reads on in a text, up to its end or to all that was taken. It answers the place after that, or null. */
static const uint8_t *text_read(reader *self, const uint8_t *at, const uint8_t *end, PyObject *found) {
    const uint8_t *stop = at == end ? NULL : memchr(at, 0xFF, (size_t)(end - at));
    html5_text part = {(const char *)at, (size_t)((stop ? stop : end) - at)};
    self->is_open = !stop;
    if (!self->on_text(self, part, found)) return NULL;
    return stop ? stop + 1 : end;
}

/* The place after a record, or null with an exception if it is not one. */
static const uint8_t *checked(const uint8_t *after) {
    if (!after) PyErr_SetString(PyExc_ValueError, "what was taken is no whole record");
    return after;
}

/* Reads the record of places that stands before a token and its run. It answers the place after it, or null. */
static const uint8_t *places_read(reader *self, const uint8_t *at, const uint8_t *end) {
    if (*at != HTML5_PLACES || end - at < 25) return checked(NULL);
    for (int i = 0; i < 3; i++) self->places[i] = html5_number(at + 1 + 8 * i);
    self->has_places = true;
    return at + 25;
}

/* Reads any other record. It answers the place after it, or null. */
static const uint8_t *token_read(reader *self, const uint8_t *at, const uint8_t *end, PyObject *found) {
    html5_token token;
    html5_begin_token(&token, *at);
    bool is_known = 1 <= *at && *at <= KINDS;
    const uint8_t *after = checked(is_known ? html5_read_other(&token, at, end) : NULL);
    if (!after || !self->on_token(self, &token, found)) return NULL;
    self->has_places = false;
    return after;
}

static const uint8_t *record_read(reader *self, const uint8_t *at, const uint8_t *end, PyObject *found) {
    if (self->placed && !self->has_places) return places_read(self, at, end);
    return *at == HTML5_TEXT ? text_read(self, at + 1, end, found) : token_read(self, at, end, found);
}

static bool read_all(reader *self, const uint8_t *at, const uint8_t *end, PyObject *found) {
    if (self->is_open) at = text_read(self, at, end, found);
    while (at && at < end) at = record_read(self, at, end, found);
    return at && (!self->on_end || self->on_end(self, found));
}

/* One call at a time: what Python runs as it collects garbage might call again. */
static PyObject *reader_read(reader *self, PyObject *taken) {
    char *at;
    Py_ssize_t len;
    if (PyBytes_AsStringAndSize(taken, &at, &len) < 0) return NULL;
    if (self->is_busy) {
        PyErr_SetString(PyExc_RuntimeError, "the reader is in a call");
        return NULL;
    }
    PyObject *found = PyList_New(0);
    if (!found) return NULL;
    self->is_busy = true;
    bool is_read = read_all(self, (const uint8_t *)at, (const uint8_t *)at + len, found);
    self->is_busy = false;
    if (is_read) return found;
    Py_DecRef(found);
    return NULL;
}

/* ---- the types */

static void reader_dealloc(reader *self) {
    PyTypeObject *type = Py_TYPE(self);
    for (size_t at = 0; at <= NAMES; at++) forget(&self->names[at]);
    Py_DecRef(self->classes);
    Py_DecRef(self->placed);
    Py_DecRef(self->table);
    Py_DecRef(self->number);
    for (size_t at = 0; at <= MOST_MEMBERS; at++) Py_DecRef(self->words[at]);
    PyMem_Free(self->held);
    ((freefunc)PyType_GetSlot(type, Py_tp_free))(self);
    Py_DecRef((PyObject *)type);
}

/* Whether what was handed in is a class of tuples; else it raises. */
static bool is_tuple_class(PyObject *given) {
    if (PyType_Check(given) && PyType_IsSubtype((PyTypeObject *)given, &PyTuple_Type)) return true;
    PyErr_SetString(PyExc_TypeError, "what is made is of a class of tuples");
    return false;
}

static bool are_tuple_classes(PyObject *given) {
    if (PyTuple_Size(given) != KINDS) {
        PyErr_Format(PyExc_TypeError, "there are %d kinds of tokens", (int)KINDS);
        return false;
    }
    for (Py_ssize_t at = 0; at < KINDS; at++)
        if (!is_tuple_class(PyTuple_GetItem(given, at))) return false;
    return true;
}

/* A str as bytes of UTF-8, whatever a subclass says of it; or null, with an exception, as where one was raised before. */
static PyObject *encoded(PyObject *text) {
    if (!text) return NULL;
    if (PyUnicode_Check(text)) return PyUnicode_AsUTF8String(text);
    PyErr_SetString(PyExc_TypeError, "a name is a str");
    return NULL;
}

/* Adds a name to a table in bytes, with what the meanings say of it, or else with None. */
static bool add_name(PyObject *table, PyObject *name, PyObject *meanings) {
    PyObject *key = encoded(name), *said = NULL, *meaning = NULL;
    if (key && meanings) {
        said = PyObject_GetItem(meanings, name);
        meaning = encoded(said);
    }
    bool is_added = key && (meaning || !meanings) && PyDict_SetItem(table, key, meaning ? meaning : Py_None) == 0;
    Py_DecRef(key);
    Py_DecRef(said);
    Py_DecRef(meaning);
    return is_added;
}

/* A table of these names. */
static PyObject *table_of(PyObject *names, PyObject *meanings) {
    PyObject *table = PyDict_New(), *each = PyObject_GetIter(names), *name;
    bool is_whole = table && each;
    while (is_whole && (name = PyIter_Next(each))) {
        is_whole = add_name(table, name, meanings);
        Py_DecRef(name);
    }
    Py_DecRef(each);
    if (is_whole && !PyErr_Occurred()) return table;
    Py_DecRef(table);
    return NULL;
}

/* A reader with these classes and this table, which it takes over; or null, with an exception, as where one was raised. */
static reader *new_reader(PyTypeObject *type, PyObject *classes, PyObject *table) {
    reader *made = PyErr_Occurred() ? NULL : (reader *)PyType_GenericAlloc(type, 0);
    if (!made) {
        Py_DecRef(table);
        return NULL;
    }
    Py_IncRef(classes);
    made->classes = classes;
    made->table = table;
    made->line = 1;
    return made;
}

static PyObject *token_reader(PyTypeObject *type, PyObject *words, PyObject *named) {
    static char *keywords[] = {"classes", "placed", "errors", "texts", "tags", "places", NULL};
    PyObject *classes, *placed, *tags = Py_None;
    int errors = 1, texts = 1, places = 0;
    if (!PyArg_ParseTupleAndKeywords(words, named, "O!O|ppOp", keywords, &PyTuple_Type, &classes, &placed, &errors, &texts, &tags,
                                     &places))
        return NULL;
    if (!are_tuple_classes(classes) || !is_tuple_class(placed)) return NULL;
    reader *made = new_reader(type, classes, tags == Py_None ? NULL : table_of(tags, NULL));
    if (!made) return NULL;
    made->errors = errors;
    made->texts = texts;
    if (places) {
        Py_IncRef(placed);
        made->placed = placed;
    }
    made->on_text = text_as_token;
    made->on_token = token_as_token;
    return (PyObject *)made;
}

static PyObject *link_reader(PyTypeObject *type, PyObject *words, PyObject *named) {
    static char *keywords[] = {"link", "attributes", NULL};
    PyObject *link, *attributes;
    if (!PyArg_ParseTupleAndKeywords(words, named, "OO", keywords, &link, &attributes)) return NULL;
    if (!is_tuple_class(link)) return NULL;
    reader *made = new_reader(type, link, table_of(attributes, attributes));
    if (!made) return NULL;
    made->on_text = no_text;
    made->on_token = token_as_link;
    return (PyObject *)made;
}

static PyObject *text_reader(PyTypeObject *type, PyObject *words, PyObject *named) {
    static char *keywords[] = {"hidden", NULL};
    PyObject *hidden;
    if (!PyArg_ParseTupleAndKeywords(words, named, "O", keywords, &hidden)) return NULL;
    reader *made = new_reader(type, NULL, table_of(hidden, NULL));
    if (!made) return NULL;
    made->on_text = text_as_text;
    made->on_token = token_as_border;
    made->on_end = append_texts;
    return (PyObject *)made;
}

static PyMethodDef methods[] = {
    {"read", (PyCFunction)reader_read, METH_O, "What is made of the bytes that were taken next, a list."},
    {NULL, NULL, 0, NULL},
};

#define SLOTS(make, doc) \
    {{Py_tp_new, make}, {Py_tp_dealloc, reader_dealloc}, {Py_tp_methods, methods}, {Py_tp_doc, doc}, {0, NULL}}

static PyType_Slot token_slots[] = SLOTS(token_reader, "Reads tokens.");
static PyType_Slot link_slots[] = SLOTS(link_reader, "Reads an attribute of some tags.");
static PyType_Slot text_slots[] = SLOTS(text_reader, "Reads all texts but those in some elements.");

static PyType_Spec specs[] = {
    {"firnuubal._fast.Reader", sizeof(reader), 0, Py_TPFLAGS_DEFAULT, token_slots},
    {"firnuubal._fast.LinkReader", sizeof(reader), 0, Py_TPFLAGS_DEFAULT, link_slots},
    {"firnuubal._fast.TextReader", sizeof(reader), 0, Py_TPFLAGS_DEFAULT, text_slots},
};
static const char *const names_of_types[] = {"Reader", "LinkReader", "TextReader"};

/* Finds `tuple.__new__` where a class inherits it: before 3.10 `tuple` itself isn't asked for it. */
static bool find_new_tuple(void) {
    PyObject *heir = PyObject_CallFunction((PyObject *)&PyType_Type, "s(O){}", "heir", &PyTuple_Type);
    if (!heir) return false;
    new_tuple = (newfunc)PyType_GetSlot((PyTypeObject *)heir, Py_tp_new);
    Py_DecRef(heir);
    return new_tuple;
}

static int fill_module(PyObject *module) {
    if (!find_new_tuple()) return -1;
    for (size_t at = 0; at < sizeof specs / sizeof *specs; at++) {
        PyObject *type = PyType_FromSpec(&specs[at]);
        if (!type || PyModule_AddObject(module, names_of_types[at], type) < 0) {
            Py_DecRef(type);
            return -1;
        }
    }
    return 0;
}

static PyModuleDef_Slot steps[] = {{Py_mod_exec, fill_module}, {0, NULL}};

static struct PyModuleDef definition = {
    PyModuleDef_HEAD_INIT, "firnuubal._fast", "The readers of records in C.", 0, NULL, steps, NULL, NULL, NULL,
};

PyMODINIT_FUNC PyInit__fast(void) { return PyModuleDef_Init(&definition); }
