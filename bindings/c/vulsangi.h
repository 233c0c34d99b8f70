/* Vulsangi: proved syntax highlighting.
 *
 * A set (vls_set) holds grammars and themes, given as texts: no call opens a file. It is linked the first time it is
 * read, or by vls_set_link; from then on nothing is added to it.
 *
 * What holds for all calls:
 *
 * - A handle lies in the caller's memory. One that is full of zeros is empty (VLS_SET_EMPTY); every call takes an empty
 *   handle, and freeing one twice does no harm. A handle is never copied: give a pointer to it.
 * - A text is a pointer, which isn't null, and a number of bytes, be it 0. It need not end in a zero. Names and texts are
 *   UTF-8; a call answers VLS_NOT_UTF8 where they aren't.
 * - A call is given a handle and its room by themselves: room and texts don't overlap with the handle, or with one another.
 * - A call answers VLS_OK, or the number of what was wrong. vls_set_fault then tells of it in words.
 * - What a call shows is kept in the handle as its output, until the next call that shows something. vls_set_output copies
 *   it out and answers its whole size: called first with no room, and then with as much as it answered.
 * - A handle is used by one thread at a time, the one that made it.
 * - The limits of the library stand: a grammar that asks for too much is refused (VLS_LIMIT), and a line that takes too
 *   long is shown plain.
 */
#ifndef VULSANGI_H
#define VULSANGI_H

#include <stdbool.h>
#include <stddef.h>
#include <stdint.h>

#ifdef __cplusplus
extern "C" {
#endif

/* What calls answer. */
enum {
    VLS_OK = 0,
    VLS_NO_MEMORY = 1,        /* there was no memory */
    VLS_EMPTY = 2,            /* the handle is empty */
    VLS_NOT_UTF8 = 3,         /* a text isn't UTF-8 */
    VLS_BAD_GRAMMAR = 4,      /* a text is no grammar */
    VLS_BAD_THEME = 5,        /* a text is no theme */
    VLS_LIMIT = 6,            /* a grammar asks for more than the limits let it have */
    VLS_LINKED = 7,           /* the set was read, and takes no more grammars and themes */
    VLS_UNKNOWN_LANGUAGE = 8, /* no language has the name */
    VLS_UNKNOWN_THEME = 9,    /* no theme has the name */
    VLS_UNKNOWN_FORMAT = 10,  /* no format has the number */
    VLS_BAD_LINE = 11         /* a line is refused */
};

/* What a text is shown as. */
enum {
    VLS_HTML = 0,       /* a `pre` with inline styles */
    VLS_TERMINAL = 1,   /* for a terminal of 24 bit colours, with those behind the text */
    VLS_SCREEN = 2,     /* for a terminal that keeps its own colours behind the text, 24 bit colours */
    VLS_SCREEN_256 = 3  /* the same in the palette of 256 colours */
};

/* A set of grammars and themes. Its fields are not read or written; it is made as VLS_SET_EMPTY, or as zeros. */
typedef struct vls_set {
    void *vls_at;
    bool vls_full;
} vls_set;

#define VLS_SET_EMPTY { NULL, false }

/* Makes a set that has the language `Plain Text` alone, and no theme. What the handle held before is freed.
 * VLS_NO_MEMORY leaves it empty. */
int32_t vls_set_new(vls_set *set);

/* Frees what the handle holds, which is then empty. */
void vls_set_free(vls_set *set);

/* Adds a grammar: the text of a `.sublime-syntax` file, whose name is `file` (a path is taken too). A grammar without a
 * name of its own has that of its file. Of two grammars with the same extension or name the later one is found.
 * VLS_BAD_GRAMMAR, VLS_LIMIT or VLS_LINKED leave the grammars as they were. */
int32_t vls_set_add_grammar(vls_set *set, const uint8_t *file, size_t file_size, const uint8_t *text, size_t text_size);

/* Adds a theme under a name: the JSON of a `.tmTheme` file (docs/THEMES.md says how to make a property list JSON). A theme
 * of the same name is replaced. VLS_BAD_THEME or VLS_LINKED leave the themes as they were. */
int32_t vls_set_add_theme(vls_set *set, const uint8_t *name, size_t name_size, const uint8_t *text, size_t text_size);

/* Links the grammars, unless they are. VLS_NO_MEMORY loses them: the set can only be freed then. */
int32_t vls_set_link(vls_set *set);

/* Shows a text in the language of a name (a file extension, or a name, whatever its case) by the theme of a name, in a
 * format. The output is what is shown. */
int32_t vls_set_page(vls_set *set, const uint8_t *text, size_t text_size, const uint8_t *language, size_t language_size,
                     const uint8_t *theme, size_t theme_size, uint32_t format);

/* Lists the languages that aren't hidden. The output has a line of each: its name, a tab, and its extensions with spaces
 * between them. */
int32_t vls_set_languages(vls_set *set);

/* Finds the language of a text: what the name of its file tells, be it the whole name (`Makefile`) or its extension, or else
 * its first line (`#!/bin/sh`). The output is the language's name, as vls_set_page takes it. VLS_UNKNOWN_LANGUAGE where
 * neither tells one, VLS_LIMIT where looking at the line took too long. */
int32_t vls_set_find(vls_set *set, const uint8_t *file, size_t file_size, const uint8_t *line, size_t line_size);

/* Copies the output to a room, as much of it as there is room for, and answers how many bytes it has. 0 where the handle
 * is empty. */
size_t vls_set_output(vls_set *set, uint8_t *room, size_t room_size);

/* The same of the text that tells why a call was refused, the last that was. */
size_t vls_set_fault(vls_set *set, uint8_t *room, size_t room_size);

/* A text that is read line by line. */
typedef struct vls_doc {
    void *vls_at;
    bool vls_full;
} vls_doc;

#define VLS_DOC_EMPTY { NULL, false }

/* What a font is, added. */
enum { VLS_BOLD = 1, VLS_UNDERLINE = 2, VLS_ITALIC = 4 };

/* A piece of a line: where it stands, in bytes, and its style. A colour has a byte each for red, green, blue and how opaque it
 * is, the first the highest: 0xff0000ff is red. */
typedef struct vls_span {
    size_t offset;
    size_t length;
    uint32_t foreground;
    uint32_t background;
    uint32_t flags;
} vls_span;

/* Makes a document in the language of a name, by the theme of a name, before its first line. The grammars of the set are
 * linked, unless they are. What the handle held before is freed. Where it is refused, the handle is empty, and
 * vls_set_fault tells why. */
int32_t vls_doc_new(vls_doc *doc, vls_set *set, const uint8_t *language, size_t language_size, const uint8_t *theme,
                    size_t theme_size);

/* Frees what the handle holds, which is then empty. */
void vls_doc_free(vls_doc *doc);

/* Reads the next line, with its newline, and keeps its spans, which follow one another and cover the line. The set has to be
 * the one that the document was made with; another one gives colours that mean nothing. A line that takes too long is one span
 * in the theme's own style, and the next one is read as if it weren't there. Where a line is refused, the document stands
 * where it stood; VLS_NO_MEMORY may lose that, and then each line is answered so until vls_doc_reset. */
int32_t vls_doc_line(vls_doc *doc, vls_set *set, const uint8_t *line, size_t line_size);

/* Puts the document before its first line. */
int32_t vls_doc_reset(vls_doc *doc, vls_set *set);

/* Copies the spans of the last line, as many as there is room for, and answers how many it has. */
size_t vls_doc_spans(vls_doc *doc, vls_span *room, size_t room_size);

/* Copies the text that tells why the last call on the document was refused that was. */
size_t vls_doc_fault(vls_doc *doc, uint8_t *room, size_t room_size);

#ifdef __cplusplus
}
#endif
#endif
