/* What each call answers, on whole handles and on empty ones, and each fault once. Ends with 0 where all is as told. */
#include "vulsangi.h"
#include "small.h"

#include <stdio.h>
#include <stdlib.h>

static int faults = 0;

#define SAYS(what)                                              \
    do {                                                        \
        if (!(what)) {                                          \
            fprintf(stderr, "line %d: %s\n", __LINE__, #what);  \
            faults++;                                           \
        }                                                       \
    } while (0)

static const char page[] = "<pre style=\"background-color:#ffffff;\">\n"
                           "<span style=\"font-weight:bold;color:#ff0000;\">let</span>"
                           "<span style=\"color:#000000;\"> x &lt; 1\n</span></pre>\n";

/* the output of a set as a text of C, which the caller frees */
static char *output(vls_set *set) {
    uint8_t nothing[1];
    size_t size = vls_set_output(set, nothing, 0);
    char *text = malloc(size + 1);
    if (!text)
        exit(2);
    SAYS(vls_set_output(set, (uint8_t *)text, size) == size);
    text[size] = 0;
    return text;
}

static void empty_handles(void) {
    vls_set set = VLS_SET_EMPTY;
    uint8_t room[8] = "unmoved";
    SAYS(vls_set_add_grammar(&set, T("a"), T("b")) == VLS_EMPTY);
    SAYS(vls_set_add_theme(&set, T("a"), T("b")) == VLS_EMPTY);
    SAYS(vls_set_link(&set) == VLS_EMPTY);
    SAYS(vls_set_page(&set, T("a"), T("b"), T("c"), VLS_HTML) == VLS_EMPTY);
    SAYS(vls_set_languages(&set) == VLS_EMPTY);
    SAYS(vls_set_find(&set, T("a.sml"), T("")) == VLS_EMPTY);
    SAYS(vls_set_output(&set, room, 8) == 0);
    SAYS(vls_set_fault(&set, room, 8) == 0);
    SAYS(memcmp(room, "unmoved", 8) == 0);
    vls_set_free(&set);
    vls_set_free(&set);
}

static void pages(void) {
    vls_set set = VLS_SET_EMPTY;
    SAYS(vls_set_new(&set) == VLS_OK);
    SAYS(vls_set_add_grammar(&set, T("Small.sublime-syntax"), T(small_grammar)) == VLS_OK);
    SAYS(vls_set_add_theme(&set, T("two"), T(small_theme)) == VLS_OK);
    SAYS(vls_set_page(&set, T("let x < 1\n"), T("sml"), T("two"), VLS_HTML) == VLS_OK);
    char *text = output(&set);
    SAYS(strcmp(text, page) == 0);
    free(text);
    uint8_t front[5];
    SAYS(vls_set_output(&set, front, 5) == strlen(page));
    SAYS(memcmp(front, "<pre ", 5) == 0);
    SAYS(vls_set_languages(&set) == VLS_OK);
    text = output(&set);
    SAYS(strcmp(text, "Plain Text\ttxt\nSmall\tsml\n") == 0);
    free(text);
    SAYS(vls_set_find(&set, T("a.sml"), T("")) == VLS_OK);
    text = output(&set);
    SAYS(strcmp(text, "Small") == 0);
    free(text);
    SAYS(vls_set_find(&set, T("a"), T("let x\n")) == VLS_OK);
    text = output(&set);
    SAYS(strcmp(text, "Small") == 0);
    free(text);
    SAYS(vls_set_find(&set, T("a.c"), T("x\n")) == VLS_UNKNOWN_LANGUAGE);
    SAYS(vls_set_find(&set, T("a"), T("\xff")) == VLS_NOT_UTF8);
    for (uint32_t format = VLS_TERMINAL; format <= VLS_SCREEN_256; format++)
        SAYS(vls_set_page(&set, T("let x < 1\n"), T("Small"), T("two"), format) == VLS_OK);
    SAYS(vls_set_page(&set, T(""), T("small"), T("two"), VLS_HTML) == VLS_OK);
    vls_set_free(&set);
    SAYS(vls_set_link(&set) == VLS_EMPTY);
}

static void refusals(void) {
    vls_set set = VLS_SET_EMPTY;
    uint8_t told[256];
    SAYS(vls_set_new(&set) == VLS_OK);
    SAYS(vls_set_fault(&set, told, sizeof told) == 0);
    SAYS(vls_set_add_grammar(&set, T("\xff"), T(small_grammar)) == VLS_NOT_UTF8);
    SAYS(vls_set_add_grammar(&set, T("a"), T("name: [")) == VLS_BAD_GRAMMAR);
    SAYS(vls_set_fault(&set, told, sizeof told) > 2 && memcmp(told, "a: ", 3) == 0);
    SAYS(vls_set_add_theme(&set, T("a"), T("{")) == VLS_BAD_THEME);
    SAYS(vls_set_add_theme(&set, T("two"), T(small_theme)) == VLS_OK);
    SAYS(vls_set_page(&set, T("x"), T("txt"), T("two"), 4) == VLS_UNKNOWN_FORMAT);
    SAYS(vls_set_page(&set, T("x"), T("none"), T("two"), VLS_HTML) == VLS_UNKNOWN_LANGUAGE);
    SAYS(vls_set_page(&set, T("x"), T("txt"), T("none"), VLS_HTML) == VLS_UNKNOWN_THEME);
    SAYS(vls_set_page(&set, T("\xc3"), T("txt"), T("two"), VLS_HTML) == VLS_NOT_UTF8);
    SAYS(vls_set_add_grammar(&set, T("Small.sublime-syntax"), T(small_grammar)) == VLS_LINKED);
    SAYS(vls_set_add_theme(&set, T("two"), T(small_theme)) == VLS_LINKED);
    SAYS(vls_set_new(&set) == VLS_OK);
    SAYS(vls_set_add_grammar(&set, T("Small.sublime-syntax"), T(small_grammar)) == VLS_OK);
    vls_set_free(&set);
}

static void documents(void) {
    vls_set set = VLS_SET_EMPTY;
    vls_doc doc = VLS_DOC_EMPTY;
    vls_span spans[4];
    SAYS(vls_doc_line(&doc, &set, T("x")) == VLS_EMPTY);
    SAYS(vls_doc_reset(&doc, &set) == VLS_EMPTY);
    SAYS(vls_doc_new(&doc, &set, T("sml"), T("two")) == VLS_EMPTY);
    SAYS(vls_set_new(&set) == VLS_OK);
    SAYS(vls_set_add_grammar(&set, T("Small.sublime-syntax"), T(small_grammar)) == VLS_OK);
    SAYS(vls_set_add_theme(&set, T("two"), T(small_theme)) == VLS_OK);
    SAYS(vls_doc_new(&doc, &set, T("none"), T("two")) == VLS_UNKNOWN_LANGUAGE);
    SAYS(vls_doc_new(&doc, &set, T("sml"), T("two")) == VLS_OK);
    SAYS(vls_doc_spans(&doc, spans, 4) == 0);
    for (int turn = 0; turn < 2; turn++) {
        SAYS(vls_doc_line(&doc, &set, T("let x\n")) == VLS_OK);
        SAYS(vls_doc_spans(&doc, spans, 4) == 2);
        SAYS(spans[0].offset == 0 && spans[0].length == 3 && spans[0].foreground == 0xff0000ff && spans[0].flags == VLS_BOLD);
        SAYS(spans[1].offset == 3 && spans[1].length == 3 && spans[1].background == 0xffffffff && spans[1].flags == 0);
        SAYS(vls_doc_line(&doc, &set, T("\xff")) == VLS_NOT_UTF8);
        SAYS(vls_doc_reset(&doc, &set) == VLS_OK);
    }
    SAYS(vls_doc_line(&doc, &set, T("")) == VLS_OK);
    SAYS(vls_doc_spans(&doc, spans, 4) == 0);
    vls_doc_free(&doc);
    vls_doc_free(&doc);
    SAYS(vls_doc_line(&doc, &set, T("x")) == VLS_EMPTY);
    vls_set_free(&set);
}

int main(void) {
    empty_handles();
    pages();
    refusals();
    documents();
    if (faults == 0)
        puts("all is as told");
    return faults != 0;
}
