/* Each request for memory is refused in turn: the calls answer that there was none, and go on. It is linked with malloc and realloc
 * wrapped (-Wl,--wrap=malloc,--wrap=realloc), which the library's heap calls. Ends with 0 where all is as told. */
#include "vulsangi.h"
#include "small.h"

#include <stdio.h>
#include <stdlib.h>

void *__real_malloc(size_t size);
void *__real_realloc(void *at, size_t size);
void *__wrap_malloc(size_t size);
void *__wrap_realloc(void *at, size_t size);

/* how many requests are granted before the one that is refused; below zero where none is */
static long granted = -1;

static bool refused(void) {
    return granted >= 0 && granted-- == 0;
}

void *__wrap_malloc(size_t size) {
    return refused() ? NULL : __real_malloc(size);
}

void *__wrap_realloc(void *at, size_t size) {
    return refused() ? NULL : __real_realloc(at, size);
}

static int faults = 0;

/* Whether a call was done, or was refused for want of memory, as it may be. */
static void seen(long turn, const char *call, int32_t number) {
    if (number != VLS_OK && number != VLS_NO_MEMORY && number != VLS_EMPTY) {
        fprintf(stderr, "request %ld: %s answers %d\n", turn, call, (int)number);
        faults++;
    }
}

/* All calls that ask for memory, one of whose requests is refused; whether that came to pass. */
static bool one_refused(long turn) {
    vls_set set = VLS_SET_EMPTY;
    uint8_t room[512];
    granted = turn;
    seen(turn, "new", vls_set_new(&set));
    int32_t grammar = vls_set_add_grammar(&set, T("Small.sublime-syntax"), T(small_grammar));
    seen(turn, "add_grammar", grammar);
    int32_t theme = vls_set_add_theme(&set, T("two"), T(small_theme));
    seen(turn, "add_theme", theme);
    seen(turn, "languages", vls_set_languages(&set));
    int32_t found = vls_set_find(&set, T("a.c"), T("let x\n"));
    if (grammar == VLS_OK)
        seen(turn, "find", found);
    int32_t page = vls_set_page(&set, T("let x < 1\n"), T(grammar == VLS_OK ? "sml" : "txt"), T("two"), VLS_HTML);
    if (theme == VLS_OK)
        seen(turn, "page", page);
    bool came = granted < 0;
    granted = -1;
    size_t told = vls_set_fault(&set, room, sizeof room);
    if (told > sizeof room || (page == VLS_OK && vls_set_output(&set, room, sizeof room) == 0)) {
        fprintf(stderr, "request %ld: a text is not as told\n", turn);
        faults++;
    }
    vls_set_free(&set);
    return came;
}

int main(void) {
    long turn = 0;
    while (one_refused(turn))
        turn++;
    if (faults == 0)
        printf("%ld requests were refused: all is as told\n", turn);
    return faults != 0;
}
