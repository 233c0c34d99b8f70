/* Calls with random bytes, in any order, on handles that are empty as often as not: `random [CALLS [SEED]]`, 20000 calls where there
 * is no word. Nothing is asked of the answers but that they are numbers of vulsangi.h, and that what is copied fits its room. */
#include "vulsangi.h"
#include "small.h"

#include <stdio.h>
#include <stdlib.h>

static uint64_t state = 1;
static int faults = 0;
static long shown = 0;

/* the next random number below a bound */
static uint32_t below(uint32_t bound) {
    state = state * 6364136223846793005u + 1442695040888963407u;
    return (uint32_t)(state >> 33) % bound;
}

/* A text: one that calls know, perhaps with a byte changed or its end cut off, or random bytes. */
static size_t random_text(uint8_t *room, size_t size) {
    static const char *known[] = {small_grammar, small_theme, "sml", "two", "txt", "let x < 1\n", ""};
    size_t length = below(3) == 0 ? below(24) : 0;
    if (length > 0) {
        for (size_t at = 0; at < length; at++)
            room[at] = (uint8_t)below(256);
        return length;
    }
    const char *text = known[below(7)];
    length = strlen(text) < size ? strlen(text) : size;
    memcpy(room, text, length);
    if (length > 0 && below(3) == 0)
        room[below((uint32_t)length)] = (uint8_t)below(256);
    return below(4) == 0 ? below((uint32_t)length + 1) : length;
}

/* What a call copied stands in its room, and the byte after the room is the old one. */
static void copied(vls_set *set, size_t (*call)(vls_set *, uint8_t *, size_t)) {
    uint8_t room[65];
    size_t size = below(65);
    memset(room, 7, sizeof room);
    size_t whole = call(set, room, size);
    for (size_t at = whole < size ? whole : size; at < sizeof room; at++)
        faults += room[at] != 7;
}

/* A random text in the small language, if the set has it. */
static int32_t page(vls_set *set, const uint8_t *text, size_t size) {
    int32_t number = vls_set_page(set, text, size, T("sml"), T("two"), below(4));
    shown += number == VLS_OK;
    return number;
}

/* A new set, mostly with the small grammar and the small theme. */
static int32_t new_set(vls_set *set) {
    int32_t number = vls_set_new(set);
    if (number == VLS_OK && below(4) > 0) {
        vls_set_add_grammar(set, T("Small.sublime-syntax"), T(small_grammar));
        vls_set_add_theme(set, T("two"), T(small_theme));
    }
    return number;
}

static int32_t one_call(vls_set *set) {
    uint8_t a[1024], b[1024], c[1024];
    size_t m = random_text(a, sizeof a), n = random_text(b, sizeof b), k = random_text(c, sizeof c);
    switch (below(16)) {
    case 0: return new_set(set);
    case 1: vls_set_free(set); return VLS_OK;
    case 2: return vls_set_add_grammar(set, a, m, b, n);
    case 3: return vls_set_add_theme(set, a, m, b, n);
    case 4: return vls_set_add_grammar(set, T("Small.sublime-syntax"), T(small_grammar));
    case 5: return vls_set_add_theme(set, T("two"), T(small_theme));
    case 6: return vls_set_link(set);
    case 7: return vls_set_page(set, a, m, b, n, c, k, below(6));
    case 8: case 12: case 13: case 14: return page(set, a, m);
    case 9: return vls_set_languages(set);
    case 15: return vls_set_find(set, a, m, b, n);
    case 10: copied(set, vls_set_output); return VLS_OK;
    default: copied(set, vls_set_fault); return VLS_OK;
    }
}

int main(int count, char **words) {
    long calls = count > 1 ? atol(words[1]) : 20000;
    vls_set sets[4] = {VLS_SET_EMPTY, VLS_SET_EMPTY, VLS_SET_EMPTY, VLS_SET_EMPTY};
    state = count > 2 ? (uint64_t)atoll(words[2]) : 1;
    for (long call = 0; call < calls; call++) {
        int32_t number = one_call(&sets[below(4)]);
        faults += number < VLS_OK || number > VLS_BAD_LINE;
    }
    for (int at = 0; at < 4; at++)
        vls_set_free(&sets[at]);
    if (faults == 0)
        printf("%ld random calls, which showed %ld texts: all is as told\n", calls, shown);
    return faults != 0;
}
