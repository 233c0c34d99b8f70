/* Shows a file in a language by a theme, as a page:
 *
 *     example THEME.json LANGUAGE FILE GRAMMAR.sublime-syntax..
 */
#include "vulsangi.h"

#include <stdio.h>
#include <stdlib.h>
#include <string.h>

typedef struct text {
    uint8_t *bytes;
    size_t size;
} text;

/* The size of a file that is open. */
static size_t size_of(FILE *file) {
    long size = fseek(file, 0, SEEK_END) == 0 ? ftell(file) : -1;
    return size < 0 || fseek(file, 0, SEEK_SET) != 0 ? 0 : (size_t)size;
}

/* What a file holds; a program that can't read it ends. */
static text read_file(const char *path) {
    FILE *file = fopen(path, "rb");
    text it = {NULL, file ? size_of(file) : 0};
    it.bytes = malloc(it.size + 1);
    if (!file || !it.bytes || fread(it.bytes, 1, it.size, file) != it.size) {
        perror(path);
        exit(2);
    }
    fclose(file);
    return it;
}

/* Ends the program where a call was refused, and tells why. */
static void check(vls_set *set, int32_t number) {
    if (number == VLS_OK)
        return;
    uint8_t room[512];
    size_t size = vls_set_fault(set, room, sizeof room);
    fprintf(stderr, "%.*s (%d)\n", (int)(size < sizeof room ? size : sizeof room), (char *)room, (int)number);
    vls_set_free(set);
    exit(1);
}

/* Writes the output of a set. */
static void write_output(vls_set *set) {
    uint8_t nothing[1];
    size_t size = vls_set_output(set, nothing, 0);
    uint8_t *page = malloc(size + 1);
    if (!page)
        exit(2);
    vls_set_output(set, page, size);
    fwrite(page, 1, size, stdout);
    free(page);
}

int main(int count, char **words) {
    if (count < 4) {
        fprintf(stderr, "example THEME LANGUAGE FILE GRAMMAR..\n");
        return 2;
    }
    text theme = read_file(words[1]), shown = read_file(words[3]);
    const uint8_t *name = (const uint8_t *)"theme", *language = (const uint8_t *)words[2];
    vls_set set = VLS_SET_EMPTY;
    check(&set, vls_set_new(&set));
    check(&set, vls_set_add_theme(&set, name, 5, theme.bytes, theme.size));
    for (char **path = words + 4; *path; path++) {
        text grammar = read_file(*path);
        check(&set, vls_set_add_grammar(&set, (const uint8_t *)*path, strlen(*path), grammar.bytes, grammar.size));
        free(grammar.bytes);
    }
    check(&set, vls_set_page(&set, shown.bytes, shown.size, language, strlen(words[2]), name, 5, VLS_HTML));
    write_output(&set);
    vls_set_free(&set);
    free(theme.bytes);
    free(shown.bytes);
    return 0;
}
