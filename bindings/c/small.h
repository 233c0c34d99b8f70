/* A small grammar and a small theme, for the tests. */
#ifndef SMALL_H
#define SMALL_H

#include <stdint.h>
#include <string.h>

/* a text of C, as calls take it */
#define T(text) (const uint8_t *)(text), strlen(text)

static const char small_grammar[] = "name: Small\n"
                                    "file_extensions: [sml]\n"
                                    "scope: source.small\n"
                                    "first_line_match: '^let\\b'\n"
                                    "contexts:\n"
                                    "  main:\n"
                                    "    - match: '\\b(let|in)\\b'\n"
                                    "      scope: keyword.small\n"
                                    "    - match: '\\d+'\n"
                                    "      scope: constant.numeric.small\n";

static const char small_theme[] =
    "{\"name\": \"Two\", \"settings\": ["
    "{\"settings\": {\"background\": \"#ffffff\", \"foreground\": \"#000000\"}},"
    "{\"scope\": \"keyword\", \"settings\": {\"foreground\": \"#ff0000\", \"fontStyle\": \"bold\"}}]}";

#endif
