/* What xcp_master looks up in an A2L file (ASAM MCD-2 MC): blocks by their kind and name, and the
 * words behind a keyword in them, or in a block further inside.
 *
 *   a2l_read(&file, text, len)                  keeps the text, and writes in it up to text[len]
 *   a2l_next(&file, "MEASUREMENT", block)       where the next block of a kind is behind this one,
 *                                               or behind 0 the first; 0 if there is none
 *   a2l_block(&file, "MEASUREMENT", name)       where a block is, or 0
 *   a2l_word(&file, block, "ECU_ADDRESS", 1)    the first word behind a keyword, or ""; behind the
 *                                               block's kind they are its name and so on
 *   a2l_free(&file) */
#include <stdbool.h>
#include <stddef.h>
#include <stdlib.h>
#include <string.h>

/* Where a block begins. */
struct a2l_place {
    const char *kind, *name;
    size_t at;
};

struct a2l {
    char **words;
    struct a2l_place *places; /* by kind, name and place, so that a block is found among many */
    size_t count, place_count;
};

/* Takes a text behind its first quote, and answers what stands behind its last one. */
static char *a2l_text(char *at) {
    char *to = at;
    while (*at != 0 && (*at != '"' || at[1] == '"')) {
        if ((*at == '"' || *at == '\\') && at[1] != 0) at++;
        *to++ = *at++;
    }
    if (*at != 0) at++;
    *to = 0;
    return at;
}

/* What stands behind blanks and comments. */
static char *a2l_front(char *at) {
    for (;;) {
        at += strspn(at, " \t\r\n");
        bool is_long = strncmp(at, "/*", 2) == 0;
        if (!is_long && strncmp(at, "//", 2) != 0) return at;
        char *end = strstr(at + 2, is_long ? "*/" : "\n");
        at = end == NULL ? at + strlen(at) : end + 1 + is_long;
    }
}

/* A word; one that is a text has its first quote yet, so it is no keyword. */
static const char *a2l_at(const struct a2l *file, size_t at) {
    return at < file->count ? file->words[at] : "";
}

static const char *a2l_plain(const char *word) { return *word == '"' ? word + 1 : word; }

static bool a2l_begins(const struct a2l *file, size_t at) {
    return strcmp(a2l_at(file, at), "/begin") == 0;
}

static int a2l_compare(const void *one, const void *other) {
    const struct a2l_place *a = one, *b = other;
    int order = strcmp(a->kind, b->kind);
    if (order == 0) order = strcmp(a->name, b->name);
    return order != 0 ? order : (a->at > b->at) - (a->at < b->at);
}

static void a2l_free(struct a2l *file) {
    free(file->words);
    free(file->places);
}

static bool a2l_read(struct a2l *file, char *text, size_t len) {
    *file = (struct a2l){.words = malloc((len / 2 + 2) * sizeof *file->words)};
    if (file->words == NULL) return false;
    text[len] = 0;
    for (char *at = a2l_front(text); *at != 0; at = a2l_front(at)) {
        file->words[file->count++] = at;
        if (*at == '"') at = a2l_text(at + 1);
        else {
            at += strcspn(at, " \t\r\n");
            if (*at != 0) *at++ = 0;
        }
    }
    file->places = malloc((file->count + 1) * sizeof *file->places);
    if (file->places == NULL) return false;
    for (size_t at = 0; at < file->count; at++)
        if (a2l_begins(file, at))
            file->places[file->place_count++] = (struct a2l_place){
                a2l_at(file, at + 1), a2l_plain(a2l_at(file, at + 2)), at + 1};
    qsort(file->places, file->place_count, sizeof *file->places, a2l_compare);
    return true;
}

static size_t a2l_next(const struct a2l *file, const char *kind, size_t block) {
    for (size_t at = block; at < file->count; at++)
        if (a2l_begins(file, at) && strcmp(a2l_at(file, at + 1), kind) == 0) return at + 1;
    return 0;
}

static size_t a2l_block(const struct a2l *file, const char *kind, const char *name) {
    struct a2l_place wanted = {kind, name, 0};
    size_t low = 0, high = file->place_count;
    while (low < high) {
        size_t middle = low + (high - low) / 2;
        if (a2l_compare(&file->places[middle], &wanted) < 0) low = middle + 1;
        else high = middle;
    }
    if (low == file->place_count || strcmp(file->places[low].kind, kind) != 0) return 0;
    return strcmp(file->places[low].name, name) == 0 ? file->places[low].at : 0;
}

static const char *a2l_word(const struct a2l *file, size_t block, const char *keyword, size_t k) {
    const char *kind = a2l_at(file, block);
    for (size_t at = block; block != 0 && at < file->count; at++) {
        if (strcmp(a2l_at(file, at), "/end") == 0 && strcmp(a2l_at(file, at + 1), kind) == 0) break;
        if (strcmp(a2l_at(file, at), keyword) == 0) return a2l_plain(a2l_at(file, at + k));
    }
    return "";
}
