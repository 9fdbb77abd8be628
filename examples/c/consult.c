/* consult CACHE NUMBERS FILE..: an office's everyday loop. Reads the cache (document 01's shelf) in the file CACHE, an empty one if
 * there is none, and consults it for the automaton (document 01's card) in each FILE, lending a store of so many NUMBERS. Prints a
 * line for each, and on standard error each growth of the cache. Then writes the cache to a new file and renames that over CACHE,
 * so that whoever reads it finds the old or the new one whole. One such program at a time may write a cache.
 *
 * Offices may draw the edges of one automaton in different orders, some of them twice: the cache files its canonical form, so they
 * meet one record. north.card and south.card beside this file are such a pair. */
#define _POSIX_C_SOURCE 200809L
#include <errno.h>
#include <inttypes.h>
#include <stdio.h>
#include <stdlib.h>
#include <string.h>
#include <unistd.h>
#include "robustness.h"

struct bytes {
    uint8_t *start; /* once it is read or resized never null, as the library asks, even where the length is 0 */
    size_t length;
};

static void fail(const char *what)
{
    perror(what);
    exit(2);
}

static void resize(struct bytes *bytes, size_t length)
{
    bytes->start = realloc(bytes->start, length > 0 ? length : 1);
    bytes->length = length;
    if (bytes->start == NULL)
        fail("realloc");
}

/* 0, or -1 with the reason in errno. */
static int read_file(const char *name, struct bytes *bytes)
{
    size_t used = 0, got = 1;
    FILE *file = fopen(name, "rb");
    if (file == NULL)
        return -1;
    while (got > 0) {
        resize(bytes, 2 * used + 4096);
        got = fread(bytes->start + used, 1, bytes->length - used, file);
        used += got;
    }
    bytes->length = used;
    int failed = ferror(file);
    return fclose(file) != 0 || failed ? -1 : 0;
}

/* The first four bytes say how many are used of a cache, and how many a form has. */
static size_t said(const uint8_t *bytes)
{
    return (size_t)bytes[0] << 24 | (size_t)bytes[1] << 16 | (size_t)bytes[2] << 8 | bytes[3];
}

/* Of a cache what is used is written, so that it has no room to spare when it is read again. */
static void write_cache(const struct bytes *cache, const char *name)
{
    size_t used = said(cache->start);
    char *fresh = malloc(strlen(name) + sizeof ".new");
    if (fresh == NULL)
        fail("malloc");
    FILE *file = fopen(strcat(strcpy(fresh, name), ".new"), "wb");
    if (file == NULL || fwrite(cache->start, 1, used, file) != used || fflush(file) != 0 || fsync(fileno(file)) != 0
        || fclose(file) != 0 || rename(fresh, name) != 0)
        fail(fresh);
}

/* After 12 it is tried once more, with room for one record more: that of the form, which stands in its buffer. The line is that of
 * the program but for its end: consulting does not tell what is again or inside. */
static void consult(struct bytes *cache, const char *name, const struct bytes *automaton, int32_t *store, size_t store_len)
{
    static uint8_t form[ROBUSTNESS_LONGEST];
    uint64_t answer[ROBUSTNESS_ANSWER];
    uint32_t reply = robustness_consult(cache->start, cache->length, automaton->start, automaton->length, form, sizeof form,
                                        store, store_len, answer, ROBUSTNESS_ANSWER);
    if (reply == ROBUSTNESS_CACHE_FULL) {
        resize(cache, cache->length + ROBUSTNESS_RECORD(said(form)));
        fprintf(stderr, "%s: the cache grows to %zu bytes\n", name, cache->length);
        reply = robustness_consult(cache->start, cache->length, automaton->start, automaton->length, form, sizeof form,
                                   store, store_len, answer, ROBUSTNESS_ANSWER);
    }
    if (reply != ROBUSTNESS_DONE)
        printf("%s: refused %" PRIu32 "\n", name, reply);
    else if (answer[ROBUSTNESS_KIND] == ROBUSTNESS_REACHED)
        printf("%s: reached zones %" PRIu64 "\n", name, answer[ROBUSTNESS_ZONES]);
    else if (answer[ROBUSTNESS_D] == 0)
        printf("%s: holds any zones %" PRIu64 "\n", name, answer[ROBUSTNESS_ZONES]);
    else
        printf("%s: holds %" PRIu64 "/%" PRIu64 " zones %" PRIu64 "\n", name, answer[ROBUSTNESS_N], answer[ROBUSTNESS_D],
               answer[ROBUSTNESS_ZONES]);
}

int main(int argc, char **argv)
{
    struct bytes cache = {NULL, 0}, automaton = {NULL, 0};
    char *end = "?";
    size_t store_len = argc > 3 ? strtoul(argv[2], &end, 10) : 0;
    if (*end != '\0') {
        fprintf(stderr, "usage: consult CACHE NUMBERS FILE..\n");
        return 2;
    }
    int absent = read_file(argv[1], &cache) != 0, status = 0;
    if (absent && errno != ENOENT)
        fail(argv[1]);
    if (absent)
        resize(&cache, ROBUSTNESS_HEADER);
    uint32_t reply = absent ? robustness_make_empty(cache.start, cache.length) : robustness_sound(cache.start, cache.length);
    if (reply != ROBUSTNESS_DONE) {
        printf("%s: refused %" PRIu32 "\n", argv[1], reply);
        return 1;
    }
    int32_t *store = calloc(store_len > 0 ? store_len : 1, sizeof *store);
    if (store == NULL)
        fail("calloc");
    for (int i = 3; i < argc; i++) {
        if (read_file(argv[i], &automaton) != 0) {
            perror(argv[i]);
            status = 2;
            continue;
        }
        consult(&cache, argv[i], &automaton, store, store_len);
    }
    write_cache(&cache, argv[1]);
    return fflush(stdout) != 0 || ferror(stdout) ? 2 : status;
}
