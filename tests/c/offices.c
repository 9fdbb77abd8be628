/* offices NORTH SOUTH: calls each function of the header but those of runs, for two drawings of an automaton whose form has 100 bytes. Prints
 * a line for each call that tells more than its reply: the reply; the length, or whether it is filed; the answer; the form. What is as it was
 * before is a dash. */
#include <inttypes.h>
#include <stdio.h>
#include <string.h>
#include "robustness.h"

/* What stands in the lent places before. */
enum { NUMBER = 77, BYTE = 0x5A };

struct automaton {
    const char *name;
    uint8_t bytes[ROBUSTNESS_LONGEST];
    size_t length;
};

static int32_t store[1000];
static const size_t store_len = sizeof store / sizeof *store;
static uint8_t form[ROBUSTNESS_LONGEST];
static uint64_t number, answer[ROBUSTNESS_ANSWER];

static int read_file(const char *name, struct automaton *a)
{
    FILE *file = fopen(name, "rb");
    if (file == NULL)
        return 0;
    a->name = name;
    a->length = fread(a->bytes, 1, sizeof a->bytes, file);
    return fclose(file) == 0;
}

static void lend(void)
{
    memset(form, BYTE, sizeof form);
    number = NUMBER;
    for (size_t i = 0; i < ROBUSTNESS_ANSWER; i++)
        answer[i] = NUMBER;
}

static void tell_number(uint64_t value)
{
    if (value == NUMBER)
        printf(" -");
    else
        printf(" %" PRIu64, value);
}

static void tell(const struct automaton *a, const char *call, uint32_t reply)
{
    size_t written = sizeof form;
    while (written > 0 && form[written - 1] == BYTE)
        written--;
    printf("%s: %s: %" PRIu32 ",", a->name, call, reply);
    tell_number(number);
    printf(",");
    for (size_t i = 0; i < ROBUSTNESS_ANSWER; i++)
        tell_number(answer[i]);
    printf(", %s", written > 0 ? "" : "-");
    for (size_t i = 0; i < written; i++)
        printf("%02X", form[i]);
    printf("\n");
    lend();
}

/* What is only read is const here, so that the compiler sees it where the header would have it written. */
static void drawn(const struct automaton *a)
{
    const size_t all = a->length;
    struct automaton damaged = *a;
    damaged.bytes[4] = 2;
    tell(a, "refusal", robustness_refusal(a->bytes, all));
    tell(a, "a byte too few", robustness_refusal(a->bytes, all - 1));
    tell(a, "version 2", robustness_refusal(damaged.bytes, all));
    tell(a, "search", robustness_search(a->bytes, all, store, store_len, answer, ROBUSTNESS_ANSWER));
    tell(a, "99 bytes", robustness_canonical(a->bytes, all, form, 99, &number));
    tell(a, "100 bytes", robustness_canonical(a->bytes, all, form, 100, &number));
    tell(a, "119 bytes", robustness_canonical(a->bytes, all, form, 119, &number));
}

static void look_up(const struct automaton *a, const uint8_t *cache, size_t cache_len)
{
    tell(a, "look_up", robustness_look_up(cache, cache_len, a->bytes, a->length, form, sizeof form, &number, answer,
                                          ROBUSTNESS_ANSWER));
}

int main(int argc, char **argv)
{
    static struct automaton north, south;
    uint8_t cache[ROBUSTNESS_HEADER + ROBUSTNESS_RECORD(100)];
    if (argc != 3 || !read_file(argv[1], &north) || !read_file(argv[2], &south))
        return 2;
    lend();
    drawn(&north);
    drawn(&south);
    if (robustness_make_empty(cache, sizeof cache) != ROBUSTNESS_DONE)
        return 1;
    look_up(&north, cache, sizeof cache);
    tell(&north, "consult", robustness_consult(cache, sizeof cache, north.bytes, north.length, form, sizeof form, store,
                                               store_len, answer, ROBUSTNESS_ANSWER));
    look_up(&south, cache, sizeof cache);
    return robustness_sound(cache, sizeof cache) != ROBUSTNESS_DONE;
}
