/* story REACHED HOLDS: calls the writer and the judge of runs for an automaton whose target is one jump away, with a first wait of 5 and a
 * last one of 0 to 4, and for one that holds. Prints a line for each call: the reply; the answer; whether a run passes; the buffer's
 * numbers, of which the last wait is told as 'fine', 'late' or, below 0, 'wrong'. What is as it was before is a dash. */
#include <inttypes.h>
#include <stdio.h>
#include "robustness.h"

/* What stands in the lent places before; the numbers of the buffer. */
enum { NUMBER = 77, RUN = 6 };

struct automaton {
    const char *name;
    uint8_t bytes[ROBUSTNESS_LONGEST];
    size_t length;
};

static int32_t store[ROBUSTNESS_SLOT(1)];
static const size_t store_len = sizeof store / sizeof *store;
static int64_t run[RUN];
static uint64_t passes, answer[ROBUSTNESS_ANSWER];

static int read_file(const char *name, struct automaton *a)
{
    FILE *file = fopen(name, "rb");
    if (file == NULL)
        return 0;
    a->name = name;
    a->length = fread(a->bytes, 1, sizeof a->bytes, file);
    return fclose(file) == 0;
}

static void lend(void)
{
    passes = NUMBER;
    for (size_t i = 0; i < ROBUSTNESS_ANSWER; i++)
        answer[i] = NUMBER;
}

static void tell_number(uint64_t value)
{
    if (value == NUMBER)
        printf(" -");
    else
        printf(" %" PRIu64, value);
}

static void tell_run(void)
{
    for (size_t i = 0; i < RUN; i++) {
        if (run[i] == NUMBER)
            printf(" -");
        else if (i == 3)
            printf(" %s", run[i] < 0 ? "wrong" : run[i] <= 4 ? "fine" : "late");
        else
            printf(" %" PRId64, run[i]);
    }
}

static void tell(const struct automaton *a, const char *call, uint32_t reply)
{
    printf("%s: %s: %" PRIu32 ",", a->name, call, reply);
    for (size_t i = 0; i < ROBUSTNESS_ANSWER; i++)
        tell_number(answer[i]);
    printf(",");
    tell_number(passes);
    printf(",");
    tell_run();
    printf("\n");
    lend();
}

static void write_run(const struct automaton *a, const char *call, size_t run_len)
{
    for (size_t i = 0; i < RUN; i++)
        run[i] = NUMBER;
    tell(a, call, robustness_write_run(a->bytes, a->length, store, store_len, run, run_len, answer, ROBUSTNESS_ANSWER));
}

/* What is only read is const here, so that the compiler sees it where the header would have it written. */
static void judge(const struct automaton *a, const char *call, size_t run_len)
{
    const int64_t *only_read = run;
    tell(a, call, robustness_judge(a->bytes, a->length, only_read, run_len, &passes));
}

int main(int argc, char **argv)
{
    static struct automaton reached, holds, damaged;
    if (argc != 3 || !read_file(argv[1], &reached) || !read_file(argv[2], &holds))
        return 2;
    damaged = reached;
    damaged.bytes[4] = 2;
    lend();
    write_run(&holds, "write_run", RUN);
    write_run(&damaged, "version 2, write_run", RUN);
    write_run(&reached, "write_run, 3 numbers", 3);
    write_run(&reached, "write_run", RUN);
    judge(&reached, "judge", RUN);
    judge(&reached, "judge, 4 numbers", 4);
    judge(&reached, "judge, 3 numbers", 3);
    judge(&reached, "judge, none", 0);
    judge(&holds, "judge", RUN);
    judge(&damaged, "version 2, judge", RUN);
    run[1] += 1;
    judge(&reached, "judge, a longer wait", RUN);
    return 0;
}
