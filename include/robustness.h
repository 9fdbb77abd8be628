/* The search for the robustness of timed automata, the run by which it reaches, and the cache of its verdicts (crate exports,
 * `rt lib` in crates/exports).
 *
 * An automaton is a string of bytes, document 01's card; a cache is one, document 01's shelf (docs/FORMAT.md). Any bytes may be
 * passed, and none need checking before. Each pointer comes with a length:
 *   automaton_len, cache_len   bytes
 *   form_len                   bytes, for the automaton's canonical form: automaton_len are always enough, and ROBUSTNESS_LONGEST
 *   store_len                  numbers of 32 bits, of which a slot takes ROBUSTNESS_SLOT(clocks) for each zone kept
 *   run_len                    numbers of 64 bits, for a run: ROBUSTNESS_RUN of its jumps
 *   answer_len                 numbers of 64 bits, of which an answer has ROBUSTNESS_ANSWER; it may be smaller or larger, and 0 too
 * A pointer must be valid for its length, what may be written must overlap nothing else that is passed, and a pointer must not be
 * null, even where its length is 0.
 *
 * The canonical form of an automaton is the same automaton with its edges in one order: they rise by their bytes, of which the first
 * that differs decides, and each stands once. Automata that differ only in order and repeats of edges have the same form, and its
 * runs are theirs. A cache files forms, and its verdict is the form's; a search takes an automaton as drawn.
 *
 * A run is waits and jumps by turns, with a wait at both ends: its own count of numbers first, 2k + 2 for k jumps, then the time
 * units of a wait, the number of an edge, counted from 0, a wait, and so on. It is in whole time units, and no limit is loosened.
 * `4, 5, 0, 0` is: four numbers; wait 5, take edge 0, wait 0.
 *
 * Each function gives back 0, or the number of a refusal. A refusal changes neither answer nor filed nor length nor passes nor the run
 * nor the cache. Of the store only 9, 10 and 14 leave a changed one: with 9 and 10 it has the zones kept so far, with 14 all that the
 * search kept. With 1 to 8 and 13 the form's buffer is as it was; with 0 and any other refusal the form stands in it, and the bytes past
 * the form are as they were. */
#ifndef ROBUSTNESS_H
#define ROBUSTNESS_H

#include <stddef.h>
#include <stdint.h>

#ifdef __cplusplus
extern "C" {
#endif

/* What is given back. Of 1 to 8 the smallest that applies is said. */
enum robustness_reply {
    ROBUSTNESS_DONE = 0,
    ROBUSTNESS_STUB = 1,          /* an automaton of fewer than 11 bytes */
    ROBUSTNESS_MISCOUNTED = 2,    /* its length field is not automaton_len */
    ROBUSTNESS_FOREIGN = 3,       /* its version is not 1 */
    ROBUSTNESS_OVERSIZE = 4,      /* its clocks, locations or edges are outside their range */
    ROBUSTNESS_RAGGED = 5,        /* its length field is not that of the formula */
    ROBUSTNESS_NO_SUCH_PLACE = 6, /* its start, its target or an end of an edge is no location of it */
    ROBUSTNESS_NO_SUCH_CLOCK = 7, /* a reset of a clock above its last */
    ROBUSTNESS_OFF_SCALE = 8,     /* a limit out of range */
    ROBUSTNESS_PILED_UP = 9,      /* a zone to be kept has an error count above 65,535 */
    ROBUSTNESS_STORE_FULL = 10,   /* a zone to be kept has no slot left in the store: lend a larger one */
    ROBUSTNESS_BAD_CACHE = 11,    /* the cache is not sound */
    ROBUSTNESS_CACHE_FULL = 12,   /* the cache has no room: lend it with more bytes behind those that are used, at least
                                     ROBUSTNESS_RECORD of the form's length. Or its used length would need more than four bytes */
    ROBUSTNESS_FORM_SHORT = 13,   /* form_len is less than the form has bytes, repeats dropped: lend a larger buffer */
    ROBUSTNESS_RUN_SHORT = 14     /* the target is reached, and run_len is less than the run has numbers: lend a larger buffer */
};

/* The numbers of an answer, by their place. As many are written as are lent; any behind the eighth are left alone. */
enum robustness_place {
    ROBUSTNESS_KIND = 0,    /* ROBUSTNESS_REACHED or ROBUSTNESS_HOLDS */
    ROBUSTNESS_N = 1,       /* holds: for every error below n/d, where 1/0 means any error; reached: 0 and 0 */
    ROBUSTNESS_D = 2,
    ROBUSTNESS_ZONES = 3,   /* zones kept: so many slots of the store are taken by a search */
    ROBUSTNESS_EXACT_N = 4, /* of robustness_search and robustness_write_run, beside every verdict, reached too: for every error below
                               this n/d, where 1/0 means any error, a kept zone is exactly the set of states that runs along its own
                               edges reach. It is never above n/d of a verdict that holds; from it on a zone may have more states.
                               From a cache, whose records do not have it: 0 and 0 */
    ROBUSTNESS_EXACT_D = 5,
    ROBUSTNESS_AGAIN = 6, /* of robustness_search and robustness_write_run, beside every verdict, reached too: zones that were not
                             kept, since every pair equals that of a kept zone. A search that only adds to these goes round exactly.
                             From robustness_look_up and robustness_consult, also where it has searched: 0 */
    ROBUSTNESS_INSIDE = 7, /* likewise, zones that were not kept, since a kept zone contains them and is not equal. Where the automaton
                              holds, zones, again and inside add up to the zones that came out not empty */
    ROBUSTNESS_ANSWER = 8 /* how many there are */
};

/* The kinds of a verdict: the forbidden location is reached with no error at all, or the automaton holds below an error. */
enum robustness_kind { ROBUSTNESS_REACHED = 0, ROBUSTNESS_HOLDS = 1 };

/* The numbers of a slot of the store, for an automaton of 1 to 8 clocks: 3 + 2(n + 1)^2. They are the zone's location, the slot that it
 * came from and the edge taken, both counted from 0 and both -1 for the first zone, and then its pairs, row by row. */
#define ROBUSTNESS_SLOT(clocks) (3 + 2 * ((size_t)(clocks) + 1) * ((size_t)(clocks) + 1))
/* The numbers of a run with so many jumps. A run that is written leaves a kept zone by each jump, and none twice, so that those for
 * the zones kept, or for all slots of the store, are always enough. */
#define ROBUSTNESS_RUN(jumps) (2 + 2 * (size_t)(jumps))
/* The bytes of a cache: its header, which alone is an empty cache, and a record for each form, of a length that is at most
 * automaton_len. The first four say, the highest byte first, how many are used. */
#define ROBUSTNESS_HEADER ((size_t)5)
#define ROBUSTNESS_RECORD(length) (17 + (size_t)(length))
/* The bytes of the longest automaton. */
#define ROBUSTNESS_LONGEST ((size_t)21259)

/* Done, or the smallest of 1 to 8 that applies. */
uint32_t robustness_refusal(const uint8_t *automaton, size_t automaton_len);

/* Writes the canonical form; *length becomes its length. Writing the form's own form changes nothing. Refuses with 1 to 8 and 13. */
uint32_t robustness_canonical(const uint8_t *automaton, size_t automaton_len, uint8_t *form, size_t form_len,
                              uint64_t *length);

/* The search's answer. The kept zones stand in the store, and behind them what was there. Edges are taken in the automaton's own
 * order, so that another order may give another fraction; both are true. Refuses with 1 to 10. */
uint32_t robustness_search(const uint8_t *automaton, size_t automaton_len, int32_t *store, size_t store_len,
                           uint64_t *answer, size_t answer_len);

/* The search's answer and store, exactly as robustness_search has them, and where the answer is reached the run by which it is: its jumps
 * are those that led the search to the target, its waits are this function's choice, and its last state is at the target.
 * robustness_judge passes it. It stands at the beginning of the buffer, and the numbers behind it are as they were; where the automaton
 * holds, all of them are. The search is made afresh, in the store that is lent here. Refuses with 1 to 10, and after a reached verdict
 * with 14. */
uint32_t robustness_write_run(const uint8_t *automaton, size_t automaton_len, int32_t *store, size_t store_len, int64_t *run,
                              size_t run_len, uint64_t *answer, size_t answer_len);

/* Whether the buffer begins with a run of the automaton that ends at the target: *passes becomes 1, or 0. Any numbers may be passed, and
 * what stands behind the run does not matter. Refuses with 1 to 8. */
uint32_t robustness_judge(const uint8_t *automaton, size_t automaton_len, const int64_t *run, size_t run_len,
                          uint64_t *passes);

/* Makes the cache empty. Refuses with 12 where fewer than ROBUSTNESS_HEADER bytes are lent. */
uint32_t robustness_make_empty(uint8_t *cache, size_t cache_len);

/* Done where the cache is sound, else 11. An automaton in it that is not its own form makes it unsound. */
uint32_t robustness_sound(const uint8_t *cache, size_t cache_len);

/* What is filed of an automaton, which is its form's: *filed becomes 1, with the answer, or 0, and then the answer is as it was.
 * Refuses with 1 to 8, then with 13; then the form is written; then with 11. */
uint32_t robustness_look_up(const uint8_t *cache, size_t cache_len, const uint8_t *automaton, size_t automaton_len,
                            uint8_t *form, size_t form_len, uint64_t *filed, uint64_t *answer, size_t answer_len);

/* The answer filed of the form, for which no store is needed, or that of the form's search, which is filed: the form's record is
 * written behind those that are there. Refuses with 1 to 8, then with 13; then the form is written; then with 11; where nothing is
 * filed with 12, then as the search does with 9 and 10. */
uint32_t robustness_consult(uint8_t *cache, size_t cache_len, const uint8_t *automaton, size_t automaton_len, uint8_t *form,
                            size_t form_len, int32_t *store, size_t store_len, uint64_t *answer, size_t answer_len);

#ifdef __cplusplus
}
#endif

#endif
