/* nesfoal.h: the calls of the Nesfoal slicer for C.
 *
 * Plans and slices are place/transition nets in byte strings: markings, in edition 2 caps, arcs and, in a slice, the plan's
 * numbers of its places and transitions (docs/FORMAT.md has them byte by byte). Places and transitions are numbered from 0.
 * Several arcs may join the same place and transition in the same direction: what a transition takes from a place, or
 * adds to it, is the sum of their weights, in every call. A place that has a cap never holds more tokens: a firing that
 * would leave it above its cap is not enabled.
 *
 * What a caller sees to
 * - A byte string, a list and a lent buffer are each a pointer and a count of entries. As many entries can be read there, and
 *   in a lent buffer written, until the call returns; they take at most PTRDIFF_MAX bytes, as every object in C does.
 * - Where the count is 0 the pointer is not used: it may be null, or point anywhere. With any other count it is not null.
 * - Lists of 16, 32 and 64 bits stand at the alignment of their type; byte strings may stand at any address.
 * - Each result pointer (int32_t *, uint32_t * or uint64_t * without a count) is not null and points to one number, at its
 *   alignment.
 * - What a call writes overlaps nothing else that it is given: a lent buffer and a result overlap no input, no other buffer
 *   and no other result. Inputs may overlap each other, or be the same string.
 * - While a call runs nobody else writes what it reads, and nobody else reads or writes what it writes.
 * - There is stack: as many bytes as NESFOAL_STACK_.. names for the call.
 *
 * What is proved of every such call, on every input: whatever the counts are, whatever the strings, lists and buffers hold, and
 * whatever numbers are passed
 * - It returns, and does nothing undefined.
 * - It answers as stated below, and each result and each entry of a lent buffer is afterwards as stated below.
 * - Bad input is refused: the call returns the number of the first rule broken, in the order told below, puts 0 into
 *   every result pointer (14 alone tells more), and leaves every lent buffer as it was. (A read of one transition's arcs has
 *   no number: it gives an empty run.)
 * - It allocates nothing, keeps no state, and reads and writes nothing but its arguments; so calls may run on many threads at once.
 * README.md says what the proofs themselves assume.
 *
 * Link with libnesfoal.a (`dist/archive` makes it).
 */
#ifndef NESFOAL_H
#define NESFOAL_H

#include <stdbool.h>
#include <stddef.h>
#include <stdint.h>

/* One more with each change of a call, of a number or of the files, so that a program can refuse to be built with another. */
#define NESFOAL_VERSION 13

/* The limits of a file, and of a list that a call takes. */
#define NESFOAL_MAX_FILE_BYTES 65536
#define NESFOAL_MAX_PLACES 1024
#define NESFOAL_MAX_TRANSITIONS 1024
#define NESFOAL_MAX_ARCS 4096
#define NESFOAL_MAX_LIST_ENTRIES 65535

/* Room that always suffices, whatever the plan and the list, so that 13 is not met: bytes for the slice that a cut writes,
 * 45,072 (8 for a marking and a cap, 8 for an arc, 2 for an origin, 16 for the trailer), and for a plan, 40,976; entries for a
 * marking, of a replay, of what nesfoal_together leaves, of what nesfoal_range needs or of a transfer; entries for a shadow;
 * entries for the positions of a run cut.
 */
#define NESFOAL_SLICE_ROOM \
    (8 * NESFOAL_MAX_PLACES + 8 * NESFOAL_MAX_ARCS + 2 * NESFOAL_MAX_PLACES + 2 * NESFOAL_MAX_TRANSITIONS + 16)
#define NESFOAL_PLAN_ROOM (8 * NESFOAL_MAX_PLACES + 8 * NESFOAL_MAX_ARCS + 16)
#define NESFOAL_MARKING_ROOM NESFOAL_MAX_PLACES
#define NESFOAL_SHADOW_ROOM NESFOAL_MAX_LIST_ENTRIES
#define NESFOAL_POSITIONS_ROOM NESFOAL_MAX_LIST_ENTRIES

/* The entry of nesfoal_transfer's table for an old place that has no new one. */
#define NESFOAL_NO_PLACE 65535

/* The stack that a call takes at most, in bytes, below the arguments that are handed over on it. Measured for this archive on
 * x86-64: the tests make every call on a stack of just so many. The memcpy and memset of the C library count with it, once they are
 * bound; a linker that binds them at the first call takes some 3 KB more then.
 */
#define NESFOAL_STACK_CHECK 25600
#define NESFOAL_STACK_VERDICT 23552
#define NESFOAL_STACK_EFFECT 1024
#define NESFOAL_STACK_REPLAY 30720
#define NESFOAL_STACK_SAFETY 27648
#define NESFOAL_STACK_BRANCHING 27648
#define NESFOAL_STACK_RUN_CUT 59392
#define NESFOAL_STACK_SHADOW 39936
#define NESFOAL_STACK_TOGETHER 1024
#define NESFOAL_STACK_ARCS 1024
#define NESFOAL_STACK_RANGE 6144
#define NESFOAL_STACK_NORMAL 1024
#define NESFOAL_STACK_TRANSFER 9728
#define NESFOAL_STACK_REPLAY_FROM 30720
#define NESFOAL_STACK_SAFETY_FROM 27648
#define NESFOAL_STACK_BRANCHING_FROM 27648
#define NESFOAL_STACK_VERDICT_FROM 23552
#define NESFOAL_STACK_FROM_PNML 39936

/* What the calls return, but for nesfoal_arcs. In the order of checking: files come first (plan before slice, old plan before
 * new), then the marking that a call starts from, criterion, list or transition, marking or upper list, and last the buffer;
 * each file is gone through from 1 to 5, then 16, then its arcs one by one, 6 before 7, then 8. So a plan is refused with 1 to
 * 7 or 16, a slice with 1 to 8 or 16: 'of the file' below.
 */
enum {
    NESFOAL_DONE = 0,
    NESFOAL_ACCEPTED = 0, /* the same, of a check */

    NESFOAL_REFUSED_LENGTH = 1,      /* file: below 16 or above 65,536 bytes */
    NESFOAL_REFUSED_LETTERS = 2,     /* trailer: letters or edition wrong */
    NESFOAL_REFUSED_KIND = 3,        /* trailer: kind above 1, or not the kind due */
    NESFOAL_REFUSED_COUNTS = 4,      /* trailer: places, transitions or arcs above the limit, or a plan of neither place
                                        nor transition */
    NESFOAL_REFUSED_BODY = 5,        /* trailer: body length not as computed, or above the file's length less 16 */
    NESFOAL_REFUSED_ARC = 6,         /* an arc: zero byte, direction, place, transition or weight out of range */
    NESFOAL_REFUSED_ORDER = 7,       /* an arc: below the arc before it, by transition, then direction, then place
                                        (equal ones are parallel arcs) */
    NESFOAL_REFUSED_ORIGINS = 8,     /* a table of origins: not strictly rising */
    NESFOAL_REFUSED_CRITERION = 9,   /* criterion in bytes: an odd count */
    NESFOAL_REFUSED_PLACE = 10,      /* criterion or place: a number that is no place, or a criterion that does not rise */
    NESFOAL_REFUSED_LIST = 11,       /* list: above 65,535 entries */
    NESFOAL_REFUSED_TRANSITION = 12, /* list or transition: a number that is no transition */
    NESFOAL_REFUSED_BUFFER = 13,     /* buffer: shorter than what the call writes; always the last */
    NESFOAL_REFUSED_STUCK = 14,      /* list of a run cut: it sticks; comes after 12 */
    NESFOAL_REFUSED_MARKING = 15,    /* marking: not as many entries as the plan has places */
    NESFOAL_REFUSED_CAP = 16,        /* a place: its marking above its cap, if that is not 0; comes after 5 */
    NESFOAL_REFUSED_CAPPED = 17,     /* plan of a run cut or of a range: some place has a cap; comes after the plan's own */
    NESFOAL_REFUSED_PROFILE = 18,    /* text in PNML: outside the profile */
    NESFOAL_REFUSED_ID = 19,         /* text in PNML: an id used twice, an end that is the id of no place and no transition, or an
                                        arc between two of the same sort */
    NESFOAL_REFUSED_NUMBER = 20,     /* text in PNML: a count or a number past its limit, a weight of 0, or neither place nor
                                        transition */
    NESFOAL_REFUSED_UPPER = 21,      /* upper list: not as many entries as the plan has places, or one below the plan's marking */
    NESFOAL_REFUSED_ENTRIES = 22,    /* start, running marking or table: not as many entries as places; or an entry of the table
                                        that is neither a place of the new plan nor NESFOAL_NO_PLACE */
    NESFOAL_REFUSED_STRANDED = 23,   /* table: a place that has tokens has no new place */
    NESFOAL_REFUSED_TOKENS = 24,     /* start, or what a new place gets: above 4,294,967,295, or above the place's cap, if that
                                        is not 0 */
    NESFOAL_REFUSED_WEIGHT = 25,     /* plan to be normalised: parallel arcs whose weights sum to more than 65,535; comes after
                                        the plan's own */
    NESFOAL_LAST_REFUSAL = 25,       /* answers from 1 to this one are refusals */

    NESFOAL_STUCK = 100,     /* of a replay or a run with its shadow: a transition lacks tokens */
    NESFOAL_FULL = 101,      /* of the same: it has them, and would leave a place above its cap */
    NESFOAL_UNLIMITED = 100, /* of nesfoal_together: the transition takes nothing */
    NESFOAL_SOME = 100,      /* of nesfoal_range: the list fires from some markings in the range, but not from all */
    NESFOAL_NONE = 101,      /* of the same: from none; from every one is 0, NESFOAL_DONE */
    NESFOAL_RULE = 100       /* of a check: plus the number of the broken rule, 1 to 10 */
};

/* What each call can return beside 0, in the order of checking; 'file', 'plan' and 'slice' are 1 to 5, 16, 6 and 7 one by one, and 8
 * for a slice. 100 and above are no refusals, and mean what stands here for that call alone. samples/words.c has a text for each number.
 *
 *   nesfoal_check                      plan, slice, 9, 10; 101 to 110 a rule
 *   nesfoal_verdict                    plan, slice, 10; 101 to 110 a rule
 *   nesfoal_verdict_from               plan, slice, 22, 24, 10; 101 to 110 a rule
 *   nesfoal_effect                     file, 10, 12
 *   nesfoal_replay                     file, 11, 12, 13; 100 stuck, 101 full
 *   nesfoal_replay_from                file, 22, 24, 11, 12, 13; 100 stuck, 101 full
 *   nesfoal_shadow                     plan, slice, 11, 12, 13; 100 stuck, 101 full
 *   nesfoal_together                   plan, 12, 15, 13; 100 unlimited
 *   nesfoal_range                      plan, 17, 11, 12, 21, 13; 100 from some markings, 101 from none
 *   nesfoal_safety                     plan, 10, 13
 *   nesfoal_safety_from                plan, 22, 24, 10, 13
 *   nesfoal_branching                  plan, 10, 13
 *   nesfoal_branching_from             plan, 22, 24, 10, 13
 *   nesfoal_run_cut                    plan, 17, 10, 11, 12, 14, 13
 *   nesfoal_transfer                   old plan, new plan, 22, 23, 24, 13
 *   nesfoal_normal                     plan, 25, 13
 *   nesfoal_from_pnml                  1, 18, 19, 20, 13
 *   nesfoal_arcs                       no number: the length of the run, 0 where it is refused
 */

#ifdef __cplusplus
extern "C" {
#endif

/* Is the slice good for the plan and the criterion? A slice, whoever made it, that is accepted loses no run of the plan
 * and makes none up: every list that fires in the plan fires in the slice once the transitions missing from it are
 * struck out, and both end with equal tokens on each place of the criterion; a list of the slice's own transitions fires
 * in the slice exactly when it fires in the plan, and then both end with equal tokens on each place of the slice.
 *
 * criterion: places of the plan, strictly rising, 2 bytes each, low byte first. There may be none: then 105 and 106 do not
 * occur, and the slice of 16 bytes with no places and no transitions is the smallest that is accepted.
 * Returns 0 accepted; 1 to 10 or 16 a refusal (9 an odd count of bytes); 100 plus the number of the first rule broken:
 *   101 an origin that is no place of the plan        105 a place of the criterion that is not kept
 *   102 an origin that is no transition of the plan   106 a transition left out that changes a place of the criterion
 *   103 a marking or a cap other than the plan's      107 a kept transition with an input place that is not kept
 *   104 arcs other than the plan's to kept places     108 a transition left out that raises a kept place
 *   109 a kept transition that adds to a place with a cap that is not kept
 *   110 a transition left out that changes a kept place with a cap
 * Rule 104 compares arc by arc: parallel arcs in another order, or joined into one, are other arcs. Editions are not compared.
 */
uint32_t nesfoal_check(const uint8_t *plan, size_t plan_length,
                       const uint8_t *slice, size_t slice_length,
                       const uint8_t *criterion, size_t criterion_length);

/* The same with the criterion as numbers (criterion_count of them), and with the lowest number that breaks the rule put
 * into *number: the slice's place or transition for 101 and 102, the plan's place for 103 and 105, the plan's transition
 * for 104 and 106 to 110; 0 where the slice is accepted or the call is refused.
 */
uint32_t nesfoal_verdict(const uint8_t *plan, size_t plan_length,
                         const uint8_t *slice, size_t slice_length,
                         const uint16_t *criterion, size_t criterion_count,
                         uint32_t *number);

/* The effect of a transition on a place of a plan or a slice: by how much one firing changes the place's tokens.
 *
 * Returns 0 and puts the effect, from -268,431,360 to 268,431,360, into *effect; or returns a refusal: that of the
 * file, then 10 for an unknown place, then 12 for an unknown transition, with 0 in *effect.
 */
uint32_t nesfoal_effect(const uint8_t *file, size_t file_length,
                        uint32_t place, uint32_t transition,
                        int32_t *effect);

/* Fires a list of transitions of a plan or a slice, one after the other, from the initial marking.
 *
 * Returns 0 where all fired; NESFOAL_STUCK where one lacks tokens, with its index (from 0) in *index, the lowest-numbered
 * place that is short in *place and the tokens missing there, at least 1, in *amount; NESFOAL_FULL where it lacks none but
 * would leave a place above its cap, with its index, the lowest-numbered such place and the tokens above the cap, at least 1;
 * or a refusal: that of the file, 11, 12, and 13 where marking has fewer entries than the net has places. *index, *place and
 * *amount are 0 but where it is stuck or full.
 * The first entries of marking, one for each place, become the marking after all firings, or the one before the firing
 * that is stuck or full; later entries keep their values. Every entry of such a marking is below 2 to the power 45.
 */
uint32_t nesfoal_replay(const uint8_t *file, size_t file_length,
                        const uint16_t *list, size_t list_count,
                        uint64_t *marking, size_t marking_count,
                        uint32_t *index, uint32_t *place, uint32_t *amount);

/* A run and its shadow: fires a list of a plan's transitions as nesfoal_replay does, and carries what fired over to a slice.
 * The shadow is the slice's own number for each transition fired that the slice has, in order; the others are dropped. Where
 * the list is stuck or full, that is the firings before the index.
 * In a slice that nesfoal_check accepts for the plan and a criterion the shadow always fires, whether the list fires whole or
 * not, and ends there with the tokens of the marking written, on each place of the criterion.
 *
 * Returns 0, NESFOAL_STUCK or NESFOAL_FULL, with marking, *index, *place and *amount as of nesfoal_replay, and puts how many
 * numbers were written to out into *count; or a refusal: that of the plan, of the slice, 11, 12 (by the plan's transitions), 13
 * where marking has fewer entries than the plan has places, and then 13 where out has fewer than the shadow.
 * Later entries of marking and of out keep their values.
 */
uint32_t nesfoal_shadow(const uint8_t *plan, size_t plan_length,
                        const uint8_t *slice, size_t slice_length,
                        const uint16_t *list, size_t list_count,
                        uint64_t *marking, size_t marking_count,
                        uint16_t *out, size_t out_count,
                        uint32_t *index, uint32_t *place, uint32_t *amount, uint32_t *count);

/* How many times can the inputs of a transition of a plan be taken together from a marking, and what is then left? The
 * answer is the largest k for which every place holds k times what the transition takes from it: for k + 1 some place is
 * short. What the transition adds does not count, nor do caps, nor the plan's own marking.
 *
 * marking: the tokens of each place, as many entries as the plan has places, any numbers.
 * Returns 0, with k, from 0 to 2^64 - 1, in *times; NESFOAL_UNLIMITED, exactly where the transition takes nothing from any
 * place; or a refusal: that of the plan, 12 for an unknown transition, 15 where marking_count is not the number of places, and 13
 * where rest has fewer entries than that. *times is 0 but where k is put there.
 * The first entries of rest, one for each place, become the tokens less k times what is taken there, exactly; where it is
 * unlimited, the marking. Later entries keep their values.
 */
uint32_t nesfoal_together(const uint8_t *plan, size_t plan_length,
                          uint32_t transition,
                          const uint64_t *marking, size_t marking_count,
                          uint64_t *rest, size_t rest_count,
                          uint64_t *times);

/* Attendance known within a range: before roll call the tokens of each place lie between the plan's marking and upper, both
 * included. Does a list of the plan's transitions fire from every marking in that range, from some but not all, or from none? And
 * what does it need? From a marking, in the range or not, the list fires exactly where that marking has at least need's tokens on
 * each place; so need is the least marking from which it fires.
 * Plans with caps are refused, since there more tokens can block a firing.
 *
 * upper: the most tokens of each place, as many entries as the plan has places, none below the plan's marking.
 * Returns 0 from every marking, NESFOAL_SOME or NESFOAL_NONE; or a refusal: that of the plan, 17 where a place has a cap, 11, 12,
 * 21, and 13 where need has fewer entries than the plan has places.
 * The first entries of need, one for each place, become the tokens needed there, whichever of the three is answered; each is
 * below 2 to the power 44. Later entries keep their values.
 */
uint32_t nesfoal_range(const uint8_t *plan, size_t plan_length,
                       const uint16_t *list, size_t list_count,
                       const uint32_t *upper, size_t upper_count,
                       uint64_t *need, size_t need_count);

/* The safety cut of a plan for a criterion (places of the plan, strictly rising): the smallest slice that nesfoal_check
 * accepts for them, written as a slice file without note, of the plan's edition. For no place either cut is the slice of 16
 * bytes with no places and no transitions.
 *
 * Returns 0, with the file's length in *length and the numbers of kept places and transitions in *places and
 * *transitions; or a refusal: that of the plan, 10, and 13 where slice is shorter than the file.
 * Bytes of slice past the file's length keep their values.
 */
uint32_t nesfoal_safety(const uint8_t *plan, size_t plan_length,
                        const uint16_t *criterion, size_t criterion_count,
                        uint8_t *slice, size_t slice_length,
                        uint32_t *length, uint32_t *places, uint32_t *transitions);

/* The branching cut: the same call for the slice that also keeps every transition that changes a kept place. So every list that
 * fires in the plan, struck out, ends there with the plan's tokens on each of its places, and not on the criterion alone. */
uint32_t nesfoal_branching(const uint8_t *plan, size_t plan_length,
                           const uint16_t *criterion, size_t criterion_count,
                           uint8_t *slice, size_t slice_length,
                           uint32_t *length, uint32_t *places, uint32_t *transitions);

/* The cut for one recorded run: what fed the places of a criterion in a list of firings. From the last firing back, with W the
 * criterion at first: a firing that raised the tokens of a place of W is chosen, and its transition's input places join W.
 * The slice file has the places of the final W, the chosen transitions and every arc of the plan between them; positions gets
 * where the chosen firings stand in the list, from 0 and rising. For no place it is the slice of 16 bytes, with none chosen.
 * Fired in order from the slice's marking, the chosen firings all fire, and leave each place of the criterion at least the
 * tokens that the list leaves there in the plan.
 * This slice is for that run: it says nothing of others, and nesfoal_check need not accept it. Plans with caps are refused.
 *
 * Returns 0, with *length, *places and *transitions as of nesfoal_safety and the number of positions written in *count; or a
 * refusal: that of the plan, 17 where a place has a cap, 10, 11, 12, 14 where the list sticks, with *index, *place and *amount
 * as of nesfoal_replay, 13 where slice is shorter than the file, and then 13 where positions has fewer entries than are chosen.
 * Of *length, *places, *transitions and *count all are 0 where it is refused; *index, *place and *amount are 0 but for 14.
 * Later bytes of slice and later entries of positions keep their values.
 */
uint32_t nesfoal_run_cut(const uint8_t *plan, size_t plan_length,
                         const uint16_t *criterion, size_t criterion_count,
                         const uint16_t *list, size_t list_count,
                         uint8_t *slice, size_t slice_length,
                         uint16_t *positions, size_t positions_count,
                         uint32_t *length, uint32_t *places, uint32_t *transitions, uint32_t *count,
                         uint32_t *index, uint32_t *place, uint32_t *amount);

/* Change of plan with buses on the road: carries a running marking of an old plan over to a new one. Each new place gets the sum
 * of the tokens of the old places that the table sends there, 0 where it sends none; so the total is unchanged. Neither plan's own
 * marking plays a part, nor do the old plan's caps.
 *
 * running: the tokens of each old place, any numbers. table: for each old place the new place, or NESFOAL_NO_PLACE.
 * Returns 0; or a refusal: that of the old plan, that of the new plan, 22 where running or table has not as many entries as the old
 * plan has places, or an entry of table is neither a place of the new plan nor NESFOAL_NO_PLACE, 23 where a place with tokens has no
 * new place, 24 where a new place would get more than 4,294,967,295 tokens or more than its cap, and 13 where marking has fewer
 * entries than the new plan has places; each for all places before the next.
 * The first entries of marking, one for each new place, become the sums; later entries keep their values. The calls below take
 * them as a start for the new plan.
 */
uint32_t nesfoal_transfer(const uint8_t *old_plan, size_t old_plan_length,
                          const uint8_t *new_plan, size_t new_plan_length,
                          const uint64_t *running, size_t running_count,
                          const uint16_t *table, size_t table_count,
                          uint64_t *marking, size_t marking_count);

/* A replay, the two static cuts and a check that start from a lent marking in place of the file's own. Each answers, and writes, what
 * the call without _from does for the file in which start stands for the marking; from the file's own marking they are the same.
 * So the cuts write start's tokens into the slice, rule 103 compares the slice's marking with start, and what is promised of an
 * accepted slice and of either cut is promised for the lists that fire from start.
 * nesfoal_check, nesfoal_shadow and nesfoal_run_cut stay with the plan's own marking.
 *
 * start: the tokens of each place of the file that is replayed, or of the plan; each at most 4,294,967,295 and at most its
 * place's cap, if that is not 0.
 * Refusals are those of the call without _from, with 22 and then 24 for start after the files, before criterion or list.
 */
uint32_t nesfoal_replay_from(const uint8_t *file, size_t file_length,
                             const uint64_t *start, size_t start_count,
                             const uint16_t *list, size_t list_count,
                             uint64_t *marking, size_t marking_count,
                             uint32_t *index, uint32_t *place, uint32_t *amount);
uint32_t nesfoal_safety_from(const uint8_t *plan, size_t plan_length,
                             const uint64_t *start, size_t start_count,
                             const uint16_t *criterion, size_t criterion_count,
                             uint8_t *slice, size_t slice_length,
                             uint32_t *length, uint32_t *places, uint32_t *transitions);
uint32_t nesfoal_branching_from(const uint8_t *plan, size_t plan_length,
                                const uint64_t *start, size_t start_count,
                                const uint16_t *criterion, size_t criterion_count,
                                uint8_t *slice, size_t slice_length,
                                uint32_t *length, uint32_t *places, uint32_t *transitions);
uint32_t nesfoal_verdict_from(const uint8_t *plan, size_t plan_length,
                              const uint8_t *slice, size_t slice_length,
                              const uint64_t *start, size_t start_count,
                              const uint16_t *criterion, size_t criterion_count,
                              uint32_t *number);

/* The normal form of a plan, by which a planner who redraws a net sees that it is still one plan: the plan without note, in
 * edition 2, each run of parallel arcs joined into one arc with the sum of their weights, everything else in order.
 * Two plans that are not refused here (13 aside) have the same normal form, byte for byte, exactly where they have the same
 * numbers of places and transitions, the same marking and cap on each place, and each transition takes the same from each place
 * and adds the same to it. Places and transitions keep their numbers: a net that is numbered anew is another plan.
 * The normal form of a normal form is itself. Every list fares alike in a plan and in its normal form: nesfoal_replay gives the same
 * answer and the same marking. A slice does not go over: rule 104 compares arc by arc, and joined arcs are other arcs.
 *
 * Returns 0, with the file's length in *length; or a refusal: that of the plan, 25, and 13 where normal is shorter than the file.
 * Bytes of normal past the file's length keep their values.
 */
uint32_t nesfoal_normal(const uint8_t *plan, size_t plan_length,
                        uint8_t *normal, size_t normal_length,
                        uint32_t *length);

/* The plan that a text in PNML draws (ISO/IEC 15909-2, the grammar of 2009), of a strict profile, written as a plan file of edition 1
 * without note. What the text has, with white space (bytes 9, 10, 13, 32) before the first tag, after the last, and between two
 * tags with no digits between them, and nowhere else:
 *   <pnml xmlns="http://www.pnml.org/version-2009/grammar/pnml">
 *   <net id="ID" type="http://www.pnml.org/version-2009/grammar/ptnet">
 *   <page id="ID"> elements </page> </net> </pnml>
 * Elements, in any order, any number of each:
 *   <place id="ID"> <initialMarking> <text>DIGITS</text> </initialMarking> </place>
 *   <transition id="ID"> </transition>
 *   <arc id="ID" source="ID" target="ID"> <inscription> <text>DIGITS</text> </inscription> </arc>
 * The initialMarking, 0 without one, and the inscription, 1 without one, may be missing; an element with nothing in it may also
 * close in its own tag, as <place id="ID"/>. Attributes stand in this order, in double quotes, with one space before each.
 * An ID has 1 to 32 characters, each a letter from A to Z or a to z, a digit, - _ or . ; DIGITS is one or more. Nothing else is
 * taken: no declaration, no comment, no entity, no name, no graphics.
 * The net is the one that the text names: places and transitions have their numbers by the order in which they appear; arcs are
 * sorted, parallel ones in the order in which they appear; what a transition takes from a place, or adds to it, is the sum of the
 * inscriptions between the two ids.
 *
 * Returns 0, with the file's length in *length; or a refusal: 1 where the text has more than 65,536 bytes, 18, 19 (the ids of net,
 * page, places, transitions and arcs all differ), 20 (as for a file: 1,024 places and transitions, 4,096 arcs, a marking up to
 * 4,294,967,295, a weight from 1 to 65,535), each for the whole text before the next, and 13 where plan is shorter than the file.
 * Bytes of plan past the file's length keep their values. NESFOAL_PLAN_ROOM always suffices.
 * The time is linear in the text but for two things: arcs that stand in falling order, and ids that were chosen to share a row of
 * the table in which they are looked up, take the square of their number. At 65,536 bytes that is 1 ms and 30 ms (x86-64).
 */
uint32_t nesfoal_from_pnml(const uint8_t *text, size_t text_length,
                           uint8_t *plan, size_t plan_length,
                           uint32_t *length);

/* Where the arcs of a transition stand: in the slice where of_slice is true, else in the plan. Both files are read.
 *
 * Returns the length of the run in bytes, 8 for each arc, and puts the offset of its first byte in the file named into
 * *start. An arc is: transition (2 bytes, low byte first), direction (1: 0 from place to transition, 1 from transition to
 * place), a zero byte, place (2), weight (2). Parallel arcs stand there one by one, as in the file.
 * The run is empty, and both numbers are 0, exactly where either file is refused, the number is unknown in the file
 * named, or the transition has no arcs there. It is then the empty part at the start of the file named.
 */
uint32_t nesfoal_arcs(const uint8_t *plan, size_t plan_length,
                      const uint8_t *slice, size_t slice_length,
                      bool of_slice, uint32_t transition,
                      uint32_t *start);

#ifdef __cplusplus
}
#endif

#endif
