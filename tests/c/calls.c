/* Uses the library as a C program would, on the small kerb of paper 01, and with a cap on one of its places (02, A9). */

#include "nesfoal.h"

#include <stdbool.h>
#include <stddef.h>
#include <stdint.h>
#include <stdio.h>
#include <string.h>

/* The kerb's arcs: transition, direction, zero, place, weight. */
#define KERB_ARCS \
    0, 0,  0, 0,  0, 0,  1, 0, \
    0, 0,  0, 0,  1, 0,  1, 0, \
    0, 0,  1, 0,  2, 0,  1, 0, \
    1, 0,  0, 0,  2, 0,  1, 0, \
    1, 0,  1, 0,  1, 0,  1, 0, \
    1, 0,  1, 0,  3, 0,  1, 0, \
    2, 0,  0, 0,  3, 0,  2, 0, \
    2, 0,  1, 0,  4, 0,  1, 0, \
    3, 0,  0, 0,  0, 0,  1, 0

/* Places 0 waiting (2 tokens), 1 bay free (1), 2 in bay, 3 left, 4 bell (0 each). */
static const uint8_t plan[108] = {
    2, 0, 0, 0,  1, 0, 0, 0,  0, 0, 0, 0,  0, 0, 0, 0,  0, 0, 0, 0,
    KERB_ARCS,
    /* body length, P, T, A, kind, edition, letters */
    92, 0, 0, 0,  5, 0,  4, 0,  9, 0,  0, 1,  'B', 'E', 'L', 'L',
};

/* Its safety cut for place 2: places 0, 1, 2 and transitions 0, 1. */
static const uint8_t cut[78] = {
    2, 0, 0, 0,  1, 0, 0, 0,  0, 0, 0, 0,
    0, 0,  0, 0,  0, 0,  1, 0,
    0, 0,  0, 0,  1, 0,  1, 0,
    0, 0,  1, 0,  2, 0,  1, 0,
    1, 0,  0, 0,  2, 0,  1, 0,
    1, 0,  1, 0,  1, 0,  1, 0,
    /* place origins, transition origins */
    0, 0,  1, 0,  2, 0,   0, 0,  1, 0,
    62, 0, 0, 0,  3, 0,  2, 0,  5, 0,  1, 1,  'B', 'E', 'L', 'L',
};

/* The slice with no places and no transitions: the cut of every plan for no place. */
static const uint8_t empty[16] = {0, 0, 0, 0, 0, 0, 0, 0, 0, 0, 1, 1, 'B', 'E', 'L', 'L'};

/* The kerb in edition 2, with a cap of 1 on place 3: each place has its marking and its cap. */
static const uint8_t capped[128] = {
    2, 0, 0, 0, 0, 0, 0, 0,  1, 0, 0, 0, 0, 0, 0, 0,  0, 0, 0, 0, 0, 0, 0, 0,  0, 0, 0, 0, 1, 0, 0, 0,  0, 0, 0, 0, 0, 0, 0, 0,
    KERB_ARCS,
    112, 0, 0, 0,  5, 0,  4, 0,  9, 0,  0, 2,  'B', 'E', 'L', 'L',
};

/* Its safety cut for place 2: transition 1 adds to place 3, which is capped, and transition 2 changes that. */
static const uint8_t capped_cut[118] = {
    2, 0, 0, 0, 0, 0, 0, 0,  1, 0, 0, 0, 0, 0, 0, 0,  0, 0, 0, 0, 0, 0, 0, 0,  0, 0, 0, 0, 1, 0, 0, 0,
    0, 0,  0, 0,  0, 0,  1, 0,
    0, 0,  0, 0,  1, 0,  1, 0,
    0, 0,  1, 0,  2, 0,  1, 0,
    1, 0,  0, 0,  2, 0,  1, 0,
    1, 0,  1, 0,  1, 0,  1, 0,
    1, 0,  1, 0,  3, 0,  1, 0,
    2, 0,  0, 0,  3, 0,  2, 0,
    0, 0,  1, 0,  2, 0,  3, 0,   0, 0,  1, 0,  2, 0,
    102, 0, 0, 0,  4, 0,  3, 0,  7, 0,  1, 2,  'B', 'E', 'L', 'L',
};

static unsigned passed, failed;

static void expect(const char *what, long long got, long long due)
{
    if (got == due) {
        passed++;
    } else {
        failed++;
        printf("%s: %lld, but %lld is due\n", what, got, due);
    }
}

static void effect_is(const char *what, const uint8_t *file, size_t n, uint32_t place, uint32_t transition,
                      uint32_t number, int32_t due)
{
    int32_t effect = 99;
    expect(what, nesfoal_effect(file, n, place, transition, &effect), number);
    expect(what, effect, due);
}

static void run_is(const char *what, const uint8_t *plan, size_t plan_n, const uint8_t *slice, size_t slice_n,
                   bool of_slice, uint32_t transition, uint32_t length, uint32_t due)
{
    uint32_t start = 99;
    expect(what, nesfoal_arcs(plan, plan_n, slice, slice_n, of_slice, transition, &start), length);
    expect(what, start, due);
}

static void effects(void)
{
    uint8_t spoilt[108];
    effect_is("effect of 2 on 3", plan, 108, 3, 2, 0, -2);
    effect_is("effect of 1 on 0", plan, 108, 0, 1, 0, 0);
    effect_is("effect of 1 on 1", plan, 108, 1, 1, 0, 1);
    effect_is("effect of 1 on 2 in the slice", cut, 78, 2, 1, 0, -1);
    effect_is("unknown place", plan, 108, 5, 0, NESFOAL_REFUSED_PLACE, 0);
    effect_is("unknown transition", plan, 108, 0, 4, NESFOAL_REFUSED_TRANSITION, 0);
    effect_is("both unknown", plan, 108, 5, 4, NESFOAL_REFUSED_PLACE, 0);
    effect_is("65,536 more than a place", plan, 108, 65539, 2, NESFOAL_REFUSED_PLACE, 0);
    effect_is("65,536 more than a transition", plan, 108, 3, 65538, NESFOAL_REFUSED_TRANSITION, 0);
    effect_is("the largest numbers", plan, 108, UINT32_MAX, UINT32_MAX, NESFOAL_REFUSED_PLACE, 0);
    effect_is("no bytes", NULL, 0, 0, 0, NESFOAL_REFUSED_LENGTH, 0);
    effect_is("15 bytes", plan + 93, 15, 0, 0, NESFOAL_REFUSED_LENGTH, 0);
    effect_is("front byte lost", plan + 1, 107, 0, 0, NESFOAL_REFUSED_BODY, 0);
    /* Offsets in the file: trailer at 92, first arc at 20. */
    const struct {
        const char *what;
        size_t at;
        uint8_t value;
        uint32_t number;
    } faults[] = {
        {"letter", 104, 'b', NESFOAL_REFUSED_LETTERS},
        {"edition 0", 103, 0, NESFOAL_REFUSED_LETTERS},
        {"edition 3", 103, 3, NESFOAL_REFUSED_LETTERS},
        {"edition 2, places of 4 bytes", 103, 2, NESFOAL_REFUSED_BODY},
        {"kind", 102, 2, NESFOAL_REFUSED_KIND},
        {"P above its limit", 97, 8, NESFOAL_REFUSED_COUNTS},
        {"body length", 92, 93, NESFOAL_REFUSED_BODY},
        {"direction", 22, 2, NESFOAL_REFUSED_ARC},
        {"zero byte", 23, 1, NESFOAL_REFUSED_ARC},
        {"weight 0", 26, 0, NESFOAL_REFUSED_ARC},
        {"an arc below the one before", 24, 2, NESFOAL_REFUSED_ORDER},
    };
    for (size_t i = 0; i < sizeof faults / sizeof faults[0]; i++) {
        memcpy(spoilt, plan, 108);
        spoilt[faults[i].at] = faults[i].value;
        effect_is(faults[i].what, spoilt, 108, 0, 0, faults[i].number, 0);
    }
    memcpy(spoilt, plan, 108);
    spoilt[32] = 0; /* the second arc is parallel to the first */
    effect_is("parallel arcs", spoilt, 108, 0, 0, 0, -2);
    uint8_t spoilt_cut[78];
    memcpy(spoilt_cut, cut, 78);
    spoilt_cut[54] = 0; /* place origins 0, 0, 2 */
    effect_is("equal origins", spoilt_cut, 78, 0, 0, NESFOAL_REFUSED_ORIGINS, 0);
}

static void arcs(void)
{
    run_is("plan, transition 0", plan, 108, cut, 78, false, 0, 24, 20);
    run_is("plan, transition 2", plan, 108, cut, 78, false, 2, 16, 68);
    run_is("plan, transition 3", plan, 108, cut, 78, false, 3, 8, 84);
    run_is("slice, transition 0", plan, 108, cut, 78, true, 0, 24, 12);
    run_is("slice, transition 1", plan, 108, cut, 78, true, 1, 16, 36);
    run_is("plan, unknown", plan, 108, cut, 78, false, 4, 0, 0);
    run_is("slice, unknown", plan, 108, cut, 78, true, 2, 0, 0);
    run_is("plan, 65,536 more than a transition", plan, 108, cut, 78, false, 65538, 0, 0);
    run_is("slice, 65,536 more than a transition", plan, 108, cut, 78, true, 65536, 0, 0);
    run_is("files the wrong way round", cut, 78, plan, 108, false, 0, 0, 0);
    run_is("no plan", NULL, 0, cut, 78, true, 0, 0, 0);
    run_is("no slice", plan, 108, NULL, 0, false, 0, 0, 0);
    run_is("no files", NULL, 0, NULL, 0, false, 0, 0, 0);

    /* A user reads the weight of the first arc of the run: bytes 6 and 7 of it. */
    uint32_t start = 0;
    uint32_t length = nesfoal_arcs(plan, 108, cut, 78, false, 2, &start);
    expect("two arcs", length / 8, 2);
    expect("weight of the first", plan[start + 6] + 256 * plan[start + 7], 2);
}

static void replays(void)
{
    const struct {
        const char *what;
        uint16_t list[5];
        size_t n, room;
        uint32_t answer, index, place, amount;
        uint64_t marking[6];
    } cases[] = {
        {"0,1,0,1,2", {0, 1, 0, 1, 2}, 5, 6, 0, 0, 0, 0, {0, 1, 0, 0, 1, 7}},
        {"the empty list", {0}, 0, 6, 0, 0, 0, 0, {2, 1, 0, 0, 0, 7}},
        {"0,0", {0, 0}, 2, 5, NESFOAL_STUCK, 1, 1, 1, {1, 0, 1, 0, 0, 7}},
        {"3,3,0", {3, 3, 0}, 3, 5, NESFOAL_STUCK, 2, 0, 1, {0, 1, 0, 0, 0, 7}},
        {"an unknown transition", {0, 4}, 2, 5, NESFOAL_REFUSED_TRANSITION, 0, 0, 0, {7, 7, 7, 7, 7, 7}},
        {"too few entries", {0}, 1, 4, NESFOAL_REFUSED_BUFFER, 0, 0, 0, {7, 7, 7, 7, 7, 7}},
    };
    for (size_t i = 0; i < sizeof cases / sizeof cases[0]; i++) {
        uint64_t marking[6] = {7, 7, 7, 7, 7, 7};
        uint32_t index = 99, place = 99, amount = 99;
        expect(cases[i].what, nesfoal_replay(plan, 108, cases[i].list, cases[i].n, marking, cases[i].room, &index, &place, &amount), cases[i].answer);
        expect(cases[i].what, index, cases[i].index);
        expect(cases[i].what, place, cases[i].place);
        expect(cases[i].what, amount, cases[i].amount);
        expect(cases[i].what, memcmp(marking, cases[i].marking, sizeof marking), 0);
    }
    static uint16_t longest[NESFOAL_MAX_LIST_ENTRIES + 1];
    uint64_t marking[5];
    uint32_t index, place, amount;
    expect("65,536 firings", nesfoal_replay(plan, 108, longest, NESFOAL_MAX_LIST_ENTRIES + 1, marking, 5, &index, &place, &amount), NESFOAL_REFUSED_LIST);
    expect("no file", nesfoal_replay(NULL, 0, NULL, 0, NULL, 0, &index, &place, &amount), NESFOAL_REFUSED_LENGTH);
    uint8_t parallel[108];
    memcpy(parallel, plan, 108);
    parallel[32] = 0; /* the second arc is parallel to the first, */
    parallel[34] = 5; /* and takes 5: of 2 tokens, 4 are missing */
    expect("parallel arcs", nesfoal_replay(parallel, 108, longest, 1, marking, 5, &index, &place, &amount), NESFOAL_STUCK);
    expect("parallel arcs, index", index, 0);
    expect("parallel arcs, place", place, 0);
    expect("parallel arcs, amount", amount, 4);
}

/* The kerb with the input of transition 2 as two arcs of weight 1. */
static void parallel_kerb(uint8_t *to)
{
    memcpy(to, plan, 76);
    to[74] = 1;
    memcpy(to + 76, to + 68, 8);
    memcpy(to + 84, plan + 76, 32);
    to[100] = 100; /* body length */
    to[108] = 10;  /* arcs */
}

/* One place with these tokens, and one transition joined with it by as many arcs as there may be, of weight 65,535 in this direction. */
static uint8_t widest[4 + 8 * NESFOAL_MAX_ARCS + 16];

static void widen(uint32_t tokens, uint8_t direction)
{
    const uint8_t trailer[16] = {4, 128, 0, 0, 1, 0, 1, 0, 0, 16, 0, 1, 'B', 'E', 'L', 'L'};
    for (int i = 0; i < 4; i++)
        widest[i] = (uint8_t)(tokens >> 8 * i);
    for (int i = 0; i < NESFOAL_MAX_ARCS; i++) {
        const uint8_t arc[8] = {0, 0, direction, 0, 0, 0, 255, 255};
        memcpy(widest + 4 + 8 * i, arc, 8);
    }
    memcpy(widest + sizeof widest - 16, trailer, 16);
}

static void takings(void)
{
    const uint64_t most = UINT64_MAX;
    const struct {
        const char *what;
        uint32_t transition;
        uint64_t marking[6];
        size_t n, room;
        uint32_t answer;
        uint64_t times, rest[6];
    } cases[] = {
        {"together, 0", 0, {2, 1, 0, 0, 0}, 5, 6, 0, 1, {1, 0, 0, 0, 0, 7}},
        {"together, 2", 2, {0, 0, 0, 5, 0}, 5, 5, 0, 2, {0, 0, 0, 1, 0, 7}},
        {"together, 3", 3, {most, most, 0, 0, 1}, 5, 5, 0, most, {0, most, 0, 0, 1, 7}},
        {"together, 1, not once", 1, {most, 9, 0, 0, 0}, 5, 5, 0, 0, {most, 9, 0, 0, 0, 7}},
        {"together, an unknown transition", 4, {2, 1, 0, 0, 0}, 5, 5, NESFOAL_REFUSED_TRANSITION, 0, {7, 7, 7, 7, 7, 7}},
        {"together, 65,536 more than a transition", 65536, {2, 1, 0, 0, 0}, 5, 5, NESFOAL_REFUSED_TRANSITION, 0, {7, 7, 7, 7, 7, 7}},
        {"together, 4 entries", 0, {2, 1, 0, 0, 0}, 4, 5, NESFOAL_REFUSED_MARKING, 0, {7, 7, 7, 7, 7, 7}},
        {"together, 6 entries", 0, {2, 1, 0, 0, 0}, 6, 6, NESFOAL_REFUSED_MARKING, 0, {7, 7, 7, 7, 7, 7}},
        {"together, marking before buffer", 0, {2}, 1, 0, NESFOAL_REFUSED_MARKING, 0, {7, 7, 7, 7, 7, 7}},
        {"together, too little room", 0, {2, 1, 0, 0, 0}, 5, 4, NESFOAL_REFUSED_BUFFER, 0, {7, 7, 7, 7, 7, 7}},
    };
    uint64_t times = 99;
    for (size_t i = 0; i < sizeof cases / sizeof cases[0]; i++) {
        uint64_t rest[6] = {7, 7, 7, 7, 7, 7};
        times = 99;
        expect(cases[i].what, nesfoal_together(plan, 108, cases[i].transition, cases[i].marking, cases[i].n, rest, cases[i].room, &times), cases[i].answer);
        expect(cases[i].what, times == cases[i].times, 1);
        expect(cases[i].what, memcmp(rest, cases[i].rest, sizeof rest), 0);
    }
    expect("together, a slice", nesfoal_together(cut, 78, 0, cases[0].marking, 3, NULL, 0, &times), NESFOAL_REFUSED_KIND);

    /* Parallel arcs are taken together. */
    uint8_t twice[116];
    uint64_t rest[5] = {7, 7, 7, 7, 7};
    parallel_kerb(twice);
    expect("together, parallel", nesfoal_together(twice, 116, 2, cases[1].marking, 5, rest, 5, &times), 0);
    expect("together, parallel, twice", times == 2 && rest[3] == 1 && rest[4] == 0, 1);
    widen(0, 0);
    expect("together, 4,096 arcs", nesfoal_together(widest, sizeof widest, 0, &most, 1, rest, 1, &times), 0);
    expect("together, 4,096 arcs, times", times == 68720525328 && rest[0] == 65535, 1);
    widen(0, 1);
    rest[0] = times = 7;
    expect("together, no inputs", nesfoal_together(widest, sizeof widest, 0, &most, 1, rest, 1, &times), NESFOAL_UNLIMITED);
    expect("together, no inputs, all left", times == 0 && rest[0] == most, 1);
}

static void cuts(void)
{
    const uint16_t criterion[] = {2};
    uint8_t room[100];
    uint32_t length = 9, places = 9, transitions = 9;
    memset(room, 0xAA, sizeof room);
    expect("safety", nesfoal_safety(plan, 108, criterion, 1, room, 100, &length, &places, &transitions), 0);
    expect("safety, bytes", length, 78);
    expect("safety, places", places, 3);
    expect("safety, transitions", transitions, 2);
    expect("safety, the file", memcmp(room, cut, 78), 0);
    expect("safety, past the file", room[78], 0xAA);
    memset(room, 0xAA, sizeof room);
    expect("one byte short", nesfoal_safety(plan, 108, criterion, 1, room, 77, &length, &places, &transitions), NESFOAL_REFUSED_BUFFER);
    expect("one byte short, zeros", length + places + transitions, 0);
    expect("one byte short, untouched", room[0], 0xAA);
    expect("a slice is no plan", nesfoal_safety(cut, 78, criterion, 1, room, 100, &length, &places, &transitions), NESFOAL_REFUSED_KIND);
    expect("branching", nesfoal_branching(plan, 108, criterion, 1, room, 100, &length, &places, &transitions), 0);
    expect("branching, bytes", length, 88);
    expect("branching, transitions", transitions, 3);
}

/* Each case with exactly the room that it takes; what stands beyond stays. */
static void run_cuts(void)
{
    const struct {
        const char *what;
        uint16_t criterion[1], list[5];
        size_t q, n, bytes, entries;
        uint32_t answer, results[7]; /* length, places, transitions, count, index, place, amount */
        uint16_t positions[6];
    } cases[] = {
        {"run, bell", {4}, {0, 1, 0, 1, 2}, 1, 5, 116, 5, 0, {116, 5, 3, 5, 0, 0, 0}, {0, 1, 2, 3, 4, 7}},
        {"run, left", {3}, {3, 0, 1}, 1, 3, 92, 2, 0, {92, 4, 2, 2, 0, 0, 0}, {1, 2, 7, 7, 7, 7}},
        {"run, in bay", {2}, {3, 0, 1}, 1, 3, 100, 6, 0, {60, 3, 1, 1, 0, 0, 0}, {1, 7, 7, 7, 7, 7}},
        {"run, nothing raised it", {4}, {0, 1, 3}, 1, 3, 22, 0, 0, {22, 1, 0, 0, 0, 0, 0}, {7, 7, 7, 7, 7, 7}},
        {"run, the empty list", {2}, {0}, 1, 0, 22, 0, 0, {22, 1, 0, 0, 0, 0, 0}, {7, 7, 7, 7, 7, 7}},
        {"run, for no place", {0}, {0, 1, 0, 1, 2}, 0, 5, 16, 0, 0, {16, 0, 0, 0, 0, 0, 0}, {7, 7, 7, 7, 7, 7}},
        {"run, stuck", {4}, {3, 0, 1, 0}, 1, 4, 0, 0, NESFOAL_REFUSED_STUCK, {0, 0, 0, 0, 3, 0, 1}, {7, 7, 7, 7, 7, 7}},
        {"run, one byte short", {3}, {3, 0, 1}, 1, 3, 91, 6, NESFOAL_REFUSED_BUFFER, {0}, {7, 7, 7, 7, 7, 7}},
        {"run, one entry short", {3}, {3, 0, 1}, 1, 3, 120, 1, NESFOAL_REFUSED_BUFFER, {0}, {7, 7, 7, 7, 7, 7}},
        {"run, unknown place", {5}, {4}, 1, 1, 0, 0, NESFOAL_REFUSED_PLACE, {0}, {7, 7, 7, 7, 7, 7}},
        {"run, unknown transition", {2}, {2, 4}, 1, 2, 0, 0, NESFOAL_REFUSED_TRANSITION, {0}, {7, 7, 7, 7, 7, 7}},
    };
    uint32_t r[7];
    uint8_t room[120];
    for (size_t i = 0; i < sizeof cases / sizeof cases[0]; i++) {
        uint16_t positions[6] = {7, 7, 7, 7, 7, 7};
        memset(room, 0xAA, sizeof room);
        memset(r, 0xAA, sizeof r);
        expect(cases[i].what, nesfoal_run_cut(plan, 108, cases[i].criterion, cases[i].q, cases[i].list, cases[i].n, room, cases[i].bytes, positions, cases[i].entries, &r[0], &r[1], &r[2], &r[3], &r[4], &r[5], &r[6]), cases[i].answer);
        expect(cases[i].what, memcmp(r, cases[i].results, sizeof r), 0);
        expect(cases[i].what, memcmp(positions, cases[i].positions, sizeof positions), 0);
        size_t untouched = cases[i].results[0];
        while (untouched < sizeof room && room[untouched] == 0xAA)
            untouched++;
        expect(cases[i].what, untouched, sizeof room);
    }

    /* The chosen firings fire in the slice, by its own numbers, and leave as many tokens as the plan, or more. */
    const uint16_t left[] = {3}, list[] = {3, 0, 1};
    uint16_t positions[3];
    uint64_t in_plan[5], in_slice[4];
    uint32_t index, place, amount;
    expect("run", nesfoal_run_cut(plan, 108, left, 1, list, 3, room, 120, positions, 3, &r[0], &r[1], &r[2], &r[3], &r[4], &r[5], &r[6]), 0);
    const uint16_t own[] = {list[positions[0]], list[positions[1]]}; /* transitions 0 and 1 are 0 and 1 in the slice */
    expect("run, in the plan", nesfoal_replay(plan, 108, list, 3, in_plan, 5, &index, &place, &amount), 0);
    expect("run, in the slice", nesfoal_replay(room, r[0], own, 2, in_slice, 4, &index, &place, &amount), 0);
    expect("run, place 3", in_slice[3] >= in_plan[3], 1);
    /* Transition 2 takes from place 3 and is left out: this slice is for that run alone. */
    expect("run, not accepted", nesfoal_check(plan, 108, room, r[0], (const uint8_t[]){3, 0}, 2), NESFOAL_RULE + 6);
    expect("run, a slice is no plan", nesfoal_run_cut(cut, 78, left, 1, list, 3, room, 120, positions, 3, &r[0], &r[1], &r[2], &r[3], &r[4], &r[5], &r[6]), NESFOAL_REFUSED_KIND);

    /* A list as long as can be: every firing of a spring is chosen. */
    static uint16_t longest[NESFOAL_MAX_LIST_ENTRIES + 1], chosen[NESFOAL_POSITIONS_ROOM];
    static const uint8_t spring[28] = {0, 0, 0, 0, 0, 0, 1, 0, 0, 0, 1, 0, 12, 0, 0, 0, 1, 0, 1, 0, 1, 0, 0, 1, 'B', 'E', 'L', 'L'};
    expect("run, 65,535 firings", nesfoal_run_cut(spring, 28, longest, 1, longest, NESFOAL_MAX_LIST_ENTRIES, room, 120, chosen, NESFOAL_POSITIONS_ROOM, &r[0], &r[1], &r[2], &r[3], &r[4], &r[5], &r[6]), 0);
    expect("run, 65,535 firings, count", r[3], NESFOAL_MAX_LIST_ENTRIES);
    expect("run, 65,535 firings, first and last", chosen[0] == 0 && chosen[65534] == 65534, 1);
    expect("run, 65,536 firings", nesfoal_run_cut(spring, 28, longest, 1, longest, NESFOAL_MAX_LIST_ENTRIES + 1, room, 120, chosen, NESFOAL_POSITIONS_ROOM, &r[0], &r[1], &r[2], &r[3], &r[4], &r[5], &r[6]), NESFOAL_REFUSED_LIST);
}

static void checks(void)
{
    const uint8_t one[] = {2, 0}, both[] = {2, 0, 3, 0};
    const uint16_t numbers[] = {2, 3};
    uint8_t other[78];
    uint32_t number = 9;
    expect("accepted", nesfoal_check(plan, 108, cut, 78, one, 2), NESFOAL_ACCEPTED);
    expect("too small for two places", nesfoal_check(plan, 108, cut, 78, both, 4), NESFOAL_RULE + 5);
    expect("an odd count", nesfoal_check(plan, 108, cut, 78, both, 3), NESFOAL_REFUSED_CRITERION);
    expect("no slice", nesfoal_check(plan, 108, NULL, 0, one, 2), NESFOAL_REFUSED_LENGTH);
    expect("verdict", nesfoal_verdict(plan, 108, cut, 78, numbers, 1, &number), 0);
    expect("verdict, number", number, 0);
    expect("rule 5", nesfoal_verdict(plan, 108, cut, 78, numbers, 2, &number), NESFOAL_RULE + 5);
    expect("rule 5, place", number, 3);
    memcpy(other, cut, 78);
    other[0] = 1;
    expect("rule 3", nesfoal_verdict(plan, 108, other, 78, numbers, 1, &number), NESFOAL_RULE + 3);
    expect("rule 3, place", number, 0);
}

/* Each case with exactly the room that it takes, and the numbers and entries beyond stay. */
static void shadows(void)
{
    const struct {
        const char *what;
        uint16_t list[5];
        size_t n, entries, room;
        uint32_t answer, index, place, amount, count;
        uint64_t marking[6];
        uint16_t out[5];
    } cases[] = {
        {"shadow of 3,0,1", {3, 0, 1}, 3, 5, 2, 0, 0, 0, 0, 2, {0, 1, 0, 1, 0, 7}, {0, 1, 7, 7, 7}},
        {"shadow of 3,0,1,2", {3, 0, 1, 2}, 4, 5, 2, NESFOAL_STUCK, 3, 3, 1, 2, {0, 1, 0, 1, 0, 7}, {0, 1, 7, 7, 7}},
        {"shadow of 0,0,1,1", {0, 0, 1, 1}, 4, 6, 1, NESFOAL_STUCK, 1, 1, 1, 1, {1, 0, 1, 0, 0, 7}, {0, 7, 7, 7, 7}},
        {"shadow of 0,1,0,1,2", {0, 1, 0, 1, 2}, 5, 5, 5, 0, 0, 0, 0, 4, {0, 1, 0, 0, 1, 7}, {0, 1, 0, 1, 7}},
        {"shadow of 3,3", {3, 3}, 2, 5, 0, 0, 0, 0, 0, 0, {0, 1, 0, 0, 0, 7}, {7, 7, 7, 7, 7}},
        {"shadow, one number short", {3, 0, 1, 2}, 4, 5, 1, NESFOAL_REFUSED_BUFFER, 0, 0, 0, 0, {7, 7, 7, 7, 7, 7}, {7, 7, 7, 7, 7}},
        {"shadow, one entry short", {3, 0, 1, 2}, 4, 4, 5, NESFOAL_REFUSED_BUFFER, 0, 0, 0, 0, {7, 7, 7, 7, 7, 7}, {7, 7, 7, 7, 7}},
        {"shadow, an unknown transition", {1, 4}, 2, 0, 0, NESFOAL_REFUSED_TRANSITION, 0, 0, 0, 0, {7, 7, 7, 7, 7, 7}, {7, 7, 7, 7, 7}},
    };
    uint32_t index, place, amount, count;
    for (size_t i = 0; i < sizeof cases / sizeof cases[0]; i++) {
        uint64_t marking[6] = {7, 7, 7, 7, 7, 7};
        uint16_t out[5] = {7, 7, 7, 7, 7};
        index = place = amount = count = 99;
        expect(cases[i].what, nesfoal_shadow(plan, 108, cut, 78, cases[i].list, cases[i].n, marking, cases[i].entries, out, cases[i].room, &index, &place, &amount, &count), cases[i].answer);
        expect(cases[i].what, index, cases[i].index);
        expect(cases[i].what, place, cases[i].place);
        expect(cases[i].what, amount, cases[i].amount);
        expect(cases[i].what, count, cases[i].count);
        expect(cases[i].what, memcmp(marking, cases[i].marking, sizeof marking), 0);
        expect(cases[i].what, memcmp(out, cases[i].out, sizeof out), 0);
    }
    /* The shadow of a list that sticks fires in the slice, and both leave as many tokens on place 2. */
    uint64_t in_plan[5], in_slice[3];
    uint16_t out[4];
    expect("a run", nesfoal_shadow(plan, 108, cut, 78, cases[1].list, 4, in_plan, 5, out, 4, &index, &place, &amount, &count), NESFOAL_STUCK);
    expect("its shadow", nesfoal_replay(cut, 78, out, count, in_slice, 3, &index, &place, &amount), 0);
    expect("its shadow, place 2", in_slice[2] == in_plan[2], 1);
    /* A list as long as can be. */
    static uint16_t longest[NESFOAL_MAX_LIST_ENTRIES + 1];
    expect("shadow, 65,535 entries", nesfoal_shadow(plan, 108, cut, 78, longest, NESFOAL_MAX_LIST_ENTRIES, in_plan, 5, out, 1, &index, &place, &amount, &count), NESFOAL_STUCK);
    expect("shadow, 65,535 entries, one fired", index == 1 && count == 1 && out[0] == 0, 1);
    expect("shadow, 65,536 entries", nesfoal_shadow(plan, 108, cut, 78, longest, NESFOAL_MAX_LIST_ENTRIES + 1, in_plan, 5, out, 1, &index, &place, &amount, &count), NESFOAL_REFUSED_LIST);
    expect("shadow, a plan is no slice", nesfoal_shadow(plan, 108, plan, 108, longest, 1, in_plan, 5, out, 4, &index, &place, &amount, &count), NESFOAL_REFUSED_KIND);
    expect("shadow, a slice is no plan", nesfoal_shadow(cut, 78, NULL, 0, longest, 1, in_plan, 5, out, 4, &index, &place, &amount, &count), NESFOAL_REFUSED_KIND);
}

static void parallels(void)
{
    const uint16_t list[] = {0, 1, 0, 1, 2}, three[] = {3};
    uint8_t twice[116], room[110], other[110];
    uint64_t marking[5];
    uint32_t index, place, amount, length, places, transitions, number;
    parallel_kerb(twice);
    effect_is("two arcs, one effect", twice, 116, 3, 2, 0, -2);
    run_is("a run with its repeats", twice, 116, cut, 78, false, 2, 24, 68);
    expect("parallel, 0,1,0,1,2", nesfoal_replay(twice, 116, list, 5, marking, 5, &index, &place, &amount), 0);
    expect("parallel, left", marking[3], 0);
    expect("parallel, 0,1,2", nesfoal_replay(twice, 116, list + 2, 3, marking, 5, &index, &place, &amount), NESFOAL_STUCK);
    expect("parallel, 0,1,2, index", index, 2);
    expect("parallel, 0,1,2, place", place, 3);
    expect("parallel, 0,1,2, amount", amount, 1);
    expect("parallel, safety", nesfoal_safety(twice, 116, three, 1, room, 110, &length, &places, &transitions), 0);
    expect("parallel, safety, bytes", length, 110);
    expect("parallel, accepted", nesfoal_verdict(twice, 116, room, 110, three, 1, &number), 0);
    expect("parallel, joined", nesfoal_safety(plan, 108, three, 1, other, 110, &length, &places, &transitions), 0);
    expect("parallel, joined, rule 4", nesfoal_verdict(twice, 116, other, length, three, 1, &number), NESFOAL_RULE + 4);
    expect("parallel, joined, transition", number, 2);
    twice[74] = 2; /* weights 2 and 1; in the cut the two arcs start at 64 */
    memcpy(room + 64, twice + 68, 16);
    expect("weights in any order", nesfoal_verdict(twice, 116, room, 110, three, 1, &number), 0);
    room[70] = 1;
    room[78] = 2;
    expect("permuted, rule 4", nesfoal_verdict(twice, 116, room, 110, three, 1, &number), NESFOAL_RULE + 4);

    static uint16_t longest[NESFOAL_MAX_LIST_ENTRIES];
    widen(268431360, 0);
    effect_is("the lowest effect", widest, sizeof widest, 0, 0, 0, -268431360);
    expect("exactly enough", nesfoal_replay(widest, sizeof widest, longest, 1, marking, 1, &index, &place, &amount), 0);
    expect("exactly enough, marking", (long long)marking[0], 0);
    widen(268431359, 0);
    expect("one too few", nesfoal_replay(widest, sizeof widest, longest, 1, marking, 1, &index, &place, &amount), NESFOAL_STUCK);
    widen(4294967295, 1);
    effect_is("the highest effect", widest, sizeof widest, 0, 0, 0, 268431360);
    expect("65,535 firings", nesfoal_replay(widest, sizeof widest, longest, NESFOAL_MAX_LIST_ENTRIES, marking, 1, &index, &place, &amount), 0);
    expect("65,535 firings, marking", (long long)marking[0], 17591649177600 + 4294967295);
}

/* As many places, transitions and arcs as there may be: transition t takes 1 from places t and t + 1, round a ring, and adds 2 to each. */
static void largest(void)
{
    static uint8_t ring[8 * NESFOAL_MAX_PLACES + 8 * NESFOAL_MAX_ARCS + 16], room[NESFOAL_SLICE_ROOM];
    const uint8_t trailer[16] = {0, 160, 0, 0, 0, 4, 0, 4, 0, 16, 0, 2, 'B', 'E', 'L', 'L'};
    const uint8_t trailer_of_1[16] = {0, 144, 0, 0, 0, 4, 0, 4, 0, 16, 0, 1, 'B', 'E', 'L', 'L'};
    const uint16_t criterion[] = {0};
    uint32_t length, places, transitions, number;
    uint8_t *arc = ring + 8 * NESFOAL_MAX_PLACES;
    for (int t = 0; t < NESFOAL_MAX_TRANSITIONS; t++) {
        int end = t == NESFOAL_MAX_PLACES - 1;
        int ends[2] = {end ? 0 : t, end ? t : t + 1};
        for (int i = 0; i < 4; i++, arc += 8) {
            arc[0] = (uint8_t)t;
            arc[1] = (uint8_t)(t >> 8);
            arc[2] = (uint8_t)(i / 2);
            arc[4] = (uint8_t)ends[i % 2];
            arc[5] = (uint8_t)(ends[i % 2] >> 8);
            arc[6] = (uint8_t)(1 + i / 2);
        }
    }
    memcpy(arc, trailer, 16);
    memset(ring + 4, 255, 4); /* place 0 has the largest cap */
    expect("the room that always suffices", NESFOAL_SLICE_ROOM, 45072);
    expect("the largest slice", nesfoal_safety(ring, sizeof ring, criterion, 1, room, sizeof room, &length, &places, &transitions), NESFOAL_DONE);
    expect("the largest slice, bytes", length, NESFOAL_SLICE_ROOM);
    expect("the largest slice, places", places, NESFOAL_MAX_PLACES);
    expect("the largest slice, transitions", transitions, NESFOAL_MAX_TRANSITIONS);
    expect("the largest slice, accepted", nesfoal_verdict(ring, sizeof ring, room, length, criterion, 1, &number), NESFOAL_ACCEPTED);
    expect("one byte less", nesfoal_safety(ring, sizeof ring, criterion, 1, room, sizeof room - 1, &length, &places, &transitions), NESFOAL_REFUSED_BUFFER);
    expect("the largest, branching", nesfoal_branching(ring, sizeof ring, criterion, 1, room, sizeof room, &length, &places, &transitions), NESFOAL_DONE);
    expect("the largest, branching, bytes", length, NESFOAL_SLICE_ROOM);
    /* In edition 1, where the note is the first half of the places. */
    memcpy(arc, trailer_of_1, 16);
    expect("the largest of edition 1", nesfoal_safety(ring, sizeof ring, criterion, 1, room, sizeof room, &length, &places, &transitions), NESFOAL_DONE);
    expect("the largest of edition 1, bytes", length, 40976);
}

/* The place that starts at this offset of a file of edition 2. */
static void hold(uint8_t *file, size_t at, uint32_t tokens, uint32_t cap)
{
    for (int i = 0; i < 4; i++) {
        file[at + i] = (uint8_t)(tokens >> 8 * i);
        file[at + 4 + i] = (uint8_t)(cap >> 8 * i);
    }
}

/* What a replay of a file of edition 2 with two places answers. */
static void fires(const char *what, const uint8_t *file, size_t n, const uint16_t *list, size_t firings, uint32_t answer,
                  uint32_t index, uint32_t place, uint32_t amount, uint64_t first, uint64_t second)
{
    uint64_t marking[3] = {7, 7, 7};
    uint32_t r[3] = {99, 99, 99};
    expect(what, nesfoal_replay(file, n, list, firings, marking, 3, &r[0], &r[1], &r[2]), answer);
    expect(what, r[0] == index && r[1] == place && r[2] == amount, 1);
    expect(what, marking[0] == first && marking[1] == second && marking[2] == 7, 1);
}

static void capped_replays(void)
{
    const struct {
        const char *what;
        uint16_t list[5];
        size_t n;
        uint32_t answer, index, place, amount;
        uint64_t marking[6];
    } cases[] = {
        {"capped, 0,1,0,1", {0, 1, 0, 1}, 4, NESFOAL_FULL, 3, 3, 1, {0, 0, 1, 1, 0, 7}},
        {"capped, 0,1,0,1,2", {0, 1, 0, 1, 2}, 5, NESFOAL_FULL, 3, 3, 1, {0, 0, 1, 1, 0, 7}},
        {"capped, 0,1,0", {0, 1, 0}, 3, 0, 0, 0, 0, {0, 0, 1, 1, 0, 7}},
        {"capped, 0,1,2", {0, 1, 2}, 3, NESFOAL_STUCK, 2, 3, 1, {1, 1, 0, 1, 0, 7}},
    };
    uint32_t index, place, amount, count;
    for (size_t i = 0; i < sizeof cases / sizeof cases[0]; i++) {
        uint64_t marking[6] = {7, 7, 7, 7, 7, 7};
        uint16_t out[5] = {7, 7, 7, 7, 7};
        index = place = amount = 99;
        expect(cases[i].what, nesfoal_replay(capped, 128, cases[i].list, cases[i].n, marking, 6, &index, &place, &amount), cases[i].answer);
        expect(cases[i].what, index == cases[i].index && place == cases[i].place && amount == cases[i].amount, 1);
        expect(cases[i].what, memcmp(marking, cases[i].marking, sizeof marking), 0);
        /* The shadow is of what fired: here of all before the index. */
        memset(marking, 0, sizeof marking);
        marking[5] = 7;
        expect(cases[i].what, nesfoal_shadow(capped, 128, capped_cut, 118, cases[i].list, cases[i].n, marking, 6, out, 5, &index, &place, &amount, &count), cases[i].answer);
        expect(cases[i].what, index == cases[i].index && place == cases[i].place && amount == cases[i].amount, 1);
        expect(cases[i].what, memcmp(marking, cases[i].marking, sizeof marking), 0);
        expect(cases[i].what, count, cases[i].answer == 0 ? (long long)cases[i].n : cases[i].index);
        expect(cases[i].what, memcmp(out, cases[i].list, 2 * count), 0);
        expect(cases[i].what, count == 5 || out[count] == 7, 1);
    }
    static uint16_t zeros[NESFOAL_MAX_LIST_ENTRIES];
    const uint16_t unknown[] = {0, 1, 0, 1, 4};
    uint64_t marking[4];
    expect("capped, in the slice", nesfoal_replay(capped_cut, 118, cases[0].list, 4, marking, 4, &index, &place, &amount), NESFOAL_FULL);
    expect("capped, in the slice, results", index == 3 && place == 3 && amount == 1 && marking[2] == 1 && marking[3] == 1, 1);
    expect("capped, an unknown transition after", nesfoal_replay(capped, 128, unknown, 5, marking, 4, &index, &place, &amount), NESFOAL_REFUSED_TRANSITION);

    /* Two places; transition 0 takes 1 from place 1, and adds 3 to place 0 and 3 to place 1. */
    uint8_t two[56] = {
        0, 0, 0, 0, 0, 0, 0, 0,  0, 0, 0, 0, 0, 0, 0, 0,
        0, 0,  0, 0,  1, 0,  1, 0,
        0, 0,  1, 0,  0, 0,  3, 0,
        0, 0,  1, 0,  1, 0,  3, 0,
        40, 0, 0, 0,  2, 0,  1, 0,  3, 0,  0, 2,  'B', 'E', 'L', 'L',
    };
    const uint32_t most = UINT32_MAX;
    hold(two, 0, 5, 5);
    fires("short, though a lower place is full", two, 56, zeros, 1, NESFOAL_STUCK, 0, 1, 1, 5, 0);
    hold(two, 8, 1, 1);
    fires("both are full: the lower one", two, 56, zeros, 1, NESFOAL_FULL, 0, 0, 3, 5, 1);
    hold(two, 0, 5, 0);
    fires("the excess of a self loop", two, 56, zeros, 1, NESFOAL_FULL, 0, 1, 2, 5, 1);
    hold(two, 8, 1, 2);
    fires("the excess of a self loop, one", two, 56, zeros, 1, NESFOAL_FULL, 0, 1, 1, 5, 1);
    hold(two, 8, 1, 5);
    fires("a self loop up to the cap", two, 56, zeros, 2, 0, 0, 0, 0, 11, 5);
    fires("and once more", two, 56, zeros, 3, NESFOAL_FULL, 2, 1, 2, 11, 5);
    hold(two, 0, most, 0);
    hold(two, 8, 1, 0);
    fires("cap 0 binds nothing", two, 56, zeros, 2, 0, 0, 0, 0, 4294967301, 5);
    hold(two, 0, most - 3, most);
    fires("up to the largest cap", two, 56, zeros, 1, 0, 0, 0, 0, most, 3);
    fires("above the largest cap", two, 56, zeros, 2, NESFOAL_FULL, 1, 0, 3, most, 3);
    hold(two, 0, most, most);
    fires("at the largest cap", two, 56, zeros, 1, NESFOAL_FULL, 0, 0, 3, most, 1);
    hold(two, 0, 0, most);
    hold(two, 8, 1, most);
    fires("65,535 firings", two, 56, zeros, NESFOAL_MAX_LIST_ENTRIES, 0, 0, 0, 0, 196605, 131071);
    hold(two, 8, 1, 131070);
    fires("65,535 firings, full at the last", two, 56, zeros, NESFOAL_MAX_LIST_ENTRIES, NESFOAL_FULL, 65534, 1, 1, 196602, 131069);
}

static void capped_cuts(void)
{
    const uint16_t two[] = {2}, list[] = {3, 0, 1};
    const uint8_t two_bytes[] = {2, 0};
    uint8_t room[140], plain[128], other[118];
    uint16_t positions[3];
    uint32_t length, places, transitions, number, r[7];
    memset(room, 0xAA, sizeof room);
    expect("capped, safety", nesfoal_safety(capped, 128, two, 1, room, 118, &length, &places, &transitions), 0);
    expect("capped, safety, counts", length == 118 && places == 4 && transitions == 3, 1);
    expect("capped, safety, the file", memcmp(room, capped_cut, 118), 0);
    expect("capped, safety, past the file", room[118], 0xAA);
    expect("capped, one byte short", nesfoal_safety(capped, 128, two, 1, room, 117, &length, &places, &transitions), NESFOAL_REFUSED_BUFFER);
    expect("capped, branching", nesfoal_branching(capped, 128, two, 1, room, 140, &length, &places, &transitions), 0);
    expect("capped, branching, counts", length == 128 && places == 4 && transitions == 4, 1);
    expect("capped, branching, accepted", nesfoal_check(capped, 128, room, 128, two_bytes, 2), NESFOAL_ACCEPTED);
    expect("capped, for no place", nesfoal_safety(capped, 128, NULL, 0, room, 16, &length, &places, &transitions), 0);
    expect("capped, for no place, its edition", length == 16 && room[10] == 1 && room[11] == 2, 1);
    expect("capped, for no place, accepted", nesfoal_check(capped, 128, room, 16, NULL, 0), NESFOAL_ACCEPTED);

    /* The ten rules: a cap is compared, and what it draws in is asked for. Editions are not compared. */
    expect("capped, accepted", nesfoal_verdict(capped, 128, capped_cut, 118, two, 1, &number), NESFOAL_ACCEPTED);
    expect("capped, the base slice, rule 9", nesfoal_verdict(capped, 128, cut, 78, two, 1, &number), NESFOAL_RULE + 9);
    expect("capped, the base slice, transition", number, 1);
    expect("capped, the base slice, check", nesfoal_check(capped, 128, cut, 78, two_bytes, 2), NESFOAL_RULE + 9);
    memcpy(other, capped_cut, 118);
    other[28] = 2;
    expect("capped, another cap, rule 3", nesfoal_verdict(capped, 128, other, 118, two, 1, &number), NESFOAL_RULE + 3);
    expect("capped, another cap, place", number, 3);
    /* Without transition 2 and its one arc. */
    memcpy(other + 80, capped_cut + 88, 12);
    memcpy(other + 92, capped_cut + 102, 16);
    other[28] = 1;
    other[92] = 92;
    other[98] = 2;
    other[100] = 6;
    expect("capped, rule 10", nesfoal_verdict(capped, 128, other, 108, two, 1, &number), NESFOAL_RULE + 10);
    expect("capped, rule 10, transition", number, 2);
    expect("capped, rule 10, check", nesfoal_check(capped, 128, other, 108, two_bytes, 2), NESFOAL_RULE + 10);
    memcpy(plain, capped, 128);
    plain[28] = 0;
    expect("edition 1 of edition 2 without caps", nesfoal_verdict(plain, 128, cut, 78, two, 1, &number), NESFOAL_ACCEPTED);
    expect("edition 2 without caps", nesfoal_safety(plain, 128, two, 1, room, 90, &length, &places, &transitions), 0);
    expect("edition 2 without caps, counts", length == 90 && places == 3 && transitions == 2, 1);
    expect("edition 2 of edition 2 without caps", nesfoal_verdict(plain, 128, room, 90, two, 1, &number), NESFOAL_ACCEPTED);
    expect("edition 2 of edition 1", nesfoal_verdict(plan, 108, room, 90, two, 1, &number), NESFOAL_ACCEPTED);
    expect("edition 2 of edition 1, a cap", nesfoal_verdict(plan, 108, capped_cut, 118, two, 1, &number), NESFOAL_RULE + 3);

    /* The run cut takes a plan without caps, in either edition. */
    memset(r, 0xAA, sizeof r);
    memset(room, 0xAA, sizeof room);
    expect("capped, run", nesfoal_run_cut(capped, 128, two, 1, list, 3, room, 140, positions, 3, &r[0], &r[1], &r[2], &r[3], &r[4], &r[5], &r[6]), NESFOAL_REFUSED_CAPPED);
    expect("capped, run, zeros", r[0] + r[1] + r[2] + r[3] + r[4] + r[5] + r[6], 0);
    expect("capped, run, untouched", room[0], 0xAA);
    expect("capped, run, before criterion, list and buffers", nesfoal_run_cut(capped, 128, (const uint16_t[]){9, 9}, 2, (const uint16_t[]){9}, 1, NULL, 0, NULL, 0, &r[0], &r[1], &r[2], &r[3], &r[4], &r[5], &r[6]), NESFOAL_REFUSED_CAPPED);
    expect("edition 2 without caps, run", nesfoal_run_cut(plain, 128, two, 1, list, 3, room, 140, positions, 3, &r[0], &r[1], &r[2], &r[3], &r[4], &r[5], &r[6]), 0);
    expect("edition 2 without caps, run, results", r[0] == 72 && r[1] == 3 && r[2] == 1 && r[3] == 1 && positions[0] == 1 && room[67] == 2, 1);

    /* Inputs alone are taken together, whatever the caps. */
    const uint64_t held[] = {0, 0, 7, 5, 0};
    uint64_t rest[5], times;
    expect("capped, together", nesfoal_together(capped, 128, 2, held, 5, rest, 5, &times), 0);
    expect("capped, together, twice", times == 2 && rest[3] == 1, 1);
    expect("capped, together, its output capped", nesfoal_together(capped, 128, 1, held, 5, rest, 5, &times), 0);
    expect("capped, together, seven times", times == 7 && rest[2] == 0, 1);
    effect_is("capped, effect of 2 on 3", capped, 128, 3, 2, 0, -2);
    run_is("capped, plan, transition 2", capped, 128, capped_cut, 118, false, 2, 16, 88);
    run_is("capped, slice, transition 2", capped, 128, capped_cut, 118, true, 2, 8, 80);
}

/* A marking above its cap: every call refuses the file with 16, plan or slice, after 5 and before any arc. */
static void above_caps(void)
{
    const uint16_t two[] = {2}, list[] = {0};
    const uint8_t two_bytes[] = {2, 0};
    const uint64_t held[] = {2, 1, 0, 0, 0};
    uint8_t above[128], above_cut[118], room[140];
    uint16_t out[2] = {7, 7};
    uint64_t marking[5] = {7, 7, 7, 7, 7}, times;
    uint32_t r[7];
    memcpy(above, capped, 128);
    memcpy(above_cut, capped_cut, 118);
    above[24] = above_cut[24] = 2;
    memset(room, 0xAA, sizeof room);
    effect_is("above, effect", above, 128, 3, 2, NESFOAL_REFUSED_CAP, 0);
    effect_is("above, effect, slice", above_cut, 118, 3, 2, NESFOAL_REFUSED_CAP, 0);
    effect_is("above, before an unknown place", above, 128, 9, 9, NESFOAL_REFUSED_CAP, 0);
    run_is("above, arcs", above, 128, capped_cut, 118, true, 0, 0, 0);
    run_is("above, arcs, slice", capped, 128, above_cut, 118, false, 0, 0, 0);
    expect("above, replay", nesfoal_replay(above, 128, list, 1, marking, 5, &r[0], &r[1], &r[2]), NESFOAL_REFUSED_CAP);
    expect("above, replay, zeros", r[0] + r[1] + r[2], 0);
    expect("above, replay, slice", nesfoal_replay(above_cut, 118, list, 1, marking, 5, &r[0], &r[1], &r[2]), NESFOAL_REFUSED_CAP);
    expect("above, safety", nesfoal_safety(above, 128, two, 1, room, 140, &r[0], &r[1], &r[2]), NESFOAL_REFUSED_CAP);
    expect("above, safety, zeros", r[0] + r[1] + r[2], 0);
    expect("above, branching", nesfoal_branching(above, 128, two, 1, room, 140, &r[0], &r[1], &r[2]), NESFOAL_REFUSED_CAP);
    expect("above, run", nesfoal_run_cut(above, 128, two, 1, list, 1, room, 140, out, 2, &r[0], &r[1], &r[2], &r[3], &r[4], &r[5], &r[6]), NESFOAL_REFUSED_CAP);
    expect("above, shadow", nesfoal_shadow(above, 128, NULL, 0, list, 1, marking, 5, out, 2, &r[0], &r[1], &r[2], &r[3]), NESFOAL_REFUSED_CAP);
    expect("above, shadow, slice", nesfoal_shadow(capped, 128, above_cut, 118, list, 1, marking, 5, out, 2, &r[0], &r[1], &r[2], &r[3]), NESFOAL_REFUSED_CAP);
    expect("above, together", nesfoal_together(above, 128, 0, held, 5, marking, 5, &times), NESFOAL_REFUSED_CAP);
    expect("above, check", nesfoal_check(above, 128, NULL, 0, two_bytes, 2), NESFOAL_REFUSED_CAP);
    expect("above, check, slice", nesfoal_check(capped, 128, above_cut, 118, two_bytes, 1), NESFOAL_REFUSED_CAP);
    expect("above, verdict", nesfoal_verdict(above, 128, capped_cut, 118, two, 1, &r[0]), NESFOAL_REFUSED_CAP);
    expect("above, verdict, slice", nesfoal_verdict(capped, 128, above_cut, 118, two, 1, &r[0]), NESFOAL_REFUSED_CAP);
    expect("above, untouched", marking[0] == 7 && marking[4] == 7 && out[0] == 7 && room[0] == 0xAA, 1);

    /* Where else it stands: 4, 5 and the kind due come before it, 6, 7 and 8 after it. */
    above[112] = 113;
    effect_is("above, body length", above, 128, 3, 2, NESFOAL_REFUSED_BODY, 0);
    above[112] = 112;
    above[46] = 0;
    effect_is("above, before an arc", above, 128, 3, 2, NESFOAL_REFUSED_CAP, 0);
    above[24] = 1;
    effect_is("at the cap, an arc", above, 128, 3, 2, NESFOAL_REFUSED_ARC, 0);
    expect("above, a slice is no plan", nesfoal_check(above_cut, 118, NULL, 0, NULL, 0), NESFOAL_REFUSED_KIND);
    above_cut[88] = 1;
    effect_is("above, before origins", above_cut, 118, 3, 2, NESFOAL_REFUSED_CAP, 0);
    above_cut[24] = 1;
    effect_is("at the cap, origins", above_cut, 118, 3, 2, NESFOAL_REFUSED_ORIGINS, 0);
    memcpy(above, capped, 128);
    hold(above, 32, UINT32_MAX, UINT32_MAX - 1);
    effect_is("above the largest cap but one, the last place", above, 128, 3, 2, NESFOAL_REFUSED_CAP, 0);
    hold(above, 32, UINT32_MAX, UINT32_MAX);
    effect_is("at the largest cap", above, 128, 3, 2, 0, -2);
    hold(above, 32, UINT32_MAX, 0);
    effect_is("no cap", above, 128, 3, 2, 0, -2);
    hold(above, 32, 0x1000000, 0xFFFFFF);
    effect_is("above by the highest byte", above, 128, 3, 2, NESFOAL_REFUSED_CAP, 0);
    hold(above, 32, 0xFFFFFF, 0x1000000);
    effect_is("below by the highest byte", above, 128, 3, 2, 0, -2);
    memcpy(above, capped, 128);
    above[123] = 3;
    effect_is("edition 3, places of 8 bytes", above, 128, 3, 2, NESFOAL_REFUSED_LETTERS, 0);
    above[123] = 1;
    effect_is("edition 1, places of 8 bytes", above, 128, 3, 2, NESFOAL_REFUSED_BODY, 0);
}

/* For no place both cuts are the empty slice, the smallest that is accepted; rules other than 5 and 6 bind still. */
static void no_place(void)
{
    const uint8_t one[] = {2, 0};
    const uint16_t list[] = {3, 0, 1, 2};
    uint8_t room[20], other[78], none[16];
    uint16_t out[1] = {7};
    uint64_t marking[1] = {7};
    uint32_t length = 9, places = 9, transitions = 9, start = 9, number = 9, count = 9;
    memset(room, 0xAA, sizeof room);
    expect("for no place", nesfoal_safety(plan, 108, NULL, 0, room, 20, &length, &places, &transitions), 0);
    expect("for no place, counts", length == 16 && places == 0 && transitions == 0, 1);
    expect("for no place, the file", memcmp(room, empty, 16), 0);
    expect("for no place, past the file", room[16], 0xAA);
    memset(room, 0xAA, sizeof room);
    expect("for no place, branching", nesfoal_branching(plan, 108, NULL, 0, room, 16, &length, &places, &transitions), 0);
    expect("for no place, branching, counts", length == 16 && places == 0 && transitions == 0, 1);
    expect("for no place, branching, the file", memcmp(room, empty, 16), 0);
    expect("15 bytes lent", nesfoal_safety(plan, 108, NULL, 0, room, 15, &length, &places, &transitions), NESFOAL_REFUSED_BUFFER);
    expect("15 bytes lent, zeros", length + places + transitions, 0);
    expect("accepted for no place", nesfoal_check(plan, 108, empty, 16, NULL, 0), NESFOAL_ACCEPTED);
    expect("verdict for no place", nesfoal_verdict(plan, 108, empty, 16, NULL, 0, &number), NESFOAL_ACCEPTED);
    expect("one byte", nesfoal_check(plan, 108, empty, 16, one, 1), NESFOAL_REFUSED_CRITERION);
    expect("not for place 2", nesfoal_check(plan, 108, empty, 16, one, 2), NESFOAL_RULE + 5);
    memcpy(other, cut, 78);
    other[0] = 1;
    expect("rule 3 for no place", nesfoal_verdict(plan, 108, other, 78, NULL, 0, &number), NESFOAL_RULE + 3);
    memcpy(none, empty, 16);
    none[10] = 0;
    expect("an empty plan", nesfoal_check(none, 16, empty, 16, NULL, 0), NESFOAL_REFUSED_COUNTS);
    expect("an empty plan replayed", nesfoal_replay(none, 16, NULL, 0, marking, 1, &number, &places, &count), NESFOAL_REFUSED_COUNTS);
    expect("the empty slice is no plan", nesfoal_check(empty, 16, empty, 16, NULL, 0), NESFOAL_REFUSED_KIND);
    expect("the empty slice replayed", nesfoal_replay(empty, 16, NULL, 0, marking, 1, &number, &places, &count), 0);
    expect("the empty slice replayed, untouched", (long long)marking[0], 7);
    expect("the empty slice, a list", nesfoal_replay(empty, 16, list, 1, marking, 1, &number, &places, &count), NESFOAL_REFUSED_TRANSITION);
    effect_is("the empty slice, effect", empty, 16, 0, 0, NESFOAL_REFUSED_PLACE, 0);
    expect("the empty slice, arcs", nesfoal_arcs(plan, 108, empty, 16, true, 0, &start), 0);
    expect("the empty slice, start", start, 0);
    uint64_t tokens[5];
    expect("the empty shadow", nesfoal_shadow(plan, 108, empty, 16, list, 3, tokens, 5, out, 0, &number, &places, &transitions, &count), 0);
    expect("the empty shadow, count", count == 0 && out[0] == 7, 1);
    expect("the empty shadow, marking", tokens[0] == 0 && tokens[3] == 1, 1);
}

/* A pointer whose count is 0 is not used; it may be null. */
static void nulls(void)
{
    static const uint8_t bare[16] = {0, 0, 0, 0, 0, 0, 1, 0, 0, 0, 0, 1, 'B', 'E', 'L', 'L'}; /* one transition, no place */
    const uint16_t one[] = {2}, twice[] = {0, 0};
    uint64_t marking[5] = {7, 7, 7, 7, 7};
    uint8_t room[100];
    uint32_t a = 9, b = 9, c = 9;
    expect("null list", nesfoal_replay(plan, 108, NULL, 0, marking, 5, &a, &b, &c), 0);
    expect("null list, marking", marking[0] == 2 && marking[1] == 1 && marking[4] == 0, 1);
    expect("null marking", nesfoal_replay(bare, 16, twice, 2, NULL, 0, &a, &b, &c), 0);
    expect("null list and marking", nesfoal_replay(bare, 16, NULL, 0, NULL, 0, &a, &b, &c), 0);
    expect("null marking, too short", nesfoal_replay(plan, 108, twice, 2, NULL, 0, &a, &b, &c), NESFOAL_REFUSED_BUFFER);
    a = b = c = 9;
    expect("null buffer", nesfoal_safety(plan, 108, one, 1, NULL, 0, &a, &b, &c), NESFOAL_REFUSED_BUFFER);
    expect("null buffer, zeros", a + b + c, 0);
    expect("null buffer, branching", nesfoal_branching(plan, 108, one, 1, NULL, 0, &a, &b, &c), NESFOAL_REFUSED_BUFFER);
    expect("null plan", nesfoal_safety(NULL, 0, NULL, 0, NULL, 0, &a, &b, &c), NESFOAL_REFUSED_LENGTH);
    expect("null criterion, branching", nesfoal_branching(plan, 108, NULL, 0, room, 100, &a, &b, &c), 0);
    expect("null criterion, branching, bytes", a, 16);
    expect("null criterion and buffer", nesfoal_safety(plan, 108, NULL, 0, NULL, 0, &a, &b, &c), NESFOAL_REFUSED_BUFFER);
    uint32_t d = 9;
    expect("null output", nesfoal_shadow(plan, 108, cut, 78, one, 1, marking, 5, NULL, 0, &a, &b, &c, &d), NESFOAL_STUCK);
    expect("null output, count", d, 0);
    expect("null output, too short", nesfoal_shadow(plan, 108, cut, 78, twice, 1, marking, 5, NULL, 0, &a, &b, &c, &d), NESFOAL_REFUSED_BUFFER);
    expect("null marking, shadow", nesfoal_shadow(bare, 16, cut, 78, twice, 2, NULL, 0, (uint16_t[2]){0}, 2, &a, &b, &c, &d), 0);
    expect("null marking, shadow, count", d, 2);
    expect("null list and both, shadow", nesfoal_shadow(bare, 16, cut, 78, NULL, 0, NULL, 0, NULL, 0, &a, &b, &c, &d), 0);
    expect("null plan, shadow", nesfoal_shadow(NULL, 0, NULL, 0, NULL, 0, NULL, 0, NULL, 0, &a, &b, &c, &d), NESFOAL_REFUSED_LENGTH);
    expect("null slice, shadow", nesfoal_shadow(plan, 108, NULL, 0, NULL, 0, NULL, 0, NULL, 0, &a, &b, &c, &d), NESFOAL_REFUSED_LENGTH);
    uint64_t times = 9;
    expect("null marking and rest", nesfoal_together(bare, 16, 0, NULL, 0, NULL, 0, &times), NESFOAL_UNLIMITED);
    expect("null marking and rest, times", (long long)times, 0);
    expect("null marking, too short", nesfoal_together(plan, 108, 0, NULL, 0, marking, 5, &times), NESFOAL_REFUSED_MARKING);
    expect("null rest, too short", nesfoal_together(plan, 108, 0, marking, 5, NULL, 0, &times), NESFOAL_REFUSED_BUFFER);
    expect("null plan, together", nesfoal_together(NULL, 0, 0, NULL, 0, NULL, 0, &times), NESFOAL_REFUSED_LENGTH);
    uint32_t e, f, g;
    expect("null all, run", nesfoal_run_cut(NULL, 0, NULL, 0, NULL, 0, NULL, 0, NULL, 0, &a, &b, &c, &d, &e, &f, &g), NESFOAL_REFUSED_LENGTH);
    expect("null all but plan, run", nesfoal_run_cut(plan, 108, NULL, 0, NULL, 0, NULL, 0, NULL, 0, &a, &b, &c, &d, &e, &f, &g), NESFOAL_REFUSED_BUFFER);
    expect("null positions, run", nesfoal_run_cut(plan, 108, NULL, 0, NULL, 0, room, 16, NULL, 0, &a, &b, &c, &d, &e, &f, &g), 0);
    expect("null positions, run, results", a == 16 && b + c + d + e + f + g == 0, 1);
    expect("null plan, check", nesfoal_check(NULL, 0, NULL, 0, NULL, 0), NESFOAL_REFUSED_LENGTH);
    expect("null criterion, check", nesfoal_check(plan, 108, cut, 78, NULL, 0), NESFOAL_ACCEPTED);
    expect("null criterion, verdict", nesfoal_verdict(plan, 108, cut, 78, NULL, 0, &a), NESFOAL_ACCEPTED);
    expect("null all, verdict", nesfoal_verdict(NULL, 0, NULL, 0, NULL, 0, &a), NESFOAL_REFUSED_LENGTH);
    /* or point past an end */
    expect("an empty string past the end", nesfoal_check(plan, 108, cut, 78, cut + 78, 0), NESFOAL_ACCEPTED);
    expect("an empty list past the end", nesfoal_replay(plan, 108, one + 1, 0, marking + 5, 0, &a, &b, &c), NESFOAL_REFUSED_BUFFER);
}

/* Inputs may overlap, and strings stand at any address. */
static void shared(void)
{
    uint8_t odd[1 + 108 + 78] = {0};
    uint32_t number = 9;
    expect("the criterion stands in the plan", nesfoal_check(plan, 108, cut, 78, plan, 2), 0);
    expect("one string twice", nesfoal_check(cut, 78, cut, 78, plan, 2), NESFOAL_REFUSED_KIND);
    memcpy(odd + 1, plan, 108);
    memcpy(odd + 109, cut, 78);
    expect("odd addresses", nesfoal_check(odd + 1, 108, odd + 109, 78, odd + 1, 2), 0);
    expect("a note of one byte", nesfoal_verdict(odd, 109, odd + 109, 78, (const uint16_t[]){2}, 1, &number), 0);
}

/* Attendance within a range (02, A11). */
static void ranges(void)
{
    static const uint16_t all[] = {0, 1, 0, 1, 2}, third[] = {0, 1, 0, 1, 0}, ring[] = {2}, unknown[] = {4};
    const struct {
        const char *what;
        const uint16_t *list;
        size_t n;
        uint32_t upper[6];
        size_t upper_n, room;
        uint32_t answer;
        uint64_t need[6];
    } cases[] = {
        {"range, every", all, 5, {2, 1, 0, 0, 0}, 5, 6, 0, {2, 1, 0, 0, 0, 7}},
        {"range, some", third, 5, {3, 1, 0, 0, 0}, 5, 5, NESFOAL_SOME, {3, 1, 0, 0, 0, 7}},
        {"range, none", ring, 1, {2, 1, 0, 1, 0}, 5, 5, NESFOAL_NONE, {0, 0, 0, 2, 0, 7}},
        {"range, the list before the upper list", unknown, 1, {0}, 1, 0, NESFOAL_REFUSED_TRANSITION, {7, 7, 7, 7, 7, 7}},
        {"range, 4 entries", ring, 1, {2, 1, 0, 0}, 4, 0, NESFOAL_REFUSED_UPPER, {7, 7, 7, 7, 7, 7}},
        {"range, below the plan", ring, 1, {2, 0, 9, 9, 9}, 5, 0, NESFOAL_REFUSED_UPPER, {7, 7, 7, 7, 7, 7}},
        {"range, too little room", ring, 1, {2, 1, 0, 0, 0}, 5, 4, NESFOAL_REFUSED_BUFFER, {7, 7, 7, 7, 7, 7}},
    };
    for (size_t i = 0; i < sizeof cases / sizeof cases[0]; i++) {
        uint64_t need[6] = {7, 7, 7, 7, 7, 7};
        expect(cases[i].what, nesfoal_range(plan, 108, cases[i].list, cases[i].n, cases[i].upper, cases[i].upper_n, need, cases[i].room), cases[i].answer);
        expect(cases[i].what, memcmp(need, cases[i].need, sizeof need), 0);
    }
    expect("range, caps", nesfoal_range(capped, 128, NULL, 0, NULL, 0, NULL, 0), NESFOAL_REFUSED_CAPPED);
    expect("range, nothing", nesfoal_range(NULL, 0, NULL, 0, NULL, 0, NULL, 0), NESFOAL_REFUSED_LENGTH);
}

/* From an old plan to a new one, and what starts from there (02, A12). */
static void transfers(void)
{
    static const uint8_t three[60] = {
        0, 0, 0, 0,  0, 0, 0, 0,  0, 0, 0, 0,
        0, 0,  0, 0,  0, 0,  1, 0,
        0, 0,  1, 0,  1, 0,  1, 0,
        1, 0,  0, 0,  1, 0,  1, 0,
        1, 0,  1, 0,  2, 0,  1, 0,
        44, 0, 0, 0,  3, 0,  2, 0,  4, 0,  0, 1,  'B', 'E', 'L', 'L',
    };
    const uint16_t table[] = {0, 0, 1, 2, NESFOAL_NO_PLACE}, none[] = {0, 0, 1, 2, 3}, in_bay[] = {2}, list[] = {1};
    const uint64_t running[] = {0, 1, 1, 3, 0}, stranded[] = {0, 1, 1, 3, 1}, much[] = {4294967295, 1, 0, 0, 0}, start[] = {1, 0, 1, 0, 0};
    uint64_t marking[4] = {7, 7, 7, 7};
    uint8_t slice[79];
    uint32_t a = 9, b = 9, c = 9;
    expect("transfer", nesfoal_transfer(plan, 108, three, 60, running, 5, table, 5, marking, 4), 0);
    expect("transfer, sums", marking[0] == 1 && marking[1] == 1 && marking[2] == 3 && marking[3] == 7, 1);
    expect("transfer, 22", nesfoal_transfer(plan, 108, three, 60, stranded, 5, none, 5, marking, 0), NESFOAL_REFUSED_ENTRIES);
    expect("transfer, 22 by length", nesfoal_transfer(plan, 108, three, 60, running, 4, table, 5, marking, 3), NESFOAL_REFUSED_ENTRIES);
    expect("transfer, 23", nesfoal_transfer(plan, 108, three, 60, stranded, 5, table, 5, marking, 0), NESFOAL_REFUSED_STRANDED);
    expect("transfer, 24", nesfoal_transfer(plan, 108, three, 60, much, 5, table, 5, marking, 0), NESFOAL_REFUSED_TOKENS);
    expect("transfer, 13", nesfoal_transfer(plan, 108, three, 60, running, 5, table, 5, marking, 2), NESFOAL_REFUSED_BUFFER);
    expect("transfer, a slice", nesfoal_transfer(plan, 108, cut, 78, NULL, 0, NULL, 0, NULL, 0), NESFOAL_REFUSED_KIND);

    expect("replay from", nesfoal_replay_from(three, 60, marking, 3, list, 1, (uint64_t[3]){0}, 3, &a, &b, &c), 0);
    expect("replay from, 22", nesfoal_replay_from(three, 60, marking, 4, list, 1, marking + 3, 0, &a, &b, &c), NESFOAL_REFUSED_ENTRIES);
    expect("replay from, 24", nesfoal_replay_from(plan, 108, (const uint64_t[5]){0, 0, 0, 4294967296, 0}, 5, list, 1, marking, 4, &a, &b, &c), NESFOAL_REFUSED_TOKENS);
    memset(slice, 7, sizeof slice);
    expect("safety from", nesfoal_safety_from(plan, 108, start, 5, in_bay, 1, slice, 79, &a, &b, &c), 0);
    expect("safety from, file", a == 78 && b == 3 && c == 2 && slice[0] == 1 && slice[4] == 0 && slice[8] == 1 && slice[78] == 7, 1);
    expect("safety from, arcs", memcmp(slice + 12, cut + 12, 66), 0);
    expect("verdict from", nesfoal_verdict_from(plan, 108, slice, 78, start, 5, in_bay, 1, &a), NESFOAL_ACCEPTED);
    expect("verdict, of the same", nesfoal_verdict(plan, 108, slice, 78, in_bay, 1, &a), NESFOAL_RULE + 3);
    expect("verdict from, of the plain cut", nesfoal_verdict_from(plan, 108, cut, 78, start, 5, in_bay, 1, &a), NESFOAL_RULE + 3);
    expect("verdict from, the plan's own", nesfoal_verdict_from(plan, 108, cut, 78, (const uint64_t[5]){2, 1, 0, 0, 0}, 5, in_bay, 1, &a), NESFOAL_ACCEPTED);
    expect("verdict from, 22", nesfoal_verdict_from(plan, 108, cut, 78, start, 3, in_bay, 1, &a), NESFOAL_REFUSED_ENTRIES);
    expect("branching from", nesfoal_branching_from(plan, 108, start, 5, NULL, 0, slice, 79, &a, &b, &c), 0);
    expect("branching from, nothing", a == 16 && b + c == 0 && memcmp(slice, empty, 16) == 0, 1);
    expect("branching from, 13", nesfoal_branching_from(plan, 108, start, 5, in_bay, 1, slice, 79, &a, &b, &c), NESFOAL_REFUSED_BUFFER);
    expect("branching from, zeros", a + b + c, 0);
    /* all the way: carried, replayed from there, cut and checked where that ends; only the first P entries are a start */
    expect("carried on", nesfoal_replay_from(three, 60, (const uint64_t[3]){1, 1, 3}, 3, list, 1, marking, 4, &a, &b, &c), 0);
    expect("carried on, marking", marking[0] == 1 && marking[1] == 0 && marking[2] == 4 && marking[3] == 7, 1);
    expect("carried on, cut", nesfoal_safety_from(three, 60, marking, 3, in_bay, 1, slice, 79, &a, &b, &c), 0);
    expect("carried on, verdict", nesfoal_verdict_from(three, 60, slice, a, marking, 3, in_bay, 1, &b), NESFOAL_ACCEPTED);
    expect("carried on, all entries", nesfoal_verdict_from(three, 60, slice, a, marking, 4, in_bay, 1, &b), NESFOAL_REFUSED_ENTRIES);
}

/* The normal form (02, A13). */
static void normals(void)
{
    uint8_t twice[116], normal[129], again[128];
    uint32_t length = 9;
    parallel_kerb(twice);
    memset(normal, 7, sizeof normal);
    expect("normal", nesfoal_normal(plan, 108, normal, 129, &length), 0);
    expect("normal, length", length == 128 && normal[128] == 7, 1);
    expect("normal, of parallel arcs", nesfoal_normal(twice, 116, again, 128, &length), 0);
    expect("normal, the same", memcmp(normal, again, 128), 0);
    expect("normal, of itself", nesfoal_normal(normal, 128, again, 128, &length), 0);
    expect("normal, of itself, the same", memcmp(normal, again, 128), 0);
    expect("normal, too little room", nesfoal_normal(plan, 108, again, 127, &length), NESFOAL_REFUSED_BUFFER);
    expect("normal, too little room, length", length, 0);
    widen(0, 0);
    expect("normal, too heavy", nesfoal_normal(widest, sizeof widest, NULL, 0, &length), NESFOAL_REFUSED_WEIGHT);
    expect("normal, a slice", nesfoal_normal(cut, 78, NULL, 0, &length), NESFOAL_REFUSED_KIND);
}

/* Texts in PNML (02, A10). */
static void texts(void)
{
#define HEAD \
    "<pnml xmlns=\"http://www.pnml.org/version-2009/grammar/pnml\">\n" \
    "<net id=\"n\" type=\"http://www.pnml.org/version-2009/grammar/ptnet\"><page id=\"g\">"
#define TAIL "</page></net></pnml>"
    static const struct {
        const char *what, *text;
        uint32_t answer;
    } cases[] = {
        {"pnml", HEAD "<place id=\"p\"><initialMarking><text>3</text></initialMarking></place>" TAIL, 0},
        {"pnml, empty", "", NESFOAL_REFUSED_PROFILE},
        {"pnml, a name", HEAD "<place id=\"p\"><name/></place>" TAIL, NESFOAL_REFUSED_PROFILE},
        {"pnml, an id twice", HEAD "<place id=\"n\"/>" TAIL, NESFOAL_REFUSED_ID},
        {"pnml, an end of nothing", HEAD "<place id=\"p\"/><arc id=\"a\" source=\"p\" target=\"t\"/>" TAIL, NESFOAL_REFUSED_ID},
        {"pnml, nothing", HEAD TAIL, NESFOAL_REFUSED_NUMBER},
    };
    static const uint8_t one[20] = {3, 0, 0, 0,  4, 0, 0, 0,  1, 0,  0, 0,  0, 0,  0, 1,  'B', 'E', 'L', 'L'};
    static uint8_t much[NESFOAL_MAX_FILE_BYTES + 1];
    uint32_t length;
    for (size_t i = 0; i < sizeof cases / sizeof cases[0]; i++) {
        uint8_t file[21];
        memset(file, 7, sizeof file);
        length = 9;
        expect(cases[i].what, nesfoal_from_pnml((const uint8_t *)cases[i].text, strlen(cases[i].text), file, 21, &length), cases[i].answer);
        expect(cases[i].what, length, cases[i].answer ? 0 : 20);
        expect(cases[i].what, file[20] == 7 && (cases[i].answer ? file[0] == 7 : memcmp(file, one, 20) == 0), 1);
    }
    expect("pnml, too little room", nesfoal_from_pnml((const uint8_t *)cases[0].text, strlen(cases[0].text), NULL, 0, &length), NESFOAL_REFUSED_BUFFER);
    expect("pnml, too long", nesfoal_from_pnml(much, sizeof much, NULL, 0, &length), NESFOAL_REFUSED_LENGTH);
}

int main(void)
{
    effects();
    parallels();
    largest();
    arcs();
    replays();
    takings();
    cuts();
    run_cuts();
    checks();
    shadows();
    no_place();
    capped_replays();
    capped_cuts();
    above_caps();
    nulls();
    shared();
    ranges();
    transfers();
    normals();
    texts();
    printf("%u passed, %u failed\n", passed, failed);
    return failed != 0;
}
