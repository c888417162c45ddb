/*
 * The bridge by the functions over struct cutlist_plan: in C and in C++, without a complaint of the
 * compiler. It ends with 0 if every answer is the paper's.
 */
#include <stdio.h>
#include <string.h>

#include "cutlist.h"
#include "cutlist.h"

#define CHECK(claim) \
    do { \
        if (!(claim)) { \
            fprintf(stderr, "line %d: %s\n", __LINE__, #claim); \
            return 1; \
        } \
    } while (0)

static const uint8_t bridge[26] = {
    0x50, 4, 0x53, 0, 3, 0x43, 0, 0, 1, 0x43, 1, 0, 2, 0x43, 2, 1, 2, 0x43, 3, 1, 3, 0x43, 4, 2, 3, 0x45,
};

/* Two points joined by cable 5 of 260 metres. */
static const uint8_t measured[14] = {0x50, 2, 0x53, 0, 1, 0x43, 5, 0, 1, 0x4D, 5, 1, 4, 0x45};

/* And an event of a cable that the bridge has not. */
static const uint8_t link_log[10] = {
    CUTLIST_DOWN, 0, CUTLIST_DOWN, 1, CUTLIST_DOWN, 1, CUTLIST_UP, 0, CUTLIST_UP, 5,
};
static const uint8_t silent_after[5] = {0, 1, 1, 0, 9};

/* Cables 0 and 1 are out from 120 to 150, and the room is open; and works of a cable that the bridge has not. */
static const uint16_t openings[4] = {100, 200, 110, CUTLIST_WEEK};
static const uint16_t works[9] = {0, 150, 0, 120, 200, 1, 7, 8, 256};
static const uint16_t windows[2 * CUTLIST_MOST_OPENINGS + 1] = {0};

/* Two rooms in any order, the first of them twice, and the server; and more than there may be. */
static const uint8_t rooms[4] = {3, 1, 3, 0};
static const uint8_t many_rooms[CUTLIST_MOST_ROOMS + 1] = {1, 2, 3, 4, 5, 6, 7, 8, 9};

int main(void)
{
    static const uint64_t cuts_listed[5] = {3, 14, 21, 24, 7};
    static const uint64_t sides_listed[5] = {1, 3, 5, 7, 9};
    static const uint64_t any_listed[6] = {3, 13, 14, 21, 24, 7};
    static const uint64_t all_listed[6] = {3, 21, 7, 7, 7, 7};
    static const uint64_t untouched[6] = {7, 7, 7, 7, 7, 7};
    static const uint64_t cleared[20] = {0};
    static const uint64_t rows[3] = {33, 3, 32};
    struct cutlist_plan plan, zero;
    uint8_t bytes[27], silent[5], verdict;
    uint16_t minutes;
    uint32_t total;
    uint64_t cuts[5] = {7, 7, 7, 7, 7}, edges;
    uint64_t sides[5] = {9, 9, 9, 9, 9}, nodes;
    uint64_t sets[6] = {7, 7, 7, 7, 7, 7}, work[20];
    uint64_t silent_steps, number;
    uint64_t table[CUTLIST_WIDTHS];
    size_t count;

    /* Reading, which leaves nothing of what the struct held. */
    memset(&zero, 0, sizeof zero);
    memset(&plan, 0xEE, sizeof plan);
    CHECK(cutlist_plan_decode(bridge, 25, &plan) == CUTLIST_TRUNCATED);
    CHECK(plan.nodes == 0 && plan.source == 0 && plan.sink == 0 && plan.present == 0);
    CHECK(memcmp(plan.first, zero.first, CUTLIST_SLOTS) == 0);
    CHECK(memcmp(plan.second, zero.second, CUTLIST_SLOTS) == 0);
    CHECK(memcmp(plan.metres, zero.metres, sizeof zero.metres) == 0);
    CHECK(cutlist_plan_fault(&plan) == CUTLIST_BAD_NODE_COUNT);
    CHECK(cutlist_plan_decode(bridge, 26, &plan) == CUTLIST_ACCEPTED);
    CHECK(plan.nodes == 4 && plan.source == 0 && plan.sink == 3 && plan.present == 31);
    CHECK(plan.first[3] == 1 && plan.second[3] == 3);
    CHECK(memcmp(plan.metres, zero.metres, sizeof zero.metres) == 0);

    /* Writing. */
    memset(bytes, 0xAA, sizeof bytes);
    CHECK(cutlist_plan_encode(&plan, bytes, 25, &count) == CUTLIST_BUFFER_TOO_SHORT && count == 0);
    CHECK(cutlist_plan_encode(&plan, bytes, 27, &count) == CUTLIST_ACCEPTED && count == 26);
    CHECK(memcmp(bytes, bridge, 26) == 0 && bytes[26] == 0xAA);

    /* The useful part, a verdict, the list. */
    CHECK(cutlist_plan_relevant(&plan, &nodes, &edges) == CUTLIST_ACCEPTED);
    CHECK(nodes == 15 && edges == 31);
    CHECK(cutlist_plan_classify(&plan, 14, &verdict) == CUTLIST_ACCEPTED);
    CHECK(verdict == CUTLIST_MINIMAL);
    CHECK(cutlist_plan_classify(&plan, 32, &verdict) == CUTLIST_EDGE_NOT_PRESENT);
    CHECK(verdict == CUTLIST_NO_VERDICT);
    CHECK(cutlist_plan_list(&plan, cuts, 5, sides, 4, &count) == CUTLIST_ROWS_DIFFER && count == 0);
    CHECK(cutlist_plan_list(&plan, cuts, 5, sides, 5, &count) == CUTLIST_ACCEPTED && count == 4);
    CHECK(memcmp(cuts, cuts_listed, sizeof cuts) == 0);
    CHECK(memcmp(sides, sides_listed, sizeof sides) == 0);

    /* The list of a trimmed plan: the same rows, over what the list left. */
    cuts[0] = sides[0] = 99;
    CHECK(cutlist_plan_list_trimmed(&plan, cuts, 5, sides, 4, &count) == CUTLIST_ROWS_DIFFER && count == 0);
    CHECK(cutlist_plan_list_trimmed(&plan, cuts, 3, sides, 3, &count) == CUTLIST_TOO_MANY_CUTS && count == 0);
    CHECK(cuts[0] == 99 && sides[0] == 99);
    CHECK(cutlist_plan_list_trimmed(&plan, cuts, 5, sides, 5, &count) == CUTLIST_ACCEPTED && count == 4);
    CHECK(memcmp(cuts, cuts_listed, sizeof cuts) == 0);
    CHECK(memcmp(sides, sides_listed, sizeof sides) == 0);
    plan.nodes = 5;
    CHECK(cutlist_plan_list_trimmed(&plan, cuts, 5, sides, 4, &count) == CUTLIST_NOT_TRIMMED && count == 0);
    CHECK(cutlist_plan_list_trimmed(&plan, cuts, 0, sides, 0, &count) == CUTLIST_NOT_TRIMMED && count == 0);
    CHECK(memcmp(cuts, cuts_listed, sizeof cuts) == 0);
    plan.nodes = 4;

    /* Rooms 1 and 3: what silences one of them needs 7 work rows, what silences both 19. */
    memset(work, 0xEE, sizeof work);
    CHECK(cutlist_plan_list_any(&plan, rooms, 0, sets, 6, work, 20, &count) == CUTLIST_BAD_ROOMS && count == 0);
    CHECK(cutlist_plan_list_any(&plan, rooms, 3, sets, 6, work, 20, &count) == CUTLIST_BAD_ROOMS && count == 0);
    CHECK(cutlist_plan_list_any(&plan, rooms + 2, 2, sets, 0, work, 0, &count) == CUTLIST_BAD_ROOMS && count == 0);
    CHECK(cutlist_plan_list_all(&plan, many_rooms, 4, sets, 6, work, 20, &count) == CUTLIST_BAD_ROOMS && count == 0);
    CHECK(cutlist_plan_list_all(&plan, many_rooms, 9, sets, 6, work, 20, &count) == CUTLIST_BAD_ROOMS && count == 0);
    CHECK(work[0] == work[19] && work[0] != 0);
    CHECK(cutlist_plan_list_any(&plan, rooms, 2, sets, 0, work, 6, &count) == CUTLIST_WORK_TOO_SHORT && count == 0);
    CHECK(memcmp(work, cleared, 6 * sizeof work[0]) == 0 && work[6] != 0);
    CHECK(cutlist_plan_list_all(&plan, rooms, 2, sets, 6, work, 18, &count) == CUTLIST_WORK_TOO_SHORT && count == 0);
    CHECK(memcmp(work, cleared, 18 * sizeof work[0]) == 0 && work[18] != 0);
    CHECK(cutlist_plan_list_any(&plan, rooms, 2, sets, 4, work, 20, &count) == CUTLIST_TOO_MANY_CUTS && count == 0);
    CHECK(memcmp(work, cleared, sizeof work) == 0);
    CHECK(memcmp(sets, untouched, sizeof sets) == 0);
    memset(work, 0xEE, sizeof work);
    CHECK(cutlist_plan_list_any(&plan, rooms, 2, sets, 6, work, 20, &count) == CUTLIST_ACCEPTED && count == 5);
    CHECK(memcmp(sets, any_listed, sizeof sets) == 0 && memcmp(work, cleared, sizeof work) == 0);
    memcpy(sets, untouched, sizeof sets);
    memset(work, 0xEE, sizeof work);
    CHECK(cutlist_plan_list_all(&plan, rooms, 2, sets, 2, work, 19, &count) == CUTLIST_ACCEPTED && count == 2);
    CHECK(memcmp(sets, all_listed, sizeof sets) == 0 && work[18] == 0 && work[19] != 0);
    plan.sink = 4;
    CHECK(cutlist_plan_list_all(&plan, rooms, 2, sets, 2, work, 19, &count) == CUTLIST_TERMINAL_OUTSIDE && count == 0);
    plan.sink = 3;

    /* Widths: the list's, and those of any rows; with cable 5 beside cable 0 the two are one pair. */
    memset(table, 0xEE, sizeof table);
    CHECK(cutlist_plan_widths(&plan, cuts, 4, table) == CUTLIST_ACCEPTED);
    CHECK(table[0] == 0 && table[1] == 0 && table[2] == 2 && table[3] == 2 && table[64] == 0);
    CHECK(cutlist_plan_widths(&plan, cuts, 0, table) == CUTLIST_ACCEPTED);
    CHECK(table[2] == 0 && table[3] == 0);
    memset(table, 0xEE, sizeof table);
    CHECK(cutlist_plan_widths(&plan, rows, 3, table) == CUTLIST_EDGE_NOT_PRESENT);
    CHECK(table[0] == 0 && table[1] == 0 && table[2] == 0 && table[64] == 0);
    plan.present = 63;
    plan.first[5] = 1;
    CHECK(cutlist_plan_widths(&plan, rows, 3, table) == CUTLIST_ACCEPTED);
    CHECK(table[0] == 0 && table[1] == 2 && table[2] == 1 && table[3] == 0);
    plan.second[5] = 4;
    CHECK(cutlist_plan_widths(&plan, rows, 0, table) == CUTLIST_END_OUTSIDE);
    CHECK(table[0] == 0 && table[1] == 0 && table[2] == 0);
    plan.present = 31;
    plan.first[5] = plan.second[5] = 0;

    /* A link log: cables 0 and 1 go down, the second of them twice, and cable 0 comes up. */
    memset(silent, 9, sizeof silent);
    CHECK(cutlist_plan_replay(&plan, link_log, 8, silent, 3, &count) == CUTLIST_TOO_MANY_EVENTS && count == 0);
    CHECK(cutlist_plan_replay(&plan, link_log, 7, silent, 5, &count) == CUTLIST_BAD_EVENT && count == 0);
    CHECK(cutlist_plan_replay(&plan, link_log, 10, silent, 5, &count) == CUTLIST_NO_SUCH_EDGE && count == 0);
    CHECK(silent[0] == 9 && silent[4] == 9);
    CHECK(cutlist_plan_replay(&plan, link_log, 8, silent, 5, &count) == CUTLIST_ACCEPTED && count == 4);
    CHECK(memcmp(silent, silent_after, sizeof silent) == 0);
    CHECK(cutlist_plan_replay(&plan, link_log, 0, silent, 0, &count) == CUTLIST_ACCEPTED && count == 0);

    /* Works: cables 0 and 1 are out together for half an hour, and the room is open then. */
    minutes = 9;
    CHECK(cutlist_plan_silent_minutes(&plan, openings, 4, works, 6, &minutes) == CUTLIST_ACCEPTED && minutes == 30);
    CHECK(cutlist_plan_silent_minutes(&plan, openings, 2, works, 3, &minutes) == CUTLIST_ACCEPTED && minutes == 0);
    minutes = 9;
    CHECK(cutlist_plan_silent_minutes(&plan, openings, 0, works, 6, &minutes) == CUTLIST_ACCEPTED && minutes == 0);
    minutes = 9;
    CHECK(cutlist_plan_silent_minutes(&plan, openings, 4, works, 9, &minutes) == CUTLIST_NO_SUCH_EDGE && minutes == 0);
    minutes = 9;
    CHECK(cutlist_plan_silent_minutes(&plan, openings, 4, works, 8, &minutes) == CUTLIST_BAD_WINDOW && minutes == 0);
    minutes = 9;
    CHECK(cutlist_plan_silent_minutes(&plan, openings, 3, works, 9, &minutes) == CUTLIST_BAD_WINDOW && minutes == 0);
    minutes = 9;
    CHECK(cutlist_plan_silent_minutes(&plan, windows, 29, works, 9, &minutes) == CUTLIST_TOO_MANY_WINDOWS && minutes == 0);

    /* Drills: of 1,000 steps from 1 on, without a step, of as many as may be and of more. */
    silent_steps = number = 9;
    CHECK(cutlist_plan_simulate(&plan, 1, 8, 64, 1000, &silent_steps, &number) == CUTLIST_ACCEPTED);
    CHECK(silent_steps == 20 && number == 5913207373884461897);
    CHECK(cutlist_plan_simulate(&plan, 1, 64, 8, 1000, &silent_steps, &number) == CUTLIST_ACCEPTED);
    CHECK(silent_steps == 963 && number == 5913207373884461897);
    CHECK(cutlist_plan_simulate(&plan, 7, 8, 64, 0, &silent_steps, &number) == CUTLIST_ACCEPTED);
    CHECK(silent_steps == 0 && number == 7);
    silent_steps = 9;
    CHECK(cutlist_plan_simulate(&plan, 1, 0, 64, CUTLIST_MOST_STEPS, &silent_steps, &number) == CUTLIST_ACCEPTED);
    CHECK(silent_steps == 0 && number == 2691684425275580582);
    silent_steps = 9;
    CHECK(cutlist_plan_simulate(&plan, 1, 8, 64, CUTLIST_MOST_STEPS + 1, &silent_steps, &number) == CUTLIST_TOO_MANY_STEPS);
    CHECK(silent_steps == 0 && number == 0);
    silent_steps = number = 9;
    CHECK(cutlist_plan_simulate(&plan, 1, 8, 64, (uint64_t)1 << 32, &silent_steps, &number) == CUTLIST_TOO_MANY_STEPS);
    CHECK(silent_steps == 0 && number == 0);
    silent_steps = number = 9;
    plan.second[4] = 4;
    CHECK(cutlist_plan_simulate(&plan, 1, 8, 64, (uint64_t)1 << 32, &silent_steps, &number) == CUTLIST_END_OUTSIDE);
    CHECK(silent_steps == 0 && number == 0);
    plan.second[4] = 3;

    /* Lengths: in the struct, in bytes, and of sets. */
    plan.metres[0] = 7;
    plan.metres[1] = 25;
    plan.metres[4] = 65535;
    CHECK(cutlist_plan_metres(&plan, 18, &total) == CUTLIST_ACCEPTED && total == 65560);
    CHECK(cutlist_plan_metres(&plan, 5, &total) == CUTLIST_ACCEPTED && total == 7);
    CHECK(cutlist_plan_metres(&plan, 12, &total) == CUTLIST_ACCEPTED && total == 0);
    CHECK(cutlist_plan_metres(&plan, 50, &total) == CUTLIST_EDGE_NOT_PRESENT && total == 0);
    plan.metres[5] = 1;
    CHECK(cutlist_plan_metres(&plan, 18, &total) == CUTLIST_ABSENT_EDGE_NOT_ZERO && total == 0);
    CHECK(cutlist_plan_decode(measured, 14, &plan) == CUTLIST_ACCEPTED);
    CHECK(plan.present == 32 && plan.metres[5] == 260 && plan.metres[4] == 0);
    CHECK(cutlist_plan_encode(&plan, bytes, 27, &count) == CUTLIST_ACCEPTED && count == 14);
    CHECK(memcmp(bytes, measured, 14) == 0);
    bytes[10] = 6;
    CHECK(cutlist_plan_decode(bytes, 14, &plan) == CUTLIST_BAD_LENGTH && plan.metres[5] == 0);

    /* A struct that is filled in. */
    plan = zero;
    plan.nodes = 2;
    plan.sink = 1;
    CHECK(cutlist_plan_fault(&plan) == CUTLIST_ACCEPTED);
    plan.second[63] = 1;
    CHECK(cutlist_plan_fault(&plan) == CUTLIST_ABSENT_EDGE_NOT_ZERO);
    plan.present = (uint64_t)1 << 63;
    CHECK(cutlist_plan_fault(&plan) == CUTLIST_ACCEPTED);

    /* A loop, which is of no use. */
    plan.first[63] = 1;
    CHECK(cutlist_plan_fault(&plan) == CUTLIST_ACCEPTED);
    CHECK(cutlist_plan_relevant(&plan, &nodes, &edges) == CUTLIST_ACCEPTED);
    CHECK(nodes == 3 && edges == 0);
    CHECK(cutlist_plan_list_trimmed(&plan, cuts, 5, sides, 5, &count) == CUTLIST_NOT_TRIMMED && count == 0);

    /* Two points without a cable, which are trimmed. */
    plan.present = 0;
    plan.first[63] = plan.second[63] = 0;
    CHECK(cutlist_plan_list_trimmed(&plan, cuts, 1, sides, 1, &count) == CUTLIST_ACCEPTED && count == 1);
    CHECK(cuts[0] == 0 && sides[0] == 1);
    return 0;
}
