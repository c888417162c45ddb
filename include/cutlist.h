/*
 * Proved cut lists for a cabled hall: the functions of the static library libcapi.a.
 *
 * A plan has points (nodes) and cables (edges) between two points each; one point is the server
 * (source), one the room (sink). Both ends of a cable may be one point: such a loop lies on no route
 * and in no minimal cut. A plan crosses the border as bytes, or as a record field by field:
 *
 *   nodes    the point count, 2 to CUTLIST_MOST_NODES; points are numbered from 0
 *   source   the server
 *   sink     the room
 *   present  the set of cables present; cables have numbers 0 to 63
 *   first    the first end of each cable, 0 if the cable is absent
 *   second   the second end of each cable, 0 if the cable is absent
 *   metres   the length of each cable in metres, 0 if it is not measured or the cable is absent
 *
 * Fill in both ends of every cable present: one whose ends are left 0 is no fault but a loop at point
 * 0, and is in no cut of the list. Metres change no useful part, no verdict, no list, no width, no
 * count of minutes, no drill and nothing that is written for a log.
 *
 * struct cutlist_plan holds the fields together, and for each function that takes them one by one
 * there is an inline function that takes the struct: cutlist_plan_fault for cutlist_fault. A call of
 * those stays as it is when plans gain a field.
 *
 * A set is a number in which member k weighs 2^k: 64 bits, for cables as for points.
 *
 * Every function gives the number of a refusal, CUTLIST_ACCEPTED if there is none. Whatever a
 * record's fields hold, the call is safe: each call tests the record first, as cutlist_fault does. Out
 * parameters are written on refusal too, as said beside each; lent bytes and rows are untouched then.
 * The work rows of cutlist_list_any and cutlist_list_all are the one exception: after a refusal with
 * 12 or 20 all of them are 0.
 *
 * No pointer may be NULL, not even beside a length of 0, and each must be aligned as its type asks,
 * on x86-64 to 8 bytes for uint64_t and size_t, to 4 for uint32_t and to 2 for uint16_t. A length
 * counts elements, not bytes, and may not be larger than the memory lent. No two pointers may lead to
 * the same memory if one of them is written through.
 *
 * The header is C99, or C++98, and later.
 *
 * The functions have no memory of their own: they keep nothing between calls, allocate nothing, lock
 * nothing and call nothing but memcpy and memset. So they may be called from several threads at once
 * and from signal handlers, as long as no call is given memory that another one writes.
 *
 * Each call takes at most CUTLIST_STACK_BYTES of stack; cutlist_list and cutlist_list_trimmed take
 * the most, cutlist_list_any and cutlist_list_all less than 26 KiB, cutlist_widths less than 3 KiB,
 * and every other call less than 2 KiB: rust/tests/stack.rs measures it, on halls where the lists go
 * as deep as they can. Of the stack of the first two 32 KiB hold rows that they keep while they count
 * them. The list program makes all that it prints on its stack, and needs 896 KiB.
 */
#ifndef CUTLIST_H
#define CUTLIST_H

#include <stddef.h>
#include <stdint.h>

#ifdef __cplusplus
extern "C" {
#endif

/* The most points in a plan. */
#define CUTLIST_MOST_NODES 64

/* Slots for cables in a record. */
#define CUTLIST_SLOTS 64

/* Counts in a width table: widths 0 to 64. */
#define CUTLIST_WIDTHS 65

/* Bytes in the longest plan. A buffer of this length takes any plan. */
#define CUTLIST_LONGEST_PLAN 518

/* Bytes that decide any plan: reading more cannot change the answer. */
#define CUTLIST_DECIDING_BYTES 521

/* The commands of a link log: a cable goes down, a cable comes up. */
#define CUTLIST_DOWN 0x44
#define CUTLIST_UP 0x55

/* Minutes of a week, of which 0 is the first. */
#define CUTLIST_WEEK 10080

/* The most windows of either kind. */
#define CUTLIST_MOST_OPENINGS 14
#define CUTLIST_MOST_WORKS 16

/* The most steps of a drill. */
#define CUTLIST_MOST_STEPS 65535

/* The most rooms of one list. */
#define CUTLIST_MOST_ROOMS 8

/* Bytes of stack that suffice for every call. */
#define CUTLIST_STACK_BYTES 61440

/* Why a call refused. Numbers have gaps. Bytes are named in hexadecimal. */
enum cutlist_refusal {
    CUTLIST_ACCEPTED = 0,

    /* By what carried the bytes. */
    CUTLIST_TRUNCATED = 1,              /* the plan stops early */
    CUTLIST_UNFIT_COMMAND = 2,          /* a byte that is no command fit for its place */
    CUTLIST_TRAILING_BYTE = 3,          /* a byte after 45 */

    /* By the one who surveyed the hall. */
    CUTLIST_BAD_NODE_COUNT = 4,         /* point count not 2 to 64 */
    CUTLIST_TERMINAL_OUTSIDE = 5,       /* server or room not below the point count */
    CUTLIST_SAME_TERMINALS = 6,         /* server and room the same point */
    CUTLIST_EDGE_NUMBER_TOO_HIGH = 7,   /* cable number above 63 */
    CUTLIST_EDGE_NUMBER_NOT_RISING = 8, /* cable number not above the one before */
    CUTLIST_END_OUTSIDE = 9,            /* a cable end not below the point count */
    CUTLIST_BAD_LENGTH = 28,            /* a length that is not of the cable just before it, or of 0 metres */

    /* By what kept the log. */
    CUTLIST_BAD_EVENT = 16,             /* an event with an unknown command, or half an event */
    CUTLIST_NO_SUCH_EDGE = 17,          /* an event or a works window of a cable not present */

    /* By the one who planned the week. */
    CUTLIST_TOO_MANY_WINDOWS = 23,      /* more than 14 opening windows, or more than 16 works windows */
    CUTLIST_BAD_WINDOW = 24,            /* a window whose start is not below its end or whose end is above 10,080, or a piece of one */

    /* By the one who set the drill. */
    CUTLIST_TOO_MANY_STEPS = 25,        /* more than 65,535 steps */

    /* By the one who chose the rooms. */
    CUTLIST_BAD_ROOMS = 19,             /* no room, more than 8, a room twice, the server, or a point outside the plan */

    /* By the program that calls. */
    CUTLIST_ROWS_DIFFER = 11,           /* cut rows and side rows differ in number */
    CUTLIST_TOO_MANY_CUTS = 12,         /* more minimal cuts than rows lent */
    CUTLIST_ABSENT_EDGE_NOT_ZERO = 13,  /* an absent cable with an end or metres not 0 */
    CUTLIST_EDGE_NOT_PRESENT = 14,      /* a given set or row holds a cable not present */
    CUTLIST_BUFFER_TOO_SHORT = 15,      /* the plan needs more bytes than were lent */
    CUTLIST_TOO_MANY_EVENTS = 18,       /* more whole events than bytes lent */
    CUTLIST_WORK_TOO_SHORT = 20,        /* a step for several rooms needs more work rows than were lent */
    CUTLIST_NOT_TRIMMED = 26            /* some point or present cable is not useful */
};

/* What judging says of a set of cables. */
enum cutlist_verdict {
    CUTLIST_NO_VERDICT = 0,  /* the call refused */
    CUTLIST_NOT_CUT = 1,     /* not a cut */
    CUTLIST_NOT_MINIMAL = 2, /* a cut but not minimal */
    CUTLIST_MINIMAL = 3      /* minimal */
};

/*
 * Reads a plan: refusals 1 to 9, and 28.
 *
 *   plan, plan_length  the bytes; none past the last is looked at
 *   nodes              out: the point count
 *   source             out: the server
 *   sink               out: the room
 *   present            out: the set of cables present
 *   first              out: the first end of each cable
 *   second             out: the second end of each cable
 *   metres             out: the metres of each cable, 0 if it has no length in the plan
 *
 * On refusal all seven are zero throughout.
 */
uint8_t cutlist_decode(
    const uint8_t *plan, size_t plan_length,
    uint8_t *nodes,
    uint8_t *source,
    uint8_t *sink,
    uint64_t *present,
    uint8_t first[CUTLIST_SLOTS],
    uint8_t second[CUTLIST_SLOTS],
    uint16_t metres[CUTLIST_SLOTS]);

/* Tests a record, and gives the number of its first fault: 4, 5, 6, then slot by slot 9 or 13. */
uint8_t cutlist_fault(
    uint8_t nodes,
    uint8_t source,
    uint8_t sink,
    uint64_t present,
    const uint8_t first[CUTLIST_SLOTS],
    const uint8_t second[CUTLIST_SLOTS],
    const uint16_t metres[CUTLIST_SLOTS]);

/*
 * Writes a record as a plan, cables rising, each measured one with its length behind it: refusals of
 * cutlist_fault, and 15.
 *
 *   plan, plan_length  out: the lent buffer; bytes past the count hold what they held
 *   count              out: how many bytes were written, 0 on refusal
 */
uint8_t cutlist_encode(
    uint8_t nodes,
    uint8_t source,
    uint8_t sink,
    uint64_t present,
    const uint8_t first[CUTLIST_SLOTS],
    const uint8_t second[CUTLIST_SLOTS],
    const uint16_t metres[CUTLIST_SLOTS],
    uint8_t *plan, size_t plan_length,
    size_t *count);

/*
 * Finds the useful part, the points and cables on some route from server to room: refusals of
 * cutlist_fault.
 *
 *   node_set  out: the useful points, server and room always among them; empty on refusal
 *   edge_set  out: the useful cables; empty on refusal
 */
uint8_t cutlist_relevant(
    uint8_t nodes,
    uint8_t source,
    uint8_t sink,
    uint64_t present,
    const uint8_t first[CUTLIST_SLOTS],
    const uint8_t second[CUTLIST_SLOTS],
    const uint16_t metres[CUTLIST_SLOTS],
    uint64_t *node_set,
    uint64_t *edge_set);

/*
 * Judges a set of cables: refusals of cutlist_fault, and 14.
 *
 *   set      the set to judge
 *   verdict  out: one of enum cutlist_verdict, CUTLIST_NO_VERDICT on refusal
 */
uint8_t cutlist_classify(
    uint8_t nodes,
    uint8_t source,
    uint8_t sink,
    uint64_t present,
    const uint8_t first[CUTLIST_SLOTS],
    const uint8_t second[CUTLIST_SLOTS],
    const uint16_t metres[CUTLIST_SLOTS],
    uint64_t set,
    uint8_t *verdict);

/*
 * Adds up the metres of a set of cables: refusals of cutlist_fault, and 14. A cable that is not
 * measured adds 0, and the total does not show it: the record's metres do.
 *
 *   set    the set of cables
 *   total  out: their metres together, at most 4194240; 0 on refusal
 */
uint8_t cutlist_metres(
    uint8_t nodes,
    uint8_t source,
    uint8_t sink,
    uint64_t present,
    const uint8_t first[CUTLIST_SLOTS],
    const uint8_t second[CUTLIST_SLOTS],
    const uint16_t metres[CUTLIST_SLOTS],
    uint64_t set,
    uint32_t *total);

/*
 * Lists the minimal cuts in rising order of their numbers, each beside its near side: the useful
 * points that the server still reaches when the cut is taken out. Refusals of cutlist_fault, 11 and
 * 12. Without a route the list is one row: cut 0, side the server alone.
 *
 * The fewest cables in any row, cables between the same points counted singly, are as many as the
 * most routes of which no two share a cable: so many separate ways lead from server to room.
 *
 *   cuts, cuts_length    out: the lent rows for cuts; rows past the count hold what they held
 *   sides, sides_length  out: the lent rows for near sides, as many as for cuts; likewise
 *   count                out: how many rows were listed, 0 on refusal
 */
uint8_t cutlist_list(
    uint8_t nodes,
    uint8_t source,
    uint8_t sink,
    uint64_t present,
    const uint8_t first[CUTLIST_SLOTS],
    const uint8_t second[CUTLIST_SLOTS],
    const uint16_t metres[CUTLIST_SLOTS],
    uint64_t *cuts, size_t cuts_length,
    uint64_t *sides, size_t sides_length,
    size_t *count);

/*
 * Lists the minimal cuts of a plan that was trimmed already, so that every point and every present
 * cable is useful: for callers that trim plans themselves. In place of trimming it tests that, which
 * takes less time, and what it lists is what cutlist_list lists. Refusals, in this order: those of
 * cutlist_fault, 26 if some point or present cable is not useful, 11 and 12. So a plan with a loop is
 * refused with 26, and of the plans without a route all but two points without a cable.
 *
 *   cuts, cuts_length    out: the lent rows for cuts; rows past the count hold what they held
 *   sides, sides_length  out: the lent rows for near sides, as many as for cuts; likewise
 *   count                out: how many rows were listed, 0 on refusal
 */
uint8_t cutlist_list_trimmed(
    uint8_t nodes,
    uint8_t source,
    uint8_t sink,
    uint64_t present,
    const uint8_t first[CUTLIST_SLOTS],
    const uint8_t second[CUTLIST_SLOTS],
    const uint16_t metres[CUTLIST_SLOTS],
    uint64_t *cuts, size_t cuts_length,
    uint64_t *sides, size_t sides_length,
    size_t *count);

/*
 * Lists the minimal sets of cables that silence at least one of several rooms, in rising order of
 * their numbers, each once. A set silences a room if no route leads there over the other cables; it is
 * minimal here if no smaller part of it silences any of the rooms. So the rooms' own lists are joined,
 * and every set that holds another one is dropped.
 *
 * Every point but the server can be a room, and the rooms may stand in any order. The plan's own
 * room, the sink, counts only if it is among them, and is tested with the plan all the same. One room
 * alone has the cuts that cutlist_list gives with that point as room. If one of the rooms has no
 * route, nothing need be cut to silence it, and the list is one row: 0.
 *
 * The rooms are taken in rising order of point, each in a step. The first step needs as many work rows
 * as the first room's own list has. With p sets in the list for the rooms so far and q in the next
 * room's own list, the next step needs p + q. This count decides, whatever the call makes of its work
 * rows. No list has more rows than its last step needs, so that as many rows for cuts as work rows
 * always suffice.
 *
 * Refusals, in this order: those of cutlist_fault; 19 for no room, more than CUTLIST_MOST_ROOMS, a room
 * twice, the server, or a point outside the plan; 20 if some step needs more work rows than are lent;
 * 12 if the list has more rows than are lent for cuts.
 *
 *   rooms, rooms_length  the rooms, each the number of a point
 *   cuts, cuts_length    out: the lent rows for the list; rows past the count hold what they held,
 *                        and on refusal all of them do
 *   work, work_length    out: the lent work rows, which may hold anything; afterwards all of them are
 *                        0, used or not, on 12 and on 20 too; on any other refusal they are untouched
 *   count                out: how many rows were listed, 0 on refusal
 */
uint8_t cutlist_list_any(
    uint8_t nodes,
    uint8_t source,
    uint8_t sink,
    uint64_t present,
    const uint8_t first[CUTLIST_SLOTS],
    const uint8_t second[CUTLIST_SLOTS],
    const uint16_t metres[CUTLIST_SLOTS],
    const uint8_t *rooms, size_t rooms_length,
    uint64_t *cuts, size_t cuts_length,
    uint64_t *work, size_t work_length,
    size_t *count);

/*
 * Lists the minimal sets of cables that silence every one of several rooms, as cutlist_list_any lists
 * those that silence at least one. So a set from each room's own list is united with one from each
 * other's, in every way, and every set that holds another one is dropped. One room alone has its own
 * list here too. A room without a route is silent already and does not matter; if none has a route,
 * the list is one row: 0.
 *
 * With p sets in the list for the rooms so far and q in the next room's own list, the next step needs
 * p + q + p * q work rows, even where a size_t cannot hold as many. In all else, the refusals and what
 * is written in each case, this call is as cutlist_list_any.
 *
 *   rooms, rooms_length  the rooms, each the number of a point
 *   cuts, cuts_length    out: the lent rows for the list; rows past the count hold what they held,
 *                        and on refusal all of them do
 *   work, work_length    out: the lent work rows, which may hold anything; afterwards all of them are
 *                        0, used or not, on 12 and on 20 too; on any other refusal they are untouched
 *   count                out: how many rows were listed, 0 on refusal
 */
uint8_t cutlist_list_all(
    uint8_t nodes,
    uint8_t source,
    uint8_t sink,
    uint64_t present,
    const uint8_t first[CUTLIST_SLOTS],
    const uint8_t second[CUTLIST_SLOTS],
    const uint16_t metres[CUTLIST_SLOTS],
    const uint8_t *rooms, size_t rooms_length,
    uint64_t *cuts, size_t cuts_length,
    uint64_t *work, size_t work_length,
    size_t *count);

/*
 * Plays back a link log, to tell after which events the room was silent. An event is two bytes,
 * CUTLIST_DOWN or CUTLIST_UP and the number of a cable, which is down or up from then on. At first no
 * cable is down; to take down a cable that is down, or up one that is up, changes nothing. The room
 * is silent while some minimal cut is wholly down, which is while the cables still up have no route;
 * in a plan without a route it always is. A log may have any number of events, or none.
 *
 * The whole log is checked before the first byte is written. Refusals, in this order: those of
 * cutlist_fault; 18 if fewer bytes are lent than the log has whole events, whatever these are; then
 * event by event 16 for an unknown command and 17 for a cable not present; and 16 for half an event
 * at the end.
 *
 *   log, log_length        the log
 *   silent, silent_length  out: the lent bytes, of which the first belongs to the first event: 1 if
 *                          the room is silent after it, else 0; bytes past the count hold what they
 *                          held
 *   count                  out: how many bytes were written, one for each event; 0 on refusal
 */
uint8_t cutlist_replay(
    uint8_t nodes,
    uint8_t source,
    uint8_t sink,
    uint64_t present,
    const uint8_t first[CUTLIST_SLOTS],
    const uint8_t second[CUTLIST_SLOTS],
    const uint16_t metres[CUTLIST_SLOTS],
    const uint8_t *log, size_t log_length,
    uint8_t *silent, size_t silent_length,
    size_t *count);

/*
 * Counts the minutes of a week in which the room is open and silent, while cables are booked out. A
 * window holds its start and not its end, both minutes of the week: minutes run from 0 to 10079, and
 * an end is at most CUTLIST_WEEK. Windows may overlap: a minute counts once, and a cable is out once.
 * One across the week's end is given as two. The room is silent while the cables then out hold a
 * minimal cut, which is while the others have no route; in a plan without a route it always is, and
 * without opening windows no minute counts.
 *
 * Refusals, in this order: those of cutlist_fault; 23 for more than CUTLIST_MOST_OPENINGS opening
 * windows or more than CUTLIST_MOST_WORKS works windows, a piece of a window at the end counted as
 * one; then, opening windows before works windows and window by window, 24 for a start not below its
 * end, an end above CUTLIST_WEEK, or a piece of a window, and 17, after 24 in the same window, for a
 * cable not present, whatever its number.
 *
 *   openings, openings_length  the opening windows, each two numbers: start and end
 *   works, works_length        the works windows, each three numbers: start, end and cable
 *   minutes                    out: how many minutes are open and silent; 0 on refusal
 */
uint8_t cutlist_silent_minutes(
    uint8_t nodes,
    uint8_t source,
    uint8_t sink,
    uint64_t present,
    const uint8_t first[CUTLIST_SLOTS],
    const uint8_t second[CUTLIST_SLOTS],
    const uint16_t metres[CUTLIST_SLOTS],
    const uint16_t *openings, size_t openings_length,
    const uint16_t *works, size_t works_length,
    uint16_t *minutes);

/*
 * Drills a hall with drawn failures. Each draw replaces the number, at first the start number, by the
 * remainder by 2^64 of itself times 6364136223846793005 plus 1442695040888963407, and is the top 8
 * bits of that: 0 to 255. All cables start up. In each step every cable present, in rising order,
 * takes one draw, whether it is up or down: if it is up it fails where the draw is below the failure
 * setting, and if it is down it is repaired where the draw is below the repair setting. So the final
 * number does not depend on the settings. A step counts if it ends with a minimal cut wholly down,
 * which is without a route among the cables that are up.
 *
 * In a plan without a route every step counts. In one with a route none does at failure setting 0; at
 * repair setting 0 those that count are the last ones.
 *
 * Refusals, in this order: those of cutlist_fault; 25 for more than CUTLIST_MOST_STEPS steps.
 *
 *   start    the start number
 *   failure  the failure setting, 0 to 255: of 256 draws so many let a cable that is up fail
 *   repair   the repair setting, 0 to 255: of 256 draws so many let a cable that is down be repaired;
 *            a setting is a byte, and C cuts a larger number to one before the call: 300 to 44
 *   steps    how many steps there are
 *   silent   out: how many steps count; 0 on refusal
 *   number   out: the final number, the start number if nothing was drawn; 0 on refusal. A further drill
 *            can draw from it on, with all cables up again
 */
uint8_t cutlist_simulate(
    uint8_t nodes,
    uint8_t source,
    uint8_t sink,
    uint64_t present,
    const uint8_t first[CUTLIST_SLOTS],
    const uint8_t second[CUTLIST_SLOTS],
    const uint16_t metres[CUTLIST_SLOTS],
    uint64_t start,
    uint8_t failure,
    uint8_t repair,
    uint64_t steps,
    uint64_t *silent,
    uint64_t *number);

/*
 * Counts the rows of a list by width. The width of a row is the number of different pairs of points
 * that its cables join, whichever end comes first: cables between the same two points count once, and
 * so do loops at one point. Any rows are counted, whether they are cuts or not: one that holds a single
 * cable of several between the same points has that pair as well. Refusals of cutlist_fault, without
 * rows too, and 14 if some row holds a cable not present.
 *
 *   cuts, cuts_length  the list; any rows, or none
 *   table              out: how many rows have width 0, 1 .. 64, together as many as there are; 0
 *                      throughout on refusal
 */
uint8_t cutlist_widths(
    uint8_t nodes,
    uint8_t source,
    uint8_t sink,
    uint64_t present,
    const uint8_t first[CUTLIST_SLOTS],
    const uint8_t second[CUTLIST_SLOTS],
    const uint16_t metres[CUTLIST_SLOTS],
    const uint64_t *cuts, size_t cuts_length,
    uint64_t table[CUTLIST_WIDTHS]);

/*
 * A record as one value. Fill one in from zeros throughout, struct cutlist_plan plan = {0}, so that a
 * field that plans gain later holds 0 too.
 */
struct cutlist_plan {
    uint8_t nodes;
    uint8_t source;
    uint8_t sink;
    uint64_t present;
    uint8_t first[CUTLIST_SLOTS];
    uint8_t second[CUTLIST_SLOTS];
    uint16_t metres[CUTLIST_SLOTS];
};

/* The fields of a struct, as the functions above take them. */
#define CUTLIST_FIELDS(plan) \
    (plan)->nodes, \
    (plan)->source, \
    (plan)->sink, \
    (plan)->present, \
    (plan)->first, \
    (plan)->second, \
    (plan)->metres

/* Reads a plan, as cutlist_decode does. On refusal every field is zero. */
static inline uint8_t cutlist_plan_decode(
    const uint8_t *bytes, size_t length,
    struct cutlist_plan *plan)
{
    return cutlist_decode(
        bytes, length,
        &plan->nodes,
        &plan->source,
        &plan->sink,
        &plan->present,
        plan->first,
        plan->second,
        plan->metres);
}

/* Tests a plan, as cutlist_fault does. */
static inline uint8_t cutlist_plan_fault(const struct cutlist_plan *plan)
{
    return cutlist_fault(CUTLIST_FIELDS(plan));
}

/* Writes a plan into a lent buffer, as cutlist_encode does. */
static inline uint8_t cutlist_plan_encode(
    const struct cutlist_plan *plan,
    uint8_t *bytes, size_t length,
    size_t *count)
{
    return cutlist_encode(CUTLIST_FIELDS(plan), bytes, length, count);
}

/* Finds the useful part, as cutlist_relevant does. */
static inline uint8_t cutlist_plan_relevant(
    const struct cutlist_plan *plan,
    uint64_t *node_set,
    uint64_t *edge_set)
{
    return cutlist_relevant(CUTLIST_FIELDS(plan), node_set, edge_set);
}

/* Judges a set of cables, as cutlist_classify does. */
static inline uint8_t cutlist_plan_classify(
    const struct cutlist_plan *plan,
    uint64_t set,
    uint8_t *verdict)
{
    return cutlist_classify(CUTLIST_FIELDS(plan), set, verdict);
}

/* Adds up the metres of a set of cables, as cutlist_metres does. */
static inline uint8_t cutlist_plan_metres(
    const struct cutlist_plan *plan,
    uint64_t set,
    uint32_t *total)
{
    return cutlist_metres(CUTLIST_FIELDS(plan), set, total);
}

/* Lists the minimal cuts, as cutlist_list does. */
static inline uint8_t cutlist_plan_list(
    const struct cutlist_plan *plan,
    uint64_t *cuts, size_t cuts_length,
    uint64_t *sides, size_t sides_length,
    size_t *count)
{
    return cutlist_list(CUTLIST_FIELDS(plan), cuts, cuts_length, sides, sides_length, count);
}

/* Lists the minimal cuts of a plan that was trimmed already, as cutlist_list_trimmed does. */
static inline uint8_t cutlist_plan_list_trimmed(
    const struct cutlist_plan *plan,
    uint64_t *cuts, size_t cuts_length,
    uint64_t *sides, size_t sides_length,
    size_t *count)
{
    return cutlist_list_trimmed(CUTLIST_FIELDS(plan), cuts, cuts_length, sides, sides_length, count);
}

/* Lists the minimal sets that silence at least one of several rooms, as cutlist_list_any does. */
static inline uint8_t cutlist_plan_list_any(
    const struct cutlist_plan *plan,
    const uint8_t *rooms, size_t rooms_length,
    uint64_t *cuts, size_t cuts_length,
    uint64_t *work, size_t work_length,
    size_t *count)
{
    return cutlist_list_any(
        CUTLIST_FIELDS(plan), rooms, rooms_length, cuts, cuts_length, work, work_length, count);
}

/* Lists the minimal sets that silence every one of several rooms, as cutlist_list_all does. */
static inline uint8_t cutlist_plan_list_all(
    const struct cutlist_plan *plan,
    const uint8_t *rooms, size_t rooms_length,
    uint64_t *cuts, size_t cuts_length,
    uint64_t *work, size_t work_length,
    size_t *count)
{
    return cutlist_list_all(
        CUTLIST_FIELDS(plan), rooms, rooms_length, cuts, cuts_length, work, work_length, count);
}

/* Plays back a link log, as cutlist_replay does. */
static inline uint8_t cutlist_plan_replay(
    const struct cutlist_plan *plan,
    const uint8_t *log, size_t log_length,
    uint8_t *silent, size_t silent_length,
    size_t *count)
{
    return cutlist_replay(CUTLIST_FIELDS(plan), log, log_length, silent, silent_length, count);
}

/* Counts the silent minutes of a week, as cutlist_silent_minutes does. */
static inline uint8_t cutlist_plan_silent_minutes(
    const struct cutlist_plan *plan,
    const uint16_t *openings, size_t openings_length,
    const uint16_t *works, size_t works_length,
    uint16_t *minutes)
{
    return cutlist_silent_minutes(
        CUTLIST_FIELDS(plan), openings, openings_length, works, works_length, minutes);
}

/* Drills a hall with drawn failures, as cutlist_simulate does. */
static inline uint8_t cutlist_plan_simulate(
    const struct cutlist_plan *plan,
    uint64_t start,
    uint8_t failure,
    uint8_t repair,
    uint64_t steps,
    uint64_t *silent,
    uint64_t *number)
{
    return cutlist_simulate(CUTLIST_FIELDS(plan), start, failure, repair, steps, silent, number);
}

/* Counts the rows of a list by width, as cutlist_widths does. */
static inline uint8_t cutlist_plan_widths(
    const struct cutlist_plan *plan,
    const uint64_t *cuts, size_t cuts_length,
    uint64_t table[CUTLIST_WIDTHS])
{
    return cutlist_widths(CUTLIST_FIELDS(plan), cuts, cuts_length, table);
}

#undef CUTLIST_FIELDS

#ifdef __cplusplus
}
#endif

#endif
