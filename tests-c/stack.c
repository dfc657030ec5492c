/* How much stack each call of the C interface needs.
 *
 * Each call runs on a stack of its own that was filled with one byte. What lies between the frame
 * that makes the call and the deepest byte that changed is what the call needs. Prints a table,
 * the most over several inputs for each row, and ends with status 1 if a call is refused or
 * answered unexpectedly or needs more than the header says.
 *
 * From the repository's root, with the archive in target/staticlib:
 *
 *   gcc -std=c11 -Wall -Wextra -Werror -Iinclude tests-c/stack.c \
 *       target/staticlib/libcapi.a -o target/stack && target/stack
 */
#define _XOPEN_SOURCE 700
#include <stdint.h>
#include <stdio.h>
#include <string.h>
#include <ucontext.h>

#include "pacer.h"

enum { STACK = 1 << 20, FILL = 0xA5 };

/* What the header says beside PACER_QUERY_STACK, of logs of at most 64 and at most 128 segments. */
enum { QUERY_STACK_TO_64 = 48 * 1024, QUERY_STACK_TO_128 = 96 * 1024 };

static _Alignas(4096) uint8_t stack[STACK];
static ucontext_t here, there;

/* The call to be measured, and the frame that made it. */
static void (*measured)(void);
static uint8_t *caller;

static void enter(void)
{
    measured();
}

/* The stack that a call needs, in bytes. */
static size_t need(void (*call)(void))
{
    memset(stack, FILL, STACK);
    measured = call;
    getcontext(&there);
    there.uc_stack.ss_sp = stack;
    there.uc_stack.ss_size = STACK;
    there.uc_link = &here;
    makecontext(&there, enter, 0);
    swapcontext(&here, &there);
    size_t deepest = 0;
    while (stack[deepest] == FILL)
        deepest++;
    return (size_t)(caller - (stack + deepest));
}

/* ---- The calls and their inputs ---------------------------------------------------------- */

static uint8_t log_bytes[128 * PACER_RECORD_BYTES];
static size_t log_length;
static uint8_t kind, rule;
static uint16_t bound;
static uint16_t width = PACER_ONE_FRAME;
static uint16_t beat, start;
static uint16_t firsts[PACER_SCENE_PLACES], lasts[PACER_SCENE_PLACES];
static size_t scenes;
static uint8_t slot[PACER_SLOT_BYTES];
static size_t number;
static struct pacer_segment segment_list[PACER_SEGMENT_PLACES];
static struct pacer_row row_list[PACER_ROW_PLACES];
static uint8_t groups[PACER_PAIR_PLACES + 1];
static uint16_t frames[PACER_PAIR_PLACES + 1];
static size_t pairs;
static uint32_t values[PACER_PAIR_PLACES + 1];
static uint8_t covered[PACER_PAIR_PLACES + 1];
static size_t places;
static uint8_t record[PACER_RECORD_BYTES];
static uint8_t kept[sizeof log_bytes];

/* The question of the last answer, 0 if it was accepted. */
static uint8_t question;

#define CALL(name, call)                      \
    static void name(void)                    \
    {                                         \
        caller = __builtin_frame_address(0);  \
        question = (call).question;           \
    }
CALL(write_record, pacer_write_record(7, 0, 65535, 1000, record, sizeof record))
CALL(without_twins, pacer_without_twins(log_bytes, log_length, kept, sizeof kept))
CALL(query, pacer_query(kind, rule, bound, width, log_bytes, log_length, slot, sizeof slot))
CALL(query_beats, pacer_query_beats(kind, beat, start, log_bytes, log_length, slot, sizeof slot))
CALL(query_scenes, pacer_query_scenes(kind, firsts, scenes, lasts, scenes, log_bytes, log_length,
                                      slot, sizeof slot))
CALL(segments,
     pacer_segments(log_bytes, log_length, kind, width, segment_list, PACER_SEGMENT_PLACES))
CALL(read, pacer_read(slot, sizeof slot))
CALL(read_rows, pacer_read_rows(slot, sizeof slot, row_list, PACER_ROW_PLACES))
CALL(row_at, pacer_row_at(slot, sizeof slot, number))
CALL(lookup, pacer_lookup(slot, sizeof slot, 0, (uint16_t)number))
CALL(lookups, pacer_lookups(slot, sizeof slot, groups, pairs, frames, pairs, values, places, covered,
                            places))
CALL(check, pacer_check(log_bytes, log_length, width, slot, sizeof slot))

/* A number that looks random. */
static unsigned noise(unsigned i)
{
    return (i * 2654435761u) >> 16;
}

/* Makes a log with n segments in one run. With a memory of so many frames, at most 255, all frames are as
 * many times as far apart: there are as many segments again, each so many times as long.
 */
static void make_log(unsigned n)
{
    unsigned count = n <= 128 ? n : (n + 1) / 2;
    for (unsigned i = 0; i < count; i++) {
        /* Neighbours differ in their last digit; from 129 segments on each record shares its last
         * frame with the next one's first, and two loads are more than one. */
        unsigned first = n <= 128 ? i : 2 * i;
        unsigned last = n <= 128 ? i : 2 * i + 2;
        unsigned load = 1 + noise(i) % 400 * 2 + i % 2;
        pacer_write_record(0, (uint16_t)(first * width), (uint16_t)(last * width), (uint16_t)load,
                           log_bytes + PACER_RECORD_BYTES * i, PACER_RECORD_BYTES);
    }
    log_length = PACER_RECORD_BYTES * count;
}

/* Makes a log with at most n segments in one run by a memory of the most frames: records of one frame
 * each, one after the other, that are all remembered in the last one's frame. Sums rise and then fall.
 */
static void make_remembered_log(unsigned n)
{
    unsigned count = (n + 1) / 2;
    for (unsigned i = 0; i < count; i++)
        pacer_write_record(0, (uint16_t)i, (uint16_t)i, (uint16_t)(1 + noise(i) % 1000),
                           log_bytes + PACER_RECORD_BYTES * i, PACER_RECORD_BYTES);
    log_length = PACER_RECORD_BYTES * count;
}

/* The widths that a log of n segments is made with: none, a second's, and the most. */
static const uint16_t widths[] = {PACER_ONE_FRAME, 60, PACER_MOST_WIDTH};
enum { WIDTHS = sizeof widths / sizeof widths[0] };
static void make_log_with(uint16_t memory, unsigned n)
{
    width = memory;
    if (memory == PACER_MOST_WIDTH)
        make_remembered_log(n);
    else
        make_log(n);
}

/* Makes a log of 128 records of one group that cover all frames together. */
static void make_wide_log(void)
{
    for (unsigned i = 0; i < 128; i++) {
        pacer_write_record(0, (uint16_t)(256 * i), (uint16_t)(32768 + 256 * i + 255),
                           (uint16_t)(noise(i) % 1001), log_bytes + PACER_RECORD_BYTES * i,
                           PACER_RECORD_BYTES);
    }
    log_length = sizeof log_bytes;
}

/* Writes the first record over the last one, so that it has a twin. */
static void make_twin(void)
{
    memcpy(log_bytes + log_length - PACER_RECORD_BYTES, log_bytes, PACER_RECORD_BYTES);
}

/* ---- The table --------------------------------------------------------------------------- */

static int failures = 0;

/* Keeps the larger of the stack so far and that of a call, which must be answered by a question. */
static void most(size_t *so_far, void (*call)(void), uint8_t expected)
{
    call();
    size_t needed = need(call);
    if (question != expected) {
        printf("question %d got 'no', expected %d\n", question, expected);
        failures++;
    }
    if (needed > *so_far)
        *so_far = needed;
}

/* Prints a row; the header says how much the call needs at most. */
static void row(const char *what, size_t needed, size_t said)
{
    printf("%-34s %8zu %8zu\n", what, needed, said);
    if (needed > said) {
        printf("%s needs more than the header says\n", what);
        failures++;
    }
}

/* All kinds, bounds and widths on a log of n segments, and refusals by questions 6, 10, 21 and 25. */
static size_t query_need(unsigned n)
{
    static const struct {
        uint8_t rule;
        uint16_t bound;
        uint8_t question;
    } bounds[] = {
        {PACER_ROWS, 0, 10},   {PACER_ROWS, 1, 0},      {PACER_ROWS, 2, 0},
        {PACER_ROWS, 64, 0},   {PACER_SHARE, 1000, 0}, {PACER_SHARE, 900, 0},
    };
    size_t needed = 0;
    for (size_t memory = 0; memory < WIDTHS; memory++) {
        make_log_with(widths[memory], n);
        for (kind = PACER_SUM; kind <= PACER_MEAN; kind++) {
            for (size_t i = 0; i < sizeof bounds / sizeof bounds[0]; i++) {
                rule = bounds[i].rule;
                bound = bounds[i].bound;
                most(&needed, query, bounds[i].question);
            }
        }
    }
    make_log_with(PACER_ONE_FRAME, n);
    log_bytes[0]++;
    kind = PACER_SUM;
    most(&needed, query, 6);
    log_bytes[0]--;
    make_twin();
    most(&needed, query, 21);
    width = 0;
    most(&needed, query, 25);
    make_log_with(PACER_ONE_FRAME, n);
    return needed;
}

/* All kinds of queries by beats on a log over all frames, from no row to 64, and refusals by
 * questions 6, 18, 20 and 21.
 */
static size_t beats_need(void)
{
    static const struct {
        uint16_t beat, start;
        uint8_t question;
    } cases[] = {
        {1, 65535, 0}, {1, 65472, 0}, {1024, 0, 0},  {65535, 0, 0},
        {0, 0, 18},    {1, 0, 20},    {1, 65471, 20},
    };
    size_t needed = 0;
    for (kind = PACER_SUM; kind <= PACER_MEAN; kind++) {
        for (size_t i = 0; i < sizeof cases / sizeof cases[0]; i++) {
            beat = cases[i].beat;
            start = cases[i].start;
            most(&needed, query_beats, cases[i].question);
        }
    }
    log_bytes[0]++;
    kind = PACER_SUM;
    beat = 1024;
    most(&needed, query_beats, 6);
    log_bytes[0]--;
    make_twin();
    most(&needed, query_beats, 21);
    log_length = 0;
    most(&needed, query_beats, 0);
    return needed;
}

/* All kinds of queries by 0 to 16 scenes, and refusals by questions 6, 19, 20 and 21. */
static size_t scenes_need(void)
{
    size_t needed = 0;
    for (size_t i = 0; i < PACER_SCENE_PLACES; i++) {
        firsts[i] = (uint16_t)(4096 * i);
        lasts[i] = (uint16_t)(firsts[i] + 4095);
    }
    for (kind = PACER_SUM; kind <= PACER_MEAN; kind++) {
        for (scenes = 0; scenes <= PACER_SCENE_PLACES; scenes++)
            most(&needed, query_scenes, scenes == 0 ? 19 : 0);
    }
    kind = PACER_SUM;
    scenes = PACER_SCENE_PLACES;
    log_bytes[0]++;
    most(&needed, query_scenes, 6);
    log_bytes[0]--;
    lasts[0] = 4096;
    most(&needed, query_scenes, 19);
    lasts[0] = 4095;
    /* Each record in another group: 16 scenes by eight groups are 128 rows. */
    for (size_t i = 0; i < log_length / PACER_RECORD_BYTES; i++)
        log_bytes[PACER_RECORD_BYTES * i + 2] = i % 8;
    most(&needed, query_scenes, 20);
    make_twin();
    most(&needed, query_scenes, 21);
    return needed;
}

/* The segments of 255 in all kinds and widths, and refusals by questions 6, 21 and 25. */
static size_t segments_need(void)
{
    size_t needed = 0;
    for (size_t memory = 0; memory < WIDTHS; memory++) {
        make_log_with(widths[memory], 255);
        for (kind = PACER_SUM; kind <= PACER_MEAN; kind++)
            most(&needed, segments, 0);
    }
    make_log_with(PACER_ONE_FRAME, 255);
    kind = PACER_SUM;
    log_bytes[0]++;
    most(&needed, segments, 6);
    log_bytes[0]--;
    make_twin();
    most(&needed, segments, 21);
    width = PACER_MOST_WIDTH + 1;
    most(&needed, segments, 25);
    width = PACER_ONE_FRAME;
    return needed;
}

/* Logs of 0, 1 and 128 records without twins, with one and with equal records alone, and a refusal by
 * question 6.
 */
static size_t without_twins_need(void)
{
    size_t needed = 0;
    make_wide_log();
    most(&needed, without_twins, 0);
    log_bytes[0]++;
    most(&needed, without_twins, 6);
    log_bytes[0]--;
    make_twin();
    most(&needed, without_twins, 0);
    for (size_t i = 1; i < 128; i++)
        memcpy(log_bytes + PACER_RECORD_BYTES * i, log_bytes, PACER_RECORD_BYTES);
    most(&needed, without_twins, 0);
    log_length = PACER_RECORD_BYTES;
    most(&needed, without_twins, 0);
    log_length = 0;
    most(&needed, without_twins, 0);
    return needed;
}

/* Makes a slot of 64 rows, by a bound or by windows. */
static void make_slot(int by_windows)
{
    kind = PACER_SUM;
    rule = PACER_ROWS;
    bound = 64;
    beat = 1;
    start = 0;
    make_log(by_windows ? 64 : 255);
    if (by_windows)
        query_beats();
    else
        query();
}

/* Slots of one row and of 64 held to logs of 1, 6 and 255 segments in all kinds and widths, and to the
 * empty one; and refusals by questions 6, 11, 17, 21 and 22 to 25.
 */
static size_t check_need(void)
{
    static const unsigned sizes[] = {1, 6, 255};
    size_t needed = 0;
    rule = PACER_ROWS;
    for (size_t i = 0; i < WIDTHS * sizeof sizes / sizeof sizes[0]; i++) {
        make_log_with(widths[i % WIDTHS], sizes[i / WIDTHS]);
        for (kind = PACER_SUM; kind <= PACER_MEAN; kind++) {
            for (bound = 1; bound <= 64; bound += 63) {
                query();
                most(&needed, check, 0);
                slot[4]++;
                most(&needed, check, 24);
            }
        }
    }
    make_log_with(PACER_ONE_FRAME, 255);
    kind = PACER_GREATEST;
    bound = 1;
    query();
    /* The value and the last frame of the first row. */
    slot[19]--;
    most(&needed, check, 23);
    slot[17]--;
    most(&needed, check, 22);
    slot[PACER_SLOT_BYTES - 1]++;
    most(&needed, check, 17);
    slot[1] = PACER_BY_WINDOWS;
    most(&needed, check, 11);
    log_bytes[0]++;
    most(&needed, check, 6);
    log_bytes[0]--;
    make_twin();
    most(&needed, check, 21);
    width = 0;
    most(&needed, check, 25);
    width = PACER_ONE_FRAME;
    log_length = 0;
    query();
    most(&needed, check, 0);
    return needed;
}

/* Slots of no row and of 64, under each header, with 0 to 65 pairs in the first row, in the last and in
 * none; and refusals by questions 1, 7, 17 and 26.
 */
static size_t lookups_need(void)
{
    static const size_t counts[] = {0, 1, 2, 7, 8, 9, 63, 64, 65};
    size_t needed = 0;
    for (int by_windows = 0; by_windows <= 1; by_windows++) {
        for (int full = 0; full <= 1; full++) {
            make_slot(by_windows);
            if (!full)
                memset(slot + 3, 0, sizeof slot - 3);
            for (size_t i = 0; i < sizeof counts / sizeof counts[0]; i++) {
                pairs = places = counts[i];
                for (size_t j = 0; j < pairs; j++)
                    frames[j] = (uint16_t[]){0, 63, 254, 65535}[j % 4];
                most(&needed, lookups, pairs > PACER_PAIR_PLACES ? 26 : 0);
                if (pairs == 0)
                    continue;
                groups[pairs - 1] = 8;
                most(&needed, lookups, pairs > PACER_PAIR_PLACES ? 26 : 7);
                groups[pairs - 1] = 0;
                places--;
                most(&needed, lookups, 1);
            }
            pairs = places = PACER_PAIR_PLACES;
            slot[PACER_SLOT_BYTES - 1] = 1;
            most(&needed, lookups, 17);
        }
    }
    return needed;
}

int main(void)
{
    size_t needed;
    static const unsigned sizes[] = {6, 8, 32, 33, 64, 65, 128, 129, 255};
    printf("%-34s %8s %8s\n", "bytes of stack", "needed", "header");
    for (size_t i = 0; i < sizeof sizes / sizeof sizes[0]; i++) {
        char what[40];
        snprintf(what, sizeof what, "pacer_query, %u segments", sizes[i]);
        row(what, query_need(sizes[i]),
            sizes[i] <= 32    ? PACER_SMALL_QUERY_STACK
            : sizes[i] <= 64  ? QUERY_STACK_TO_64
            : sizes[i] <= 128 ? QUERY_STACK_TO_128
                              : PACER_QUERY_STACK);
    }

    make_wide_log();
    row("pacer_query_beats", beats_need(), PACER_WINDOWS_STACK);
    make_wide_log();
    row("pacer_query_scenes", scenes_need(), PACER_WINDOWS_STACK);

    row("pacer_segments", segments_need(), PACER_SEGMENTS_STACK);
    row("pacer_without_twins", without_twins_need(), PACER_SLOT_STACK);
    row("pacer_check", check_need(), PACER_CHECK_STACK);

    needed = 0;
    most(&needed, write_record, 0);
    row("pacer_write_record", needed, PACER_SLOT_STACK);

    /* A slot of 64 rows under each header, at its first and last row and past them, and the same
     * slot with a byte after its last row. */
    static const uint16_t numbers[] = {0, 63, 64, 510, 65535};
    static void (*const calls[])(void) = {read, read_rows, row_at, lookup};
    static const char *const names[] = {"pacer_read", "pacer_read_rows", "pacer_row_at",
                                        "pacer_lookup"};
    for (size_t i = 0; i < sizeof calls / sizeof calls[0]; i++) {
        needed = 0;
        for (int by_windows = 0; by_windows <= 1; by_windows++) {
            make_slot(by_windows);
            for (size_t j = 0; j < sizeof numbers / sizeof numbers[0]; j++) {
                number = numbers[j];
                most(&needed, calls[i], 0);
            }
            slot[PACER_SLOT_BYTES - 1] = 1;
            most(&needed, calls[i], 17);
        }
        row(names[i], needed, PACER_SLOT_STACK);
    }
    row("pacer_lookups", lookups_need(), PACER_SLOT_STACK);
    if (failures == 0)
        printf("stack: ok\n");
    return failures != 0;
}
