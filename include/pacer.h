/* Load profiles for the pacer: the C interface.
 *
 * A log is 0 to 128 records of 9 bytes. A query writes few rows into a slot of 768 bytes, which the
 * other calls read. By a bound it finds the log's constant segments and merges them; by windows,
 * beats or scenes, it gives each group a row for each window that one of its records meets. Records
 * with the same nine bytes are twins; a log that has some is refused, and pacer_without_twins keeps
 * the first of them. pacer_lookup gives a group's value at a frame, and pacer_lookups those of many
 * pairs of group and frame as a set. pacer_check holds a slot by a bound, whoever made it, to its log.
 *
 * A query by a bound, pacer_segments and pacer_check take a width of 1 to 4,096 frames: load with a
 * memory, as heat follows the last seconds of play. A frame's value is then the aggregate over the
 * records of its group that contain at least one of the last `width` frames, the frame itself
 * included, each record counted once; and a frame is covered if there is such a record. So a record
 * counts in its own frames and in the width - 1 frames behind them. Frames past 65,535 do not exist,
 * nor do any before 0. With the width 1 (PACER_ONE_FRAME) a value is over the records that contain
 * the frame itself. A query by windows takes no width.
 *
 * A slot does not say which width it was made with: whoever keeps slots of several widths has to keep
 * the width beside each, and pacer_check has to be told the one that the query had. Promises that
 * speak of a query and a check, or of two logs, are for the same width in both.
 *
 * Records may stand in any order, as where two consoles feed one log. Logs that pass questions 4 to
 * 9 and 21 and hold the same records, in whatever order, have the same segments with every width; and
 * every query in order itself, with a slot long enough, gives the same answer, cuts weighed included,
 * and the same first 768 bytes of the slot, or is refused with the same one of 10 and 20; and a slot
 * that is held to them with one width gets the same answer. A log that does not pass is refused with
 * its first 'no' in the order as lent, and the index (6 to 9 and 21) is that of the log as lent.
 * pacer_without_twins keeps the order that it finds.
 *
 * Every call asks its questions in the order given at the call. The answer's field `question` is
 * 0 if all got 'yes'. Otherwise it is the number of the first question that got 'no', `index` is
 * the index from 0 of the record, row or pair concerned for questions 6 to 9, 14 to 16 and 21 (0 for
 * the others), and nothing that was lent is changed. The questions are:
 *
 *    1  Is the lent buffer or list long enough (slot 768, segments 255, rows 64, record 9, for a log
 *       without its twins as long as the log, and for many lookups as long as the pairs)?
 *    2  Is the kind 0 to 4?
 *    3  Is the row limit at most 64, or the share at most 1,000?
 *    4  Is the log's length a multiple of 9?
 *    5  Has it at most 128 records?
 *    6  Does the record begin with its mark?
 *    7  Is the group 0 to 7?
 *    8  Is first at most last?
 *    9  Is the load at most 1,000?
 *   10  Is the row limit at least the count of runs; with a share, do 64 rows or fewer meet it?
 *   11  Header mark right (50 48 or 50 53; against a log 50 48 alone)?
 *   12  Slot's kind 0 to 4?
 *   13  Row count at most 64?
 *   14  Row mark right?
 *   15  Row's group 0 to 7, first at most last, value at most 128,000?
 *   16  Is its group above the previous row's, or equal with first above the previous last?
 *   17  Are all bytes after the last row, to 768, zero, and with the header 50 53 the error too?
 *   18  Is the length of the beats at least 1?
 *   19  Are there 1 to 16 scenes, as many firsts as lasts, each first at most its last, and each
 *       scene wholly after the one before?
 *   20  Are there at most 64 rows?
 *   21  Does no earlier record have the same nine bytes?
 *   22  Do the rows cover, group by group, just the covered frames?
 *   23  Is no row of kind 3 below the value of a covered frame in it?
 *   24  Is the header's error the squared error of the rows, summed frame by frame?
 *   25  Is the width 1 to 4,096?
 *   26  Are there at most 64 pairs?
 *
 * The questions of one record or row come before the next one's, 21 of a record after its 9.
 *
 * A pointer must point to as many bytes or places as the length beside it says; with the length
 * 0 it is not read, but it must not be null. A buffer that a call may write must not overlap
 * another one of the call. No call keeps a pointer, allocates, or changes anything but what is lent
 * to it, so calls on different buffers may run at the same time.
 */
#ifndef PACER_H
#define PACER_H

#include <stddef.h>
#include <stdint.h>

/* The version of the library that this header describes. */
#define PACER_VERSION "0.17.0"

#ifdef __cplusplus
extern "C" {
#endif

/* Lengths, in bytes or places. */
enum {
    PACER_RECORD_BYTES = 9,
    PACER_SLOT_BYTES = 768,
    PACER_SEGMENT_PLACES = 255,
    PACER_ROW_PLACES = 64,
    PACER_SCENE_PLACES = 16,              /* the most scenes of a query */
    PACER_PAIR_PLACES = 64                /* the most pairs of many lookups */
};

/* Stack that a call needs at most, in bytes: measured on x86-64 by tests-c/stack.c, which fails if a
 * call needs more, and rounded up.
 */
enum {
    PACER_SMALL_QUERY_STACK = 32 * 1024,  /* a query by a bound, of at most 32 segments */
    PACER_QUERY_STACK = 300 * 1024,       /* any by a bound: 48 KB to 64 segments, 96 KB to 128 */
    PACER_WINDOWS_STACK = 10 * 1024,      /* a query by beats or scenes */
    PACER_SEGMENTS_STACK = 10 * 1024,
    PACER_CHECK_STACK = 10 * 1024,        /* a slot against its log */
    PACER_SLOT_STACK = 3 * 1024           /* every other call */
};

/* Widths, in frames: over how many of the last frames, the frame itself included, a value looks back.
 * Any width from PACER_ONE_FRAME to PACER_MOST_WIDTH may be asked for.
 */
enum {
    PACER_ONE_FRAME = 1,                  /* no memory: the records that contain the frame itself */
    PACER_MOST_WIDTH = 4096
};

/* What a frame's value is, over the records that contain at least one of the last `width` frames, and
 * the value of a window's row, over the records that contain at least one of its frames.
 */
enum {
    PACER_SUM = 0,      /* sum of the loads */
    PACER_COUNT = 1,    /* count of records */
    PACER_LEAST = 2,    /* least load */
    PACER_GREATEST = 3, /* greatest load; a row by a bound holds the greatest value in it */
    PACER_MEAN = 4      /* mean load in hundredths: 100 * sum / count, rounded down */
};

/* What the bound of a query is. */
enum {
    PACER_ROWS = 0x52,  /* a row limit, 0 to 64 */
    PACER_SHARE = 0x45  /* an error share, 0 to 1,000 thousandths */
};

/* What the rows of a slot were made by: the second byte of its header. */
enum {
    PACER_BY_BOUND = 0x48,   /* a bound; the header is 50 48 */
    PACER_BY_WINDOWS = 0x53  /* beats or scenes; the header is 50 53, and the error is 0 */
};

struct pacer_record_answer {
    uint8_t question;
    size_t index;
};

struct pacer_log_answer {
    uint8_t question;
    size_t index;
    size_t length;      /* bytes written; 0 in a refusal */
};

struct pacer_segments_answer {
    uint8_t question;
    size_t index;
    size_t count;       /* segments written; 0 in a refusal */
};

struct pacer_query_answer {
    uint8_t question;
    size_t index;
    size_t rows;        /* rows written; 0 in a refusal */
    uint64_t error;     /* squared error of the rows; 0 in a refusal */
    uint64_t weighed;   /* cuts weighed; 0 in a refusal */
};

struct pacer_read_answer {
    uint8_t question;
    size_t index;
    uint8_t kind;       /* 0 in a refusal, as mark, rows and error */
    uint8_t mark;       /* PACER_BY_BOUND or PACER_BY_WINDOWS */
    size_t rows;
    uint64_t error;
};

struct pacer_check_answer {
    uint8_t question;
    size_t index;
};

struct pacer_step_answer {
    uint8_t question;
    size_t index;
    uint8_t found;      /* 1: a row; 0: the end, or a refusal */
    uint8_t group;      /* the row's fields; all 0 if there is no row */
    uint16_t first;
    uint16_t last;
    uint32_t value;
    size_t next;        /* the number after a row; at the end and in a refusal the number asked for */
};

struct pacer_lookup_answer {
    uint8_t question;
    size_t index;
    uint8_t covered;    /* 1: a row of the group contains the frame */
    uint32_t value;     /* that row's value; 0 if there is none */
};

struct pacer_lookups_answer {
    uint8_t question;
    size_t index;
};

/* A longest stretch of covered frames of one group with equal value; both frames included. Covered
 * and value are by the width asked for.
 */
struct pacer_segment {
    uint8_t group;
    uint16_t first;
    uint16_t last;
    uint32_t value;
};

/* A row of a slot: some consecutive frames of a group, both included, and the value that stands
 * for them. A row by windows has its window's own frames, covered or not.
 */
struct pacer_row {
    uint8_t group;
    uint16_t first;
    uint16_t last;
    uint32_t value;
};

/* Writes one log record.
 * A log is records one behind the other, in any order.
 * Asks 1 (9 bytes), 7, 8, 9, in this order; the index is always 0.
 * Accepted: the first 9 bytes of the buffer are the record, the others keep their content.
 * Refused: the buffer is unchanged.
 */
struct pacer_record_answer pacer_write_record(uint8_t group, uint16_t first, uint16_t last,
                                              uint16_t load, uint8_t *buffer, size_t length);

/* Writes a log without its twins: the first of equal records and the others, in their order. It is
 * for logs on file: a logger restarted in a scene writes its last record twice, so that the sum
 * doubles, and the other calls refuse such a log by question 21.
 * Asks 1 (a buffer at least as long as the log), 4, 5, then 6 to 9 for record after record, not 21.
 * Accepted: the first `length` bytes of the buffer are the records kept, the others keep their
 * content. A log that has no twins is copied whole.
 * Refused: the buffer is unchanged; length is 0.
 * `log` and `buffer` must not overlap.
 */
struct pacer_log_answer pacer_without_twins(const uint8_t *log, size_t log_length,
                                            uint8_t *buffer, size_t buffer_length);

/* Reduces a log to the rows that a query asks for and writes them into a slot.
 * `rule` says whether `bound` is a row limit (PACER_ROWS) or a share (PACER_SHARE); any other
 * rule is question 3's 'no'. `width` says over how many of the last frames a frame's value looks
 * back: PACER_ONE_FRAME for the load of the frame itself, at most PACER_MOST_WIDTH.
 * Asks 1 (768 bytes of slot), 2, 3, 25, 4, 5, then 6 to 9 and 21 for record after record, then 10.
 * Accepted: the first 768 bytes of the slot are header, rows and zeros; the others keep their
 * content. The answer gives the count of rows, their error and the number of cuts weighed.
 * A row's value is the whole number nearest to the mean of the values in it, the upper one at a
 * half: the values 0 and 1 of two frames give 1. With PACER_GREATEST it is the greatest of them, so
 * that no frame needs more than its row says. The error is that of these values. The rows cover just
 * the frames that are covered by the width; the slot does not store the width.
 * Refused: the slot is unchanged; rows, error and weighed are 0.
 * Any order: a log that passes 4 to 9 and 21 gives the same answer, cuts weighed and a refusal 10
 * included, and the same 768 bytes with its records in any other order.
 * `log` and `slot` must not overlap.
 */
struct pacer_query_answer pacer_query(uint8_t kind, uint8_t rule, uint16_t bound, uint16_t width,
                                      const uint8_t *log, size_t log_length,
                                      uint8_t *slot, size_t slot_length);

/* Writes a log's rows by beats into a slot: those of the windows every `length` frames from frame
 * `start` on, the last one cut off at frame 65,535. Frames before `start` lie in no window. There is
 * no width: a window has its own frames, and 25 is not asked.
 * Asks 1 (768 bytes of slot), 2, 18, 4, 5, then 6 to 9 and 21 for record after record, then 20.
 * Accepted: the first 768 bytes of the slot are header (50 53), rows and zeros; the others keep
 * their content. The answer gives the count of rows; error and weighed are 0.
 * The rows stand by group and then by window. A row has its window's own first and last frame, and
 * the kind's value over all records of its group that contain at least one frame of the window,
 * each counted once. A window that no record of a group meets gives that group no row.
 * Refused: the slot is unchanged; rows is 0 too.
 * Any order: a log that passes 4 to 9 and 21 gives the same answer, a refusal 20 included, and the
 * same 768 bytes with its records in any other order.
 * `log` and `slot` must not overlap.
 */
struct pacer_query_answer pacer_query_beats(uint8_t kind, uint16_t length, uint16_t start,
                                            const uint8_t *log, size_t log_length,
                                            uint8_t *slot, size_t slot_length);

/* Writes a log's rows by scenes into a slot: those of the windows from frame `firsts[i]` to frame
 * `lasts[i]`, both included. Scenes may touch, as 0 to 3 and 4 to 9 do.
 * Asks 1 (768 bytes of slot), 2, 19, 4, 5, then 6 to 9 and 21 for record after record, then 20. Lists
 * of unequal length are 19's 'no'.
 * All else is as with pacer_query_beats: records may stand in any order here too; scenes may not.
 * `slot` must not overlap `firsts`, `lasts` or `log`.
 */
struct pacer_query_answer pacer_query_scenes(uint8_t kind,
                                             const uint16_t *firsts, size_t first_count,
                                             const uint16_t *lasts, size_t last_count,
                                             const uint8_t *log, size_t log_length,
                                             uint8_t *slot, size_t slot_length);

/* Lists a log's segments, by group and then by first frame. `width` says over how many of the last
 * frames a frame's value looks back, as with pacer_query.
 * Asks 1 (255 places), 2, 25, 4, 5, then 6 to 9 and 21 for record after record.
 * Accepted: the first `count` places hold the segments, the others keep their content.
 * Refused: the list is unchanged; count is 0.
 * There are at most 255 segments with every width.
 * Any order: a log that passes 4 to 9 and 21 has the same segments with its records in any other
 * order.
 * `log` and `list` must not overlap.
 */
struct pacer_segments_answer pacer_segments(const uint8_t *log, size_t log_length, uint8_t kind,
                                            uint16_t width,
                                            struct pacer_segment *list, size_t places);

/* Reads a slot's kind, error and count of rows, and which header it has. Under the header 50 48
 * every error number is accepted.
 * Asks 1 (768 bytes), 11, 12, 13, then 14 to 16 for row after row, then 17.
 * Writes nothing. Refused: kind, mark, rows and error are 0.
 */
struct pacer_read_answer pacer_read(const uint8_t *slot, size_t length);

/* Reads what pacer_read reads, and all of the slot's rows into a list.
 * Asks 1 (768 bytes and 64 places), 11, 12, 13, then 14 to 16 for row after row, then 17.
 * Accepted: the first `rows` places hold the rows, by group and then by first frame; the others
 * keep their content.
 * Refused: the list is unchanged; kind, mark, rows and error are 0.
 * `slot` and `list` must not overlap.
 */
struct pacer_read_answer pacer_read_rows(const uint8_t *slot, size_t length,
                                         struct pacer_row *list, size_t places);

/* Gives the row with a number, from 0. To walk over a slot, begin at 0 and go on with `next`
 * while `found` is 1.
 * Asks what pacer_read asks, at every step. A number not below the count of rows gives the end:
 * found is 0, and `next` is the number asked for.
 * Writes nothing. Refused: found and the row's fields are 0, and `next` is the number asked for.
 */
struct pacer_step_answer pacer_row_at(const uint8_t *slot, size_t length, size_t number);

/* Gives the value of the row of a group that contains a frame.
 * Asks what pacer_read asks, and then 7 of the group asked for, with index 0.
 * Writes nothing. If no row of that group contains the frame, and if refused, covered and value
 * are 0.
 */
struct pacer_lookup_answer pacer_lookup(const uint8_t *slot, size_t length, uint8_t group,
                                        uint16_t frame);

/* Looks up many pairs of group and frame as a set: all of them are answered, each as pacer_lookup
 * would, or none is. It is for a pacer that looks up eight groups for one frame and mixes them, which
 * a refusal in between would leave half set. Pair i is `groups[i]` with `frames[i]`, and there are as
 * many pairs as groups. Pairs may stand in any order, and the same one more than once.
 * Asks 1 (768 bytes of slot, and lists of frames, values and flags that are each at least as long as
 * the pairs are many), 11, 12, 13, then 14 to 16 for row after row, 17, 26, then 7 for pair after pair,
 * with the pair's index. 1 and the slot's questions are asked with no pairs too.
 * Accepted: for each pair i, `covered[i]` is 1 and `values[i]` the value of the row of that group that
 * contains the frame, or both are 0 if there is none. Later places of both lists keep their content,
 * and later frames are not read.
 * Refused: both lists are unchanged.
 * `values` and `covered` must not overlap each other, nor `slot`, `groups` or `frames`. These three are
 * only read, and may overlap.
 */
struct pacer_lookups_answer pacer_lookups(const uint8_t *slot, size_t length,
                                          const uint8_t *groups, size_t pairs,
                                          const uint16_t *frames, size_t frame_count,
                                          uint32_t *values, size_t value_places,
                                          uint8_t *covered, size_t covered_places);

/* Holds a slot by a bound to its log: whether its rows are rows of this log, and its error theirs. It
 * is for slots that come with their logs, made by whichever tool. `width` is the one that the slot was
 * made with; the slot does not say it.
 * Asks 1 (768 bytes of slot), 25, 4, 5, then 6 to 9 and 21 for record after record, 11 (the header
 * 50 48 alone), 12, 13, then 14 to 16 for row after row, 17, 22, 23, 24. A frame's value is that of
 * the slot's kind and of the width. 22: a frame of a group lies in a row exactly if a record of that
 * group contains at least one of the last `width` frames; that is the same for every kind. 23 is
 * asked of slots of kind 3 alone. 24: the error is the sum over all covered frames of the square of
 * the frame's value less its row's.
 * Writes nothing. The index is that of the record or row concerned for 6 to 9, 14 to 16 and 21.
 * Accepted: the rows are a list that fits the log for the kind and the width, and the error is its
 * squared error. They need not be the best: rows cut finer than needed are accepted, and rows of any
 * value, of kind 3 of any that is nowhere below a covered value.
 * Every slot that pacer_query writes for a log is accepted with that log and the same width. No slot
 * that is accepted is better than the query's own answer of the same width: pacer_query of the slot's
 * kind and that width, with PACER_ROWS and the slot's count of rows, is accepted, with at most as many
 * rows and at most the slot's error. With another width nothing is promised: the slot may be refused,
 * by 22, 23 or 24, or be accepted where the two widths say the same of the log.
 * Any order: with a log that passes 4 to 9 and 21 the answer is the same with its records in any
 * other order.
 * `log` and `slot` are only read, and may overlap.
 */
struct pacer_check_answer pacer_check(const uint8_t *log, size_t log_length, uint16_t width,
                                      const uint8_t *slot, size_t slot_length);

#ifdef __cplusplus
}
#endif

#endif
