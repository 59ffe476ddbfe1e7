/*
 * Gimmerskip for C and C++: plans as text or as packed numbers, their tables of claims, their orders, orders from
 * elsewhere, and moved claims, with rows kept for a quick verdict after each move.
 *
 * The archives are for x86-64 Linux, with the calls of the System V ABI. Link libscreen.a for gimmerskip_order,
 * libreader.a for gimmerskip_line and libport.a for the other nine; each stands by itself. The command
 * `./make-archives` leaves them in target/staticlib, and `install-archives PREFIX` puts them with this header and a
 * file for pkg-config under a prefix. Of other libraries they need `memcpy` and `memset` alone, and the only names they
 * define for others are those declared here. No entry keeps anything of what it is lent, and none has a memory of its
 * own, so that calls on several threads meet only in what they are lent.
 *
 * A lent list is a pointer and then its length, counted in entries of the list's type.
 *   - A pointer is never null, not even where the length is 0: then it points at anything that is there.
 *   - A pointer is aligned as its type asks, and the length is true: so many entries are there, and may be written to
 *     if the list is filled.
 *   - The lists of one call do not overlap. The entries are proved for lists that do not; for others nothing holds, not
 *     even that an entry stays inside what it is lent: where the sets of gimmerskip_table begin one entry before the
 *     plan, it meets a set in place of a line that it tested, and writes to a place far off.
 *   - A list that is filled may be longer than needed; what lies past the last entry written stays as it was.
 *
 * Lines and jobs count from 1, devices from 0. A packed line is job * 1024 + kind * 256 + operand, its kind being 0 for
 * do, 1 for take, 2 for give and 3 for start. A set of devices is 32 bits, device d being bit d.
 */
#ifndef GIMMERSKIP_H
#define GIMMERSKIP_H

#include <stddef.h>
#include <stdint.h>

#ifdef __cplusplus
extern "C" {
#endif

/*
 * The version, in three numbers and as a text; it is that of the wrapper for Rust and of the command too. A new entry
 * or refusal raises the second number, and so does what an entry answers otherwise than before: gimmerskip_judge came
 * with 0.2.0, since 0.3.0 a job may take again what it holds, and gimmerskip_build, gimmerskip_move_kept and
 * gimmerskip_quick came with 0.4.0.
 */
#define GIMMERSKIP_VERSION_MAJOR 0
#define GIMMERSKIP_VERSION_MINOR 4
#define GIMMERSKIP_VERSION_PATCH 0
#define GIMMERSKIP_VERSION "0.4.0"

/* The most lines of a plan. Lists of so many entries are long enough for every plan. */
#define GIMMERSKIP_MAX_LINES 1024
/* The most bytes of a text. A buffer of so many bytes is long enough for every plan that is written. */
#define GIMMERSKIP_MAX_BYTES 12288
/* The least room that gimmerskip_order asks for: the longest print there is. */
#define GIMMERSKIP_SCREEN_ROOM 4027
/* The rows that are kept beside a table: one set for each device. */
#define GIMMERSKIP_ROWS 32

/*
 * The bytes of stack that are enough for each entry, its return address counted. What the compiled code can need at
 * most is read off it, every way through it being followed: no function calls itself, and none moves the stack pointer
 * by anything but fixed numbers. `memcpy` and `memset` are taken to need at most 128 bytes, return address counted.
 * What the entries do need is measured as well, on a painted stack with the functions of libc. Each bound is a little
 * over both, and `include/check-stack` tests it against both. Not in it is what a signal handler needs, nor what the
 * dynamic linker needs where it looks up `memcpy` or `memset` at the first call, of which over 3,000 bytes were seen.
 * In a program linked with -Wl,-z,now it looks them up before `main`, and in a static one there is nothing to look up.
 */
#define GIMMERSKIP_STACK_ORDER 19024
#define GIMMERSKIP_STACK_LINE 704
#define GIMMERSKIP_STACK_READ 11440
#define GIMMERSKIP_STACK_WRITE 19616
#define GIMMERSKIP_STACK_TABLE 8352
#define GIMMERSKIP_STACK_VERDICT 9840
#define GIMMERSKIP_STACK_JUDGE 9184
#define GIMMERSKIP_STACK_MOVE 9312
#define GIMMERSKIP_STACK_BUILD 9536
#define GIMMERSKIP_STACK_MOVE_KEPT 11184
#define GIMMERSKIP_STACK_QUICK 7600

/* Why an entry refuses. Each comment says what the place of that refusal is. 8 is free: it was given where a job takes
   a device that it holds, which is allowed now. */
enum gimmerskip_refusal {
    GIMMERSKIP_TEXT_TOO_LONG = 1,        /* the text is longer than GIMMERSKIP_MAX_BYTES; the place is 0 */
    GIMMERSKIP_MALFORMED = 2,            /* a line is malformed, unended, or the packed number of none; that line */
    GIMMERSKIP_TOO_MANY_LINES = 3,       /* there is more after line 1024; the place is 1025 */
    GIMMERSKIP_JOB_OUT_OF_SEQUENCE = 4,  /* a line's job does not follow on from the line before; that line */
    GIMMERSKIP_BAD_START = 5,            /* the started job is not higher, is started already, or is empty; that line */
    GIMMERSKIP_NEVER_STARTED = 6,        /* nothing starts a job; the first line of that job */
    GIMMERSKIP_GIVE_WITHOUT_TAKE = 7,    /* the given device is not the latest its job still holds; that line */
    GIMMERSKIP_TWO_LASTING = 9,          /* more than one lasting take of a device; the lowest such device */
    GIMMERSKIP_LEADS_BACK = 10,          /* a device leads to itself again; the lowest such device */
    GIMMERSKIP_LIST_TOO_SHORT = 11,      /* a lent list is too short; the length it needs */
    GIMMERSKIP_NOT_A_TAKE = 12,          /* the line to move is no take of the plan; the line that was asked */
    GIMMERSKIP_NO_SUCH_DEVICE = 13,      /* a claim cannot move to a device over 31; the device that was asked */
    GIMMERSKIP_STALE_TABLE = 14,         /* a set that the move may change does not fit; the first such line */
    GIMMERSKIP_ILLEGAL_STEP = 15         /* an order goes wrong or stops too soon; where, counted from 1 */
};

/*
 * The 64-bit answers. Below 2^32 an answer is a success, and is the count that the entry promises. From there on it is
 * a refusal: its number in the upper half, its place in the lower. A refused call has changed nothing that it was lent.
 */

/* Not 0 exactly if the answer is a refusal. */
static inline int gimmerskip_is_refusal(uint64_t answer) {
    return (answer >> 32) != 0;
}

/* The refusal's number, one of enum gimmerskip_refusal; 0 for a success. */
static inline uint32_t gimmerskip_number(uint64_t answer) {
    return (uint32_t)(answer >> 32);
}

/* The refusal's place; for a success, the count. */
static inline uint32_t gimmerskip_place(uint64_t answer) {
    return (uint32_t)(answer & 0xffffffffu);
}

/*
 * For the screens: orders a text and prints the outcome.
 * Reads   the n bytes at text.
 * Writes  into out what the program `order` prints for that text: the order, or one line that begins with `refused`.
 *         No byte of 0 is put behind it.
 * Answers the number of bytes written. It is 0 only if room is below GIMMERSKIP_SCREEN_ROOM, whatever the text; nothing
 *         is written then.
 */
size_t gimmerskip_order(const uint8_t *text, size_t n, uint8_t *out, size_t room);

/*
 * One line of a text. The lines of a text are handed out one after another: the first stands at offset 0, and each of
 * the others just past the newline that ends the one before it.
 * Reads   the n bytes at text.
 * Answers the packed number of the line at offset, or 0 where nothing is left. The line counts as one more than there
 *         are newlines before it. Refuses with 1, 3 or 2; what the other lines say is not tested.
 */
uint64_t gimmerskip_line(const uint8_t *text, size_t n, size_t offset);

/*
 * A text into packed numbers.
 * Reads   the n bytes at text.
 * Writes  into plan one packed number a line; it needs room for as many as there are lines.
 * Answers the number of lines. Refuses with 1 to 7 where the text is no plan, then with 11; plan is then as it was.
 */
uint64_t gimmerskip_read(const uint8_t *text, size_t n, uint32_t *plan, size_t room);

/*
 * A packed plan into text.
 * Reads   the n packed numbers at plan, all of which are the plan.
 * Writes  into text the lines, each ended by a newline, and no byte of 0 behind them; it needs room for all of them.
 * Answers the number of bytes. Refuses with 2 to 7 where the list is no plan, then with 11; text is then as it was.
 */
uint64_t gimmerskip_write(const uint32_t *plan, size_t n, uint8_t *text, size_t room);

/*
 * The table of claims. What its job holds already a line takes again, but does not claim.
 * Reads   the n packed numbers at plan.
 * Writes  into sets the claim set of each line; it needs room for n.
 * Answers the number of lines, n. Refuses with 2 to 7 where the list is no plan, then with 11; sets is then as it was.
 */
uint64_t gimmerskip_table(const uint32_t *plan, size_t n, uint32_t *sets, size_t room);

/*
 * The verdict, and the order where there is one.
 * Reads   the n packed numbers at plan.
 * Writes  into order the line numbers in the order in which the lines are done; it needs room for n.
 * Answers the number of devices that are still held after the last line. Refuses with 2 to 7 where the list is no plan,
 *         then with 11, then with 9 or 10 where the plan has no legal order; order is then as it was.
 */
uint64_t gimmerskip_verdict(const uint32_t *plan, size_t n, uint16_t *order, size_t room);

/*
 * An order from elsewhere, judged by the rules alone: what gimmerskip_verdict hands out is legal, and so are others.
 * Reads   the n packed numbers at plan and the m line numbers at order, which may be any numbers, and more or fewer
 *         than the plan has lines.
 * Writes  nothing.
 * Answers 0 if the list is a legal order of the plan. Refuses with 2 to 7 where the first list is no plan, then with 15
 *         where the second one first goes wrong, counted from 1; m + 1 tells that it stops too soon.
 */
uint64_t gimmerskip_judge(const uint32_t *plan, size_t n, const uint16_t *order, size_t m);

/*
 * Moves the claim of a line, counted from 1, to another device.
 * Reads   the n packed numbers at plan and the first n sets at sets, which is the plan's table from gimmerskip_table or
 *         from earlier moves; so room is at least n.
 * Writes  into plan the new device, in the take and in its give if it has one, and into sets the mended sets of the
 *         lines that a move may change: those on the way, from the moved line back to line 1, and those under the take,
 *         which stand between it and its give or, where it has none, behind it in its job.
 * Answers the number of lines whose set is now another. Refuses with 2 to 7 where the list is no plan, then with 11
 *         where sets is too short, then with 12, 13 or 14; plan and sets are then both as they were. For 14 the sets on
 *         the way are looked at first, going back, and then those under the take, going down. A claim can be moved to a
 *         device that its job holds, and from one, and a plan without a legal order can be moved too.
 */
uint64_t gimmerskip_move(uint32_t *plan, size_t n, uint32_t *sets, size_t room, uint32_t line, uint32_t device);

/*
 * Kept rows: a verdict after each of many moves. Beside a plan and its table are lent its rows, one set a device, and
 * its held set, a list of one set: the devices that are held to the end. The row of such a device has whatever is
 * claimed behind its lasting takes, which are those without a give; other devices have an empty row. gimmerskip_build
 * is called once; then each move is made by gimmerskip_move_kept, in place of gimmerskip_move, and gimmerskip_quick,
 * in place of gimmerskip_verdict, says whether the plan has a legal order by then:
 *
 *     uint32_t sets[GIMMERSKIP_MAX_LINES], rows[GIMMERSKIP_ROWS], held[1];
 *     gimmerskip_build(plan, n, sets, GIMMERSKIP_MAX_LINES, rows, GIMMERSKIP_ROWS, held, 1);
 *     gimmerskip_move_kept(plan, n, sets, GIMMERSKIP_MAX_LINES, rows, GIMMERSKIP_ROWS, held, 1, line, device);
 *     answer = gimmerskip_quick(plan, n, rows, GIMMERSKIP_ROWS);
 *
 * So kept, all three are after any number of moves, refused ones among them, what gimmerskip_build makes of the plan as
 * it is by then. Do not use gimmerskip_move between: it mends the table alone. Rows and held set are not tested for
 * being the plan's own, as the table is by 14; what the entries do with others is said at each.
 */

/*
 * Makes what is kept beside a plan.
 * Reads   the n packed numbers at plan.
 * Writes  into sets the claim set of each line, as gimmerskip_table does, into rows the GIMMERSKIP_ROWS rows, and into
 *         held one set.
 * Answers the number of lines, n. Refuses with 2 to 7 where the list is no plan, then with 11 where sets has less room
 *         than n, then where rows has less than GIMMERSKIP_ROWS, then where held has none; the lists are then as they
 *         were.
 */
uint64_t gimmerskip_build(const uint32_t *plan, size_t n, uint32_t *sets, size_t room, uint32_t *rows, size_t rows_room,
                          uint32_t *held, size_t held_room);

/*
 * Moves the claim of a line as gimmerskip_move does, and keeps rows and held set.
 * Reads   what gimmerskip_move reads, GIMMERSKIP_ROWS rows and one held set.
 * Writes  into plan and sets what gimmerskip_move writes; into rows those of the old device, of the new one, and of
 *         each device that is taken for good on the way or under the take, as the edited plan and the mended sets
 *         give them; into held the bits of the old device and of the new one, as the edited plan has them. All
 *         other rows and bits stay as they were lent, so that of rows and a held set that are not the plan's own just
 *         these are mended. It is so too for a move to the device where the claim is, which answers 0.
 * Answers what gimmerskip_move answers: the number of lines whose set is now another. Refuses with 2 to 7, then with 11
 *         for sets, rows and held, in this order, then with 12, 13 or 14; all four lists are then as they were.
 */
uint64_t gimmerskip_move_kept(uint32_t *plan, size_t n, uint32_t *sets, size_t room, uint32_t *rows, size_t rows_room,
                              uint32_t *held, size_t held_room, uint32_t line, uint32_t device);

/*
 * The quick verdict, by kept rows.
 * Reads   the n packed numbers at plan and the first GIMMERSKIP_ROWS rows.
 * Writes  nothing, and hands out no order.
 * Answers the number of devices that are held to the end, by the plan. Refuses with 2 to 7 where the list is no plan,
 *         then with 11 where there are fewer rows, then with 9 by the plan, then with 10 where by the rows, as they are
 *         lent, a device leads back to itself. Where the rows are the plan's own, answer and refusal are those of
 *         gimmerskip_verdict; of other rows a 10, or that there is none, says no more than this.
 */
uint64_t gimmerskip_quick(const uint32_t *plan, size_t n, const uint32_t *rows, size_t rows_room);

#ifdef __cplusplus
}
#endif

#endif
