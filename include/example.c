/*
 * A screen in C: shows a plan with its lines, its order and its claims, judges an order of another's making, moves a
 * claim with a quick verdict before and after, and then moves it once more by the table alone.
 *
 *   example [FILE [LINE DEVICE]]
 *
 * The plan is the text in FILE, or the one below. The claim of LINE moves to DEVICE, line 5 to device 2 if not told.
 * The exit status is 0 if nothing was refused, 1 if something was, and 2 if the use is wrong, the file cannot be read
 * or the output cannot be written.
 */
#include "gimmerskip.h"

#include <errno.h>
#include <stdio.h>
#include <stdlib.h>
#include <string.h>

/* Job 2 needs device 1 for a while, so it has to come before job 1 takes it to the end. */
static const char PLAN[] = "1\tstart\t2\n"
                           "1\ttake\t1\n"
                           "1\tdo\t7\n"
                           "2\ttake\t0\n"
                           "2\ttake\t1\n"
                           "2\tgive\t1\n";

/* The verbs, by their kinds. */
static const char *const VERBS[] = {"do", "take", "give", "start"};

/* What each refusal means, by its number: the words before its place, and those after it if the place is to be said. */
static const char *const WORDS[][2] = {
    [GIMMERSKIP_TEXT_TOO_LONG] = {"the text has more than 12288 bytes", NULL},
    [GIMMERSKIP_MALFORMED] = {"line ", " is malformed"},
    [GIMMERSKIP_TOO_MANY_LINES] = {"something stands after line 1024, the last that a plan can have", NULL},
    [GIMMERSKIP_JOB_OUT_OF_SEQUENCE] = {"line ", " is of a job that does not follow on"},
    [GIMMERSKIP_BAD_START] = {"line ", " starts a job that is not higher, is started already, or has no lines"},
    [GIMMERSKIP_NEVER_STARTED] = {"line ", " begins a job that no line starts"},
    [GIMMERSKIP_GIVE_WITHOUT_TAKE] = {"line ", " gives a device that is not the latest its job still holds"},
    [GIMMERSKIP_TWO_LASTING] = {"two jobs would hold device ", " to the end"},
    [GIMMERSKIP_LEADS_BACK] = {"device ", " leads back to itself"},
    [GIMMERSKIP_LIST_TOO_SHORT] = {"a list is too short, it needs a length of ", ""},
    [GIMMERSKIP_NOT_A_TAKE] = {"line ", " is no take of the plan"},
    [GIMMERSKIP_NO_SUCH_DEVICE] = {"there is no device ", ""},
    [GIMMERSKIP_STALE_TABLE] = {"line ", " has a stale set in the table"},
    [GIMMERSKIP_ILLEGAL_STEP] = {"entry ", " of the order is no legal next step, or the order stops before it"},
};

/* Says what was refused and why, if the answer is a refusal. Only an answer that is none is a count. */
static int refused(const char *what, uint64_t answer) {
    uint32_t number = gimmerskip_number(answer);
    unsigned place = (unsigned)gimmerskip_place(answer);
    if (!gimmerskip_is_refusal(answer))
        return 0;
    printf("%s: refused, ", what);
    if (number >= sizeof WORDS / sizeof WORDS[0] || WORDS[number][0] == NULL)
        printf("number %u, place %u\n", (unsigned)number, place);
    else if (WORDS[number][1] == NULL)
        printf("%s\n", WORDS[number][0]);
    else
        printf("%s%u%s\n", WORDS[number][0], place, WORDS[number][1]);
    return 1;
}

/* The devices of one set. */
static void show_set(uint32_t set) {
    for (unsigned device = 0; device < 32; device++)
        if (set >> device & 1)
            printf(" %u", device);
}

/* One line for each line of the plan: its number and the devices that it or what comes after it takes. */
static void show_sets(const uint32_t *sets, size_t lines) {
    for (size_t line = 0; line < lines; line++) {
        printf("%zu:", line + 1);
        show_set(sets[line]);
        printf("\n");
    }
}

/* The outcome as the screens get it, byte for byte. It is never of no bytes, since the room is as large as is asked. */
static int show_screen(const uint8_t *text, size_t n) {
    uint8_t out[GIMMERSKIP_SCREEN_ROOM];
    size_t count = gimmerskip_order(text, n, out, sizeof out);
    if (count == 0 || count > sizeof out)
        return 1;
    printf("screen, %zu bytes:\n", count);
    return fwrite(out, 1, count, stdout) != count;
}

/* The lines one after another, as the line reader hands them out: it needs no list. Each line that it has handed out
   ends with a newline, and the next stands behind that. */
static int show_lines(const uint8_t *text, size_t n) {
    size_t offset = 0;
    uint64_t line = gimmerskip_line(text, n, offset);
    printf("lines:\n");
    while (line != 0 && !gimmerskip_is_refusal(line)) {
        const uint8_t *end = (const uint8_t *)memchr(text + offset, '\n', n - offset);
        printf("job %u %s %u\n", (unsigned)(line / 1024), VERBS[line / 256 % 4], (unsigned)(line % 256));
        offset = end == NULL ? n : (size_t)(end - text) + 1;
        line = gimmerskip_line(text, n, offset);
    }
    return refused("line", line);
}

/* The order through the port. */
static int show_order(const uint32_t *plan, size_t lines) {
    uint16_t order[GIMMERSKIP_MAX_LINES];
    uint64_t held = gimmerskip_verdict(plan, lines, order, GIMMERSKIP_MAX_LINES);
    if (refused("verdict", held))
        return 1;
    printf("verdict: order");
    for (size_t i = 0; i < lines; i++)
        printf(" %u", (unsigned)order[i]);
    printf("; %u held\n", (unsigned)held);
    return refused("judge", gimmerskip_judge(plan, lines, order, lines));
}

/* An order from elsewhere: whoever does the lines just as they stand comes so far. */
static int show_judge(const uint32_t *plan, size_t lines) {
    uint16_t order[GIMMERSKIP_MAX_LINES];
    for (size_t i = 0; i < lines; i++)
        order[i] = (uint16_t)(i + 1);
    uint64_t answer = gimmerskip_judge(plan, lines, order, lines);
    if (gimmerskip_number(answer) == GIMMERSKIP_ILLEGAL_STEP) {
        printf("judge: as they stand, line %u is no legal next step\n", (unsigned)gimmerskip_place(answer));
        return 0;
    }
    if (refused("judge", answer))
        return 1;
    printf("judge: as they stand, the lines are in a legal order\n");
    return 0;
}

/* What is kept beside a plan, for a verdict after each move. */
struct beside {
    uint32_t sets[GIMMERSKIP_MAX_LINES];
    uint32_t rows[GIMMERSKIP_ROWS];
    uint32_t held[1];
};

/* One line for each device that is held to the end: what is claimed behind the line that keeps it. Then the quick
   verdict: no order, but whether there is one. */
static int show_quick(const uint32_t *plan, size_t lines, const struct beside *kept) {
    for (unsigned device = 0; device < GIMMERSKIP_ROWS; device++)
        if (kept->held[0] >> device & 1) {
            printf("row of device %u:", device);
            show_set(kept->rows[device]);
            printf("\n");
        }
    uint64_t held = gimmerskip_quick(plan, lines, kept->rows, GIMMERSKIP_ROWS);
    if (refused("quick", held))
        return 1;
    printf("quick: there is an order, %u held\n", (unsigned)held);
    return 0;
}

/* Moves the claim of a line in a copy of the plan, with rows and held set kept: they are built once, and could be moved
   and looked at all morning. A claim may be moved in a plan without an order too. */
static int show_kept(const uint32_t *before, size_t lines, uint32_t line, uint32_t device) {
    uint32_t plan[GIMMERSKIP_MAX_LINES];
    struct beside kept;
    memcpy(plan, before, lines * sizeof plan[0]);
    if (refused("build", gimmerskip_build(plan, lines, kept.sets, GIMMERSKIP_MAX_LINES, kept.rows, GIMMERSKIP_ROWS,
                                          kept.held, 1)))
        return 1;
    int status = show_quick(plan, lines, &kept);
    uint64_t changed = gimmerskip_move_kept(plan, lines, kept.sets, GIMMERSKIP_MAX_LINES, kept.rows, GIMMERSKIP_ROWS,
                                            kept.held, 1, line, device);
    if (refused("move_kept", changed))
        return 1;
    printf("move_kept: line %u to device %u, %u sets changed\n", (unsigned)line, (unsigned)device, (unsigned)changed);
    return status | show_quick(plan, lines, &kept);
}

/* The plan as text. */
static int show_text(const uint32_t *plan, size_t lines) {
    uint8_t text[GIMMERSKIP_MAX_BYTES];
    uint64_t bytes = gimmerskip_write(plan, lines, text, sizeof text);
    if (refused("write", bytes))
        return 1;
    printf("write, %u bytes:\n", (unsigned)bytes);
    return fwrite(text, 1, (size_t)bytes, stdout) != (size_t)bytes;
}

/* Moves the claim of a line by the table alone, and shows the plan and the table that this leaves. */
static int show_move(uint32_t *plan, uint32_t *sets, size_t lines, uint32_t line, uint32_t device) {
    uint64_t changed = gimmerskip_move(plan, lines, sets, lines, line, device);
    if (refused("move", changed))
        return 1;
    printf("move: line %u to device %u, %u sets changed\n", (unsigned)line, (unsigned)device, (unsigned)changed);
    show_sets(sets, lines);
    return show_text(plan, lines);
}

/* The whole show; answers 1 if anything was refused. A text that cannot be read has nothing further to show. */
static int show(const uint8_t *text, size_t n, uint32_t line, uint32_t device) {
    uint32_t plan[GIMMERSKIP_MAX_LINES];
    uint32_t sets[GIMMERSKIP_MAX_LINES];
    int status = show_screen(text, n);
    status |= show_lines(text, n);
    uint64_t lines = gimmerskip_read(text, n, plan, GIMMERSKIP_MAX_LINES);
    if (refused("read", lines))
        return 1;
    printf("read: %u lines\n", (unsigned)lines);
    if (refused("table", gimmerskip_table(plan, (size_t)lines, sets, GIMMERSKIP_MAX_LINES)))
        return 1;
    printf("table:\n");
    show_sets(sets, (size_t)lines);
    status |= show_order(plan, (size_t)lines);
    status |= show_judge(plan, (size_t)lines);
    status |= show_kept(plan, (size_t)lines, line, device);
    return status | show_move(plan, sets, (size_t)lines, line, device);
}

/* Reads a file into a buffer, as far as there is room; answers whether that went well. */
static int read_file(const char *name, uint8_t *text, size_t room, size_t *n) {
    FILE *file = fopen(name, "rb");
    if (file == NULL)
        return 0;
    *n = fread(text, 1, room, file);
    int well = !ferror(file);
    int why = errno;
    fclose(file);
    errno = why;
    return well;
}

/* Reads a number of 32 bits in decimal digits; answers whether the word is one. */
static int read_number(const char *word, uint32_t *number) {
    char *end;
    if (word[0] < '0' || word[0] > '9')
        return 0;
    errno = 0;
    unsigned long value = strtoul(word, &end, 10);
    *number = (uint32_t)value;
    return errno == 0 && *end == '\0' && value <= UINT32_MAX;
}

int main(int argc, char **argv) {
    /* One byte more than a text may have: a longer file fills it, and is then refused as too long. */
    static uint8_t text[GIMMERSKIP_MAX_BYTES + 1];
    size_t n = sizeof PLAN - 1;
    uint32_t line = 5;
    uint32_t device = 2;
    memcpy(text, PLAN, n);
    if (argc == 3 || argc > 4 || (argc == 4 && !(read_number(argv[2], &line) && read_number(argv[3], &device)))) {
        fprintf(stderr, "usage: example [FILE [LINE DEVICE]]\n");
        return 2;
    }
    if (argc > 1 && !read_file(argv[1], text, sizeof text, &n)) {
        perror(argv[1]);
        return 2;
    }
    int status = show(text, n, line, device);
    /* Whatever could not be written is known by now, or when the rest is written out. */
    if (ferror(stdout) || fflush(stdout) != 0) {
        fprintf(stderr, "example: the output cannot be written\n");
        return 2;
    }
    return status;
}
