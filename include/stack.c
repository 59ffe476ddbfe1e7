/*
 * Measures how many bytes of stack each entry needs at most, and the circle search by itself, and holds them to the
 * bounds of gimmerskip.h and of check-stack.
 *
 * An entry is run on a stack of its own that is painted first: every byte is set to one value. How deep the entry went
 * is seen by the lowest byte that has another value after it. Each call is made on two paints, since an entry may write
 * a byte that looks like one of them. A call of a function that does nothing shows what the switch of stacks needs by
 * itself, which is taken off.
 *
 * Every entry meets plans up to the limits, each refusal that it can answer with, damaged plans, random lines and
 * random bytes. Whether it accepted something and refused by each of its numbers is part of the test. For each entry a
 * line is printed; the last line is 'N passed, M failed', and the exit status follows it.
 */
#include "gimmerskip.h"

#include <stdio.h>
#include <stdlib.h>
#include <string.h>

enum { LINES = GIMMERSKIP_MAX_LINES, BYTES = GIMMERSKIP_MAX_BYTES, DEVICES = GIMMERSKIP_ROWS };
enum { ROUNDS = 5000, JOBS = 64 };
enum kind { DO, TAKE, GIVE, START };
enum entry {
    NOTHING, ORDER, LINE, READ, WRITE, TABLE, VERDICT, JUDGE, MOVE, BUILD, MOVE_KEPT, QUICK, CIRCLES, ENTRIES
};

/* The circle search by itself: no entry of the library, and so in an archive of its own. */
uint32_t bare_circles(const uint32_t rows[DEVICES]);

/* What is known of an entry: its bound, the numbers by which it can refuse (bit k for k, bit 0 for no refusal), and
   what was seen: the most bytes, the numbers, and how many calls. */
static struct {
    const char *name;
    size_t bound;
    uint32_t numbers;
    uint32_t seen;
    size_t most;
    size_t calls;
} known[ENTRIES] = {
    [NOTHING] = {"nothing", 8, 0x1, 0, 0, 0},
    [ORDER] = {"order", GIMMERSKIP_STACK_ORDER, 0x6ff, 0, 0, 0},
    [LINE] = {"line", GIMMERSKIP_STACK_LINE, 0xf, 0, 0, 0},
    [READ] = {"read", GIMMERSKIP_STACK_READ, 0x8ff, 0, 0, 0},
    [WRITE] = {"write", GIMMERSKIP_STACK_WRITE, 0x8fd, 0, 0, 0},
    [TABLE] = {"table", GIMMERSKIP_STACK_TABLE, 0x8fd, 0, 0, 0},
    [VERDICT] = {"verdict", GIMMERSKIP_STACK_VERDICT, 0xefd, 0, 0, 0},
    [JUDGE] = {"judge", GIMMERSKIP_STACK_JUDGE, 0x80fd, 0, 0, 0},
    [MOVE] = {"move", GIMMERSKIP_STACK_MOVE, 0x78fd, 0, 0, 0},
    [BUILD] = {"build", GIMMERSKIP_STACK_BUILD, 0x8fd, 0, 0, 0},
    [MOVE_KEPT] = {"move_kept", GIMMERSKIP_STACK_MOVE_KEPT, 0x78fd, 0, 0, 0},
    [QUICK] = {"quick", GIMMERSKIP_STACK_QUICK, 0xefd, 0, 0, 0},
    [CIRCLES] = {"circles", STACK_OF_CIRCLES, 0x1, 0, 0, 0},
};

/* One call: which entry, what it is lent, and what it answers. A list has one place more than is ever needed. */
struct call {
    enum entry which;
    const uint8_t *text;
    uint32_t *plan;
    uint32_t *sets;
    uint32_t *rows;
    uint32_t *held;
    const uint16_t *order;
    size_t n;
    size_t room;
    size_t rows_room;
    size_t held_room;
    size_t offset;
    uint32_t line;
    uint32_t device;
    uint64_t answer;
};

static uint8_t out_bytes[BYTES];
static uint32_t out_plan[LINES + 1];
static uint32_t out_sets[LINES + 1];
static uint32_t out_rows[DEVICES + 1];
static uint32_t out_held[2];
static uint16_t out_order[LINES + 1];

/* Needs its return address and no more. */
static __attribute__((noinline)) uint64_t nothing(void) {
    __asm__ volatile("");
    return 0;
}

/* The number of the refusal that was printed, or 0, as the upper half of an answer. */
static uint64_t printed_number(size_t count) {
    static const char word[] = "refused\t";
    uint64_t number = 0;
    size_t at = sizeof word - 1;
    if (count < at || memcmp(out_bytes, word, at) != 0)
        return 0;
    while (at < count && out_bytes[at] >= '0' && out_bytes[at] <= '9')
        number = number * 10 + (uint64_t)(out_bytes[at++] - '0');
    return number << 32;
}

/* Runs on the painted stack. All entries are called from this one frame, so that it is the same for all. */
static __attribute__((noinline)) void make_call(struct call *c) {
    switch (c->which) {
    case ORDER: c->answer = gimmerskip_order(c->text, c->n, out_bytes, c->room); break;
    case LINE: c->answer = gimmerskip_line(c->text, c->n, c->offset); break;
    case READ: c->answer = gimmerskip_read(c->text, c->n, out_plan, c->room); break;
    case WRITE: c->answer = gimmerskip_write(c->plan, c->n, out_bytes, c->room); break;
    case TABLE: c->answer = gimmerskip_table(c->plan, c->n, out_sets, c->room); break;
    case VERDICT: c->answer = gimmerskip_verdict(c->plan, c->n, out_order, c->room); break;
    case JUDGE: c->answer = gimmerskip_judge(c->plan, c->n, c->order, c->room); break;
    case MOVE: c->answer = gimmerskip_move(c->plan, c->n, c->sets, c->room, c->line, c->device); break;
    case BUILD:
        c->answer = gimmerskip_build(c->plan, c->n, out_sets, c->room, out_rows, c->rows_room, out_held, c->held_room);
        break;
    case MOVE_KEPT:
        c->answer = gimmerskip_move_kept(c->plan, c->n, c->sets, c->room, c->rows, c->rows_room, c->held, c->held_room,
                                         c->line, c->device);
        break;
    case QUICK: c->answer = gimmerskip_quick(c->plan, c->n, c->rows, c->rows_room); break;
    case CIRCLES: c->answer = bare_circles(c->rows); break;
    default: c->answer = nothing(); break;
    }
}

/* The painted stack, in words of 8 bytes: the stack pointer moves by no less. */
enum { WORDS = 4096 };
static _Alignas(64) uint64_t stack[WORDS];

/* Makes a call on the stack above, painted with a byte; answers how many bytes of it are not the paint any more. The
   stack pointer is kept in a register that every function leaves as it was. */
static size_t depth_on(struct call *c, int paint) {
    size_t untouched = 0;
    memset(stack, paint, sizeof stack);
    const uint64_t word = stack[0];
    __asm__ volatile("movq %%rsp, %%rbx\n\t"
                     "movq %[top], %%rsp\n\t"
                     "call *%[run]\n\t"
                     "movq %%rbx, %%rsp"
                     : "+D"(c)
                     : [top] "r"(stack + WORDS), [run] "r"(make_call)
                     : "rax", "rbx", "rcx", "rdx", "rsi", "r8", "r9", "r10", "r11", "cc", "memory", "xmm0", "xmm1",
                       "xmm2", "xmm3", "xmm4", "xmm5", "xmm6", "xmm7", "xmm8", "xmm9", "xmm10", "xmm11", "xmm12",
                       "xmm13", "xmm14", "xmm15");
    while (untouched < WORDS && stack[untouched] == word)
        untouched++;
    return (WORDS - untouched) * sizeof word;
}

/* What a call of nothing needs on this stack, its return address taken off; an entry's own bytes are those past it. */
static size_t overhead;

/* A move changes what it is lent, so that it works on copies, made anew for each paint. */
static size_t depth_of_copy(const struct call *c, int paint, uint64_t *answer) {
    static uint32_t plan[LINES + 1], sets[LINES + 1], rows[DEVICES + 1], held[2];
    struct call copy = *c;
    if (c->which == MOVE || c->which == MOVE_KEPT) {
        memcpy(plan, c->plan, sizeof plan);
        memcpy(sets, c->sets, sizeof sets);
        copy.plan = plan;
        copy.sets = sets;
    }
    if (c->which == MOVE_KEPT) {
        memcpy(rows, c->rows, sizeof rows);
        memcpy(held, c->held, sizeof held);
        copy.rows = rows;
        copy.held = held;
    }
    size_t depth = depth_on(&copy, paint);
    *answer = copy.which == ORDER ? printed_number((size_t)copy.answer) : copy.answer;
    return depth;
}

/* Measures one call, on two paints, and notes what was seen. */
static uint64_t measure(struct call c) {
    uint64_t answer;
    size_t one = depth_of_copy(&c, 0xa5, &answer);
    size_t other = depth_of_copy(&c, 0x3c, &answer);
    size_t bytes = (one > other ? one : other) - overhead;
    if (bytes > known[c.which].most)
        known[c.which].most = bytes;
    if (gimmerskip_number(answer) < 32)
        known[c.which].seen |= (uint32_t)1 << gimmerskip_number(answer);
    known[c.which].calls++;
    return answer;
}

/* A number below `below`, by a generator of our own, so that every run makes the same inputs. */
static uint32_t below(uint32_t below_this) {
    static uint64_t state = 0x9e3779b97f4a7c15u;
    state ^= state << 13;
    state ^= state >> 7;
    state ^= state << 17;
    return (uint32_t)((state >> 32) % below_this);
}

static uint32_t packed(uint32_t job, enum kind kind, uint32_t operand) {
    return job * 1024 + (uint32_t)kind * 256 + operand;
}

/* A packed list: a plan or what looks like one. */
struct list {
    uint32_t lines[LINES + 1];
    size_t n;
};

static void add(struct list *l, uint32_t job, enum kind kind, uint32_t operand) {
    if (l->n <= LINES)
        l->lines[l->n++] = packed(job, kind, operand);
}

/* The entries that are lent a text. Offsets are the beginning, the end, past it, and any. */
static void try_text(const uint8_t *text, size_t n) {
    const size_t offsets[] = {0, n, n + 1, SIZE_MAX, n ? below((uint32_t)n) : 0, n > 9 ? n - 9 : 0};
    struct call c = {.text = text, .n = n, .room = GIMMERSKIP_SCREEN_ROOM};
    c.which = ORDER;
    measure(c);
    c.room = below(GIMMERSKIP_SCREEN_ROOM);
    measure(c);
    c.which = READ;
    measure(c);
    c.room = LINES;
    measure(c);
    c.which = LINE;
    for (size_t k = 0; k < sizeof offsets / sizeof offsets[0]; k++) {
        c.offset = offsets[k];
        measure(c);
    }
}

/* Both moves, the plain one and the one that keeps rows. */
static void measure_moves(struct call c) {
    c.which = MOVE;
    measure(c);
    c.which = MOVE_KEPT;
    measure(c);
}

/* Moves: of a line and a device that may be, of some that are not, with a table that is short and one that is stale. */
static void try_moves(struct list *l, uint32_t *sets, uint32_t *rows, uint32_t *held) {
    struct call c = {.plan = l->lines, .sets = sets, .rows = rows, .held = held, .n = l->n, .room = LINES};
    uint32_t stale;
    c.rows_room = DEVICES;
    c.held_room = 1;
    for (size_t k = 0; k < 6; k++) {
        c.line = l->n ? 1 + below((uint32_t)l->n) : 1;
        c.device = below(DEVICES);
        measure_moves(c);
    }
    stale = below(l->n ? (uint32_t)l->n : 1);
    sets[stale] ^= (uint32_t)1 << below(DEVICES);
    c.line = stale + 1;
    measure_moves(c);
    sets[0] ^= 0x80000001u;
    measure_moves(c);
    c.device = DEVICES + below(100);
    measure_moves(c);
    c.line = (uint32_t)l->n + below(3);
    measure_moves(c);
    c.line = 0;
    measure_moves(c);
    c.room = l->n ? below((uint32_t)l->n) : 0;
    measure_moves(c);
}

/* What is kept beside a list: built with room and without, quick verdicts by the rows that were built, by others, and
   by too few; and moves, with the rows that were built or others. */
static void try_kept(struct list *l) {
    static uint32_t sets[LINES + 1], rows[DEVICES + 1], held[2];
    struct call c = {.which = BUILD, .plan = l->lines, .rows = rows, .n = l->n, .room = LINES};
    c.rows_room = below(DEVICES);
    measure(c);
    c.rows_room = DEVICES;
    measure(c);
    c.held_room = 1;
    measure(c);
    memcpy(sets, out_sets, sizeof sets);
    memcpy(rows, out_rows, sizeof rows);
    memcpy(held, out_held, sizeof held);
    c.room = l->n ? below((uint32_t)l->n) : 0;
    measure(c);
    c.which = QUICK;
    measure(c);
    c.rows_room = below(DEVICES);
    measure(c);
    c.rows_room = DEVICES;
    for (uint32_t d = below(2) * DEVICES; d < DEVICES; d++)
        rows[d] = below(UINT32_MAX) & below(UINT32_MAX) & below(UINT32_MAX) & below(UINT32_MAX);
    measure(c);
    try_moves(l, sets, rows, held);
}

/* Orders from elsewhere: the one handed out last, whole, with another entry, cut off, and going on. */
static void try_orders(struct list *l) {
    static uint16_t order[LINES + 1];
    struct call c = {.which = JUDGE, .plan = l->lines, .order = order, .n = l->n, .room = l->n};
    memcpy(order, out_order, sizeof order);
    measure(c);
    c.room = l->n ? below((uint32_t)l->n) : 0;
    measure(c);
    order[c.room] = (uint16_t)below(l->n ? (uint32_t)l->n + 2 : 2);
    c.room = l->n;
    measure(c);
    c.room = LINES + 1;
    measure(c);
}

/* The entries that are lent a packed list, whatever it holds. */
static void try_list(struct list *l) {
    struct call c = {.plan = l->lines, .n = l->n, .room = BYTES};
    c.which = WRITE;
    measure(c);
    c.room = below(BYTES);
    measure(c);
    c.which = TABLE;
    c.room = LINES;
    measure(c);
    c.which = VERDICT;
    measure(c);
    try_orders(l);
    c.room = l->n ? below((uint32_t)l->n) : 0;
    measure(c);
    c.which = TABLE;
    measure(c);
    try_kept(l);
}

/* The text of a packed list of lines, plan or no plan; a number that is no line's is left as it comes out. */
static size_t spell(const struct list *l, uint8_t *text, size_t room) {
    static const char *const verbs[] = {"do", "take", "give", "start"};
    size_t n = 0;
    for (size_t i = 0; i < l->n && n + 24 < room; i++) {
        uint32_t p = l->lines[i];
        n += (size_t)snprintf((char *)text + n, 24, "%u\t%s\t%u\n", (unsigned)(p / 1024 % 100), verbs[p / 256 % 4],
                              (unsigned)(p % 256));
    }
    return n;
}

/* A list through all entries: packed, as text, and as text with one byte changed, cut off, or put behind. */
static void try_all(struct list *l) {
    static uint8_t text[2 * BYTES];
    size_t n = spell(l, text, sizeof text);
    try_list(l);
    try_text(text, n);
    if (n == 0)
        return;
    try_text(text, below((uint32_t)n));
    text[n] = '1';
    try_text(text, n + 1);
    text[below((uint32_t)n)] = (uint8_t)("\t\n0123456789dotakegivestr"[below(24)]);
    try_text(text, n);
}

/* A plan without a fault while it grows: what its present job has taken and not given, and who has still to start
   whom. */
struct growth {
    struct list list;
    uint32_t starter[JOBS + 1];
    uint32_t held[LINES];
    uint32_t depth;
};

/* One more line of a job that starts nothing: a take, of what it holds already among others, a give of what was taken
   last, or an action. */
static void grow_line(struct growth *g, uint32_t job) {
    switch (below(4)) {
    case 0:
        add(&g->list, job, DO, below(256));
        break;
    case 1:
        if (g->depth > 0)
            add(&g->list, job, GIVE, g->held[--g->depth]);
        break;
    default:
        g->held[g->depth] = g->depth > 0 && below(4) == 0 ? g->held[below(g->depth)] : below(DEVICES);
        add(&g->list, job, TAKE, g->held[g->depth++]);
    }
}

/* Gives back what a job holds, down to `left` devices. */
static void give_back(struct growth *g, uint32_t job, uint32_t left) {
    while (g->depth > left)
        add(&g->list, job, GIVE, g->held[--g->depth]);
}

/* Starts the jobs that are this one's to start. */
static void start_others(struct growth *g, uint32_t job, uint32_t jobs) {
    for (uint32_t other = job + 1; other <= jobs; other++)
        if (g->starter[other] == job)
            add(&g->list, job, START, other);
}

static void grow_job(struct growth *g, uint32_t job, uint32_t jobs, uint32_t lines, uint32_t left) {
    g->depth = 0;
    for (uint32_t k = 0; k < lines; k++)
        grow_line(g, job);
    give_back(g, job, left);
    start_others(g, job, jobs);
    add(&g->list, job, DO, 1);
}

/* For each job but the first, which lower one starts it. */
static void pick_starters(struct growth *g, uint32_t jobs) {
    for (uint32_t job = 2; job <= jobs; job++)
        g->starter[job] = 1 + below(job - 1);
}

/* A random plan, without a fault if it is not cut off; the jobs keep up to `left` devices to the end. */
static void grow(struct growth *g, uint32_t jobs, uint32_t lines, uint32_t left) {
    g->list.n = 0;
    pick_starters(g, jobs);
    for (uint32_t job = 1; job <= jobs; job++)
        grow_job(g, job, jobs, lines, left);
}

/* Makes a plan as long as a plan can be. */
static void fill_up(struct list *l, uint32_t job) {
    while (l->n < LINES)
        add(l, job, DO, 255);
}

/* Jobs that start each other in turn; each has `pairs` of a take and a give, and the last one fills the plan up. */
static void chain(struct list *l, uint32_t jobs, uint32_t pairs) {
    l->n = 0;
    for (uint32_t k = 0; k < jobs * pairs; k++) {
        uint32_t job = 1 + k / pairs;
        if (k % pairs == 0 && job < jobs)
            add(l, job, START, job + 1);
        add(l, job, TAKE, k % DEVICES);
        add(l, job, GIVE, k % DEVICES);
    }
    fill_up(l, jobs);
}

/* One job that takes all devices and gives them back, again and again; the last `left` stay held. */
static void nest(struct list *l, size_t times, uint32_t left) {
    l->n = 0;
    for (size_t k = 0; k < times * 2 * DEVICES - left; k++) {
        uint32_t at = (uint32_t)(k % (2 * DEVICES));
        add(l, 1, at < DEVICES ? TAKE : GIVE, at < DEVICES ? at : 2 * DEVICES - 1 - at);
    }
}

/* One job that takes a few devices again and again, as deep as it goes, and gives back all that is over `left` of its
   takes, in a plan of the most lines. */
static void deepen(struct list *l, uint32_t devices, uint32_t left) {
    const uint32_t takes = (LINES + left) / 2;
    l->n = 0;
    for (uint32_t k = 0; k < takes; k++)
        add(l, 1, TAKE, k % devices);
    for (uint32_t k = takes; k > left; k--)
        add(l, 1, GIVE, (k - 1) % devices);
    fill_up(l, 1);
}

/* Job 1 starts jobs 2 to `last`. */
static void start_all(struct list *l, uint32_t last) {
    l->n = 0;
    for (uint32_t job = 2; job <= last; job++)
        add(l, 1, START, job);
}

/* A job for each of so many devices: it keeps its own, and wants for a while the one `step` further on. With step 0 it
   wants none. */
static void keep(struct list *l, uint32_t devices, uint32_t step, uint32_t turn) {
    start_all(l, devices + 1);
    for (uint32_t d = 0; d < devices; d++) {
        add(l, d + 2, TAKE, (d * turn) % devices);
        if (step > 0) {
            add(l, d + 2, TAKE, ((d + step) * turn) % devices);
            add(l, d + 2, GIVE, ((d + step) * turn) % devices);
        }
    }
}

/* Rows of every density, from all bits to few. */
static void fill_rows(uint32_t rows[DEVICES], uint32_t thinner) {
    for (uint32_t d = 0; d < DEVICES; d++) {
        rows[d] = UINT32_MAX;
        for (uint32_t k = 0; k < thinner; k++)
            rows[d] &= below(UINT32_MAX);
    }
}

/* Rows of rings of so many devices, each leading into the next if they are linked, under numbers that jump. */
static void ring_rows(uint32_t rows[DEVICES], uint32_t length, uint32_t jump, int linked) {
    for (uint32_t d = 0; d < DEVICES; d++) {
        uint32_t first = d - d % length;
        uint32_t next = d + 1 - first == length || d + 1 == DEVICES ? first : d + 1;
        rows[d * jump % DEVICES] = (uint32_t)1 << next * jump % DEVICES;
        if (linked && d + 1 < DEVICES)
            rows[d * jump % DEVICES] |= (uint32_t)1 << (d + 1) * jump % DEVICES;
    }
}

/* The circle search by itself, on any rows. */
static void try_rows(void) {
    static uint32_t rows[DEVICES];
    const struct call c = {.which = CIRCLES, .rows = rows};
    for (uint32_t round = 0; round < ROUNDS; round++) {
        fill_rows(rows, round % 8);
        measure(c);
        ring_rows(rows, 1 + below(DEVICES), 1 + 2 * below(DEVICES / 2), round % 2);
        measure(c);
        for (uint32_t d = 0; d < DEVICES; d++)
            rows[d] &= ~((uint32_t)1 << below(DEVICES));
        measure(c);
    }
}

static struct growth tried;

/* Plans up to the limits. */
static void at_the_limits(void) {
    struct list *l = &tried.list;
    for (uint32_t k = 1; k <= DEVICES; k++) {
        chain(l, 2 * k, 7);
        try_all(l);
        nest(l, 16, 0);
        l->n -= k - 1;
        try_all(l);
        nest(l, 1 + k % 16, DEVICES);
        try_all(l);
        deepen(l, k, k % 2 ? LINES : k);
        try_all(l);
        keep(l, k, 0, 1);
        try_all(l);
        keep(l, k, 1, k % 2 ? 1 : 3);
        try_all(l);
        keep(l, k, k / 2, 1);
        l->lines[l->n - 1] ^= k & 3;
        try_all(l);
    }
    chain(l, JOBS, 7);
    add(l, JOBS, DO, 0);
    try_all(l);
    l->n = 0;
    try_all(l);
}

/* A few lines for each fault that a plan as written can have, and plans without an order. */
static void each_fault(void) {
    static const struct {
        size_t n;
        uint32_t lines[4];
    } faults[] = {
        {1, {0}},                         /* 2: the number of no line */
        {3, {1024, 1312, 1024}},          /* 2: a device that there is not */
        {2, {1024, 67584}},               /* 2: a job that there cannot be */
        {2, {1796, 3072}},                /* 4: a job is left out */
        {1, {2048}},                      /* 4: the plan begins with job 2 */
        {3, {1794, 1794, 2048}},          /* 5: a job is started twice */
        {2, {1794, 1024}},                /* 5: a started job has no lines */
        {2, {1024, 2048}},                /* 6: nothing starts job 2 */
        {1, {1536}},                      /* 7: a give of what was not taken */
        {3, {1280, 1281, 1536}},          /* 7: a give of what was not taken last */
        {3, {1794, 1280, 2304}},          /* 9: two lasting takes */
        {4, {1280, 1794, 2304, 2560}},    /* 10: job 2 waits for what its starter keeps */
    };
    struct list *l = &tried.list;
    for (size_t k = 0; k < sizeof faults / sizeof faults[0]; k++) {
        l->n = faults[k].n;
        memcpy(l->lines, faults[k].lines, sizeof faults[k].lines);
        try_all(l);
    }
}

/* Random plans, then with lines changed, then lines and numbers without any sense. */
static void at_random(void) {
    struct list *l = &tried.list;
    for (int round = 0; round < ROUNDS; round++) {
        uint32_t jobs = 1 + below(round % 3 ? 8 : JOBS);
        grow(&tried, jobs, 1 + below(round % 3 ? 40 : 12), round % 2 ? 0 : below(3));
        try_all(l);
        uint32_t *line = &l->lines[below((uint32_t)l->n)];
        *line = packed(*line / 1024, (enum kind)below(4), below(40));
        try_all(l);
        l->lines[below((uint32_t)l->n)] = below(66 * 1024);
        l->lines[below((uint32_t)l->n)] ^= (uint32_t)1 << below(32);
        try_list(l);
    }
}

/* Lines as long as a line can be, in texts of about the most bytes, one byte too many among them. */
static void long_texts(void) {
    static uint8_t text[BYTES + 12];
    static const char line[] = "64\tstart\t64\n";
    for (size_t n = 0; n < sizeof text; n++) {
        text[n] = (uint8_t)line[n % 12];
        if (n + 12 > BYTES)
            try_text(text, n + 1);
    }
}

/* Texts of bytes without any sense, short and long. */
static void random_texts(void) {
    static uint8_t text[BYTES + 64];
    for (int round = 0; round < ROUNDS; round++) {
        uint32_t n = below(round % 2 ? 40 : sizeof text);
        text[below(sizeof text)] = (uint8_t)below(256);
        text[below(20)] = (uint8_t)("\t\n0123456789dotakegivestr"[below(24)]);
        try_text(text, n);
    }
}

/* Says what was seen of an entry; answers how many of its tests failed: its bound, its numbers, its calls. */
static int report(enum entry e) {
    int over = known[e].most > known[e].bound;
    int missed = known[e].seen != known[e].numbers;
    int few = e != NOTHING && known[e].calls < ROUNDS;
    printf("%-9s %8zu calls, at most %6zu bytes of stack, bound %6zu\n", known[e].name, known[e].calls, known[e].most,
           known[e].bound);
    if (over)
        printf("%s: the bound is passed\n", known[e].name);
    if (missed)
        printf("%s: the numbers met are %#x, not %#x\n", known[e].name, (unsigned)known[e].seen,
               (unsigned)known[e].numbers);
    if (few)
        printf("%s: too few calls\n", known[e].name);
    return over + missed + few;
}

int main(void) {
    int failed = 0;
    overhead = depth_on(&(struct call){.which = NOTHING}, 0xa5) - 8;
    measure((struct call){.which = NOTHING});
    at_the_limits();
    each_fault();
    at_random();
    long_texts();
    random_texts();
    try_rows();
    for (int e = NOTHING; e < ENTRIES; e++)
        failed += report((enum entry)e);
    printf("%d passed, %d failed\n", 3 * ENTRIES - failed, failed);
    return failed != 0;
}
