/* Measures how much stack each call of the route desk needs, on the largest inputs. Each call runs on a stack of
 * exactly the size that route_desk.h states for it, above closed pages, and in a process of its own, in which memcpy
 * and its like are not bound yet: the dynamic linker's work at their first use is measured too. The stack was painted
 * before, and the lowest place that is not as it was painted shows the need. Fails where a call needs more than is
 * stated, or where the room left is less than a quarter of its need. */
#define _DEFAULT_SOURCE
#include <stdio.h>
#include <stdlib.h>
#include <string.h>
#include <sys/mman.h>
#include <sys/wait.h>
#include <ucontext.h>
#include <unistd.h>

#include "route_desk.h"

enum { PAINT = 0xa5, CLOSED = 1 << 20, STATES = 256, WORKERS = 32, PASSAGES = 4096 };

static void fail(const char *text) {
    fprintf(stderr, "stack: %s\n", text);
    exit(1);
}

/* Memory that the processes share. */
static void *shared(size_t size) {
    void *pages = mmap(NULL, size, PROT_READ | PROT_WRITE, MAP_SHARED | MAP_ANONYMOUS, -1, 0);
    if (pages == MAP_FAILED) {
        fail("no memory");
    }
    return pages;
}

/* ---- Stacks ---- */

struct stack {
    const char *call;
    size_t size;
    unsigned char *low;
};

static struct stack opening = {"desk_open", DESK_STACK_OPEN, NULL};
static struct stack taking = {"desk_take", DESK_STACK_TAKE, NULL};
static struct stack limiting = {"desk_take_limited", DESK_STACK_TAKE, NULL};
static struct stack bringing = {"desk_bring", DESK_STACK_BRING, NULL};
static struct stack serving = {"desk_morning", DESK_STACK_MORNING, NULL};
static struct stack reading = {"desk_path", DESK_STACK_PATH, NULL};
static struct stack drawing = {"desk_map", DESK_STACK_MAP, NULL};
static struct stack placing = {"desk_map_spot", DESK_STACK_MAP, NULL};
static struct stack naming = {"desk_map_state", DESK_STACK_MAP, NULL};
static struct stack printing = {"desk_print", DESK_STACK_PRINT, NULL};
static struct stack unpacking = {"desk_file_read", DESK_STACK_FILE, NULL};
static struct stack packing = {"desk_file_write", DESK_STACK_FILE, NULL};
static struct stack *const stacks[] = {&opening, &taking,  &limiting, &bringing, &serving,   &reading,
                                       &drawing, &placing, &naming,   &printing, &unpacking, &packing};
enum { STACKS = sizeof stacks / sizeof stacks[0] };

static void prepare(struct stack *stack) {
    unsigned char *pages = (unsigned char *)shared(CLOSED + stack->size);
    if (mprotect(pages, CLOSED, PROT_NONE) != 0) {
        fail("no closed pages");
    }
    stack->low = pages + CLOSED;
    /* place by place, since memset would then be bound in every process */
    for (volatile unsigned char *p = stack->low; p < stack->low + stack->size; p++) {
        *p = PAINT;
    }
}

/* Runs a call on its stack, in a process of its own. */
static void on(struct stack *stack, void (*call)(void)) {
    int status = 0;
    pid_t child = fork();
    if (child == 0) {
        ucontext_t here, there;
        if (getcontext(&there) != 0) {
            _exit(2);
        }
        there.uc_stack.ss_sp = stack->low;
        there.uc_stack.ss_size = stack->size;
        there.uc_link = &here;
        makecontext(&there, call, 0);
        _exit(swapcontext(&here, &there) == 0 ? 0 : 2);
    }
    if (child < 0 || waitpid(child, &status, 0) != child || (WIFEXITED(status) && WEXITSTATUS(status) != 0)) {
        fail("no process");
    }
    if (WIFSIGNALED(status)) {
        fprintf(stderr, "stack: %s needs more than %zu bytes\n", stack->call, stack->size);
        exit(1);
    }
}

static size_t need(const struct stack *stack) {
    size_t unused = 0;
    while (unused < stack->size && stack->low[unused] == PAINT) {
        unused += 1;
    }
    return stack->size - unused;
}

/* ---- The largest task: a chain of all states, and dear passages beside it ---- */

static uint32_t passages[3 * PASSAGES], estimates[STATES * STATES], events[3 * STATES];
static size_t worker;

/* What the calls write. */
static struct {
    uint64_t reply;
    uint32_t machine[DESK_ROW];
    uint64_t replies[3 * STATES];
    uint16_t path[DESK_PATH_ROOM];
    uint32_t map_passages[DESK_MAP_PASSAGES_ROOM], map_estimates[DESK_MAP_ESTIMATES_ROOM];
    uint32_t answer;
    uint8_t text[DESK_ROOM];
    size_t text_len;
    uint32_t numbers[DESK_FILE_NUMBERS], file_passages[DESK_FILE_PASSAGES_ROOM];
    uint32_t file_estimates[DESK_FILE_ESTIMATES_ROOM], file_events[DESK_FILE_EVENTS_ROOM];
    uint8_t again[DESK_FILE_ROOM];
} *lent;

static void make_task(void) {
    for (uint32_t i = 0; i < PASSAGES; i++) {
        int in_chain = i < STATES - 1;
        passages[3 * i] = in_chain ? i : i * 7 % STATES;
        passages[3 * i + 1] = in_chain ? i + 1 : i * 13 % STATES;
        passages[3 * i + 2] = in_chain ? 1 : 1000;
    }
}

static void open_task(void) {
    lent->reply = desk_open(STATES, WORKERS, 0, STATES - 1, 100, 100, passages, 3 * PASSAGES, estimates,
                            STATES * STATES, lent->machine, DESK_ROW);
}

static void take(void) {
    lent->reply = desk_take(lent->machine, DESK_ROW, passages, 3 * PASSAGES, estimates, STATES * STATES, worker);
}

static void take_limited(void) {
    lent->reply = desk_take_limited(lent->machine, DESK_ROW, passages, 3 * PASSAGES, estimates, STATES * STATES, worker,
                                    DESK_MOST_COMPARISONS);
}

static void bring(void) {
    lent->reply = desk_bring(lent->machine, DESK_ROW, passages, 3 * PASSAGES, estimates, STATES * STATES, worker);
}

static void serve(void) {
    lent->reply = desk_morning(lent->machine, DESK_ROW, passages, 3 * PASSAGES, estimates, STATES * STATES, events,
                               3 * STATES, lent->replies, 3 * STATES);
}

static void read_path(void) {
    lent->reply = desk_path(lent->machine, DESK_ROW, passages, 3 * PASSAGES, estimates, STATES * STATES, lent->path,
                            DESK_PATH_ROOM, 0);
}

/* The calls did their whole work. */
static void expect(uint64_t reply, unsigned kind, uint32_t value) {
    if (DESK_CASE(reply) != kind || DESK_VALUE(reply) != value) {
        fail("another reply");
    }
}

/* In each round one worker takes the next state of the chain, another waits for it, by either Take, and the first
 * brings. */
static void search(void) {
    on(&opening, open_task);
    expect(lent->reply, DESK_OPENED, 0);
    for (uint32_t s = 0; s < STATES - 1; s++) {
        worker = s % WORKERS;
        on(&taking, take);
        expect(lent->reply, DESK_TOOK, s);
        worker = (s + 1) % WORKERS;
        on(&taking, take);
        expect(lent->reply, DESK_WAIT, s);
        on(&limiting, take_limited);
        expect(lent->reply, DESK_WAIT, s);
        worker = s % WORKERS;
        on(&bringing, bring);
    }
    on(&taking, take);
    expect(lent->reply, DESK_FOUND, STATES - 1);
    on(&reading, read_path);
    expect(lent->reply, DESK_READ, STATES);
}

static void search_in_a_morning(void) {
    on(&opening, open_task);
    for (uint32_t s = 0; s < STATES; s++) {
        events[3 * s] = DESK_TAKE_EVENT(s % WORKERS);
        events[3 * s + 1] = DESK_TAKE_EVENT((s + 1) % WORKERS);
        events[3 * s + 2] = DESK_BRING_EVENT(s % WORKERS);
    }
    on(&serving, serve);
    expect(lent->reply, DESK_DONE, 0);
    expect(lent->replies[3 * (STATES - 1)], DESK_FOUND, STATES - 1);
}

/* ---- The largest map: 256 x 256 cells, of which 16 x 16 are open ---- */

static void draw(void) {
    lent->reply = desk_map(lent->text, lent->text_len, lent->map_passages, DESK_MAP_PASSAGES_ROOM, lent->map_estimates,
                           DESK_MAP_ESTIMATES_ROOM);
}

static void place(void) { lent->answer = desk_map_spot(lent->text, lent->text_len, 255); }

static void name(void) { lent->answer = desk_map_state(lent->text, lent->text_len, 255, 255); }

static void survey(void) {
    lent->text_len = (size_t)sprintf((char *)lent->text, "type octile\nheight 256\nwidth 256\nmap\n");
    for (int row = 0; row < 256; row++) {
        for (int column = 0; column < 256; column++) {
            lent->text[lent->text_len++] = row >= 240 && column >= 240 ? '.' : '@';
        }
        lent->text[lent->text_len++] = '\n';
    }
    on(&drawing, draw);
    if (DESK_MAP_CELLS(lent->reply) != 256 || DESK_MAP_PASSAGES(lent->reply) != 1860) {
        fail("another map");
    }
    on(&placing, place);
    if (lent->answer != 255u * 65536u + 255u) {
        fail("another spot");
    }
    on(&naming, name);
    if (lent->answer != 255) {
        fail("another state");
    }
}

/* ---- The largest file: 65,536 bytes with 63 states, 512 passages and 7,187 calls ---- */

static uint8_t file[65536];
static size_t file_len;

static void put(unsigned bytes, uint32_t number) {
    for (; bytes > 0; bytes--) {
        file[file_len++] = (uint8_t)number;
        number >>= 8;
    }
}

static void make_file(void) {
    static const uint16_t head[6] = {63, 32, 0, 62, 100, 100};
    put(2, 12);
    put(2, 1);
    for (int i = 0; i < 6; i++) {
        put(2, head[i]);
    }
    for (uint32_t i = 0; i < 512; i++) {
        int in_chain = i < 62;
        put(2, 8);
        put(2, 2);
        put(2, in_chain ? i : i * 7 % 63);
        put(2, in_chain ? i + 1 : i * 13 % 63);
        put(4, in_chain ? 1 : 1000);
    }
    for (uint32_t row = 0; row < 63; row++) {
        put(2, 2 + 4 * 63);
        put(2, 3);
        put(2, row);
        for (int i = 0; i < 63; i++) {
            put(4, 0);
        }
    }
    for (uint32_t i = 0; i < 7187; i++) {
        put(2, 2);
        put(2, 4);
        put(1, i % 3 == 2);
        put(1, (i / 3 + (i % 3 == 1)) % WORKERS);
    }
}

static void unpack(void) {
    lent->reply = desk_file_read(file, file_len, lent->numbers, DESK_FILE_NUMBERS, lent->file_passages,
                                 DESK_FILE_PASSAGES_ROOM, lent->file_estimates, DESK_FILE_ESTIMATES_ROOM,
                                 lent->file_events, DESK_FILE_EVENTS_ROOM);
}

static void pack(void) {
    lent->reply = desk_file_write(63, 32, 0, 62, 100, 100, lent->file_passages, 3 * 512, lent->file_estimates, 63 * 63,
                                  lent->file_events, 7187, lent->again, DESK_FILE_ROOM);
}

static void copy_file(void) {
    on(&unpacking, unpack);
    if (lent->reply != 0 || lent->numbers[6] != 512 || lent->numbers[7] != 7187) {
        fail("another reading");
    }
    on(&packing, pack);
    if (DESK_FILE_LENGTH(lent->reply) != sizeof file || memcmp(lent->again, file, sizeof file) != 0) {
        fail("another file");
    }
}

static void print(void) { lent->text_len = desk_print(file, file_len, lent->text, DESK_ROOM); }

static void print_file(void) {
    make_file();
    on(&printing, print);
    lent->text[lent->text_len] = 0;
    if (file_len != sizeof file || strstr((char *)lent->text, "\nfound 30 62\npath 0 1 2 ") == NULL) {
        fail("another text");
    }
}

int main(void) {
    int failed = 0;
    for (int i = 0; i < STACKS; i++) {
        prepare(stacks[i]);
    }
    lent = shared(sizeof *lent);
    make_task();
    search();
    search_in_a_morning();
    survey();
    print_file();
    copy_file();
    for (int i = 0; i < STACKS; i++) {
        size_t bytes = need(stacks[i]);
        int tight = bytes + bytes / 4 > stacks[i]->size;
        printf("stack: %s needs %zu of the %zu bytes stated%s\n", stacks[i]->call, bytes, stacks[i]->size,
               tight ? ", which leaves too little room" : "");
        failed |= tight;
    }
    return failed;
}
