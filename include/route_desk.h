/* The route desk for C and C++ on x86-64 Linux: link with libdeskc.a (rt staticlib deskc).
 *
 * A machine is a row of DESK_ROW numbers of 32 bits, which the caller keeps and lends:
 *
 *     [0] n   [1] k   [2] start   [3] goal   [4] W   [5] E   [6] phase: 0 searching, 1 found, 2 no path
 *     [7 .. 262]    for each state a mark: 0 unseen, 1 open, 2 out, 3 finished
 *     [263 .. 518]  for each state a label
 *     [519 .. 774]  for each state the number of the passage that the label came by; DESK_NONE: none
 *     [775 .. 806]  for each worker the state that it holds; DESK_NONE: nothing
 *     [807 .. 1318] for each state its key, 100 * label + W * h(state, goal); 0 where the state is unseen. A key has 64
 *                   bits and takes two places, its low half first: DESK_KEY reads it
 *
 * A task's passages are three numbers each (from, to, cost); its estimates are n x n numbers, h(a,b) at a * n + b.
 * Cost DESK_BLOCKED marks a blocked passage, which keeps its number but is no part of any route.
 *
 * Lend the same passages and estimates at every call on a machine. No call compares them with those that desk_open was
 * given: with one cost changed in between nothing refuses, and the path found need no longer be within E of the best.
 * (An estimate to the goal that was changed may be seen: the stored key of a state no longer fits it, and 8 comes.)
 *
 * Replies. Every call on a machine returns its reply's case times 2^32, plus the number that the reply carries: read
 * them with DESK_CASE and DESK_VALUE. desk_take_limited adds the comparisons that it made, times 2^40: read them with
 * DESK_COMPARISONS. Whatever numbers a row and the slices hold, the reply is a defined one. No number of a parameter is
 * cut: what is out of range is refused, however large it is (W 65636 with 3).
 *
 * Refusals, each call's in this order:
 *
 *     1  n not 1 to 256, k not 1 to 32, passages not a multiple of 3 or above 12288 numbers, estimates not n x n
 *     2  start or goal not below n
 *     3  E not 100 to 10000, or W above E
 *     4  a passage's end not below n, or its cost above 1000000 and not DESK_BLOCKED
 *     5  an estimate above 255000000, or h(a,a) not 0
 *     6  h(a,b) above the cost of a passage from a to b that isn't blocked
 *     7  h(a,c) above h(a,b) + h(b,c)
 *     8  the row holds no machine: its length isn't DESK_ROW, or a number is too large for its field (W, E, passage
 *        numbers and held states above 65535, marks and phase above 255); or machine and slices don't fit: one of 1 to
 *        4 applies to them, a key of a state below n isn't as above, a mark isn't 0 to 3, the phase isn't 0 to 2,
 *        a label is above 255000000, a worker holds a state that isn't out, or an out state hasn't exactly one holder
 *     9  worker not below k
 *    10  the phase isn't 0
 *    11  Take: the worker holds a state already; Bring: it holds none
 *    12  nothing is out, and no open state is safe (never of a machine that desk_open and calls led to)
 *    13  the phase isn't 1
 *    14  the passage numbers don't lead from the goal back to the start, one is blocked, or labels don't add up
 *    15  the path has more states than there are places from `at` on
 *    16  fewer places than events
 *    18  an event that is neither Take nor Bring
 *
 * A refused call leaves the row, a buffer and a row of replies as they were. Only desk_open differs: refused with 1 to
 * 7 it hands back no machine, and all DESK_ROW numbers of the row are 0. A row of another length it refuses with 8,
 * before all else, and leaves as it was.
 *
 * Lent memory. A slice is a pointer and a count of its elements, neither of bytes nor of passages. The pointer is
 * aligned as C asks for its type, and so many elements are there; where the count is 0, nothing is read or written, and
 * the pointer may be NULL. A slice that a call writes to overlaps with no other slice of that call.
 *
 * Threads. The library has no variables and keeps nothing between calls; it allocates nothing and makes no system call.
 * Calls on different rows may run at the same time, also with the same passages and estimates while nobody changes
 * them. A row, a buffer or another slice that a call writes to belongs to that call until it returns.
 *
 * Stack. A call needs at most DESK_STACK_.. bytes of stack below its caller's frame, whatever it is given: what was
 * measured, the dynamic linker's work at a first call included, and a quarter of that or more besides. A thread needs
 * more than its calls do: the C library keeps records of its own there, and signal handlers run there.
 */
#ifndef ROUTE_DESK_H
#define ROUTE_DESK_H

#include <stddef.h>
#include <stdint.h>

#ifdef __cplusplus
extern "C" {
#endif

#define DESK_ROW 1319            /* numbers of a machine's row */
#define DESK_NONE 65535u         /* no passage; holds nothing */
#define DESK_BLOCKED 4294967295u /* the cost of a blocked passage */

#define DESK_STACK_OPEN 16384
#define DESK_STACK_TAKE 24576 /* desk_take, desk_take_limited */
#define DESK_STACK_BRING 32768
#define DESK_STACK_MORNING 32768
#define DESK_STACK_PATH 24576
#define DESK_STACK_MAP 8192 /* desk_map, desk_map_spot, desk_map_state */
#define DESK_STACK_PRINT 131072
#define DESK_STACK_FILE 1024 /* desk_file_read, desk_file_write */

/* The cases of a reply, with the number that each carries. */
enum {
    DESK_OPENED = 0,  /* opening accepted the task */
    DESK_TOOK = 1,    /* the state taken */
    DESK_BROUGHT = 2, /* how many times a label was set or lowered */
    DESK_FOUND = 3,   /* the cost of the path */
    DESK_NOPATH = 4,
    DESK_WAIT = 5,    /* the state waited for */
    DESK_READ = 6,    /* how many states the path has */
    DESK_REFUSED = 7, /* the refusal's number, 1 to 18 */
    DESK_DONE = 8,    /* a morning's events were served */
    DESK_CUT = 9      /* the limit at which a limited Take was cut short */
};

#define DESK_CASE(reply) ((unsigned)((reply) >> 32) & 255u)
#define DESK_VALUE(reply) ((uint32_t)(reply))
#define DESK_COMPARISONS(reply) ((uint32_t)((reply) >> 40)) /* 0 where another call replied */

/* The key of a state, 0 to 255, in a machine's row, and the place of its low half; the high half stands behind it. */
#define DESK_KEY_PLACE(state) (807 + 2 * (size_t)(state))
#define DESK_KEY(machine, state) \
    ((uint64_t)(machine)[DESK_KEY_PLACE(state)] | (uint64_t)(machine)[DESK_KEY_PLACE(state) + 1] << 32)

/* Opens a task: the machine's row is written whole. Opened, or refused with 8 (the row's length), then 1 to 7. */
uint64_t desk_open(size_t n, size_t k, size_t start, size_t goal, size_t w, size_t e,
                   const uint32_t *passages, size_t passages_len,
                   const uint32_t *estimates, size_t estimates_len,
                   uint32_t *machine, size_t machine_len);

/* A worker asks for a state: Took, Found, NoPath, Wait, or refused with 8 to 12. */
uint64_t desk_take(uint32_t *machine, size_t machine_len,
                   const uint32_t *passages, size_t passages_len,
                   const uint32_t *estimates, size_t estimates_len, size_t worker);

/* A worker asks for a state, which is chosen with fewer comparisons: an open state is compared only with states that
 * are out or have a smaller key. Took, Found, NoPath, Wait, Cut, or refused with 8 to 11. DESK_COMPARISONS says how
 * many comparisons were made; 0 where it was refused. Where more than `limit` would be, the reply is Cut with the
 * limit, so many were made, and the row is as it was. No machine takes more than DESK_MOST_COMPARISONS: a limit that
 * large, or larger, never cuts.
 * On a task that desk_open accepted, and a row that desk_open and calls with the same slices led to, every reply but
 * Cut is desk_take's, and so is the row. */
#define DESK_MOST_COMPARISONS 65280
uint64_t desk_take_limited(uint32_t *machine, size_t machine_len,
                           const uint32_t *passages, size_t passages_len,
                           const uint32_t *estimates, size_t estimates_len, size_t worker, size_t limit);

/* A worker brings back what its state's passages lead to: Brought, or refused with 8 to 11. */
uint64_t desk_bring(uint32_t *machine, size_t machine_len,
                    const uint32_t *passages, size_t passages_len,
                    const uint32_t *estimates, size_t estimates_len, size_t worker);

/* Reads the path into buffer from the place `at` on, start first: Read, or refused with 8, 13, 14 or 15. Places before
 * `at` and after the path keep what they had. No path has more than DESK_PATH_ROOM states. */
#define DESK_PATH_ROOM 256
uint64_t desk_path(const uint32_t *machine, size_t machine_len,
                   const uint32_t *passages, size_t passages_len,
                   const uint32_t *estimates, size_t estimates_len,
                   uint16_t *buffer, size_t buffer_len, size_t at);

/* Serves a morning's events one after the other and writes a reply for each to the front of replies: Done, or refused
 * with 16, 18 or 8 (the row holds no machine), in this order. Replies and machine are those of the calls made singly,
 * refused ones included; places past the last event keep what they had. An event is 65536 * call + worker, call 0 for
 * Take and 1 for Bring, so that a worker above 65535 would make it another event: DESK_TAKE_EVENT and DESK_BRING_EVENT
 * write 65535 for such a one, who is refused with 9 too. They name their argument more than once. */
#define DESK_TAKE_EVENT(worker) ((uint32_t)((size_t)(worker) < 65535u ? (size_t)(worker) : 65535u))
#define DESK_BRING_EVENT(worker) (65536u + DESK_TAKE_EVENT(worker))
uint64_t desk_morning(uint32_t *machine, size_t machine_len,
                      const uint32_t *passages, size_t passages_len,
                      const uint32_t *estimates, size_t estimates_len,
                      const uint32_t *events, size_t events_len,
                      uint64_t *replies, size_t replies_len);

/* Reads the text of a grid map (`type octile`, at most 256 x 256 cells) into a task's passages and estimates, which go
 * to the fronts of the two slices; places past them keep what they had. The task's n is the count of open cells; its
 * states are these cells, row by row. Refused, it leaves both slices as they were: 31 header, 32 row length, row count
 * or character, 33 no open cell or more than 256, 34 a slice too short; the two .._ROOMs are enough for any map.
 * desk_open, with n, and 3 * passages and n * n as the slices' lengths, refuses no such task for 4 to 7.
 * It returns the count of cells times 2^32, plus that of passages; or the refusal's number alone. That is no reply of a
 * machine, and DESK_CASE misreads it: read it with these three, two of which name their argument more than once. */
#define DESK_MAP_PASSAGES_ROOM 6144
#define DESK_MAP_ESTIMATES_ROOM 65536
#define DESK_MAP_CELLS(reply) ((uint32_t)((reply) >> 32))                              /* 0 where it was refused */
#define DESK_MAP_PASSAGES(reply) (DESK_MAP_CELLS(reply) != 0 ? (uint32_t)(reply) : 0u) /* 0 where it was refused */
#define DESK_MAP_REFUSAL(reply) (DESK_MAP_CELLS(reply) != 0 ? 0u : (uint32_t)(reply))  /* 0 where it was read */
uint64_t desk_map(const uint8_t *text, size_t text_len,
                  uint32_t *passages, size_t passages_len,
                  uint32_t *estimates, size_t estimates_len);

/* Where a map's state lies, row times 65536 plus column, both from 0. DESK_NO_SPOT where the text is no map (desk_map
 * would refuse it with 31 to 33) or has no such state. */
#define DESK_NO_SPOT 4294967295u
uint32_t desk_map_spot(const uint8_t *text, size_t text_len, size_t state);

/* The state of the open cell at a row and column of a map. DESK_NO_STATE where the text is no map, or no open cell is
 * there. */
#define DESK_NO_STATE 65535u
uint32_t desk_map_state(const uint8_t *text, size_t text_len, size_t row, size_t column);

/* What deskrun prints for a task file: the text goes to the front of text, and its length is returned; 0 for a file
 * without calls, for which deskrun prints nothing. Where text has fewer than DESK_ROOM places nothing is written, and 0
 * is returned. */
#define DESK_ROOM 589824
size_t desk_print(const uint8_t *file, size_t file_len, uint8_t *text, size_t text_len);

/* Task files. A file carries a task of at most 64 states and 512 passages, and a list of events as desk_morning takes
 * them. What the two calls below return is no reply of a machine, and DESK_CASE misreads it: read it with these three.
 * This reads a file, opens its task, and writes the file again, with the same bytes:
 *
 *     uint32_t numbers[DESK_FILE_NUMBERS], passages[DESK_FILE_PASSAGES_ROOM], estimates[DESK_FILE_ESTIMATES_ROOM];
 *     uint32_t events[DESK_FILE_EVENTS_ROOM], machine[DESK_ROW];
 *     uint8_t again[DESK_FILE_ROOM];
 *     uint64_t reply = desk_file_read(file, file_len, numbers, DESK_FILE_NUMBERS, passages, DESK_FILE_PASSAGES_ROOM,
 *                                     estimates, DESK_FILE_ESTIMATES_ROOM, events, DESK_FILE_EVENTS_ROOM);
 *     if (DESK_FILE_REFUSAL(reply) == 0) {
 *         size_t n = numbers[0], passages_len = 3 * numbers[6], events_len = numbers[7];
 *         reply = desk_open(n, numbers[1], numbers[2], numbers[3], numbers[4], numbers[5], passages, passages_len,
 *                           estimates, n * n, machine, DESK_ROW);
 *         (the search: desk_morning with the events read, or other calls)
 *         reply = desk_file_write(n, numbers[1], numbers[2], numbers[3], numbers[4], numbers[5], passages,
 *                                 passages_len, estimates, n * n, events, events_len, again, DESK_FILE_ROOM);
 *     }
 */
#define DESK_FILE_REFUSAL(reply) ((unsigned)((reply) >> 32)) /* 0 where a file was read or written */
#define DESK_FILE_OFFSET(reply) ((uint32_t)(reply))          /* of a fault; 0 where the file was read */
#define DESK_FILE_LENGTH(reply) ((size_t)(uint32_t)(reply))  /* of the file written; 0 where it was refused */

/* Reads a task file. n, k, start, goal, W, E, the count of passages and the count of events go to the front of numbers,
 * in this order; the passages, three numbers each, the n x n estimates and the events go to the fronts of the three
 * slices. Places past them keep what they had; the three .._ROOMs are enough for any file. The numbers are as they
 * stand in the file: whether the task may be opened is asked by desk_open, and whether a worker may call by the call.
 * It returns 0. Refused, it leaves all four as they were, and returns the refusal's number times 2^32, plus an offset,
 * that of the record's first byte where no other is named:
 *
 *    21  fewer bytes left than length and kind take, or than the length then asks for, or the file ends before the head
 *        and all rows are there (offset: the file's length)
 *    22  unknown kind, payload length wrong for its kind, kind or row out of order (a kind 4 before the last row too),
 *        call above 1
 *    23  n not 1 to 64, or a 513th passage; or a file above 65536 bytes (offset: 65536)
 *    27  numbers shorter than DESK_FILE_NUMBERS, or another slice too short for the passages, estimates or events read
 *        (offset: 0)
 *
 * In this order: 27 for numbers, 23 for a file's length; record by record 21, 22 and 23; 27 for the other slices. */
#define DESK_FILE_NUMBERS 8
#define DESK_FILE_PASSAGES_ROOM 1536
#define DESK_FILE_ESTIMATES_ROOM 4096
#define DESK_FILE_EVENTS_ROOM 10918
uint64_t desk_file_read(const uint8_t *file, size_t file_len,
                        uint32_t *numbers, size_t numbers_len,
                        uint32_t *passages, size_t passages_len,
                        uint32_t *estimates, size_t estimates_len,
                        uint32_t *events, size_t events_len);

/* Writes a task and a list of events as a task file to the front of buffer; the bytes after it keep what they had. No
 * file has more than DESK_FILE_ROOM bytes. Any task is written that a file can carry, also one that desk_open refuses.
 * It returns the file's length. Refused, it leaves buffer as it was, and returns the refusal's number times 2^32; the
 * first of these that applies:
 *
 *    24  a task or event that the file can't carry: n not 1 to 64, passages not a multiple of 3 or above 512 passages,
 *        estimates not n x n, a field above its bytes (k, start, goal, w, e or a passage's end above 65535, an event's
 *        worker above 255), an event neither Take nor Bring
 *    25  a file above 65536 bytes
 *    26  buffer too short */
#define DESK_FILE_ROOM 65536
uint64_t desk_file_write(size_t n, size_t k, size_t start, size_t goal, size_t w, size_t e,
                         const uint32_t *passages, size_t passages_len,
                         const uint32_t *estimates, size_t estimates_len,
                         const uint32_t *events, size_t events_len,
                         uint8_t *buffer, size_t buffer_len);

#ifdef __cplusplus
}
#endif

#endif
