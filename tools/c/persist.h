/* persist.h: programs over linked records, fully persistent, in the caller's own process.
 *
 * A session is a program with its versions. Its memory is the library's own, and is never handed out: bytes and numbers are copied to where
 * the caller says. What holds for every function:
 *
 * - `p` points to a `persist` that was begun as `persist p = {0};`, was changed by these functions alone, and was not copied. `{0}` holds no session.
 * - Each other pointer leads to so many bytes, numbers or values as the length beside it says, which nothing else reads or writes meanwhile, and
 *   which do not overlap. It is not null, also where the length is 0.
 * - A `persist` is used by the thread that opened its session. Others may have sessions of their own.
 * - A call needs 256 KiB of stack: the deepest program took less than 192.
 * - A call never ends the process, prints nothing, and starts nothing. It asks for memory by `malloc` and `realloc`, and answers
 *   PERSIST_NO_MEMORY where these give none.
 */
#ifndef PERSIST_H
#define PERSIST_H
#include <stddef.h>
#include <stdint.h>
#ifdef __cplusplus
extern "C" {
#endif

typedef struct persist { void *at; } persist;

/* What a function returns. */
enum persist_status {
    PERSIST_DONE = 0,
    PERSIST_REFUSED = 4,   /* the program or the image is refused; or there is no image, since more was counted than one can hold */
    PERSIST_TOO_LONG = 5,  /* the program has 4,294,967,295 bytes or more */
    PERSIST_NO_MEMORY = 6, /* after a line or a call: the session is gone; after a question or an image: it is as before */
    PERSIST_CLOSED = 8     /* `p` holds no session, and nothing was done */
};

/* What a reply is. */
enum persist_kind {
    PERSIST_VERSION, PERSIST_ANSWER, PERSIST_TRAPPED, PERSIST_OPENED, PERSIST_RUNNING, PERSIST_FINISHED, PERSIST_DROPPED, PERSIST_BUDGET,
    PERSIST_VERSIONS, PERSIST_STATS,
    PERSIST_LINE_REFUSED = 11,
    PERSIST_NOTHING = 12 /* the line has no reply: it has no word, or the first one begins with # */
};

/* Why a run or a query was trapped, and why a line is refused. */
enum persist_trap { PERSIST_NULL, PERSIST_INDEGREE, PERSIST_INDEX, PERSIST_OVERFLOW, PERSIST_DIVIDE, PERSIST_BUDGET_SPENT, PERSIST_DEPTH, PERSIST_OUTPUT };
enum persist_refusal {
    PERSIST_NO_FORM, PERSIST_NUMBER, PERSIST_NAME, PERSIST_ARGUMENTS, PERSIST_NO_VERSION, PERSIST_NO_RUN, PERSIST_RUNS, PERSIST_RUNS_OPEN, PERSIST_CALLS
};

typedef struct persist_reply {
    uint32_t kind;   /* one of persist_kind */
    uint32_t detail; /* of PERSIST_TRAPPED one of persist_trap, of PERSIST_LINE_REFUSED one of persist_refusal; else 0 */
    uint64_t number; /* the version; the run; the line of the program where it was trapped; the charges of the budget; else 0 */
    size_t printed;  /* how many numbers were printed: persist_printed gives them */
    size_t length;   /* how many bytes its text has: persist_text gives them. 0 of persist_run and persist_query, which make no text */
} persist_reply;

/* Opens a session of the program with this text; one that `p` holds is closed first. Where the program is refused, the line that says why, such as
   "refused type at 3\n", is copied to `fault`, as much as there is room for, and `fault_length` is how much that is: 64 bytes hold each. */
int32_t persist_open(persist *p, const uint8_t *text, size_t length, uint8_t *fault, size_t room, size_t *fault_length);

/* Opens a session that goes on from the image at the front of the bytes, and says how many bytes that image has; one that `p` holds is closed first.
   Where the image is refused, `rule` is the number of the first rule that fails, 0 to 9. */
int32_t persist_resume(persist *p, const uint8_t *image, size_t length, size_t *used, uint32_t *rule);

/* Carries a line of a script out, without its line feed. */
int32_t persist_line(persist *p, const uint8_t *line, size_t length, persist_reply *reply);

/* The same as the lines `run VERSION NAME ARGUMENTS..` and `query ..`, without a line and without a text. */
int32_t persist_run(persist *p, uint32_t version, const uint8_t *name, size_t length, const int64_t *arguments, size_t count, persist_reply *reply);
int32_t persist_query(persist *p, uint32_t version, const uint8_t *name, size_t length, const int64_t *arguments, size_t count, persist_reply *reply);

/* Copies from what was made last, a reply's text, an answer or an image: from the byte `from` on, as much as there is room for. Returns how much. */
size_t persist_text(persist *p, size_t from, uint8_t *out, size_t room);

/* Copies from the numbers that the last line or call printed, in the same way. */
size_t persist_printed(persist *p, size_t from, int64_t *out, size_t room);

/* Makes what `dump VERSION` or `changed VERSION PATH` writes, and says how many bytes it has. The versions stay as they are. */
int32_t persist_dump(persist *p, uint32_t version, size_t *length);
int32_t persist_changed(persist *p, uint32_t version, const uint8_t *path, size_t path_length, size_t *length);

/* Makes the image of all versions, and says how many bytes it has. Open runs are not in it. */
int32_t persist_image(persist *p, size_t *length);

/* Closes the session, if `p` holds one. A session is closed once; further calls find none. */
void persist_close(persist *p);

#ifdef __cplusplus
}
#endif
#endif
