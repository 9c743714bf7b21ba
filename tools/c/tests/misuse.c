/* What a host may do wrong or half, and memory that ends: tests/misuse.c, by itself, under ASan and by valgrind. Linked to libpersist.a with
 * -Wl,--wrap=malloc,--wrap=realloc,--wrap=free, so that each growth of the library's memory can be refused and each block is counted. */
#include "persist.h"
#include <pthread.h>
#include <stdatomic.h>
#include <stdbool.h>
#include <stdio.h>
#include <stdlib.h>
#include <string.h>

#define TEXT(text) (const uint8_t *)(text), sizeof(text) - 1
#define EXPECT(what) expect((what), #what, __LINE__)
enum { SESSIONS = 10000, CALLS = 20000 };

static const char PROGRAM[] =
    "record Letter 2 { val code: int; ptr next: Letter; }\nroot text: Letter;\n"
    "proc key(code: int) { var n: Letter; n = new Letter; n.code = code; n.next = text; text = n; }\n"
    "proc loop(n: int) { while n > 0 { n = n - 1; } }\n"
    "query all() { var at: Letter; at = text; while at != null { print at.code; at = at.next; } }\n";

void *__real_malloc(size_t size);
void *__real_realloc(void *at, size_t size);
void __real_free(void *at);
static atomic_long blocks, asked, refused_at;

static bool refused(void) {
    long n = atomic_fetch_add(&asked, 1) + 1, at = atomic_load(&refused_at);
    return at > 0 && n >= at;
}

void *__wrap_malloc(size_t size) {
    void *at = refused() ? NULL : __real_malloc(size);
    if (at) atomic_fetch_add(&blocks, 1);
    return at;
}

void *__wrap_realloc(void *old, size_t size) {
    void *at = refused() ? NULL : __real_realloc(old, size);
    if (at && !old) atomic_fetch_add(&blocks, 1);
    return at;
}

void __wrap_free(void *at) {
    if (at) atomic_fetch_sub(&blocks, 1);
    __real_free(at);
}

static void expect(bool holds, const char *what, int line) {
    if (holds) return;
    printf("line %d: it does not hold that %s\n", line, what);
    exit(1);
}

static int32_t open_on(persist *p, const uint8_t *text, size_t length) {
    uint8_t fault[64];
    size_t fault_length = 0;
    return persist_open(p, text, length, fault, sizeof fault, &fault_length);
}

/* Whether a line is answered by this text. */
static bool says(persist *p, const uint8_t *line, size_t length, const char *wanted) {
    uint8_t text[256];
    persist_reply reply;
    if (persist_line(p, line, length, &reply) != PERSIST_DONE || reply.length != strlen(wanted)) return false;
    return persist_text(p, 0, text, sizeof text) == reply.length && !memcmp(text, wanted, reply.length);
}

/* A handle without a session answers, and nothing is written. */
static void test_closed(persist *p) {
    persist_reply reply = {.kind = 77};
    size_t length = 7;
    uint8_t out[4] = "abc";
    int64_t number = 5;
    EXPECT(persist_line(p, TEXT("run 0 key 1"), &reply) == PERSIST_CLOSED);
    EXPECT(persist_run(p, 0, TEXT("key"), &number, 1, &reply) == PERSIST_CLOSED);
    EXPECT(persist_query(p, 0, TEXT("all"), &number, 0, &reply) == PERSIST_CLOSED);
    EXPECT(persist_dump(p, 0, &length) == PERSIST_CLOSED);
    EXPECT(persist_changed(p, 0, TEXT("text.code"), &length) == PERSIST_CLOSED);
    EXPECT(persist_image(p, &length) == PERSIST_CLOSED);
    EXPECT(persist_text(p, 0, out, sizeof out) == 0 && persist_printed(p, 0, &number, 1) == 0);
    EXPECT(reply.kind == 77 && length == 7 && number == 5 && !memcmp(out, "abc", 4));
    persist_close(p);
    persist_close(p);
}

static void test_opening(void) {
    persist p = {0};
    uint8_t fault[64], none[1] = {9};
    size_t length = 0;
    test_closed(&p);
    EXPECT(persist_open(&p, TEXT("root n: int;\nroot n: int;\n"), fault, sizeof fault, &length) == PERSIST_REFUSED);
    EXPECT(length > 14 && !memcmp(fault, "refused ", 8) && !memcmp(fault + length - 6, " at 2\n", 6));
    EXPECT(persist_open(&p, TEXT("root n"), none, 0, &length) == PERSIST_REFUSED && length == 0 && none[0] == 9);
    test_closed(&p);
    EXPECT(open_on(&p, none, 0) == PERSIST_DONE);
    EXPECT(says(&p, none, 0, "") && says(&p, TEXT("# nothing"), "") && says(&p, TEXT("versions"), "0\n") && says(&p, TEXT("now"), "refused line\n"));
    EXPECT(open_on(&p, TEXT(PROGRAM)) == PERSIST_DONE);
    EXPECT(says(&p, TEXT("run 0 key 104"), "version 1\n") && says(&p, TEXT("query 1 all"), "| 104\nok\n"));
    size_t used = 3;
    uint32_t rule = 9;
    EXPECT(persist_resume(&p, TEXT("no image"), &used, &rule) == PERSIST_REFUSED && rule == 0 && used == 3);
    test_closed(&p);
}

/* A run is open and a reply unread when the session goes. */
static void test_dropped(void) {
    persist p = {0};
    EXPECT(open_on(&p, TEXT(PROGRAM)) == PERSIST_DONE);
    EXPECT(says(&p, TEXT("open 0 key 1"), "run 1\n") && says(&p, TEXT("step 1 2"), "run 1 running\n"));
    persist_reply reply;
    EXPECT(persist_line(&p, TEXT("versions"), &reply) == PERSIST_DONE);
    persist_close(&p);
    test_closed(&p);
}

static void test_pieces(void) {
    persist p = {0};
    persist_reply reply;
    EXPECT(open_on(&p, TEXT(PROGRAM)) == PERSIST_DONE);
    for (uint32_t version = 0; version < 20; version++) {
        int64_t code = -(int64_t)version;
        EXPECT(persist_run(&p, version, TEXT("key"), &code, 1, &reply) == PERSIST_DONE && reply.kind == PERSIST_VERSION && reply.number == version + 1);
    }
    EXPECT(persist_line(&p, TEXT("query 20 all"), &reply) == PERSIST_DONE && reply.printed == 20);
    uint8_t whole[256], part[256];
    EXPECT(persist_text(&p, 0, whole, sizeof whole) == reply.length);
    for (size_t piece = 1; piece <= reply.length + 1; piece++) {
        memset(part, 0, sizeof part);
        for (size_t from = 0; from < reply.length; from += piece) {
            size_t left = reply.length - from;
            EXPECT(persist_text(&p, from, part + from, piece) == (left < piece ? left : piece));
        }
        EXPECT(!memcmp(whole, part, sizeof part - 1 < reply.length ? sizeof part - 1 : reply.length));
    }
    EXPECT(persist_text(&p, reply.length, part, sizeof part) == 0 && persist_text(&p, SIZE_MAX, part, sizeof part) == 0);
    int64_t numbers[21];
    EXPECT(persist_printed(&p, 3, numbers, 21) == 17 && numbers[0] == -16 && persist_printed(&p, 0, numbers, 0) == 0);
    EXPECT(persist_run(&p, 99, TEXT("key"), numbers, 1, &reply) == PERSIST_DONE && reply.kind == PERSIST_LINE_REFUSED && reply.detail == PERSIST_NO_VERSION);
    EXPECT(persist_query(&p, 0, TEXT("a b"), numbers, 0, &reply) == PERSIST_DONE && reply.kind == PERSIST_LINE_REFUSED && reply.detail == PERSIST_NAME);
    EXPECT(persist_run(&p, 0, TEXT("key"), numbers, 21, &reply) == PERSIST_DONE && reply.kind == PERSIST_LINE_REFUSED && reply.detail == PERSIST_ARGUMENTS);
    persist_close(&p);
}

static void test_many(void) {
    static persist all[SESSIONS];
    for (int i = 0; i < SESSIONS; i++) EXPECT(open_on(&all[i], TEXT(PROGRAM)) == PERSIST_DONE);
    for (int i = 0; i < SESSIONS; i++) EXPECT(says(&all[i], TEXT("run 0 key 7"), "version 1\n"));
    for (int i = 0; i < SESSIONS; i++) EXPECT(says(&all[i], TEXT("query 1 all"), "| 7\nok\n"));
    for (int i = 0; i < SESSIONS; i++) persist_close(&all[i]);
}

/* A session of its own thread, and of no other. */
static void *work(void *wanted) {
    persist p = {0};
    char text[32];
    EXPECT(open_on(&p, TEXT(PROGRAM)) == PERSIST_DONE);
    int64_t code = *(int *)wanted;
    persist_reply reply;
    EXPECT(persist_run(&p, 0, TEXT("key"), &code, 1, &reply) == PERSIST_DONE);
    snprintf(text, sizeof text, "| %d\nok\n", *(int *)wanted);
    for (int i = 0; i < CALLS; i++) EXPECT(says(&p, TEXT("query 1 all"), text));
    persist_close(&p);
    return NULL;
}

static void test_threads(void) {
    pthread_t threads[2];
    pthread_attr_t stack;
    int numbers[2] = {11, 12};
    pthread_attr_init(&stack);
    pthread_attr_setstacksize(&stack, 256 << 10);
    for (int i = 0; i < 2; i++) EXPECT(!pthread_create(&threads[i], &stack, work, &numbers[i]));
    for (int i = 0; i < 2; i++) EXPECT(!pthread_join(threads[i], NULL));
    pthread_attr_destroy(&stack);
}

/* All that a session does once, as far as there is memory. Whether there was enough. */
static bool all_once(void) {
    persist p = {0}, q = {0};
    persist_reply reply;
    static uint8_t image[4096];
    size_t length = 0, used = 0;
    uint32_t rule;
    int64_t code = 5;
    int32_t status = open_on(&p, TEXT(PROGRAM));
    if (!status) status = persist_line(&p, TEXT("run 0 key 104"), &reply);
    if (!status) status = persist_run(&p, 1, TEXT("key"), &code, 1, &reply);
    if (!status) status = persist_line(&p, TEXT("open 2 loop 9"), &reply);
    if (!status) status = persist_line(&p, TEXT("query 2 all"), &reply);
    if (!status) status = persist_query(&p, 2, TEXT("all"), &code, 0, &reply);
    if (!status) status = persist_line(&p, TEXT("versions"), &reply);
    if (status) {
        EXPECT(status == PERSIST_NO_MEMORY && persist_dump(&p, 0, &length) == PERSIST_CLOSED);
        return false;
    }
    for (int each = 0; each < 3 && !status; each++) {
        status = each == 0 ? persist_dump(&p, 2, &length) : each == 1 ? persist_changed(&p, 2, TEXT("text.next.code"), &length) : persist_image(&p, &length);
    }
    if (!status) {
        EXPECT(persist_text(&p, 0, image, sizeof image) == length);
        status = persist_resume(&q, image, length, &used, &rule);
        EXPECT(status ? status == PERSIST_NO_MEMORY : used == length);
        if (status) test_closed(&q);
    }
    /* What lacked memory has changed nothing. */
    EXPECT(status == PERSIST_DONE || status == PERSIST_NO_MEMORY);
    refused_at = 0;
    EXPECT(says(&p, TEXT("query 2 all"), "| 5\n| 104\nok\n"));
    persist_close(&p);
    persist_close(&q);
    return !status;
}

/* Each growth of memory in turn is refused, with all behind it. */
static long test_memory(void) {
    for (long at = 1;; at++) {
        long before = blocks;
        asked = 0;
        refused_at = at;
        bool enough = all_once();
        refused_at = 0;
        EXPECT(blocks == before);
        if (enough) return at - 1;
    }
}

int main(void) {
    setvbuf(stdout, NULL, _IONBF, 0);
    long before = blocks;
    test_opening();
    test_dropped();
    test_pieces();
    test_many();
    EXPECT(blocks == before);
    long growths = test_memory();
    test_threads();
    printf("all holds; %ld growths of memory were refused in turn\n", growths);
    return 0;
}
