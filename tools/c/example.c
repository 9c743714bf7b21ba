/* An editor's undo in the host's own process: cc example.c $(pkg-config --cflags --libs persist) */
#include "persist.h"
#include <stdio.h>
#include <string.h>

static const char PROGRAM[] =
    "record Letter 2 { val code: int; ptr next: Letter; }\n"
    "root text: Letter;\n"
    "proc key(code: int) { var n: Letter; n = new Letter; n.code = code; n.next = text; text = n; }\n"
    "query last() { print text.code; }\n";

/* The version that a key makes of another one. */
static uint32_t key(persist *p, uint32_t version, int64_t code) {
    persist_reply reply;
    if (persist_run(p, version, (const uint8_t *)"key", 3, &code, 1, &reply) != PERSIST_DONE || reply.kind != PERSIST_VERSION) return 0;
    return (uint32_t)reply.number;
}

static void show_last(persist *p, uint32_t version) {
    persist_reply reply;
    int64_t code = 0;
    if (persist_query(p, version, (const uint8_t *)"last", 4, &code, 0, &reply) == PERSIST_DONE && persist_printed(p, 0, &code, 1) == 1)
        printf("version %u ends with %c\n", version, (char)code);
    else
        printf("version %u: trapped or refused, kind %u\n", version, reply.kind);
}

int main(void) {
    persist p = {0};
    uint8_t fault[64];
    size_t length;
    if (persist_open(&p, (const uint8_t *)PROGRAM, sizeof PROGRAM - 1, fault, sizeof fault, &length) != PERSIST_DONE) return 1;
    uint32_t h = key(&p, 0, 'h'), i = key(&p, h, 'i'), o = key(&p, h, 'o');
    show_last(&p, i);
    show_last(&p, o);
    show_last(&p, h);
    show_last(&p, 9);
    persist_close(&p);
    return 0;
}
