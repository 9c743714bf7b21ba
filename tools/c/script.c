/* Carries a whole input out by the library, as the program does for the same words: run, resume, pack, repack, dump V, changed V PATH.
 * cc script.c $(pkg-config --cflags --libs persist) -o script; ./script run < examples/first.persist */
#include "persist.h"
#include <stdbool.h>
#include <stdio.h>
#include <stdlib.h>
#include <string.h>

struct bytes { uint8_t *at; size_t length; };

static void end(int status) { fflush(stdout); exit(status); }

static void check(int32_t status) { if (status != PERSIST_DONE) end(status); }

static struct bytes read_all(void) {
    size_t room = 1 << 16;
    struct bytes all = {malloc(room), 0};
    for (size_t n; all.at && (n = fread(all.at + all.length, 1, room - all.length, stdin)) > 0;) {
        all.length += n;
        if (all.length == room) all.at = realloc(all.at, room *= 2);
    }
    if (!all.at) end(PERSIST_NO_MEMORY);
    return all;
}

/* Writes what the session made last, in pieces. */
static void write_made(persist *p, size_t length) {
    uint8_t piece[4096];
    for (size_t from = 0; from < length;) {
        size_t n = persist_text(p, from, piece, sizeof piece);
        fwrite(piece, 1, n, stdout);
        from += n;
    }
}

static size_t line_length(const uint8_t *at, size_t left) {
    const uint8_t *feed = memchr(at, '\n', left);
    return feed ? (size_t)(feed - at) : left;
}

static bool is_separator(const uint8_t *line, size_t length) {
    if (length < 2 || line[0] != '%' || line[1] != '%') return false;
    for (size_t i = 2; i < length; i++) if (line[i] != ' ' && line[i] != '\t' && line[i] != '\r') return false;
    return true;
}

/* Opens the program in front of the separator line. Gives where the script begins. */
static size_t open_program(persist *p, struct bytes input) {
    size_t text = 0, script = input.length;
    for (size_t at = 0; at < input.length;) {
        size_t length = line_length(input.at + at, input.length - at), next = at + length + 1;
        if (next > input.length) next = input.length;
        if (is_separator(input.at + at, length)) { script = next; break; }
        at = text = next;
    }
    uint8_t fault[64];
    size_t fault_length = 0;
    int32_t status = persist_open(p, input.at, text, fault, sizeof fault, &fault_length);
    if (status == PERSIST_REFUSED) fwrite(fault, 1, fault_length, stdout);
    check(status);
    return script;
}

static size_t open_image(persist *p, struct bytes input) {
    size_t used = 0;
    uint32_t rule = 0;
    int32_t status = persist_resume(p, input.at, input.length, &used, &rule);
    if (status == PERSIST_REFUSED) printf("refused image %u\n", rule);
    check(status);
    return used;
}

static void carry_out(persist *p, struct bytes input, size_t at, bool written) {
    while (at < input.length) {
        size_t length = line_length(input.at + at, input.length - at);
        persist_reply reply;
        check(persist_line(p, input.at + at, length, &reply));
        if (written) write_made(p, reply.length);
        at += length + 1;
    }
}

int main(int count, char **words) {
    if (count < 2) return 3;
    const char *word = words[1];
    bool behind = !strcmp(word, "resume") || !strcmp(word, "repack"), shown = !strcmp(word, "run") || !strcmp(word, "resume");
    struct bytes input = read_all();
    persist p = {0};
    carry_out(&p, input, behind ? open_image(&p, input) : open_program(&p, input), shown);
    size_t length = 0;
    if (!strcmp(word, "dump") && count == 3) check(persist_dump(&p, (uint32_t)strtoul(words[2], NULL, 10), &length));
    else if (!strcmp(word, "changed") && count == 4)
        check(persist_changed(&p, (uint32_t)strtoul(words[2], NULL, 10), (const uint8_t *)words[3], strlen(words[3]), &length));
    else if (!strcmp(word, "pack") || !strcmp(word, "repack")) {
        int32_t status = persist_image(&p, &length);
        /* No image can say how much was counted: that is its rule 2. */
        if (status == PERSIST_REFUSED) printf("refused image 2\n");
        check(status);
    }
    write_made(&p, length);
    persist_close(&p);
    free(input.at);
    end(0);
}
