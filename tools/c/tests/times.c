/* Microseconds of a call: times PROGRAM, where PROGRAM is that of persist, which is asked through a pipe. Least and median of 200 takes. */
#define _GNU_SOURCE
#include "persist.h"
#include <stdio.h>
#include <stdlib.h>
#include <string.h>
#include <sys/wait.h>
#include <time.h>
#include <unistd.h>

enum { TAKES = 200, CALLS = 1000 };

static const char PROGRAM[] =
    "record Letter 2 { val code: int; ptr next: Letter; }\nroot last: Letter;\n"
    "proc key(code: int) { var n: Letter; n = new Letter; n.code = code; last = n; }\n"
    "proc set(code: int) { last.code = code; }\nquery code() { print last.code; }\n";

static persist p;
static persist_reply reply;
static uint8_t text[4096];
static uint32_t newest = 1;
static int to, from;

static void by_line(const char *line) {
    if (persist_line(&p, (const uint8_t *)line, strlen(line), &reply) != PERSIST_DONE) exit(1);
    persist_text(&p, 0, text, sizeof text);
}

static void query_by_line(int i) { (void)i; by_line("query 1 code"); }

static void refused_by_line(int i) { (void)i; by_line("query 999999 code"); }

static void run_by_line(int i) {
    char line[64];
    snprintf(line, sizeof line, "run %u set %d", newest, i);
    by_line(line);
    newest = (uint32_t)reply.number;
}

static void query_by_call(int i) {
    int64_t number = i;
    if (persist_query(&p, 1, (const uint8_t *)"code", 4, &number, 0, &reply) != PERSIST_DONE) exit(1);
    persist_printed(&p, 0, &number, 1);
}

static void run_by_call(int i) {
    int64_t code = i;
    if (persist_run(&p, newest, (const uint8_t *)"set", 3, &code, 1, &reply) != PERSIST_DONE) exit(1);
    newest = (uint32_t)reply.number;
}

/* Sends a line, and reads until what was read ends with a line feed: each of these replies is written as one piece. */
static size_t by_pipe(const char *line) {
    size_t length = 0;
    if (write(to, line, strlen(line)) < 0) exit(1);
    do {
        ssize_t n = read(from, text + length, sizeof text - length);
        if (n <= 0) exit(1);
        length += (size_t)n;
    } while (text[length - 1] != '\n');
    return length;
}

static void query_by_pipe(int i) { (void)i; by_pipe("query 1 code\n"); }

static void refused_by_pipe(int i) { (void)i; by_pipe("query 999999 code\n"); }

static void run_by_pipe(int i) {
    char line[64];
    snprintf(line, sizeof line, "run %u set %d\n", newest, i);
    text[by_pipe(line)] = 0;
    newest = (uint32_t)strtoul((char *)text + 8, NULL, 10);
}

static double now(void) {
    struct timespec t;
    clock_gettime(CLOCK_MONOTONIC, &t);
    return t.tv_sec * 1e6 + t.tv_nsec / 1e3;
}

static int ordered(const void *a, const void *b) {
    double x = *(const double *)a, y = *(const double *)b;
    return (x > y) - (x < y);
}

static void measure(const char *what, void (*call)(int)) {
    double takes[TAKES];
    for (int take = 0; take < TAKES; take++) {
        double begun = now();
        for (int i = 0; i < CALLS; i++) call(i);
        takes[take] = (now() - begun) / CALLS;
    }
    qsort(takes, TAKES, sizeof *takes, ordered);
    printf("%-28s least %.2f  median %.2f\n", what, takes[0], takes[TAKES / 2]);
}

static pid_t start(const char *program) {
    int in[2], out[2];
    if (pipe(in) || pipe(out)) exit(1);
    pid_t child = fork();
    if (child == 0) {
        dup2(in[0], 0);
        dup2(out[1], 1);
        close(in[1]);
        close(out[0]);
        execl(program, program, "run", (char *)NULL);
        _exit(1);
    }
    close(in[0]);
    close(out[1]);
    to = in[1];
    from = out[0];
    if (write(to, PROGRAM, sizeof PROGRAM - 1) < 0 || write(to, "%%\n", 3) < 0) exit(1);
    return child;
}

int main(int count, char **words) {
    uint8_t fault[64];
    size_t length;
    if (persist_open(&p, (const uint8_t *)PROGRAM, sizeof PROGRAM - 1, fault, sizeof fault, &length) != PERSIST_DONE) return 1;
    by_line("run 0 key 7");
    measure("query, line and text", query_by_line);
    measure("query, call and number", query_by_call);
    measure("refused line and text", refused_by_line);
    measure("run, line and text", run_by_line);
    measure("run, call", run_by_call);
    persist_close(&p);
    if (count < 2) return 0;
    pid_t child = start(words[1]);
    by_pipe("run 0 key 7\n");
    newest = 1;
    measure("query, by a pipe", query_by_pipe);
    measure("refused line, by a pipe", refused_by_pipe);
    measure("run, by a pipe", run_by_pipe);
    close(to);
    waitpid(child, NULL, 0);
    return 0;
}
