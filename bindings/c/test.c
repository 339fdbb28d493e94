/* The library from C: what the header says, on requests of every kind. Prints a line for each test; ends with 1 if one fails. */
#define _GNU_SOURCE
#include <pthread.h>
#include <stdio.h>
#include <stdlib.h>
#include <string.h>
#include <sys/mman.h>

#include "../../include/rowfind.h"

enum { TEXT = 700, LINE = 600, THREADS = 4, ROUNDS = 200, PAGE = 4096, PAINT = 0xA5 };
enum { CALL_STACK = 96 * 1024 }; /* what the header says of a call alone */
#define EIGHT(a) a, a, a, a, a, a, a, a

typedef struct {
    const char *name;
    unsigned numbers[68]; /* kind, polynomial, order, count, of a walk its budget, values */
    const char *answer;   /* whole, or its beginning */
    uint32_t number;
    size_t length; /* of an answer of which only the beginning stands here */
} request_t;

static const request_t REQUESTS[] = {
    {"a search", {1, 19, 4, 4, 1, 4, 9, 13}, "     0     6    18    72\n     1     4     9    13\n", 0, 0},
    {"no row", {1, 19, 4, 4, 1, 2, 4, 8}, "     9\n", 9, 0},
    {"a check", {2, 7, 2, 4, 1, 0, 0, 1}, "     0     2     0     1     0\n", 0, 0},
    {"a survey", {3, 2, 0, 0}, "     0     1\n     7     2     2\n", 0, 0},
    {"a survey of two", {3, 3, 0, 0}, "     0     2\n    11    15    47\n    13    15    47\n", 0, 0},
    {"gates",
     {4, 7, 2, 4, 2, 3, 0, 1},
     "     0     4\n     1     2\n     4     3\n     0     1\n     6     2\n     5\n     7\n     2\n     3\n", 0, 0},
    /* The heaviest element of all fields at every place. */
    {"the longest gates", {4, 395, 8, 64, EIGHT(EIGHT(251))}, "     0  3136\n", 0, 13 + 13 * 3136 + 7 * 64},
    /* The walk of order 8 that goes deepest, to blocks of size 4. */
    {"the slowest search",
     {1, 415, 8, 16, 22, 23, 52, 53, 74, 75, 104, 105, 146, 147, 176, 177, 206, 207, 236, 237},
     "     0   176   232  1856\n    52    53    75   177   105   207   206   146\n", 0, 0},
    {"a circulant row", {5, 7, 2, 2, 3, 2}, "     0     2     4     8\n     2     3\n", 0, 0},
    {"no circulant row", {5, 283, 4, 2, 1, 2}, "     9\n", 9, 0},
    {"a circulant row of order 8",
     {5, 283, 8, 8, 1, 2, 3, 4, 5, 6, 7, 8},
     "     0    53   109   872\n     1     1     3     1     8     4     5     6\n", 0, 0},
    {"a walk", {6, 19, 4, 4, 1, 1, 4, 9, 13}, "     0     0     1    18    18\n     1     4     9    13\n", 0, 0},
    {"a walk without a row yet", {6, 19, 4, 4, 23, 1, 2, 4, 8}, "     0     0    23999999    18\n     0     0     0     0\n", 0, 0},
    {"a walk without a row", {6, 19, 4, 4, 24, 1, 2, 4, 8}, "     9\n", 9, 0},
    /* Many rows to judge, and the largest budget. */
    {"a walk of order 8",
     {6, 415, 8, 16, 999999, 22, 23, 52, 53, 74, 75, 104, 105, 146, 147, 176, 177, 206, 207, 236, 237},
     "     0     0999999   252   211\n    22    23    74   177   105   236   147   237\n", 0, 0},
    {"no kind", {9, 19, 4, 0}, "     2\n", 2, 0},
};
enum { MANY = sizeof REQUESTS / sizeof *REQUESTS };

static int failed, tests;

static void report(int good, const char *test, const char *name) {
    tests++;
    failed += !good;
    printf("%s: %s, %s\n", good ? "passed" : "FAILED", test, name);
}

static size_t request_text(const request_t *r, uint8_t *text) {
    char *at = (char *)text;
    unsigned head = r->numbers[0] == 6 ? 5 : 4; /* numbers in line one */
    for (unsigned k = 0; k < head + r->numbers[3]; k++) {
        at += sprintf(at, k >= head && (k - head) % 16 == 0 ? "\n%6u" : "%6u", r->numbers[k]);
    }
    *at++ = '\n';
    return (size_t)(at - (char *)text);
}

/* A call, and where its stack begins. */
typedef struct {
    const request_t *request;
    uint8_t text[TEXT], space[ROWFIND_LONGEST_ANSWER];
    const uint8_t *top;
    int good;
} call_t;

/* Whether the request gets its answer, in a space of just the answer's length. */
static __attribute__((noinline)) void make(call_t *c) {
    size_t length = 1, shown = strlen(c->request->answer), text_length = request_text(c->request, c->text);
    size_t due = c->request->length ? c->request->length : shown;
    c->top = __builtin_frame_address(0);
    uint32_t number = rowfind_answer(c->text, text_length, c->space, due, &length);
    c->good = number == c->request->number && length == (number ? 0 : due) && memcmp(c->space, c->request->answer, shown) == 0;
}

static int answered(const request_t *r) {
    call_t c = {.request = r};
    make(&c);
    return c.good;
}

/* Searches of order 8, of either shape, and walks take too long to be asked again and again. */
static int is_long(const request_t *r) {
    return (r->numbers[0] == 1 || r->numbers[0] == 5 || r->numbers[0] == 6) && r->numbers[2] == 8;
}

static void *answered_again_and_again(void *unused) {
    int good = 1;
    (void)unused;
    for (int k = 0; k < ROUNDS * MANY; k++) {
        good &= is_long(&REQUESTS[k % MANY]) || answered(&REQUESTS[k % MANY]);
    }
    return good ? &failed : NULL;
}

static void test_threads(void) {
    pthread_t threads[THREADS];
    int good = 1;
    for (int k = 0; k < THREADS; k++) {
        if (pthread_create(&threads[k], NULL, answered_again_and_again, NULL)) exit(2);
    }
    for (int k = 0; k < THREADS; k++) {
        void *told = NULL;
        pthread_join(threads[k], &told);
        good &= told != NULL;
    }
    report(good, "several threads at once", "all requests");
}

static void *made_here(void *c) {
    make(c);
    return NULL;
}

/* In a thread with a stack of ROWFIND_STACK bytes below which no page can be touched. */
static void test_stack(const request_t *r) {
    uint8_t *pages = mmap(NULL, PAGE + ROWFIND_STACK, PROT_READ | PROT_WRITE, MAP_PRIVATE | MAP_ANONYMOUS, -1, 0);
    uint8_t *stack = pages + PAGE;
    if (pages == MAP_FAILED || mprotect(pages, PAGE, PROT_NONE)) exit(2);
    memset(stack, PAINT, ROWFIND_STACK);
    call_t c = {.request = r};
    pthread_attr_t attributes;
    pthread_t thread;
    pthread_attr_init(&attributes);
    if (pthread_attr_setstack(&attributes, stack, ROWFIND_STACK)) exit(2);
    if (pthread_create(&thread, &attributes, made_here, &c)) exit(2);
    pthread_join(thread, NULL);
    size_t left = 0;
    while (left < ROWFIND_STACK && stack[left] == PAINT) left++;
    size_t taken = (size_t)(c.top - (stack + left));
    char name[LINE];
    snprintf(name, sizeof name, "%s: %zu bytes of %d", r->name, taken, CALL_STACK);
    report(c.good && taken <= CALL_STACK, "in a thread with ROWFIND_STACK bytes of stack", name);
    munmap(pages, PAGE + ROWFIND_STACK);
}

int main(void) {
    for (int k = 0; k < MANY; k++) {
        report(answered(&REQUESTS[k]), "answered", REQUESTS[k].name);
        test_stack(&REQUESTS[k]);
    }
    test_threads();
    printf("%d C tests, %d failed\n", tests, failed);
    return failed ? 1 : 0;
}
