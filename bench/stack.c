/* stack CALL FILE: how many bytes of stack one call needs, from its entry on. FILE is what the program CALL reads. The call runs in a thread whose
 * stack was filled with a byte; the deepest place that has changed tells. */
#define _GNU_SOURCE
#include <pthread.h>
#include <stdio.h>
#include <stdlib.h>
#include <string.h>
#include <sys/mman.h>

#include "gandeuch.h"

enum { STACK = 1 << 22, TEXTS = 5, PAINT = 0xA5, ANSWER = 1 << 22 };

static const char *call;
static const uint8_t *texts[TEXTS];
static size_t sizes[TEXTS];
static uint8_t answer[ANSWER];
static uint8_t *from;
static int number;

#define GIVEN(i) texts[i], sizes[i]
#define OUT answer, sizeof answer, &size
#define LIST list, GANDEUCH_LIST_ROOM, &many

static int made(void) {
    size_t size, many;
    uint16_t list[GANDEUCH_LIST_ROOM];
    if (!strcmp(call, "scope")) return gandeuch_scope(GIVEN(0), OUT);
    if (!strcmp(call, "rename")) return gandeuch_rename(GIVEN(0), GIVEN(1), OUT);
    if (!strcmp(call, "merge")) return gandeuch_merge_patterns(GIVEN(0), GIVEN(1), GIVEN(2), GIVEN(3), GIVEN(4), OUT);
    if (!strcmp(call, "merge_queries")) return gandeuch_merge_queries(GIVEN(0), GIVEN(1), GIVEN(2), GIVEN(3), GIVEN(4), OUT);
    if (!strcmp(call, "push")) return gandeuch_push_constants(GIVEN(0), GIVEN(1), OUT);
    if (!strcmp(call, "negate")) return gandeuch_negate(GIVEN(0), OUT);
    if (!strcmp(call, "bindings")) return gandeuch_bindings(GIVEN(0), GIVEN(1), OUT);
    if (!strcmp(call, "filters")) return gandeuch_filters(GIVEN(0), GIVEN(1), OUT, LIST);
    if (!strcmp(call, "without")) return gandeuch_without(GIVEN(0), GIVEN(1), GIVEN(2), OUT);
    if (!strcmp(call, "namespaces")) return gandeuch_namespaces(GIVEN(0), GIVEN(1), OUT);
    return -1;
}

static void *run(void *unused) {
    from = __builtin_frame_address(0);
    number = made();
    return unused;
}

/* Parts the input at lines `--`. */
static void part(char *input, size_t length) {
    size_t count = 0, start = 0, line = 0;
    for (size_t i = 0; i < length && count < TEXTS - 1; i++) {
        if (input[i] != '\n') continue;
        if (i == line + 2 && input[line] == '-' && input[line + 1] == '-') {
            texts[count] = (uint8_t *)input + start;
            sizes[count++] = line - start;
            start = i + 1;
        }
        line = i + 1;
    }
    texts[count] = (uint8_t *)input + start;
    sizes[count] = length - start;
    while (++count < TEXTS) texts[count] = (uint8_t *)input;
}

int main(int argc, char **argv) {
    static char input[1 << 17];
    FILE *file = argc == 3 ? fopen(argv[2], "rb") : NULL;
    if (!file) return EXIT_FAILURE;
    part(input, fread(input, 1, sizeof input, file));
    call = argv[1];
    uint8_t *stack = mmap(NULL, STACK, PROT_READ | PROT_WRITE, MAP_PRIVATE | MAP_ANONYMOUS, -1, 0);
    if (stack == MAP_FAILED) return EXIT_FAILURE;
    memset(stack, PAINT, STACK);
    pthread_attr_t attributes;
    pthread_t thread;
    pthread_attr_init(&attributes);
    if (pthread_attr_setstack(&attributes, stack, STACK) || pthread_create(&thread, &attributes, run, NULL)) return EXIT_FAILURE;
    pthread_join(thread, NULL);
    size_t deepest = 0;
    while (deepest < STACK && stack[deepest] == PAINT) deepest++;
    printf("%d %zu\n", number, (size_t)(from - (stack + deepest)));
    return EXIT_SUCCESS;
}
