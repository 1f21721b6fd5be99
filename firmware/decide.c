/*
 * Decides headers by a list, as firmware would: decide LIST < HEADERS
 * Each line of HEADERS has source and destination (dotted), protocol, source port and destination port; for
 * each the answer of miltroueg_decide is printed. Last, the stack that the calls took; above 64 KiB it fails.
 */
#define _GNU_SOURCE
#include <pthread.h>
#include <stdio.h>
#include <stdlib.h>
#include <string.h>

#include "miltroueg.h"

enum { MOST = 1 << 20, STACK = 512 * 1024, MOST_STACK = 64 * 1024, PAINT = 0xa5 };

static uint8_t text[MOST];
static size_t length;

static uint32_t address(const unsigned part[4])
{
    return part[0] << 24 | part[1] << 16 | part[2] << 8 | part[3];
}

static void *decide_all(void *unused)
{
    unsigned s[4], d[4], protocol, source_port, destination_port;
    (void)unused;
    while (scanf("%u.%u.%u.%u %u.%u.%u.%u %u %u %u", &s[0], &s[1], &s[2], &s[3], &d[0], &d[1], &d[2], &d[3],
                 &protocol, &source_port, &destination_port) == 11) {
        printf("%u\n", (unsigned)miltroueg_decide(text, length, address(s), address(d), (uint8_t)protocol,
                                                  (uint16_t)source_port, (uint16_t)destination_port));
    }
    return NULL;
}

/* Runs the calls on a stack of 512 KiB that was painted before, and says how much of it was written to. */
static int run_painted(void)
{
    pthread_attr_t attributes;
    pthread_t thread;
    uint8_t *stack;
    size_t clean = 0;
    if (posix_memalign((void **)&stack, 4096, STACK) != 0 || pthread_attr_init(&attributes) != 0)
        return 1;
    memset(stack, PAINT, STACK);
    if (pthread_attr_setstack(&attributes, stack, STACK) != 0 || pthread_create(&thread, &attributes, decide_all, NULL) != 0
        || pthread_join(thread, NULL) != 0)
        return 1;
    while (clean < STACK && stack[clean] == PAINT)
        clean++;
    fprintf(stderr, "stack: %zu of %d KiB\n", (STACK - clean + 1023) / 1024, STACK / 1024);
    pthread_attr_destroy(&attributes);
    free(stack);
    return STACK - clean > MOST_STACK;
}

int main(int argc, char **argv)
{
    FILE *list = argc == 2 ? fopen(argv[1], "rb") : NULL;
    if (list == NULL) {
        fprintf(stderr, "usage: decide LIST < HEADERS\n");
        return 2;
    }
    length = fread(text, 1, sizeof text, list);
    fclose(list);
    return run_painted();
}
