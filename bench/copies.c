// Counts the copies of a desk (3,368 bytes) that a program makes, by the place in it that makes them. docs/MEASUREMENTS.md says how to run it.
#define _GNU_SOURCE
#include <dlfcn.h>
#include <stddef.h>
#include <stdio.h>

enum { DESK = 3368, PLACES = 64 };
static void *place[PLACES];
static unsigned long copies[PLACES];
static int known;

static void count(void *from) {
    int i = 0;
    while (i < known && place[i] != from) i++;
    if (i == known && known < PLACES) place[known++] = from;
    if (i < PLACES) copies[i]++;
}

void *memcpy(void *to, const void *from, size_t n) {
    if (n == DESK) count(__builtin_return_address(0));
    for (size_t i = 0; i < n; i++) ((volatile char *)to)[i] = ((const char *)from)[i];
    return to;
}

__attribute__((destructor)) static void tell(void) {
    for (int i = 0; i < known; i++) {
        Dl_info in;
        dladdr(place[i], &in);
        fprintf(stderr, "%8lu copies at %#lx\n", copies[i], (unsigned long)((char *)place[i] - (char *)in.dli_fbase));
    }
}
