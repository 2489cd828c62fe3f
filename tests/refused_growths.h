/* The mallocs and reallocs of a program that is linked with -Wl,--wrap=malloc,--wrap=realloc, some of which are refused. */
#ifndef REFUSED_GROWTHS_H
#define REFUSED_GROWTHS_H

#include <stdbool.h>
#include <stddef.h>

enum { MOST = 20000 };

/* How many go well before the first that is refused, and how many are refused from there; and how many of these were met. */
static long well = MOST, refused;
static int met;

void *__real_malloc(size_t size);
void *__real_realloc(void *at, size_t size);
void *__wrap_malloc(size_t size);
void *__wrap_realloc(void *at, size_t size);

static bool refuses(void) {
    if (well > 0) return well--, false;
    if (refused == 0) return false;
    return refused--, met++, true;
}

void *__wrap_malloc(size_t size) { return refuses() ? NULL : __real_malloc(size); }
void *__wrap_realloc(void *at, size_t size) { return refuses() ? NULL : __real_realloc(at, size); }

#endif
