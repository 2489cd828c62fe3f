/* How a process ends by tlscore_fail of interfaces/c/zuldegei.h: main returns the status of the second word, behind as many calls of it as
   the first word says. What atexit was given ahead of these calls, and behind them, is called in any case, and prints a word each. */
#include "zuldegei.h"

#include <stdio.h>
#include <stdlib.h>

static void first(void) { puts("first"); }
static void last(void) { puts("last"); }

int main(int count, char **words) {
    if (count != 3 || atexit(first)) return 70;
    for (int k = 0; k < atoi(words[1]); k++) tlscore_fail();
    return atexit(last) ? 70 : atoi(words[2]);
}
