/*
 * Walks from each allocation below a call of the library up to main, as a debugger and a profiler do, by the unwinder of the
 * compiler. Prints a line for each call, 'ok: ..' or 'FAILED: ..'. malloc and realloc are wrapped when it is linked.
 */
#include <execinfo.h>
#include <stdio.h>
#include <stdlib.h>
#include <string.h>

#include "confscript.h"

void *__real_malloc(size_t size);
void *__real_realloc(void *block, size_t size);

/* Where main returns to, whether a call is under way, and how many allocations there were, and how many led to main. */
static void *above_main;
static int counts, allocations, reached;

static void walk(void) {
    void *frames[64];
    if (!counts) return;
    counts = 0;
    allocations++;
    for (int i = backtrace(frames, 64) - 1; i >= 0; i--) {
        if (frames[i] == above_main) {
            reached++;
            break;
        }
    }
    counts = 1;
}

void *__wrap_malloc(size_t size) {
    walk();
    return __real_malloc(size);
}

void *__wrap_realloc(void *block, size_t size) {
    walk();
    return __real_realloc(block, size);
}

static void report(const char *name) {
    counts = 0;
    printf("%s: backtrace: %s: %d of %d allocations lead to main\n", allocations > 0 && reached == allocations ? "ok" : "FAILED", name, reached, allocations);
    allocations = reached = 0;
    counts = 1;
}

int main(void) {
    static const char json[] = "{\"voters\":[1,2,3,4,5,6,7,8,9],\"learners\":[10]}", changes[] = "r1 v11 l12";
    static const char line[] = "Voters:[1 2 3 4 5 6 7 8 9] VotersOutgoing:[] Learners:[] LearnersNext:[] AutoLeave:false";
    static uint8_t out[4096];
    static uint64_t numbers[4096], from[] = {0, 9, 0, 0, 0, 0, 1, 2, 3, 4, 5, 6, 7, 8, 9}, to[] = {0, 1, 0, 0, 0, 0, 11};
    void *frame[1];
    above_main = __builtin_extract_return_addr(__builtin_return_address(0));
    /* The first walk loads what it needs. */
    backtrace(frame, 1);
    counts = 1;
    for (uint32_t output = CONFSCRIPT_OUTPUT_STEPS; output <= CONFSCRIPT_OUTPUT_JSON; output++) {
        confscript_plan((const uint8_t *)json, sizeof json - 1, (const uint8_t *)changes, sizeof changes - 1, CONFSCRIPT_STRATEGY_LEARNERS_FIRST,
                        output, NULL, 0, out, sizeof out);
        report("plan");
    }
    confscript_apply((const uint8_t *)line, sizeof line - 1, (const uint8_t *)"simple v10 l11", 14, out, sizeof out);
    report("apply");
    confscript_stages(from, 15, to, 7, CONFSCRIPT_STRATEGY_ONE_AT_A_TIME, NULL, 0, numbers, 4096);
    report("stages");
    confscript_restore(from, 15, numbers, 4096);
    report("restore");
    return 0;
}
