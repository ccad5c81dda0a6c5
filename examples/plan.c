/* Plans the change that replaces 1 with 5, applies the plan, and computes the committed index afterwards. In a clone:
   cc -Iinclude examples/plan.c "$(./library)" -o plan_c && ./plan_c */
#include <stdio.h>
#include <string.h>

#include "confscript.h"

static const char now[] = "Voters:[1 2 3] VotersOutgoing:[] Learners:[] LearnersNext:[] AutoLeave:false";
static const char target[] = "r1 v5";

static const uint8_t *bytes(const char *text) { return (const uint8_t *)text; }

int main(void) {
    uint8_t plan[512], after[512];

    struct confscript_answer planned =
        confscript_plan(bytes(now), strlen(now), bytes(target), strlen(target),
                        CONFSCRIPT_STRATEGY_SHORTEST, CONFSCRIPT_OUTPUT_STEPS, NULL, 0, plan, sizeof plan);
    if (planned.status != CONFSCRIPT_STATUS_DONE) {
        fprintf(stderr, "no plan: status %u, number %llu\n", (unsigned)planned.status, (unsigned long long)planned.number);
        return 1;
    }
    printf("%.*s", (int)planned.number, (const char *)plan);

    struct confscript_answer applied =
        confscript_apply(bytes(now), strlen(now), plan, planned.number, after, sizeof after);
    if (applied.status != CONFSCRIPT_STATUS_DONE) {
        fprintf(stderr, "refused: status %u, number %llu\n", (unsigned)applied.status, (unsigned long long)applied.number);
        return 1;
    }
    printf("%.*s\n", (int)applied.number, (const char *)after);

    /* 2 has acknowledged the index 9, 3 the index 7, and 5 none yet. The configuration is not joint. */
    const uint64_t acknowledged[] = {9, 7, 0};
    printf("committed %llu\n", (unsigned long long)confscript_committed(acknowledged, 3, NULL, 0));
    return 0;
}
