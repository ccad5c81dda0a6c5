/*
 * Times the calls of the library with numbers, beside a plain sort and a plain count in C. Prints a row for each, the
 * least of nine rounds, in nanoseconds a call. The values of 64 rows come again and again, so that the processor learns
 * which way their branches go; it cannot learn those of 4,096 rows. bench/calls builds it.
 */
#define _POSIX_C_SOURCE 199309L
#include <stdio.h>
#include <stdlib.h>
#include <string.h>
#include <time.h>

#include "confscript.h"

enum { ROWS = 4096, FEW_ROWS = 64, MOST = 11, ROUNDS = 9, CALLS = 50000 };
static uint64_t indexes[ROWS][MOST];
static uint8_t votes[ROWS][MOST];
static size_t voters;
static volatile uint64_t sum;

static double seconds(void) {
    struct timespec now;
    clock_gettime(CLOCK_MONOTONIC, &now);
    return now.tv_sec + now.tv_nsec / 1e9;
}

static uint64_t random_number(void) {
    static uint64_t state = 1;
    state = state * 6364136223846793005u + 1442695040888963407u;
    return state >> 40;
}

static void committed(int row) {
    sum += confscript_committed(indexes[row], voters, NULL, 0);
}

static void plain_committed(int row) {
    uint64_t copy[MOST];
    memcpy(copy, indexes[row], sizeof copy);
    for (size_t i = 1; i < voters; i++)
        for (size_t k = i; k > 0 && copy[k] < copy[k - 1]; k--) {
            uint64_t less = copy[k];
            copy[k] = copy[k - 1];
            copy[k - 1] = less;
        }
    sum += copy[voters - (voters / 2 + 1)];
}

static void vote(int row) {
    sum += confscript_vote(votes[row], voters, NULL, 0).number;
}

static void plain_vote(int row) {
    size_t yes = 0, possible = 0;
    for (size_t i = 0; i < voters; i++) {
        yes += votes[row][i] == CONFSCRIPT_BALLOT_YES;
        possible += votes[row][i] != CONFSCRIPT_BALLOT_NO;
    }
    sum += yes > voters / 2 ? 2 : possible > voters / 2 ? 0 : 1;
}

static const uint64_t five[] = {0, 5, 0, 0, 0, 0, 1, 2, 3, 4, 5};

static void simple_step(int row) {
    struct confscript_change change = {CONFSCRIPT_CHANGE_LEARNER, 6 + (uint64_t)row};
    uint64_t out[32];
    sum += confscript_step(five, 11, CONFSCRIPT_STEP_SIMPLE, &change, 1, out, 32).number;
}

static void entering_step(int row) {
    struct confscript_change changes[] = {{CONFSCRIPT_CHANGE_VOTER, 6 + (uint64_t)row}, {CONFSCRIPT_CHANGE_REMOVE, 1}};
    uint64_t out[32];
    sum += confscript_step(five, 11, CONFSCRIPT_STEP_AUTO, changes, 2, out, 32).number;
}

static void restore(int row) {
    uint64_t out[32];
    sum += confscript_restore(five, 11, out, 32).number + (uint64_t)row;
}

/* A member is replaced. */
static void stages(int row) {
    uint64_t target[] = {0, 5, 0, 0, 0, 0, 2, 3, 4, 5, 6 + (uint64_t)row}, out[128];
    sum += confscript_stages(five, 11, target, 11, CONFSCRIPT_STRATEGY_SHORTEST, NULL, 0, out, 128).number;
}

static void stages_learners_first(int row) {
    uint64_t target[] = {0, 5, 0, 0, 0, 0, 2, 3, 4, 5, 6 + (uint64_t)row}, out[128];
    sum += confscript_stages(five, 11, target, 11, CONFSCRIPT_STRATEGY_LEARNERS_FIRST, NULL, 0, out, 128).number;
}

/* All members have caught up and run, and so does the new one: its addition is proposed. */
static void next(int row) {
    uint64_t target[] = {0, 5, 0, 0, 0, 0, 2, 3, 4, 5, 6 + (uint64_t)row}, out[128];
    uint64_t view[CONFSCRIPT_VIEW_FIRST + 21] = {57, 1, 60, 0, 8, 5, 6, 0};
    for (uint64_t id = 1; id <= 6; id++) {
        uint64_t *member = view + CONFSCRIPT_VIEW_FIRST + 3 * (id - 1);
        if (id < 6) member[0] = id, member[1] = 60, member[2] = 1;
        view[CONFSCRIPT_VIEW_FIRST + 15 + id - 1] = id < 6 ? id : target[10];
    }
    sum += confscript_next(five, 11, target, 11, CONFSCRIPT_STRATEGY_LEARNERS_FIRST, NULL, 0, view, CONFSCRIPT_VIEW_FIRST + 21, out, 128).number;
    if (out[CONFSCRIPT_ACTION_KIND] != CONFSCRIPT_ACTION_PROPOSE) exit(1);
}

static double least(void (*call)(int), int rows) {
    double best = 1e9;
    for (int round = 0; round < ROUNDS; round++) {
        double begin = seconds();
        for (int i = 0; i < CALLS; i++) call(i % rows);
        double taken = (seconds() - begin) / CALLS;
        if (taken < best) best = taken;
    }
    return best * 1e9;
}

static void many(size_t n) {
    uint64_t *given = malloc(n * sizeof *given);
    if (!given) exit(1);
    double best = 1e9;
    for (size_t i = 0; i < n; i++) given[i] = random_number();
    for (int round = 0; round < ROUNDS; round++) {
        double begin = seconds();
        sum += confscript_committed(given, n, NULL, 0);
        double taken = seconds() - begin;
        if (taken < best) best = taken;
    }
    printf("committed, %zu voters: %.0f microseconds\n", n, best * 1e6);
    free(given);
}

int main(void) {
    for (int row = 0; row < ROWS; row++)
        for (int i = 0; i < MOST; i++) {
            indexes[row][i] = random_number();
            votes[row][i] = indexes[row][i] % 3;
        }
    for (voters = 1; voters <= MOST; voters += 2)
        printf("%2zu voters: committed %.0f, plain %.0f; vote %.0f, plain %.0f\n", voters, least(committed, FEW_ROWS),
               least(plain_committed, FEW_ROWS), least(vote, FEW_ROWS), least(plain_vote, FEW_ROWS));
    for (voters = 3; voters <= 7; voters += 2)
        printf("%2zu voters, other values each time: committed %.0f, plain %.0f\n", voters, least(committed, ROWS),
               least(plain_committed, ROWS));
    printf("five voters: simple step %.0f, entering step %.0f, restore %.0f, stages %.0f\n", least(simple_step, FEW_ROWS),
           least(entering_step, FEW_ROWS), least(restore, FEW_ROWS), least(stages, FEW_ROWS));
    printf("five voters, learners first: stages %.0f, next %.0f\n", least(stages_learners_first, FEW_ROWS), least(next, FEW_ROWS));
    for (size_t n = 100; n <= 10000; n *= 10) many(n);
    return 0;
}
