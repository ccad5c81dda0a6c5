/*
 * Measures how much of its stack each call of the library takes, in a thread with a stack that is filled with a mark, against
 * what the header states. Prints a line for each case, 'ok: ..' or 'FAILED: ..'. What is stated is not twice what is taken.
 */
#include <pthread.h>
#include <stdio.h>
#include <stdlib.h>
#include <string.h>

#include "confscript.h"

enum { ROOM = 1 << 18, MARK = 0xA5, MANY = 1000, DEEPEST = 200 };
static uint8_t *stack, text[1 << 16];
static uint64_t configuration[CONFSCRIPT_PART_IDS + MANY], target[CONFSCRIPT_PART_IDS + MANY], numbers[1 << 16], ids[MANY];
static struct confscript_change changes[MANY];
static uint8_t ballots[MANY];
static char line[1 << 16], json[1 << 16], members[1 << 16], nested[3 * DEEPEST + 64];
static const char *first, *second;
static uint32_t strategy, output;

static const uint8_t *bytes(const char *it) { return (const uint8_t *)it; }

static void plan(void) {
    confscript_plan(bytes(first), strlen(first), bytes(second), strlen(second), strategy, output, ids, 3, text, sizeof text);
}
static void apply(void) {
    static const char steps[] = "simple r1\nenter-joint autoleave=false v1 v2000\nleave-joint\n";
    confscript_apply(bytes(line), strlen(line), bytes(steps), sizeof steps - 1, text, sizeof text);
}
static void check(void) { confscript_check(bytes(line), strlen(line)); }
static void stages(void) {
    confscript_stages(configuration, CONFSCRIPT_PART_IDS + MANY, target, CONFSCRIPT_PART_IDS + MANY, strategy, ids, 3, numbers, 1 << 16);
}
/* A view of the MANY members, of which each was heard from, and with MANY servers that run. */
static uint64_t view[CONFSCRIPT_VIEW_FIRST + 4 * MANY];
static void next(void) {
    confscript_next(configuration, CONFSCRIPT_PART_IDS + MANY, target, CONFSCRIPT_PART_IDS + MANY, strategy, ids, 3, view, CONFSCRIPT_VIEW_FIRST + 4 * MANY, numbers, 1 << 16);
}
static void restore(void) { confscript_restore(configuration, CONFSCRIPT_PART_IDS + MANY, numbers, 1 << 16); }
static void step(void) {
    confscript_step(configuration, CONFSCRIPT_PART_IDS + MANY, CONFSCRIPT_STEP_IMPLICIT, changes, MANY, numbers, 1 << 16);
}
static void may_be_down(void) { confscript_may_be_down(ids, MANY, ids, MANY / 2, ids, 9); }
static void committed(void) { confscript_committed(ids, MANY, ids, MANY / 2); }
static void vote(void) { confscript_vote(ballots, MANY, ballots, MANY / 2); }
static void status_text(void) { confscript_status_text(3, text, sizeof text); }
static void nothing(void) {}

static void *in_thread(void *call) {
    (*(void (**)(void))call)();
    return NULL;
}

/* How many bytes of the stack a thread takes that makes this call. */
static size_t taken(void (*call)(void)) {
    pthread_attr_t attributes;
    pthread_t thread;
    size_t unused = 0;
    memset(stack, MARK, ROOM);
    pthread_attr_init(&attributes);
    if (pthread_attr_setstack(&attributes, stack, ROOM) || pthread_create(&thread, &attributes, in_thread, &call) || pthread_join(thread, NULL)) exit(1);
    pthread_attr_destroy(&attributes);
    while (unused < ROOM && stack[unused] == MARK) unused++;
    return ROOM - unused;
}

/* The most that was taken of each of the four that the header states. */
enum { NUMBERS, NEXT, TEXT, NESTED, KINDS };
static size_t most[KINDS];
static const size_t stated[KINDS] = {CONFSCRIPT_STACK, CONFSCRIPT_STACK_NEXT, CONFSCRIPT_STACK_TEXT, CONFSCRIPT_STACK_NESTED};

static void report(const char *name, void (*call)(void), int kind) {
    /* The thread itself takes some of it, and so does the first call of a function of another library. */
    taken(call);
    size_t own = taken(call) - taken(nothing);
    if (own > most[kind]) most[kind] = own;
    printf("%s: stack: %s takes %zu of %zu bytes\n", own <= stated[kind] ? "ok" : "FAILED", name, own, stated[kind]);
}

/* A list of ids behind a text. */
static void append_ids(char *to, const char *before, const char *each, const char *between, const char *after) {
    char *at = to + strlen(to);
    at += sprintf(at, "%s", before);
    for (int i = 1; i <= MANY; i++) {
        at += sprintf(at, "%s", i > 1 ? between : "");
        at += sprintf(at, each, i);
    }
    sprintf(at, "%s", after);
}

int main(void) {
    if (posix_memalign((void **)&stack, 4096, ROOM)) return 1;
    append_ids(line, "Voters:[", "%d", " ", "] VotersOutgoing:[] Learners:[] LearnersNext:[] AutoLeave:false");
    append_ids(json, "{\"voters\":[", "%d", ",", "]}");
    append_ids(members, "{\"members\":[", "{\"ID\":%d,\"name\":\"a\"}", ",", "]}");
    configuration[CONFSCRIPT_PART_INCOMING] = target[CONFSCRIPT_PART_INCOMING] = MANY;
    for (uint64_t i = 0; i < MANY; i++) {
        ids[i] = configuration[CONFSCRIPT_PART_IDS + i] = i + 1;
        target[CONFSCRIPT_PART_IDS + i] = i + 501;
        changes[i].kind = CONFSCRIPT_CHANGE_VOTER;
        changes[i].id = i + 501;
        ballots[i] = i % 3;
        view[CONFSCRIPT_VIEW_FIRST + 3 * i] = view[CONFSCRIPT_VIEW_FIRST + 3 * MANY + i] = i + 1;
        view[CONFSCRIPT_VIEW_FIRST + 3 * i + 1] = 9;
        view[CONFSCRIPT_VIEW_FIRST + 3 * i + 2] = i >= 3;
    }
    view[CONFSCRIPT_VIEW_CONF_INDEX] = 5, view[CONFSCRIPT_VIEW_LEAD] = 501, view[CONFSCRIPT_VIEW_COMMIT] = 9;
    view[CONFSCRIPT_VIEW_MEMBERS] = view[CONFSCRIPT_VIEW_RUNNING] = MANY;
    for (strategy = 0; strategy < 3; strategy++) {
        for (output = 0; output < 3; output++) {
            first = line, second = "r1 r2 v2000 v2001 l2002";
            report("plan", plan, TEXT);
            first = json;
            report("plan of JSON", plan, TEXT);
            first = second = members;
            report("plan of members", plan, TEXT);
        }
        report("stages", stages, NUMBERS);
        report("next", next, NEXT);
    }
    /* JSON that is nested: deeper than it may be, and at each depth before that. */
    first = "voters=(1)", second = nested, strategy = output = 0;
    for (int depth = 100; depth <= DEEPEST; depth++) {
        strcpy(nested, "{\"voters\":");
        memset(nested + strlen(nested), '[', (size_t)depth + 1);
        memset(nested + 10 + depth, ']', (size_t)depth);
        strcpy(nested + 10 + 2 * depth, "}");
        if (depth % 9 == 1 || (depth > 120 && depth < 132)) report("plan of nested JSON", plan, NESTED);
    }
    report("apply", apply, TEXT);
    report("check", check, TEXT);
    report("restore", restore, NUMBERS);
    report("step", step, NUMBERS);
    report("may_be_down", may_be_down, NUMBERS);
    report("committed", committed, NUMBERS);
    report("vote", vote, NUMBERS);
    report("status_text", status_text, NUMBERS);
    for (int kind = NUMBERS; kind <= NESTED; kind++)
        printf("%s: stack: %zu bytes are stated, and %zu taken\n", stated[kind] < 2 * most[kind] ? "ok" : "FAILED", stated[kind], most[kind]);
    return 0;
}
