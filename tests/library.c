/*
 * Tests the library from a C program: each call, once for each of its statuses. Prints a line for each case, 'ok: ..' or
 * 'FAILED: ..'. malloc, realloc and free are wrapped when it is linked, so that each allocation of a call can be refused.
 */
#include <stdio.h>
#include <stdlib.h>
#include <string.h>

#include "confscript.h"

void *__real_malloc(size_t size);
void *__real_realloc(void *block, size_t size);
void __real_free(void *block);

static int counts;       /* whether a call of the library is under way */
static long left = -1;   /* how many more allocations are granted; -1: all */
static long live;        /* blocks that are not given back */

static int is_refused(void) {
    if (!counts || left < 0) return 0;
    if (left == 0) return 1;
    left--;
    return 0;
}

void *__wrap_malloc(size_t size) {
    if (is_refused()) return NULL;
    void *block = __real_malloc(size);
    if (counts && block) live++;
    return block;
}

void *__wrap_realloc(void *block, size_t size) {
    if (is_refused()) return NULL;
    void *moved = __real_realloc(block, size);
    if (counts && moved && !block) live++;
    return moved;
}

void __wrap_free(void *block) {
    if (counts && block) live--;
    __real_free(block);
}

enum { ROOM = 4096, MARK = 0xA5 };
static uint8_t out[ROOM];

static void report(const char *name, int holds, struct confscript_answer got) {
    if (holds) printf("ok: %s\n", name);
    else printf("FAILED: %s: status %u, number %llu\n", name, (unsigned)got.status, (unsigned long long)got.number);
}

static const uint8_t *bytes(const char *text) { return (const uint8_t *)text; }

/* Whether the buffer begins with the text, and is unchanged after it. */
static int holds_text(const char *text) {
    size_t len = strlen(text);
    if (memcmp(out, text, len) != 0) return 0;
    for (size_t i = len; i < ROOM; i++) if (out[i] != MARK) return 0;
    return 1;
}

/* One of the calls, with its arguments in variables. */
typedef struct confscript_answer (*call)(void);

static const char *first, *second;
static size_t room;
static uint32_t strategy = CONFSCRIPT_STRATEGY_SHORTEST, output = CONFSCRIPT_OUTPUT_STEPS;
static uint64_t down[8];
static size_t down_len;

static struct confscript_answer plan(void) {
    return confscript_plan(bytes(first), strlen(first), bytes(second), strlen(second), strategy, output, down, down_len, out, room);
}
static struct confscript_answer apply(void) {
    return confscript_apply(bytes(first), strlen(first), bytes(second), strlen(second), out, room);
}
static struct confscript_answer check(void) { return confscript_check(bytes(first), strlen(first)); }

static uint64_t incoming[16], outgoing[16], ids[16];
static uint8_t incoming_votes[16], outgoing_votes[16];
static size_t incoming_len, outgoing_len, ids_len, incoming_votes_len, outgoing_votes_len;

/* The committed index, as the number of an answer. */
static struct confscript_answer committed(void) {
    return (struct confscript_answer){CONFSCRIPT_STATUS_DONE, confscript_committed(incoming, incoming_len, outgoing, outgoing_len)};
}
static struct confscript_answer vote(void) {
    return confscript_vote(incoming_votes, incoming_votes_len, outgoing_votes, outgoing_votes_len);
}

static struct confscript_answer may_be_down(void) {
    return confscript_may_be_down(incoming, incoming_len, outgoing, outgoing_len, ids, ids_len);
}

static uint64_t configuration[ROOM], target[ROOM], numbers[ROOM];
static size_t configuration_len, target_len, numbers_room = ROOM;
static uint32_t kind;
static struct confscript_change changes[64];
static size_t changes_len;

static struct confscript_answer restore(void) {
    return confscript_restore(configuration, configuration_len, numbers, numbers_room);
}
static struct confscript_answer step(void) {
    return confscript_step(configuration, configuration_len, kind, changes, changes_len, numbers, numbers_room);
}
static struct confscript_answer stages(void) {
    return confscript_stages(configuration, configuration_len, target, target_len, strategy, down, down_len, numbers, numbers_room);
}

static uint64_t view[ROOM];
static size_t view_len;
static struct confscript_answer next(void) {
    return confscript_next(configuration, configuration_len, target, target_len, strategy, down, down_len, view, view_len, numbers, numbers_room);
}

static uint32_t code;
static struct confscript_answer status_text(void) { return confscript_status_text(code, out, room); }

static struct confscript_answer called(call which, long granted) {
    memset(out, MARK, ROOM);
    memset(numbers, MARK, sizeof numbers);
    left = granted;
    counts = 1;
    struct confscript_answer answer = which();
    counts = 0;
    left = -1;
    return answer;
}

/* Expects this answer and this buffer of a call, and NO_MEMORY as long as one of its allocations is refused. */
static void expect(const char *name, call which, uint32_t status, uint64_t number, const char *text) {
    struct confscript_answer got;
    for (long granted = 0;; granted++) {
        got = called(which, granted);
        if (live != 0) { report(name, 0, got); printf("FAILED: %s: %ld blocks are kept\n", name, live); live = 0; return; }
        if (got.status != CONFSCRIPT_STATUS_NO_MEMORY) break;
        if (got.number != 0 || !holds_text("") || granted > 10000) { report(name, 0, got); return; }
    }
    report(name, got.status == status && got.number == number && holds_text(text), got);
}

/* Whether the buffer of numbers begins with these, and is unchanged after them. */
static int holds_numbers(const uint64_t *expected, size_t len) {
    uint64_t mark;
    memset(&mark, MARK, sizeof mark);
    if (len && memcmp(numbers, expected, len * sizeof *expected) != 0) return 0;
    for (size_t i = len; i < ROOM; i++) if (numbers[i] != mark) return 0;
    return 1;
}

/* Whether a call takes memory. */
enum { NEVER = 0, ALWAYS = 1 };

/* Expects this answer and these numbers of a call, and NO_MEMORY as long as one of its allocations is refused. `allocates`
   says whether it takes memory. */
static void expect_numbers(const char *name, call which, int allocates, uint32_t status, uint64_t number, const uint64_t *expected, size_t len) {
    struct confscript_answer got;
    long granted = 0;
    for (;; granted++) {
        got = called(which, granted);
        if (live != 0) { report(name, 0, got); printf("FAILED: %s: %ld blocks are kept\n", name, live); live = 0; return; }
        if (got.status != CONFSCRIPT_STATUS_NO_MEMORY) break;
        if (got.number != 0 || !holds_numbers(NULL, 0) || granted > 1000) { report(name, 0, got); return; }
    }
    report(name, (granted > 0) == allocates && got.status == status && got.number == number && holds_numbers(expected, len), got);
}

static void on_texts(const char *a, const char *b) { first = a; second = b; room = ROOM; }

static void texts(void) {
    /* The text of each status, by its code; the last number is not a status. */
    static const char *const words[] = {
        "done", "the buffer is too small", "out of memory", "not a ConfState line: expected Voters:[1 2] VotersOutgoing:[] Learners:[3] LearnersNext:[] AutoLeave:false", "an id is named twice", "not a configuration: an id is 0 or listed twice, a learner is a voter, a next learner is not an outgoing voter alone, or auto-leave has no outgoing voters",
        "no incoming voter", "not a step: expected simple l4 l5, enter-joint autoleave=false r1 v4, or leave-joint", "not a member", "config is already joint", "can't make a zero-voter config joint",
        "can't leave a non-joint config", "can't apply simple config change in joint config", "removed all voters",
        "more than one voter changed without entering joint config", "the id 0", "a next learner is not an outgoing voter",
        "a next learner is an incoming voter", "a learner is a voter", "removed and added again: a server that lost its log needs a new id",
        "auto-leave without outgoing voters", "the counts do not match the length", "a vote is neither 0, 1 nor 2",
        "the voters are no quorum", "unknown strategy", "the target is joint", "unknown step", "unknown kind of change", "unknown output",
        "no form of a configuration: expected voters=(1 2 3) learners=(4), a ConfState line, or JSON of a ConfState or of etcdctl member list", "not a printed configuration: expected voters=(1 2)&&(1 2 3) learners=(4) learners_next=(3) autoleave, without what is empty, with spaces between ids", "not the JSON of a configuration: expected voters, voters_outgoing, learners, learners_next and auto_leave, or etcdctl member list -w json, with decimal numbers as ids", "not a list of changes: expected changes as r1 v4 l5, or a configuration as voters=(1 2 3), a ConfState line, or JSON",
        "down and not a member", "by this strategy the cluster may stall", "the target has auto-leave: raft leaves it by itself",
        "there is a leader, and the index of the configuration is 0", "the leader is a member, and the view has no progress of it", "unknown status"};
    room = ROOM;
    for (code = 0; code < sizeof words / sizeof *words; code++)
        expect(words[code], status_text, CONFSCRIPT_STATUS_DONE, strlen(words[code]), words[code]);
    code = UINT32_MAX;
    expect("the greatest number is no status", status_text, CONFSCRIPT_STATUS_DONE, 14, "unknown status");
    room = 13;
    expect("text of a status: one byte too small", status_text, CONFSCRIPT_STATUS_TOO_SMALL, 14, "");
    struct confscript_answer version = {0, confscript_version()};
    report("the version of the library is that of its header", version.number == CONFSCRIPT_VERSION, version);
}

static size_t set(uint64_t *to, size_t n, const uint64_t *from) { memcpy(to, from, n * sizeof *to); return n; }
#define SET(name, ...) name##_len = set(name, sizeof((uint64_t[]){__VA_ARGS__}) / sizeof(uint64_t), (const uint64_t[]){__VA_ARGS__})

#define LINE(voters, leaving, learners, next, leave) \
    "Voters:[" voters "] VotersOutgoing:[" leaving "] Learners:[" learners "] LearnersNext:[" next "] AutoLeave:" leave

static void plans(void) {
    const char *one = LINE("1", "", "", "", "false"), *two = LINE("2", "", "", "", "false");
    const char *steps = "enter-joint autoleave=false r1 v2\nleave-joint\n";
    on_texts(one, two);
    expect("plan: steps", plan, CONFSCRIPT_STATUS_DONE, strlen(steps), steps);
    room = strlen(steps);
    expect("plan: it just fits", plan, CONFSCRIPT_STATUS_DONE, strlen(steps), steps);
    room = strlen(steps) - 1;
    expect("plan: one byte too small", plan, CONFSCRIPT_STATUS_TOO_SMALL, strlen(steps), "");
    room = 0;
    expect("plan: no room", plan, CONFSCRIPT_STATUS_TOO_SMALL, strlen(steps), "");
    on_texts(one, LINE("01", "", "", "", "false") "\n");
    expect("plan: nothing to do", plan, CONFSCRIPT_STATUS_DONE, 14, "nothing to do\n");
    on_texts("Voters:[1]", two);
    expect("plan: the first is no line", plan, CONFSCRIPT_STATUS_BAD_CONF_STATE, 1, "");
    on_texts(one, "Voters:[2]");
    expect("plan: the second is no line", plan, CONFSCRIPT_STATUS_BAD_CONF_STATE, 2, "");
    on_texts(LINE("1 1", "", "", "", "false"), "");
    expect("plan: the first is no configuration", plan, CONFSCRIPT_STATUS_NOT_A_CONFIGURATION, 1, "");
    on_texts(one, LINE("2", "", "2", "", "false"));
    expect("plan: the second is no configuration", plan, CONFSCRIPT_STATUS_NOT_A_CONFIGURATION, 2, "");
    on_texts(LINE("", "", "1", "", "false"), LINE("", "", "", "", "false"));
    expect("plan: the first has no voter", plan, CONFSCRIPT_STATUS_NO_VOTER, 1, "");
    on_texts(one, LINE("", "", "", "", "false"));
    expect("plan: the second has no voter", plan, CONFSCRIPT_STATUS_NO_VOTER, 2, "");
}

/* The configurations (1 2 3) and (2 3 5) in each form, from each form of the one to each of the other. */
static void forms(void) {
    static const char *const from[] = {
        LINE("1 2 3", "", "", "", "false"), "voters=(1 2 3)", "{\"voters\":[1,2,3]}", "{\"members\":[{\"ID\":1,\"name\":\"a\"},{\"ID\":2},{\"ID\":3}]}"};
    static const char *const to[] = {
        LINE("2 3 5", "", "", "", "false"), " voters=(2 3 5)\n", "{\"voters\":[5,3,2]}", "{\"members\":[{\"ID\":2},{\"ID\":3},{\"ID\":5}]}", "r1 v5"};
    const char *steps = "enter-joint autoleave=false r1 v5\nleave-joint\n";
    for (size_t i = 0; i < sizeof from / sizeof *from; i++) for (size_t k = 0; k < sizeof to / sizeof *to; k++) {
        char name[64];
        snprintf(name, sizeof name, "form: %zu to %zu", i, k);
        on_texts(from[i], to[k]);
        expect(name, plan, CONFSCRIPT_STATUS_DONE, strlen(steps), steps);
    }
    on_texts("voters=(1 2)&&(1 2 3) learners=(4) learners_next=(3) autoleave", LINE("1 2", "1 2 3", "4", "3", "true"));
    expect("form: a joint configuration, printed", plan, CONFSCRIPT_STATUS_DONE, 14, "nothing to do\n");
    on_texts("{\"members\":[{\"ID\":18446744073709551615},{\"ID\":4,\"isLearner\":true}]}", "voters=(18446744073709551615) learners=(4)");
    expect("form: a list of members with a learner", plan, CONFSCRIPT_STATUS_DONE, 14, "nothing to do\n");
    on_texts("voters=(2 3 4)&&(1 2 3)", "r2");
    expect("form: changes, where the first is joint", plan, CONFSCRIPT_STATUS_DONE, 22, "leave-joint\nsimple r2\n");
    on_texts("voters=(1)&&(1 2)", " \n");
    expect("form: no changes", plan, CONFSCRIPT_STATUS_BAD_CHANGE_LIST, 2, "");
    on_texts("voters=(1)", "v1 u7");
    expect("form: changes without effect", plan, CONFSCRIPT_STATUS_DONE, 14, "nothing to do\n");
    on_texts("voters=(1 2)&&(1 3)", "r3 v7 r7");
    expect("form: a removal of an id that is not a member", plan, CONFSCRIPT_STATUS_NOT_A_MEMBER, 7, "");
    on_texts("voters=(1 2) learners=(18446744073709551615)", "r18446744073709551615 l18446744073709551615 r7");
    expect("form: a member is removed and added again", plan, CONFSCRIPT_STATUS_ADDED_AGAIN, UINT64_MAX, "");
    on_texts("voters=(1)", "r1");
    expect("form: changes that leave no voter", plan, CONFSCRIPT_STATUS_NO_VOTER, 2, "");
    on_texts("", "v1");
    expect("form: the first is empty", plan, CONFSCRIPT_STATUS_UNKNOWN_FORM, 1, "");
    on_texts("v1", "v1");
    expect("form: the first is a list of changes", plan, CONFSCRIPT_STATUS_UNKNOWN_FORM, 1, "");
    on_texts("voters(1)", "x");
    expect("form: the first is badly printed", plan, CONFSCRIPT_STATUS_BAD_PRINTED, 1, "");
    on_texts("voters=(1)", "voters=(1");
    expect("form: the second is badly printed", plan, CONFSCRIPT_STATUS_BAD_PRINTED, 2, "");
    on_texts("{}}", "x");
    expect("form: the first is bad JSON", plan, CONFSCRIPT_STATUS_BAD_JSON, 1, "");
    on_texts("voters=(1)", "{\"voters\":[-1]}");
    expect("form: the second is bad JSON", plan, CONFSCRIPT_STATUS_BAD_JSON, 2, "");
    on_texts("voters=(1)", "v2 x3");
    expect("form: the second is in no form", plan, CONFSCRIPT_STATUS_BAD_CHANGE_LIST, 2, "");
    on_texts("voters=(1) learners=(1)", "x");
    expect("form: the first is printed, and not valid", plan, CONFSCRIPT_STATUS_NOT_A_CONFIGURATION, 1, "");
    on_texts("voters=(1)", "{\"voters\":[2],\"learners\":[2]}");
    expect("form: the second is JSON, and not valid", plan, CONFSCRIPT_STATUS_NOT_A_CONFIGURATION, 2, "");
}

#define STATE(learners, voters, outgoing) \
    "\"conf_state\":{\"auto_leave\":false,\"learners\":[" learners "],\"learners_next\":[],\"voters\":[" voters "],\"voters_outgoing\":[" outgoing "]}"

/* Each output, also with ids down. */
static void outputs(void) {
    static const char lines[] =
        "{\"catch_up\":[6],\"conf_change\":{\"changes\":[{\"node_id\":6,\"type\":\"ConfChangeAddLearnerNode\"}],\"transition\":\"ConfChangeTransitionAuto\"},"
        STATE("6", "1,2,3,4,5", "") ",\"may_be_down\":2,\"plan\":1,\"step\":1,\"steps\":4,\"until_then\":2}\n"
        "{\"catch_up\":[7],\"conf_change\":{\"changes\":[{\"node_id\":7,\"type\":\"ConfChangeAddLearnerNode\"}],\"transition\":\"ConfChangeTransitionAuto\"},"
        STATE("6,7", "1,2,3,4,5", "") ",\"may_be_down\":2,\"plan\":1,\"step\":2,\"steps\":4,\"until_then\":2}\n"
        "{\"catch_up\":[],\"conf_change\":{\"changes\":[{\"node_id\":1,\"type\":\"ConfChangeRemoveNode\"},{\"node_id\":2,\"type\":\"ConfChangeRemoveNode\"},"
        "{\"node_id\":6,\"type\":\"ConfChangeAddNode\"},{\"node_id\":7,\"type\":\"ConfChangeAddNode\"}],\"transition\":\"ConfChangeTransitionJointExplicit\"},"
        STATE("", "3,4,5,6,7", "1,2,3,4,5") ",\"may_be_down\":2,\"plan\":1,\"step\":3,\"steps\":4,\"until_then\":2}\n"
        "{\"catch_up\":[],\"conf_change\":{\"changes\":[],\"transition\":\"ConfChangeTransitionAuto\"},"
        STATE("", "3,4,5,6,7", "") ",\"may_be_down\":2,\"plan\":1,\"step\":4,\"steps\":4,\"until_then\":2}\n";
    static const char besides[] =
        "step                                       1 2 3 4 5 6 7  majority           may be down  catch up  until then  besides 4 5\n"
        "now                                        V V V V V . .  3 of 5             2                                  0\n"
        "1 simple l6 l7                             V V V V V L L  3 of 5             2            6 7       2           0\n"
        "2 enter-joint autoleave=false r4 r5 v6 v7  V V V - - + +  3 of 5 and 3 of 5  2                                  0\n"
        "3 leave-joint                              V V V . . V V  3 of 5             2                                  2\n";
    static const char table[] =
        "step         1 2  majority  may be down  catch up  until then\n"
        "now          V .  1 of 1    0\n"
        "1 simple v2  V V  2 of 2    0            2         stalls\n";
    const char *retired = "simple r4\nsimple r5\nsimple l6\nsimple v6\nsimple l7\nsimple v7\n";
    strategy = CONFSCRIPT_STRATEGY_LEARNERS_FIRST;
    output = CONFSCRIPT_OUTPUT_JSON;
    on_texts("voters=(1 2 3 4 5)", "r1 r2 v6 v7");
    expect("output: JSON", plan, CONFSCRIPT_STATUS_DONE, strlen(lines), lines);
    room = strlen(lines) - 1;
    expect("output: JSON, one byte too small", plan, CONFSCRIPT_STATUS_TOO_SMALL, strlen(lines), "");
    output = CONFSCRIPT_OUTPUT_TABLE;
    on_texts("voters=(1 2 3 4 5)", "r4 r5 v6 v7");
    SET(down, 5, 4, 5);
    expect("output: a table with ids down", plan, CONFSCRIPT_STATUS_DONE, strlen(besides), besides);
    strategy = CONFSCRIPT_STRATEGY_ONE_AT_A_TIME;
    output = CONFSCRIPT_OUTPUT_STEPS;
    expect("output: steps with ids down, which are removed first", plan, CONFSCRIPT_STATUS_DONE, strlen(retired), retired);
    strategy = CONFSCRIPT_STRATEGY_SHORTEST;
    on_texts("voters=(1 2 3)", "v1");
    SET(down, 1, 2);
    expect("output: steps that stall", plan, CONFSCRIPT_STATUS_DONE, 61, "# no quorum with 1 2 down: no step can be made\nnothing to do\n");
    output = CONFSCRIPT_OUTPUT_JSON;
    expect("output: JSON of a plan that stalls", plan, CONFSCRIPT_STATUS_DONE, 48, "{\"down\":[1,2],\"plan\":1,\"stalls\":true,\"steps\":0}\n");
    down_len = 0;
    expect("output: JSON of nothing to do", plan, CONFSCRIPT_STATUS_DONE, 21, "{\"plan\":1,\"steps\":0}\n");
    output = CONFSCRIPT_OUTPUT_TABLE;
    on_texts("voters=(1)", "v2");
    expect("output: a table", plan, CONFSCRIPT_STATUS_DONE, strlen(table), table);
    on_texts("voters=(1 2)", "r2 v4");
    SET(down, 9, 4, 7, 2);
    expect("output: ids are down that are not members", plan, CONFSCRIPT_STATUS_DOWN_NOT_A_MEMBER, 7, "");
    on_texts("", "");
    SET(down, 1, 0);
    expect("output: the id 0 is down", plan, CONFSCRIPT_STATUS_ZERO_ID, 0, "");
    output = 3;
    expect("output: not one", plan, CONFSCRIPT_STATUS_BAD_OUTPUT, 0, "");
    output = UINT32_MAX;
    expect("output: the greatest number", plan, CONFSCRIPT_STATUS_BAD_OUTPUT, 0, "");
    strategy = 3;
    expect("output: the strategy is looked at first", plan, CONFSCRIPT_STATUS_BAD_STRATEGY, 0, "");
    strategy = CONFSCRIPT_STRATEGY_SHORTEST;
    output = CONFSCRIPT_OUTPUT_STEPS;
    down_len = 0;
}

static void strategies(void) {
    const char *five = LINE("1 2 3 4 5", "", "", "", "false"), *joint = LINE("2", "1", "", "", "false");
    const char *learners_first = "simple l6 l7\nenter-joint autoleave=false r1 r2 v6 v7\nleave-joint\n";
    const char *one_at_a_time = "simple l6\nsimple v6\nsimple r1\nsimple l7\nsimple v7\nsimple r2\n";
    on_texts(five, LINE("3 4 5 6 7", "", "", "", "false"));
    strategy = CONFSCRIPT_STRATEGY_LEARNERS_FIRST;
    expect("strategy: learners first", plan, CONFSCRIPT_STATUS_DONE, strlen(learners_first), learners_first);
    strategy = CONFSCRIPT_STRATEGY_ONE_AT_A_TIME;
    expect("strategy: one at a time", plan, CONFSCRIPT_STATUS_DONE, strlen(one_at_a_time), one_at_a_time);
    room = strlen(one_at_a_time) - 1;
    expect("strategy: one byte too small", plan, CONFSCRIPT_STATUS_TOO_SMALL, strlen(one_at_a_time), "");
    on_texts(LINE("1", "", "", "", "false"), joint);
    expect("strategy: one at a time into a joint configuration", plan, CONFSCRIPT_STATUS_JOINT_TARGET, 0, "");
    on_texts(joint, joint);
    expect("strategy: one at a time from a joint configuration to itself", plan, CONFSCRIPT_STATUS_DONE, 14, "nothing to do\n");
    on_texts("", "");
    strategy = 3;
    expect("strategy: not one", plan, CONFSCRIPT_STATUS_BAD_STRATEGY, 0, "");
    strategy = UINT32_MAX;
    expect("strategy: the greatest number", plan, CONFSCRIPT_STATUS_BAD_STRATEGY, 0, "");
    strategy = CONFSCRIPT_STRATEGY_SHORTEST;
}

static void applies(void) {
    const char *one = LINE("1", "", "", "", "false"), *joint = LINE("2", "1", "", "", "false"), *none = LINE("", "", "", "", "false");
    const char *both = LINE("1 2", "", "", "", "false"), *six = LINE("2", "", "3", "", "false");
    on_texts(one, "simple v2");
    expect("apply: one change", apply, CONFSCRIPT_STATUS_DONE, strlen(both), both);
    room = strlen(both);
    expect("apply: it just fits", apply, CONFSCRIPT_STATUS_DONE, strlen(both), both);
    room = strlen(both) - 1;
    expect("apply: one byte too small", apply, CONFSCRIPT_STATUS_TOO_SMALL, strlen(both), "");
    on_texts(one, "nothing to do\n");
    expect("apply: nothing to do", apply, CONFSCRIPT_STATUS_DONE, strlen(one), one);
    on_texts(none, "simple v1\n");
    expect("apply: from the empty configuration", apply, CONFSCRIPT_STATUS_DONE, strlen(one), one);
    on_texts("", "simple v1\n");
    expect("apply: no line", apply, CONFSCRIPT_STATUS_BAD_CONF_STATE, 1, "");
    on_texts(LINE("1", "2", "2", "", "false"), "simple v1\n");
    expect("apply: no configuration", apply, CONFSCRIPT_STATUS_NOT_A_CONFIGURATION, 1, "");
    on_texts(LINE("", "", "2", "", "false"), "simple v1\n");
    expect("apply: a learner and no voter", apply, CONFSCRIPT_STATUS_NOT_A_CONFIGURATION, 1, "");
    on_texts(one, "");
    expect("apply: the empty plan text", apply, CONFSCRIPT_STATUS_BAD_LINE, 1, "");
    on_texts(one, "simple v2\nsimple x\n");
    expect("apply: a bad line", apply, CONFSCRIPT_STATUS_BAD_LINE, 2, "");
    on_texts(one, "simple l2\nsimple v2\nsimple l3\nsimple v3\nsimple r1\nsimple l3\n");
    expect("apply: six lines", apply, CONFSCRIPT_STATUS_DONE, strlen(six), six);
    on_texts(one, "simple\nsimple\nsimple\nsimple\nsimple\nleave-joint\n");
    expect("apply: the sixth step is refused", apply, CONFSCRIPT_STATUS_NOT_JOINT, 6, "");
    on_texts(one, "simple\nsimple\nsimple\nsimple\nsimple\nsimple x\n");
    expect("apply: the sixth line is bad", apply, CONFSCRIPT_STATUS_BAD_LINE, 6, "");
    on_texts(one, "simple v2\nenter-joint autoleave=true v3\nenter-joint autoleave=true\n");
    expect("apply: already joint", apply, CONFSCRIPT_STATUS_ALREADY_JOINT, 3, "");
    on_texts(none, "enter-joint autoleave=false v1\n");
    expect("apply: no voter to enter from", apply, CONFSCRIPT_STATUS_ZERO_VOTER_JOINT, 1, "");
    on_texts(one, "leave-joint\n");
    expect("apply: not joint", apply, CONFSCRIPT_STATUS_NOT_JOINT, 1, "");
    on_texts(joint, "simple v3\n");
    expect("apply: simple in a joint configuration", apply, CONFSCRIPT_STATUS_SIMPLE_IN_JOINT, 1, "");
    on_texts(one, "simple v2\nsimple r1\nsimple r2\n");
    expect("apply: no voter is left", apply, CONFSCRIPT_STATUS_REMOVED_ALL_VOTERS, 3, "");
    on_texts(one, "simple v2 v3\n");
    expect("apply: two voters at once", apply, CONFSCRIPT_STATUS_MORE_THAN_ONE_VOTER, 1, "");
}

static void checks(void) {
    on_texts(LINE("3 1 2", "6 1 2 4", "5", "4", "true"), "");
    expect("check: nothing is wrong", check, CONFSCRIPT_STATUS_DONE, 0, "");
    on_texts(LINE("", "", "5", "", "false"), "");
    expect("check: no voter", check, CONFSCRIPT_STATUS_DONE, 0, "");
    on_texts(LINE("1", "", "", "", "no"), "");
    expect("check: no line", check, CONFSCRIPT_STATUS_BAD_CONF_STATE, 1, "");
    on_texts(LINE("0", "", "2 2", "", "false"), "");
    expect("check: an id twice", check, CONFSCRIPT_STATUS_REPEATED_ID, 2, "");
    on_texts(LINE("0", "", "0", "", "false"), "");
    expect("check: the id 0", check, CONFSCRIPT_STATUS_ZERO_ID, 0, "");
    on_texts(LINE("1", "2", "", "1", "false"), "");
    expect("check: next, not outgoing", check, CONFSCRIPT_STATUS_NEXT_NOT_OUTGOING, 1, "");
    on_texts(LINE("1", "1", "", "1", "false"), "");
    expect("check: next and incoming", check, CONFSCRIPT_STATUS_NEXT_AND_INCOMING, 1, "");
    on_texts(LINE("1", "", "1", "", "true"), "");
    expect("check: learner and voter", check, CONFSCRIPT_STATUS_LEARNER_AND_VOTER, 1, "");
    on_texts(LINE("1", "", "", "", "true"), "");
    expect("check: auto-leave, not joint", check, CONFSCRIPT_STATUS_NOT_JOINT_BUT_AUTO_LEAVE, 0, "");
}

/* Expects a committed index, without taking memory. The indexes of both sets stay as they are. */
static void commits(const char *name, uint64_t index) {
    uint64_t before[2][16];
    memcpy(before[0], incoming, sizeof incoming);
    memcpy(before[1], outgoing, sizeof outgoing);
    struct confscript_answer got = called(committed, 0);
    int are_kept = memcmp(before[0], incoming, sizeof incoming) == 0 && memcmp(before[1], outgoing, sizeof outgoing) == 0;
    report(name, got.number == index && are_kept, got);
}

/* Indexes that cannot be written, of both sets at once. */
static void commits_constants(void) {
    static const uint64_t indexes[] = {9, 0, 7, 5, 6};
    struct confscript_answer got = {CONFSCRIPT_STATUS_DONE, confscript_committed(indexes, 5, indexes, 5)};
    report("committed: constants, in both sets", got.number == 6, got);
    got.number = confscript_committed(indexes, 3, indexes + 1, 4);
    report("committed: sets that overlap", got.number == 5, got);
}

/* Expects the result of a vote, and takes no memory for it. */
static void votes(const char *name, uint32_t status, uint64_t number) {
    struct confscript_answer got = called(vote, 0);
    report(name, got.status == status && got.number == number, got);
}

enum { MANY = 10001 };
static uint64_t many[MANY];
static uint8_t many_votes[MANY];

/* Many voters, whose indexes are first in descending order, then all the same. */
static void many_voters(void) {
    for (size_t i = 0; i < MANY; i++) many[i] = MANY - i;
    struct confscript_answer got = {CONFSCRIPT_STATUS_DONE, confscript_committed(many, MANY, outgoing, 0)};
    report("committed: many voters", got.number == MANY / 2 + 1, got);
    for (size_t i = 0; i < MANY; i++) many[i] = 7;
    got.number = confscript_committed(outgoing, 0, many, MANY);
    report("committed: many voters with the same index", got.number == 7, got);
    memset(many_votes, CONFSCRIPT_BALLOT_NO, MANY);
    memset(many_votes, CONFSCRIPT_BALLOT_YES, MANY / 2 + 1);
    got = confscript_vote(many_votes, MANY, many_votes, 0);
    report("vote: many voters win", got.status == CONFSCRIPT_STATUS_DONE && got.number == CONFSCRIPT_VOTE_WON, got);
    many_votes[0] = CONFSCRIPT_BALLOT_NO;
    got = confscript_vote(many_votes, MANY, many_votes, 0);
    report("vote: many voters lose", got.status == CONFSCRIPT_STATUS_DONE && got.number == CONFSCRIPT_VOTE_LOST, got);
}

enum { NO = CONFSCRIPT_BALLOT_NO, YES = CONFSCRIPT_BALLOT_YES, NONE = CONFSCRIPT_BALLOT_NOT_CAST };
#define VOTES(name, ...) (name##_votes_len = sizeof((uint8_t[]){__VA_ARGS__}), memcpy(name##_votes, (const uint8_t[]){__VA_ARGS__}, name##_votes_len))

static void quorums(void) {
    incoming_len = outgoing_len = 0;
    commits("committed: no voters", UINT64_MAX);
    SET(incoming, 5, 0, 7);
    commits("committed: one set", 5);
    SET(outgoing, 0);
    commits("committed: no index of the outgoing voter", 0);
    SET(incoming, 9, 0, 6, 6, 4);
    SET(outgoing, 4, 4);
    commits("committed: both sets", 4);
    SET(incoming, 1);
    commits("committed: the smaller of both", 1);
    incoming_len = 0;
    commits("committed: outgoing voters alone", 4);
    SET(incoming, 3, 3, 3, 3);
    outgoing_len = 0;
    commits("committed: repeated indexes", 3);
    SET(incoming, 9, 9, 9, 1, 2);
    commits("committed: a voter that is listed three times counts three times", 9);
    SET(incoming, 2, 8);
    commits("committed: both of two", 2);
    SET(incoming, UINT64_MAX, 1, UINT64_MAX);
    commits("committed: the greatest index", UINT64_MAX);
    commits_constants();

    incoming_votes_len = outgoing_votes_len = 0;
    votes("vote: no voters", CONFSCRIPT_STATUS_DONE, CONFSCRIPT_VOTE_WON);
    VOTES(incoming, YES, NONE, YES);
    votes("vote: won", CONFSCRIPT_STATUS_DONE, CONFSCRIPT_VOTE_WON);
    VOTES(outgoing, YES, NONE);
    votes("vote: it depends on an outgoing voter", CONFSCRIPT_STATUS_DONE, CONFSCRIPT_VOTE_PENDING);
    VOTES(outgoing, YES, YES);
    votes("vote: both sets win", CONFSCRIPT_STATUS_DONE, CONFSCRIPT_VOTE_WON);
    VOTES(outgoing, NO, NONE);
    votes("vote: the outgoing voters lose", CONFSCRIPT_STATUS_DONE, CONFSCRIPT_VOTE_LOST);
    outgoing_votes_len = 0;
    VOTES(incoming, NONE, NONE, NO);
    votes("vote: pending", CONFSCRIPT_STATUS_DONE, CONFSCRIPT_VOTE_PENDING);
    VOTES(incoming, NO, NONE, NO);
    votes("vote: lost", CONFSCRIPT_STATUS_DONE, CONFSCRIPT_VOTE_LOST);
    VOTES(incoming, YES, YES, NO, NO);
    votes("vote: half is not enough", CONFSCRIPT_STATUS_DONE, CONFSCRIPT_VOTE_LOST);
    VOTES(incoming, YES, YES, 3);
    votes("vote: no such vote", CONFSCRIPT_STATUS_BAD_VOTE, 0);
    incoming_votes_len = 0;
    VOTES(outgoing, 255);
    votes("vote: no such vote of an outgoing voter", CONFSCRIPT_STATUS_BAD_VOTE, 0);
    many_voters();

    SET(incoming, 1, 2, 3);
    outgoing_len = ids_len = 0;
    expect("may be down: one of three", may_be_down, CONFSCRIPT_STATUS_DONE, 1, "");
    SET(ids, 3, 9);
    expect("may be down: two of three count", may_be_down, CONFSCRIPT_STATUS_DONE, 0, "");
    SET(ids, 3, 1);
    expect("may be down: one of three counts", may_be_down, CONFSCRIPT_STATUS_NO_QUORUM, 0, "");
    SET(incoming, 1, 2, 3, 4, 5);
    SET(outgoing, 1, 2, 3);
    ids_len = 0;
    expect("may be down: the weaker of both", may_be_down, CONFSCRIPT_STATUS_DONE, 1, "");
    SET(ids, 2);
    expect("may be down: the weaker, where one does not count", may_be_down, CONFSCRIPT_STATUS_DONE, 0, "");
    SET(incoming, 1, 1, 1, 2, 2, 3);
    outgoing_len = ids_len = 0;
    expect("may be down: an id that is listed twice counts once", may_be_down, CONFSCRIPT_STATUS_DONE, 1, "");
    incoming_len = 0;
    expect("may be down: no voters", may_be_down, CONFSCRIPT_STATUS_NO_QUORUM, 0, "");
}

#define NUMBERS(...) (const uint64_t[]){__VA_ARGS__}, sizeof((uint64_t[]){__VA_ARGS__}) / sizeof(uint64_t)
#define GIVEN(...) (configuration_len = set(configuration, sizeof((uint64_t[]){__VA_ARGS__}) / sizeof(uint64_t), (const uint64_t[]){__VA_ARGS__}))

/* Expects that a call with numbers writes these, without taking memory. */
#define WRITES(name, which, ...) expect_numbers(name, which, NEVER, CONFSCRIPT_STATUS_DONE, sizeof((uint64_t[]){__VA_ARGS__}) / sizeof(uint64_t), NUMBERS(__VA_ARGS__))
/* Expects that it is refused. */
#define REFUSED(name, which, status, number) expect_numbers(name, which, NEVER, status, number, NULL, 0)

static void restores(void) {
    GIVEN(0, 3, 0, 1, 0, 0, 3, 1, 2, 4);
    WRITES("restore: voters and a learner", restore, 0, 3, 0, 1, 0, 4, 1, 2, 3, 4, 1, 2, 3, 4);
    numbers_room = 14;
    WRITES("restore: it just fits", restore, 0, 3, 0, 1, 0, 4, 1, 2, 3, 4, 1, 2, 3, 4);
    numbers_room = 13;
    REFUSED("restore: one number too small", restore, CONFSCRIPT_STATUS_TOO_SMALL, 14);
    numbers_room = 0;
    REFUSED("restore: no room", restore, CONFSCRIPT_STATUS_TOO_SMALL, 14);
    numbers_room = ROOM;
    GIVEN(1, 2, 3, 0, 1, 0, 2, 1, 3, 1, 2, 3);
    WRITES("restore: a joint configuration", restore, 1, 2, 3, 0, 1, 3, 1, 2, 1, 2, 3, 3, 1, 2, 3);
    GIVEN(0, 0, 0, 0, 0, 0);
    WRITES("restore: no members", restore, 0, 0, 0, 0, 0, 0);
    GIVEN(0, 1, 0, 0, 0, 2, UINT64_MAX, 9, 9);
    WRITES("restore: the greatest id, and ids that were catching up before", restore, 0, 1, 0, 0, 0, 1, UINT64_MAX, UINT64_MAX);
    configuration_len = 0;
    REFUSED("restore: no numbers", restore, CONFSCRIPT_STATUS_DIFFERENT_LENGTHS, 0);
    GIVEN(0, 0, 0, 0, 0);
    REFUSED("restore: a count is missing", restore, CONFSCRIPT_STATUS_DIFFERENT_LENGTHS, 0);
    GIVEN(2, 1, 0, 0, 0, 0, 1);
    REFUSED("restore: no flag", restore, CONFSCRIPT_STATUS_DIFFERENT_LENGTHS, 0);
    GIVEN(0, 2, 0, 0, 0, 0, 1);
    REFUSED("restore: an id is missing", restore, CONFSCRIPT_STATUS_DIFFERENT_LENGTHS, 0);
    GIVEN(0, 1, 0, 0, 0, 0, 1, 2);
    REFUSED("restore: an id too many", restore, CONFSCRIPT_STATUS_DIFFERENT_LENGTHS, 0);
    GIVEN(0, UINT64_MAX, 1, 1, 0, 0, 1);
    REFUSED("restore: counts that wrap around", restore, CONFSCRIPT_STATUS_DIFFERENT_LENGTHS, 0);
    GIVEN(0, 1, 1, 0, 1, 0, 1, 2, 1);
    REFUSED("restore: next, not outgoing", restore, CONFSCRIPT_STATUS_NEXT_NOT_OUTGOING, 1);
    GIVEN(0, 1, 1, 0, 2, 0, 1, 1, 4, 3);
    REFUSED("restore: the least of two next, not outgoing", restore, CONFSCRIPT_STATUS_NEXT_NOT_OUTGOING, 3);
    GIVEN(0, 2, 2, 0, 1, 0, 1, 2, 1, 2, 2);
    REFUSED("restore: next and incoming", restore, CONFSCRIPT_STATUS_NEXT_AND_INCOMING, 2);
    GIVEN(0, 2, 0, 1, 0, 0, 1, 2, 2);
    REFUSED("restore: learner and voter", restore, CONFSCRIPT_STATUS_LEARNER_AND_VOTER, 2);
    GIVEN(0, 1, 0, 1, 0, 0, 1, 0);
    REFUSED("restore: the id 0", restore, CONFSCRIPT_STATUS_ZERO_ID, 0);
    GIVEN(1, 1, 0, 0, 0, 0, 1);
    REFUSED("restore: auto-leave, not joint", restore, CONFSCRIPT_STATUS_NOT_JOINT_BUT_AUTO_LEAVE, 0);
    GIVEN(0, 0, 0, 1, 0, 0, 5);
    REFUSED("restore: a learner and no voter", restore, CONFSCRIPT_STATUS_NO_VOTER, 0);
    GIVEN(0, 4, 2, 0, 0, 0, 1, 3, 3, 1, 2, 2);
    expect_numbers("restore: an id twice", restore, ALWAYS, CONFSCRIPT_STATUS_REPEATED_ID, 1, NULL, 0);
    GIVEN(0, 9, 0, 0, 0, 0, 9, 8, 7, 6, 5, 4, 3, 2, 1);
    expect_numbers("restore: nine voters", restore, ALWAYS, CONFSCRIPT_STATUS_DONE, 24, NUMBERS(0, 9, 0, 0, 0, 9, 1, 2, 3, 4, 5, 6, 7, 8, 9, 1, 2, 3, 4, 5, 6, 7, 8, 9));
}

enum { VOTER = CONFSCRIPT_CHANGE_VOTER, REMOVE = CONFSCRIPT_CHANGE_REMOVE, UPDATE = CONFSCRIPT_CHANGE_UPDATE, LEARNER = CONFSCRIPT_CHANGE_LEARNER };
#define BY(how, ...) do { \
    const struct confscript_change by[] = {__VA_ARGS__}; \
    kind = how; \
    changes_len = sizeof by / sizeof *by; \
    memcpy(changes, by, sizeof by); \
} while (0)
#define BY_NONE(how) (kind = how, changes_len = 0)
/* The next step is from the configuration that the last one wrote. */
static void go_on(void) {
    configuration_len = CONFSCRIPT_PART_IDS;
    for (int part = CONFSCRIPT_PART_INCOMING; part < CONFSCRIPT_PART_IDS; part++) configuration_len += numbers[part];
    memcpy(configuration, numbers, configuration_len * sizeof *numbers);
}

static void accepted_steps(void) {
    GIVEN(0, 3, 0, 0, 0, 0, 3, 2, 1);
    BY(CONFSCRIPT_STEP_AUTO, {LEARNER, 4});
    WRITES("step: auto, one change", step, 0, 3, 0, 1, 0, 1, 1, 2, 3, 4, 4);
    go_on();
    BY(CONFSCRIPT_STEP_SIMPLE, {VOTER, 4});
    WRITES("step: a promoted learner keeps its progress", step, 0, 4, 0, 0, 0, 0, 1, 2, 3, 4);
    GIVEN(0, 3, 0, 0, 0, 0, 1, 2, 3);
    BY(CONFSCRIPT_STEP_AUTO, {VOTER, 4}, {REMOVE, 1});
    WRITES("step: auto, two changes", step, 1, 3, 3, 0, 0, 1, 2, 3, 4, 1, 2, 3, 4);
    go_on();
    BY_NONE(CONFSCRIPT_STEP_AUTO);
    WRITES("step: auto, no change", step, 0, 3, 0, 0, 0, 0, 2, 3, 4);
    go_on();
    BY(CONFSCRIPT_STEP_IMPLICIT, {LEARNER, 3});
    WRITES("step: implicit", step, 1, 2, 3, 0, 1, 0, 2, 4, 2, 3, 4, 3);
    go_on();
    BY(CONFSCRIPT_STEP_LEAVE_JOINT, {VOTER, 9});
    WRITES("step: leaving, where the changes are ignored", step, 0, 2, 0, 1, 0, 0, 2, 4, 3);
    GIVEN(0, 1, 0, 0, 0, 0, 1);
    BY_NONE(CONFSCRIPT_STEP_EXPLICIT);
    WRITES("step: explicit, no change", step, 0, 1, 1, 0, 0, 0, 1, 1);
    GIVEN(0, 2, 0, 0, 0, 0, 1, 2);
    BY(CONFSCRIPT_STEP_SIMPLE, {REMOVE, 1}, {VOTER, 1});
    WRITES("step: removed and added again", step, 0, 2, 0, 0, 0, 1, 1, 2, 1);
    BY(CONFSCRIPT_STEP_EXPLICIT, {REMOVE, 1}, {VOTER, 1});
    WRITES("step: removed and added again, while it is an outgoing voter", step, 0, 2, 2, 0, 0, 0, 1, 2, 1, 2);
    BY(CONFSCRIPT_STEP_SIMPLE, {UPDATE, 1}, {VOTER, 0}, {UPDATE, 7});
    WRITES("step: changes without effect", step, 0, 2, 0, 0, 0, 0, 1, 2);
    BY(CONFSCRIPT_STEP_SIMPLE, {VOTER, 7}, {LEARNER, 7}, {REMOVE, 1}, {VOTER, 1});
    WRITES("step: the last change of an id decides", step, 0, 2, 0, 1, 0, 2, 1, 2, 7, 1, 7);
    numbers_room = 10;
    REFUSED("step: one number too small", step, CONFSCRIPT_STATUS_TOO_SMALL, 11);
    numbers_room = ROOM;
    GIVEN(0, 0, 0, 0, 0, 0);
    BY(CONFSCRIPT_STEP_SIMPLE, {VOTER, UINT64_MAX});
    WRITES("step: the first voter, of the greatest id", step, 0, 1, 0, 0, 0, 1, UINT64_MAX, UINT64_MAX);
    kind = CONFSCRIPT_STEP_SIMPLE;
    uint64_t expected[ROOM] = {0, 1, 0, 40, 0, 41, 1};
    changes_len = 0;
    changes[changes_len++] = (struct confscript_change){VOTER, 1};
    for (uint64_t id = 50; id > 10; id--) changes[changes_len++] = (struct confscript_change){LEARNER, id};
    for (uint64_t i = 0; i < 40; i++) expected[7 + i] = expected[48 + i] = 11 + i;
    expected[47] = 1;
    expect_numbers("step: many changes", step, ALWAYS, CONFSCRIPT_STATUS_DONE, 88, expected, 88);
}

static void refused_steps(void) {
    GIVEN(0, 1, 1, 0, 0, 0, 2, 1);
    BY_NONE(CONFSCRIPT_STEP_IMPLICIT);
    REFUSED("step: already joint", step, CONFSCRIPT_STATUS_ALREADY_JOINT, 0);
    BY(CONFSCRIPT_STEP_AUTO, {VOTER, 3});
    REFUSED("step: simple in a joint configuration", step, CONFSCRIPT_STATUS_SIMPLE_IN_JOINT, 0);
    GIVEN(0, 0, 0, 0, 0, 0);
    BY(CONFSCRIPT_STEP_EXPLICIT, {VOTER, 1});
    REFUSED("step: no voter to enter from", step, CONFSCRIPT_STATUS_ZERO_VOTER_JOINT, 0);
    GIVEN(0, 1, 0, 0, 0, 0, 1);
    BY_NONE(CONFSCRIPT_STEP_LEAVE_JOINT);
    REFUSED("step: not joint", step, CONFSCRIPT_STATUS_NOT_JOINT, 0);
    BY_NONE(CONFSCRIPT_STEP_AUTO);
    REFUSED("step: auto, no change, not joint", step, CONFSCRIPT_STATUS_NOT_JOINT, 0);
    BY(CONFSCRIPT_STEP_SIMPLE, {REMOVE, 1});
    REFUSED("step: no voter is left", step, CONFSCRIPT_STATUS_REMOVED_ALL_VOTERS, 0);
    BY(CONFSCRIPT_STEP_EXPLICIT, {LEARNER, 1});
    REFUSED("step: no incoming voter is left", step, CONFSCRIPT_STATUS_REMOVED_ALL_VOTERS, 0);
    BY(CONFSCRIPT_STEP_SIMPLE, {VOTER, 2}, {REMOVE, 1});
    REFUSED("step: two voters at once", step, CONFSCRIPT_STATUS_MORE_THAN_ONE_VOTER, 0);
    BY(CONFSCRIPT_STEP_SIMPLE, {VOTER, 2}, {4, 1}, {5, 1});
    REFUSED("step: no such kind of change", step, CONFSCRIPT_STATUS_BAD_CHANGE, 2);
    BY_NONE(5);
    REFUSED("step: no such step", step, CONFSCRIPT_STATUS_BAD_STEP, 0);
    BY_NONE(UINT32_MAX);
    REFUSED("step: the greatest number of a step", step, CONFSCRIPT_STATUS_BAD_STEP, 0);
    GIVEN(0, 1, 0, 0, 0, 0);
    REFUSED("step: no configuration", step, CONFSCRIPT_STATUS_DIFFERENT_LENGTHS, 0);
    GIVEN(0, 2, 0, 1, 0, 0, 1, 2, 2);
    REFUSED("step: not a valid configuration", step, CONFSCRIPT_STATUS_LEARNER_AND_VOTER, 2);
}

#define TARGET(...) SET(target, __VA_ARGS__)
#define DOWN(...) SET(down, __VA_ARGS__)
/* Expects these stages, or that they are refused. */
#define STAGES(name, ...) expect_numbers(name, stages, ALWAYS, CONFSCRIPT_STATUS_DONE, sizeof((uint64_t[]){__VA_ARGS__}) / sizeof(uint64_t), NUMBERS(__VA_ARGS__))
#define NO_STAGES(name, status, number) expect_numbers(name, stages, NEVER, status, number, NULL, 0)
/* What the header writes for its example. */
#define EXAMPLE 0, 2,  0, 1, 1, 0, 1,  3, 4,  0, 3, 0, 1, 0, 1,  1, 2, 3,  4,  4,  0, 1, 1, 0, 1,  0, 4,  0, 4, 0, 0, 0, 0,  1, 2, 3, 4
#define STALLED CONFSCRIPT_STAGE_NO_QUORUM

static void planned_stages(void) {
    GIVEN(0, 3, 0, 0, 0, 0, 3, 1, 2);
    TARGET(0, 4, 0, 0, 0, 2, 4, 3, 2, 1, 7, 7);
    DOWN(3);
    strategy = CONFSCRIPT_STRATEGY_LEARNERS_FIRST;
    STAGES("stages: the example of the header", EXAMPLE);
    numbers_room = 37;
    STAGES("stages: they just fit", EXAMPLE);
    numbers_room = 36;
    expect_numbers("stages: one number too small", stages, ALWAYS, CONFSCRIPT_STATUS_TOO_SMALL, 37, NULL, 0);
    numbers_room = 0;
    expect_numbers("stages: no room", stages, ALWAYS, CONFSCRIPT_STATUS_TOO_SMALL, 37, NULL, 0);
    numbers_room = ROOM;
    down_len = 0;
    STAGES("stages: no ids down", 0, 2,
           0, 1, 1, 1, 1, LEARNER, 4, 0, 3, 0, 1, 0, 1, 1, 2, 3, 4, 4,
           0, 1, 1, 1, 1, VOTER, 4, 0, 4, 0, 0, 0, 0, 1, 2, 3, 4);
    DOWN(4, 2, 4);
    STAGES("stages: a plan that stalls at its end", 1, 2,
           0, 1, 1, 0, 1, LEARNER, 4, 0, 3, 0, 1, 0, 1, 1, 2, 3, 4, 4,
           0, 1, 1, STALLED, 1, VOTER, 4, 0, 4, 0, 0, 0, 0, 1, 2, 3, 4);
    strategy = CONFSCRIPT_STRATEGY_SHORTEST;
    down_len = 0;
    TARGET(0, 3, 0, 0, 0, 0, 1, 2, 3);
    STAGES("stages: nothing to do", 0, 0);
    DOWN(1);
    STAGES("stages: nothing to do, with a quorum up", 0, 0);
    DOWN(1, 2);
    STAGES("stages: nothing to do, without a quorum", 1, 0);
    down_len = 0;
    GIVEN(0, 1, 0, 0, 0, 0, 1);
    TARGET(0, 1, 0, 0, 0, 0, 2);
    STAGES("stages: a joint configuration that is left later, with a new voter", 0, 2,
           CONFSCRIPT_STEP_EXPLICIT, 0, STALLED, STALLED, 2, REMOVE, 1, VOTER, 2, 0, 1, 1, 0, 0, 1, 2, 1, 2,
           CONFSCRIPT_STEP_AUTO, 0, 0, 0, 0, 0, 1, 0, 0, 0, 0, 2);
    TARGET(1, 2, 1, 0, 0, 0, 1, UINT64_MAX, 1);
    STAGES("stages: a joint configuration that is left automatically", 0, 1,
           CONFSCRIPT_STEP_IMPLICIT, 0, STALLED, STALLED, 1, VOTER, UINT64_MAX, 1, 2, 1, 0, 0, 1, 1, UINT64_MAX, 1, UINT64_MAX);
    TARGET(0, 1, 1, 0, 0, 0, 1, 1);
    STAGES("stages: a joint configuration of the same voters", 0, 1, CONFSCRIPT_STEP_EXPLICIT, 0, 0, 0, 1, UPDATE, 1, 0, 1, 1, 0, 0, 0, 1, 1);
    TARGET(0, 1, 0, 2, 0, 0, 1, 3, 2);
    STAGES("stages: a simple step of two changes", 0, 2,
           CONFSCRIPT_STEP_AUTO, 0, 0, 0, 1, LEARNER, 2, 0, 1, 0, 1, 0, 1, 1, 2, 2,
           CONFSCRIPT_STEP_AUTO, 0, 0, 0, 1, LEARNER, 3, 0, 1, 0, 2, 0, 1, 1, 2, 3, 3);
}

#define VIEW(...) SET(view, __VA_ARGS__)
/* Expects this action, or that it is refused. */
#define NEXT(name, ...) expect_numbers(name, next, ALWAYS, CONFSCRIPT_STATUS_DONE, sizeof((uint64_t[]){__VA_ARGS__}) / sizeof(uint64_t), NUMBERS(__VA_ARGS__))
/* Before the members are read, no memory is taken. */
#define NO_NEXT(name, memory, status, number) expect_numbers(name, next, memory, status, number, NULL, 0)
/* The members 1 to 3 have all 9 entries and were heard from. */
#define THREE_MEMBERS 1, 9, 1, 2, 9, 1, 3, 9, 1

static void next_actions(void) {
    strategy = CONFSCRIPT_STRATEGY_LEARNERS_FIRST;
    down_len = 0;
    GIVEN(0, 3, 0, 0, 0, 0, 3, 1, 2);
    TARGET(0, 3, 0, 0, 0, 0, 1, 2, 4);
    VIEW(5, 1, 9, 0, 0, 3, 3, 0, THREE_MEMBERS, 1, 2, 3);
    NEXT("next: start", CONFSCRIPT_ACTION_START, 0, 1, 4);
    numbers_room = 4;
    NEXT("next: it just fits", CONFSCRIPT_ACTION_START, 0, 1, 4);
    numbers_room = 3;
    NO_NEXT("next: one number too small", ALWAYS, CONFSCRIPT_STATUS_TOO_SMALL, 4);
    numbers_room = ROOM;
    VIEW(5, 1, 9, 0, 0, 3, 4, 0, THREE_MEMBERS, 1, 2, 3, 4);
    NEXT("next: propose", CONFSCRIPT_ACTION_PROPOSE, 0, 0,
         CONFSCRIPT_STEP_AUTO, 1, 1, 1, 1, LEARNER, 4, 0, 3, 0, 1, 0, 1, 1, 2, 3, 4, 4);
    VIEW(5, 1, 9, 10, 0, 3, 4, 0, THREE_MEMBERS, 1, 2, 3, 4);
    NEXT("next: a change is pending", CONFSCRIPT_ACTION_WAIT, CONFSCRIPT_REASON_PENDING, 3, 1, 2, 3);
    VIEW(5, 0, 9, 0, 0, 3, 4, 0, THREE_MEMBERS, 1, 2, 3, 4);
    NEXT("next: no leader", CONFSCRIPT_ACTION_WAIT, CONFSCRIPT_REASON_NO_LEADER, 3, 1, 2, 3);
    VIEW(5, 1, 9, 0, 0, 3, 3, 1, THREE_MEMBERS, 1, 2, 3, 4);
    NEXT("next: an id is reused", CONFSCRIPT_ACTION_STUCK, CONFSCRIPT_REASON_REUSED, 1, 4);
    GIVEN(0, 3, 0, 1, 0, 0, 3, 1, 2, 4);
    VIEW(5, 1, 60, 0, 0, 4, 4, 0, 1, 60, 1, 2, 60, 1, 3, 60, 1, 4, 17, 1, 1, 2, 3, 4);
    NEXT("next: behind", CONFSCRIPT_ACTION_WAIT, CONFSCRIPT_REASON_BEHIND, 1, 4);
    VIEW(5, 1, 60, 0, 43, 4, 4, 0, 1, 60, 1, 2, 60, 1, 3, 60, 1, 4, 17, 1, 1, 2, 3, 4);
    NEXT("next: within the lag", CONFSCRIPT_ACTION_PROPOSE, 0, 0,
         CONFSCRIPT_STEP_EXPLICIT, 1, 1, 1, 2, REMOVE, 3, VOTER, 4, 0, 3, 3, 0, 0, 0, 1, 2, 4, 1, 2, 3);
    VIEW(5, 1, 60, 0, 43, 4, 4, 0, 1, 60, 1, 2, 60, 1, 3, 60, 1, 4, 17, 0, 1, 2, 3, 4);
    NEXT("next: unheard", CONFSCRIPT_ACTION_WAIT, CONFSCRIPT_REASON_UNHEARD, 1, 4);
    GIVEN(0, 3, 3, 0, 0, 0, 1, 2, 4, 1, 2, 3);
    VIEW(5, 3, 9, 0, 0, 4, 4, 0, THREE_MEMBERS, 4, 9, 1, 1, 2, 3, 4);
    NEXT("next: transfer", CONFSCRIPT_ACTION_TRANSFER, 0, 1, 1);
    GIVEN(1, 3, 3, 0, 0, 0, 1, 2, 4, 1, 2, 3);
    NEXT("next: leaving", CONFSCRIPT_ACTION_WAIT, CONFSCRIPT_REASON_LEAVING, 1, 3);
    DOWN(1, 2, 4);
    NEXT("next: quorum is lost", CONFSCRIPT_ACTION_STUCK, CONFSCRIPT_REASON_QUORUM_LOST, 3, 1, 2, 4);
    GIVEN(0, 3, 0, 0, 0, 0, 1, 2, 4);
    DOWN(4);
    NEXT("next: heard", CONFSCRIPT_ACTION_WAIT, CONFSCRIPT_REASON_HEARD, 1, 4);
    VIEW(5, 1, 9, 0, 0, 2, 4, 0, 1, 9, 1, 2, 9, 1, 1, 2, 3, UINT64_MAX);
    NEXT("next: stop", CONFSCRIPT_ACTION_STOP, 0, 2, 3, UINT64_MAX);
    VIEW(5, 1, 9, 0, 0, 2, 3, 2, 1, 9, 1, 2, 9, 1, 1, 2, 4, 3, UINT64_MAX);
    NEXT("next: done", CONFSCRIPT_ACTION_DONE, 0, 0);
    DOWN(4, 9);
    NEXT("next: an id is down that is not a member", CONFSCRIPT_ACTION_DONE, 0, 0);
    GIVEN(0, 3, 0, 0, 0, 0, 1, 2, 3);
    TARGET(0, 2, 0, 0, 0, 0, 3, 4);
    DOWN(4);
    VIEW(5, 1, 9, 0, 0, 3, 4, 0, THREE_MEMBERS, 1, 2, 3, 4);
    NEXT("next: the plan stalls", CONFSCRIPT_ACTION_STUCK, CONFSCRIPT_REASON_STALLS, 1, 4);
}

/* Each refusal, with those that come after it. */
static void refused_next(void) {
    configuration_len = target_len = view_len = 0;
    strategy = 3;
    DOWN(1, 0);
    NO_NEXT("next: no such strategy", NEVER, CONFSCRIPT_STATUS_BAD_STRATEGY, 0);
    strategy = CONFSCRIPT_STRATEGY_SHORTEST;
    NO_NEXT("next: the id 0 is down", NEVER, CONFSCRIPT_STATUS_ZERO_ID, 0);
    down_len = 0;
    NO_NEXT("next: no numbers", NEVER, CONFSCRIPT_STATUS_DIFFERENT_LENGTHS, 0);
    GIVEN(0, 1, 0, 1, 0, 0, 1, 1);
    NO_NEXT("next: learner and voter", NEVER, CONFSCRIPT_STATUS_LEARNER_AND_VOTER, 1);
    GIVEN(0, 0, 0, 1, 0, 0, 1);
    NO_NEXT("next: no numbers of the target", NEVER, CONFSCRIPT_STATUS_DIFFERENT_LENGTHS, 0);
    TARGET(0, 0, 0, 0, 0, 0);
    NO_NEXT("next: no numbers of the view", NEVER, CONFSCRIPT_STATUS_DIFFERENT_LENGTHS, 0);
    VIEW(5, 1, 9, 0, 0, 0, 0);
    NO_NEXT("next: a count of the view is missing", NEVER, CONFSCRIPT_STATUS_DIFFERENT_LENGTHS, 0);
    VIEW(5, 1, 9, 0, 0, 1, 0, 0, 1, 9);
    NO_NEXT("next: a number of the view is missing", NEVER, CONFSCRIPT_STATUS_DIFFERENT_LENGTHS, 0);
    VIEW(5, 1, 9, 0, 0, 1, 0, 0, 1, 9, 1, 1);
    NO_NEXT("next: a number of the view too many", NEVER, CONFSCRIPT_STATUS_DIFFERENT_LENGTHS, 0);
    VIEW(5, 1, 9, 0, 0, UINT64_MAX / 3 + 2, 0, 0, 1, 9, 1, 1, 1);
    NO_NEXT("next: counts of the view that wrap around", NEVER, CONFSCRIPT_STATUS_DIFFERENT_LENGTHS, 0);
    VIEW(5, 1, 9, 0, 0, 1, 0, 0, 1, 9, 2);
    NO_NEXT("next: no flag of a member", NEVER, CONFSCRIPT_STATUS_DIFFERENT_LENGTHS, 0);
    VIEW(5, 1, 9, 0, 0, 1, 1, 1, 0, 9, 1, 0, 2);
    NO_NEXT("next: the id 0 is a member", NEVER, CONFSCRIPT_STATUS_ZERO_ID, 0);
    VIEW(5, 1, 9, 0, 0, 1, 1, 1, 1, 9, 1, 0, 2);
    NO_NEXT("next: the id 0 runs", NEVER, CONFSCRIPT_STATUS_ZERO_ID, 0);
    VIEW(5, 1, 9, 0, 0, 1, 1, 1, 1, 9, 1, 2, 0);
    NO_NEXT("next: the id 0 is retired", NEVER, CONFSCRIPT_STATUS_ZERO_ID, 0);
    VIEW(0, 1, 9, 0, 0, 1, 1, 0, 1, 9, 1, 1);
    NO_NEXT("next: the shortest plan", ALWAYS, CONFSCRIPT_STATUS_STRATEGY_MAY_STALL, 0);
    strategy = CONFSCRIPT_STRATEGY_ONE_AT_A_TIME;
    TARGET(1, 1, 1, 0, 0, 0, 2, 1);
    NO_NEXT("next: raft leaves the target", ALWAYS, CONFSCRIPT_STATUS_AUTO_LEAVE_TARGET, 0);
    TARGET(0, 0, 0, 0, 0, 0);
    NO_NEXT("next: a leader without an index", ALWAYS, CONFSCRIPT_STATUS_NO_CONF_INDEX, 0);
    GIVEN(0, 1, 0, 0, 0, 0, 1);
    VIEW(5, 1, 9, 0, 0, 1, 1, 0, 2, 9, 1, 1);
    NO_NEXT("next: a leader without its progress", ALWAYS, CONFSCRIPT_STATUS_NO_LEADER_PROGRESS, 0);
    GIVEN(0, 0, 0, 1, 0, 0, 1);
    VIEW(5, 1, 9, 0, 0, 1, 1, 0, 1, 9, 1, 1);
    NO_NEXT("next: the first has no voter", ALWAYS, CONFSCRIPT_STATUS_NO_VOTER, 1);
    GIVEN(0, 1, 0, 0, 0, 0, 1);
    NO_NEXT("next: the second has no voter", ALWAYS, CONFSCRIPT_STATUS_NO_VOTER, 2);
    TARGET(0, 1, 1, 0, 0, 0, 2, 1);
    NO_NEXT("next: one at a time into a joint configuration", ALWAYS, CONFSCRIPT_STATUS_JOINT_TARGET, 0);
    strategy = CONFSCRIPT_STRATEGY_SHORTEST;
}

/* Each refusal, with those that come after it. */
static void refused_stages(void) {
    configuration_len = target_len = 0;
    strategy = 3;
    DOWN(1, 0);
    NO_STAGES("stages: no such strategy", CONFSCRIPT_STATUS_BAD_STRATEGY, 0);
    strategy = UINT32_MAX;
    NO_STAGES("stages: the greatest number of a strategy", CONFSCRIPT_STATUS_BAD_STRATEGY, 0);
    strategy = CONFSCRIPT_STRATEGY_ONE_AT_A_TIME;
    NO_STAGES("stages: the id 0 is down", CONFSCRIPT_STATUS_ZERO_ID, 0);
    DOWN(9, 7, 1);
    NO_STAGES("stages: no numbers", CONFSCRIPT_STATUS_DIFFERENT_LENGTHS, 0);
    GIVEN(2, 0, 0, 0, 0, 0);
    NO_STAGES("stages: no flag", CONFSCRIPT_STATUS_DIFFERENT_LENGTHS, 0);
    GIVEN(0, 0, 0, 2, 0, 0, 5, 5);
    expect_numbers("stages: an id twice", stages, ALWAYS, CONFSCRIPT_STATUS_REPEATED_ID, 5, NULL, 0);
    GIVEN(0, 0, 0, 1, 0, 0, 0);
    NO_STAGES("stages: the id 0", CONFSCRIPT_STATUS_ZERO_ID, 0);
    GIVEN(0, 1, 1, 0, 1, 0, 1, 2, 3);
    NO_STAGES("stages: next, not outgoing", CONFSCRIPT_STATUS_NEXT_NOT_OUTGOING, 3);
    GIVEN(0, 1, 1, 0, 1, 0, 1, 1, 1);
    NO_STAGES("stages: next and incoming", CONFSCRIPT_STATUS_NEXT_AND_INCOMING, 1);
    GIVEN(0, 1, 0, 1, 0, 0, 1, 1);
    NO_STAGES("stages: learner and voter", CONFSCRIPT_STATUS_LEARNER_AND_VOTER, 1);
    GIVEN(1, 0, 0, 0, 0, 0);
    NO_STAGES("stages: auto-leave, not joint", CONFSCRIPT_STATUS_NOT_JOINT_BUT_AUTO_LEAVE, 0);
    GIVEN(0, 0, 0, 1, 0, 0, 1);
    NO_STAGES("stages: no numbers of the target", CONFSCRIPT_STATUS_DIFFERENT_LENGTHS, 0);
    TARGET(0, 1, 0, 1, 0, 0, 4, 4);
    NO_STAGES("stages: learner and voter of the target", CONFSCRIPT_STATUS_LEARNER_AND_VOTER, 4);
    TARGET(0, 0, 0, 0, 0, 1, 7);
    NO_STAGES("stages: ids are down that are not members", CONFSCRIPT_STATUS_DOWN_NOT_A_MEMBER, 7);
    DOWN(1);
    NO_STAGES("stages: the first has no voter", CONFSCRIPT_STATUS_NO_VOTER, 1);
    GIVEN(0, 1, 0, 0, 0, 0, 1);
    NO_STAGES("stages: the second has no voter", CONFSCRIPT_STATUS_NO_VOTER, 2);
    TARGET(0, 1, 1, 0, 0, 0, 2, 1);
    NO_STAGES("stages: one at a time into a joint configuration", CONFSCRIPT_STATUS_JOINT_TARGET, 0);
    GIVEN(0, 1, 1, 0, 0, 0, 2, 1);
    down_len = 0;
    STAGES("stages: one at a time from a joint configuration to itself", 0, 0);
    strategy = CONFSCRIPT_STRATEGY_SHORTEST;
}

/* Makes the steps of the stages that are in `planned` from the configuration: each has to lead to that of its stage. Leaves
   the last one in `configuration`. */
static int stages_lead(const uint64_t *planned) {
    const uint64_t *at = planned + CONFSCRIPT_STAGES_FIRST;
    for (uint64_t i = 0; i < planned[CONFSCRIPT_STAGES_COUNT]; i++) {
        const uint64_t *change = at + CONFSCRIPT_STAGE_FIRST_CHANGE;
        kind = (uint32_t)at[CONFSCRIPT_STAGE_TRANSITION];
        changes_len = at[CONFSCRIPT_STAGE_CHANGES];
        for (size_t k = 0; k < changes_len; k++, change += 2) changes[k] = (struct confscript_change){(uint32_t)change[0], change[1]};
        struct confscript_answer got = called(step, -1);
        if (got.status != CONFSCRIPT_STATUS_DONE || memcmp(numbers, change, got.number * sizeof *numbers) != 0) return 0;
        at = change + got.number;
        go_on();
    }
    return 1;
}

/* Plans in numbers from each configuration to each other one by each strategy, and makes the steps of the stages: the
   result has to be the other one. */
static void stage_rounds(void) {
    static const uint64_t states[][16] = {
        {7, 0, 1, 0, 0, 0, 0, 1},
        {10, 0, 3, 0, 1, 0, 0, 1, 2, 3, 4},
        {11, 1, 2, 3, 0, 0, 0, 3, 4, 1, 2, 3},
        {15, 0, 3, 4, 1, 1, 0, 1, 2, 3, 1, 2, 4, 6, 5, 4},
        {10, 0, 2, 0, 2, 0, 0, 7, UINT64_MAX, 1, 2},
    };
    size_t n = sizeof states / sizeof *states;
    down_len = 0;
    for (strategy = CONFSCRIPT_STRATEGY_SHORTEST; strategy <= CONFSCRIPT_STRATEGY_ONE_AT_A_TIME; strategy++)
    for (size_t i = 0; i < n; i++) for (size_t k = 0; k < n; k++) {
        uint64_t planned[ROOM];
        char name[64];
        configuration_len = set(configuration, states[i][0], states[i] + 1);
        target_len = set(target, states[k][0], states[k] + 1);
        struct confscript_answer got = called(stages, -1);
        snprintf(name, sizeof name, "round: stages from %zu to %zu by %u", i, k, (unsigned)strategy);
        int is_joint = target[CONFSCRIPT_PART_OUTGOING] > 0;
        if (strategy == CONFSCRIPT_STRATEGY_ONE_AT_A_TIME && is_joint && i != k) { report(name, got.status == CONFSCRIPT_STATUS_JOINT_TARGET, got); continue; }
        memcpy(planned, numbers, sizeof planned);
        int do_lead = got.status == CONFSCRIPT_STATUS_DONE && stages_lead(planned);
        configuration[CONFSCRIPT_PART_CATCHING_UP] = 0;
        report(name, do_lead && memcmp(configuration, target, target_len * sizeof *target) == 0, got);
    }
    strategy = CONFSCRIPT_STRATEGY_SHORTEST;
}

/* Whether a call just fits into the room of the header's macro, and not into one number less. */
static void bound(const char *name, call which, size_t most) {
    struct confscript_answer got[2];
    for (size_t less = 0; less < 2; less++) {
        numbers_room = most - less;
        got[less] = called(which, -1);
    }
    numbers_room = ROOM;
    report(name, got[0].status == CONFSCRIPT_STATUS_DONE && got[0].number == most && got[1].status == CONFSCRIPT_STATUS_TOO_SMALL && got[1].number == most, got[0]);
}

/* Every list of up to three changes of five ids, made in every way in some configurations: whether the macro's room is
   always enough, and sometimes one number less is not. */
static void all_rooms(void) {
    static const uint64_t states[][12] = {
        {6, 0, 0, 0, 0, 0, 0}, {7, 0, 1, 0, 0, 0, 0, 1}, {9, 0, 2, 0, 1, 0, 0, 1, 3, 2}, {10, 1, 2, 1, 1, 0, 0, 4, 5, 1, 2},
        {11, 0, 1, 2, 0, 1, 1, 2, 1, 2, 1, 2}};
    struct confscript_answer got = {CONFSCRIPT_STATUS_DONE, 0};
    int is_enough = 1, is_short = 0;
    for (size_t i = 0; i < sizeof states / sizeof *states; i++) for (kind = 0; kind < 5; kind++) for (changes_len = 0; changes_len < 4; changes_len++) {
        configuration_len = set(configuration, states[i][0], states[i] + 1);
        size_t most = CONFSCRIPT_STEP_ROOM(configuration_len, changes_len), lists = 1;
        for (size_t k = 0; k < changes_len; k++) lists *= 20;
        for (size_t list = 0; list < lists && is_enough; list++) {
            size_t rest = list;
            for (size_t k = 0; k < changes_len; k++, rest /= 20) changes[k] = (struct confscript_change){rest % 4, 1 + rest / 4 % 5};
            numbers_room = most;
            got = step();
            is_enough = got.status != CONFSCRIPT_STATUS_TOO_SMALL;
            is_short |= got.status == CONFSCRIPT_STATUS_DONE && got.number == most;
        }
    }
    numbers_room = ROOM;
    report("room: every list of three changes", is_enough && is_short, got);
}

static void rooms(void) {
    GIVEN(0, 3, 0, 0, 0, 0, 1, 2, 3);
    bound("room: restore", restore, CONFSCRIPT_RESTORE_ROOM(configuration_len));
    BY(CONFSCRIPT_STEP_EXPLICIT, {VOTER, 4}, {LEARNER, 5}, {VOTER, 6});
    bound("room: step", step, CONFSCRIPT_STEP_ROOM(configuration_len, changes_len));
    GIVEN(0, 0, 0, 0, 0, 0);
    bound("room: restore without ids", restore, CONFSCRIPT_RESTORE_ROOM(configuration_len));
    all_rooms();
    uint64_t constant[CONFSCRIPT_STEP_ROOM(9, 2)];
    struct confscript_answer got = {CONFSCRIPT_STATUS_DONE, CONFSCRIPT_RESTORE_ROOM(3)};
    report("room: a length that is no array's", got.number == CONFSCRIPT_PART_IDS && sizeof constant == 16 * sizeof *constant, got);
}

/* What the header says of questions that other calls answer. */
static void questions(void) {
    SET(incoming, 1, 2, 3, 4, 5);
    outgoing_len = 0;
    SET(ids, 4, 5);
    expect("question: the quorum is not lost", may_be_down, CONFSCRIPT_STATUS_DONE, 0, "");
    SET(ids, 3, 4, 5);
    expect("question: the quorum is lost", may_be_down, CONFSCRIPT_STATUS_NO_QUORUM, 0, "");
    /* Of five voters, the last is down and has not acknowledged the index. */
    VOTES(incoming, NO, YES, YES, YES, NO);
    outgoing_votes_len = 0;
    votes("question: the first voter need not acknowledge", CONFSCRIPT_STATUS_DONE, CONFSCRIPT_VOTE_WON);
    VOTES(outgoing, NO, YES);
    votes("question: it must, as an outgoing voter", CONFSCRIPT_STATUS_DONE, CONFSCRIPT_VOTE_LOST);
    GIVEN(0, 3, 0, 0, 0, 0, 1, 2, 3);
    BY(CONFSCRIPT_STEP_SIMPLE, {REMOVE, 3});
    WRITES("question: a voter is removed", step, 0, 2, 0, 0, 0, 0, 1, 2);
    SET(incoming, 1, 2);
    outgoing_len = 0;
    SET(ids, 3);
    expect("question: the others are a quorum", may_be_down, CONFSCRIPT_STATUS_DONE, 0, "");
    SET(ids, 2);
    expect("question: without another that is down they are none", may_be_down, CONFSCRIPT_STATUS_NO_QUORUM, 0, "");
}

/* Lists of no elements, whose pointers are NULL. */
static struct confscript_answer null_plan(void) { return confscript_plan(NULL, 0, NULL, 0, strategy, output, NULL, 0, NULL, 0); }
static struct confscript_answer null_down(void) {
    return confscript_plan(bytes(first), strlen(first), bytes(second), strlen(second), strategy, output, NULL, 0, out, room);
}
static struct confscript_answer null_apply(void) { return confscript_apply(NULL, 0, NULL, 0, NULL, 0); }
static struct confscript_answer null_check(void) { return confscript_check(NULL, 0); }
static struct confscript_answer null_committed(void) {
    return (struct confscript_answer){CONFSCRIPT_STATUS_DONE, confscript_committed(NULL, 0, NULL, 0)};
}
static struct confscript_answer null_outgoing(void) {
    return (struct confscript_answer){CONFSCRIPT_STATUS_DONE, confscript_committed(incoming, incoming_len, NULL, 0)};
}
static struct confscript_answer null_vote(void) { return confscript_vote(NULL, 0, NULL, 0); }
static struct confscript_answer null_restore(void) { return confscript_restore(NULL, 0, NULL, 0); }
static struct confscript_answer null_step(void) {
    return confscript_step(configuration, configuration_len, kind, NULL, 0, numbers, numbers_room);
}
static struct confscript_answer null_room(void) {
    return confscript_step(configuration, configuration_len, kind, changes, changes_len, NULL, 0);
}
static struct confscript_answer null_stages(void) { return confscript_stages(NULL, 0, NULL, 0, strategy, NULL, 0, NULL, 0); }
static struct confscript_answer null_room_of_stages(void) {
    return confscript_stages(configuration, configuration_len, configuration, configuration_len, strategy, NULL, 0, NULL, 0);
}
static struct confscript_answer null_may_be_down(void) { return confscript_may_be_down(NULL, 0, NULL, 0, NULL, 0); }
static struct confscript_answer null_outgoing_and_down(void) { return confscript_may_be_down(incoming, incoming_len, NULL, 0, NULL, 0); }
static struct confscript_answer null_status_text(void) { return confscript_status_text(code, NULL, 0); }

static void null_pointers(void) {
    expect("NULL: plan", null_plan, CONFSCRIPT_STATUS_UNKNOWN_FORM, 1, "");
    on_texts("voters=(1)", "voters=(1)");
    expect("NULL: plan with no ids down", null_down, CONFSCRIPT_STATUS_DONE, 14, "nothing to do\n");
    expect("NULL: apply", null_apply, CONFSCRIPT_STATUS_BAD_CONF_STATE, 1, "");
    expect("NULL: check", null_check, CONFSCRIPT_STATUS_BAD_CONF_STATE, 1, "");
    expect("NULL: committed", null_committed, CONFSCRIPT_STATUS_DONE, UINT64_MAX, "");
    SET(incoming, 5, 0, 7);
    expect("NULL: committed with no outgoing voters", null_outgoing, CONFSCRIPT_STATUS_DONE, 5, "");
    expect("NULL: vote", null_vote, CONFSCRIPT_STATUS_DONE, CONFSCRIPT_VOTE_WON, "");
    REFUSED("NULL: restore", null_restore, CONFSCRIPT_STATUS_DIFFERENT_LENGTHS, 0);
    GIVEN(0, 1, 1, 0, 0, 0, 2, 1);
    BY_NONE(CONFSCRIPT_STEP_AUTO);
    WRITES("NULL: step with no changes", null_step, 0, 1, 0, 0, 0, 0, 2);
    REFUSED("NULL: step with no room", null_room, CONFSCRIPT_STATUS_TOO_SMALL, 7);
    expect_numbers("NULL: stages", null_stages, NEVER, CONFSCRIPT_STATUS_DIFFERENT_LENGTHS, 0, NULL, 0);
    expect_numbers("NULL: stages with no ids down and no room", null_room_of_stages, ALWAYS, CONFSCRIPT_STATUS_TOO_SMALL, 2, NULL, 0);
    expect("NULL: may be down", null_may_be_down, CONFSCRIPT_STATUS_NO_QUORUM, 0, "");
    SET(incoming, 1, 2, 3);
    expect("NULL: may be down with no outgoing voters", null_outgoing_and_down, CONFSCRIPT_STATUS_DONE, 1, "");
    code = CONFSCRIPT_STATUS_DONE;
    expect("NULL: text of a status", null_status_text, CONFSCRIPT_STATUS_TOO_SMALL, 4, "");
}

/* Applies a plan to a line, at most `lines` lines in each call, and writes the last result to `line`. */
static struct confscript_answer applied(char *line, const char *steps, int lines) {
    struct confscript_answer answer;
    do {
        const char *end = steps;
        for (int i = 0; i < lines && *end; i++) end = strchr(end, '\n') + 1;
        char part[ROOM + 1];
        memcpy(part, steps, end - steps);
        part[end - steps] = '\0';
        on_texts(line, part);
        answer = called(apply, -1);
        if (answer.status != CONFSCRIPT_STATUS_DONE) return answer;
        memcpy(line, out, answer.number);
        line[answer.number] = '\0';
        steps = end;
    } while (*steps);
    return answer;
}

/* Plans from each line to each other one by each strategy, and applies the plan, at once and in parts of one and of four
   lines: the result has to be the other line. */
static void rounds(void) {
    static const char *const lines[] = {
        LINE("1", "", "", "", "false"),
        LINE("1 2 3", "", "4", "", "false"),
        LINE("3 4", "1 2 3", "", "", "true"),
        LINE("1 2 3", "1 2 4 6", "5", "4", "false"),
        LINE("7 18446744073709551615", "", "1 2", "", "false"),
    };
    static const int parts[] = {ROOM, 1, 4};
    size_t n = sizeof lines / sizeof *lines;
    for (strategy = CONFSCRIPT_STRATEGY_SHORTEST; strategy <= CONFSCRIPT_STRATEGY_ONE_AT_A_TIME; strategy++)
    for (size_t i = 0; i < n; i++) for (size_t k = 0; k < n; k++) {
        char steps[ROOM + 1], line[ROOM + 1], name[64];
        on_texts(lines[i], lines[k]);
        struct confscript_answer planned = called(plan, -1);
        int is_joint = strstr(lines[k], "Outgoing:[]") == NULL;
        snprintf(name, sizeof name, "round: %zu to %zu by %u", i, k, (unsigned)strategy);
        if (strategy == CONFSCRIPT_STRATEGY_ONE_AT_A_TIME && is_joint && i != k) { report(name, planned.status == CONFSCRIPT_STATUS_JOINT_TARGET, planned); continue; }
        if (planned.status != CONFSCRIPT_STATUS_DONE) { report(name, 0, planned); continue; }
        memcpy(steps, out, planned.number);
        steps[planned.number] = '\0';
        for (size_t part = 0; part < sizeof parts / sizeof *parts; part++) {
            strcpy(line, lines[i]);
            struct confscript_answer got = applied(line, steps, parts[part]);
            report(name, got.status == CONFSCRIPT_STATUS_DONE && strcmp(line, lines[k]) == 0, got);
        }
    }
    strategy = CONFSCRIPT_STRATEGY_SHORTEST;
}

int main(void) {
    plans();
    forms();
    outputs();
    strategies();
    applies();
    checks();
    quorums();
    restores();
    accepted_steps();
    refused_steps();
    planned_stages();
    refused_stages();
    next_actions();
    refused_next();
    null_pointers();
    rooms();
    questions();
    rounds();
    stage_rounds();
    texts();
    return 0;
}
