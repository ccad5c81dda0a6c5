/*
 * confscript plans the membership changes of an etcd or Raft cluster and shows how many servers may fail at each step,
 * with code that is proved correct. This is its library for programs in other languages.
 *
 * A configuration is passed as a ConfState line, with or without a newline:
 *     Voters:[1 2 3] VotersOutgoing:[] Learners:[4] LearnersNext:[] AutoLeave:false
 * confscript_plan takes it in any form that the program's mode plan reads. A plan is passed as its lines, each with a
 * newline:
 *     enter-joint autoleave=false r1 v5
 *     leave-joint
 * docs/SPECIFICATION.md has both forms, and what each change does.
 *
 * A program that embeds the library passes numbers instead: an index or a vote of each voter, and a configuration as an
 * array (enum confscript_part). confscript_stages writes a plan as an array (enum confscript_stages_part), and
 * confscript_next an action (enum confscript_action_part); these two allocate. The other calls with numbers allocate
 * nothing while no list has more than eight items, or an id twice.
 *
 * Each call but confscript_version and confscript_committed returns a status and a number. A call keeps no state: it
 * reads its arguments, and writes only to `out`. The caller must keep these rules, since no call checks them:
 * - Each pointer is aligned, and points to as many elements as the length after it says. For a length of 0 it may be any
 *   pointer, also NULL, as an empty std::vector of C++ has it.
 * - `out` overlaps no other argument. While the call runs, nothing else uses `out`, and nothing changes what the other
 *   pointers point to. These may overlap each other.
 * - malloc, realloc and free belong to one allocator, which aligns a block as malloc of the C library does.
 * - The stack of the thread has room for the call: CONFSCRIPT_STACK bytes, CONFSCRIPT_STACK_NEXT for confscript_next, or
 *   CONFSCRIPT_STACK_TEXT if it reads a text. JSON that is nested takes more, up to CONFSCRIPT_STACK_NESTED; deeper than
 *   127 it is refused.
 * - No call comes from a signal handler, or from the forked child of a process with threads. Otherwise any thread may
 *   call, also at the same time as others.
 * - The processor is an x86-64 of level v2, or an arm64, as the library was built for.
 */
#ifndef CONFSCRIPT_H
#define CONFSCRIPT_H

#include <stddef.h>
#include <stdint.h>

/* The version of this header; confscript_version returns that of the library. */
#define CONFSCRIPT_VERSION_MAJOR 0
#define CONFSCRIPT_VERSION_MINOR 1
#define CONFSCRIPT_VERSION_PATCH 0
#define CONFSCRIPT_VERSION (CONFSCRIPT_VERSION_MAJOR * 10000 + CONFSCRIPT_VERSION_MINOR * 100 + CONFSCRIPT_VERSION_PATCH)

/*
 * How many bytes of its thread's stack a call takes at most: with numbers, confscript_next, with a text, and with JSON nested
 * 127 deep.
 */
#define CONFSCRIPT_STACK 16384
#define CONFSCRIPT_STACK_NEXT 40960
#define CONFSCRIPT_STACK_TEXT 32768
#define CONFSCRIPT_STACK_NESTED 81920

#ifdef __cplusplus
extern "C" {
#endif

/* The status that a call returns. The number is 0 unless stated otherwise here. */
enum confscript_status {
    /* The call did its work. Each call below says what the number is. */
    CONFSCRIPT_STATUS_DONE = 0,
    /* The result does not fit into `out`. Nothing is written. The number is the length of the result, as if it did. */
    CONFSCRIPT_STATUS_TOO_SMALL = 1,
    /* Memory ran out. Nothing is written. */
    CONFSCRIPT_STATUS_NO_MEMORY = 2,

    /* A text is not a ConfState line; for confscript_plan, it begins as one, with `Voters:`. The number is 1 for the
       configuration, and 2 for the target. */
    CONFSCRIPT_STATUS_BAD_CONF_STATE = 3,
    /* confscript_check, _restore, _step, _stages and _next: a list of a configuration names an id twice. The number is
       the id, the first such one of the first such list. */
    CONFSCRIPT_STATUS_REPEATED_ID = 4,
    /* A text names no configuration that the call accepts. confscript_check says why of a ConfState line, with one
       exception: it accepts a valid configuration with members but no incoming voter, and confscript_apply does not. The
       number is as for CONFSCRIPT_STATUS_BAD_CONF_STATE. */
    CONFSCRIPT_STATUS_NOT_A_CONFIGURATION = 5,
    /* confscript_plan, _stages and _next: there is no plan, since a configuration has no incoming voter. The number is
       1 for the configuration, and 2 for the target. confscript_restore and _step: the configuration has members but no
       incoming voter. */
    CONFSCRIPT_STATUS_NO_VOTER = 6,
    /* A line of the plan is not a step. The number is that of the line, counted from 1. */
    CONFSCRIPT_STATUS_BAD_LINE = 7,
    /* confscript_plan: a change of the target removes an id that is not a member. The number is the id. */
    CONFSCRIPT_STATUS_NOT_A_MEMBER = 8,

    /* confscript_apply and _step: a step is refused. confscript_apply: the number is that of the step, counted from
       1. */
    CONFSCRIPT_STATUS_ALREADY_JOINT = 9,
    CONFSCRIPT_STATUS_ZERO_VOTER_JOINT = 10,
    CONFSCRIPT_STATUS_NOT_JOINT = 11,
    CONFSCRIPT_STATUS_SIMPLE_IN_JOINT = 12,
    CONFSCRIPT_STATUS_REMOVED_ALL_VOTERS = 13,
    CONFSCRIPT_STATUS_MORE_THAN_ONE_VOTER = 14,

    /* confscript_check, _restore, _step, _stages and _next: the first of these that is broken, in this order. For 16 to
       18 the number is the least id that breaks it. ZERO_ID also comes from confscript_plan, for `down`. */
    CONFSCRIPT_STATUS_ZERO_ID = 15,                    /* a set has the id 0, or `down`, or a list of ids of a view */
    CONFSCRIPT_STATUS_NEXT_NOT_OUTGOING = 16,          /* a next learner is not an outgoing voter */
    CONFSCRIPT_STATUS_NEXT_AND_INCOMING = 17,          /* a next learner is an incoming voter */
    CONFSCRIPT_STATUS_LEARNER_AND_VOTER = 18,          /* a learner is a voter */
    CONFSCRIPT_STATUS_NOT_JOINT_BUT_AUTO_LEAVE = 20,   /* auto-leave without outgoing voters */

    /* confscript_plan: the changes of the target remove a member, and then make it a voter or a learner again. A server
       that lost its log needs a new id. The number is the id. */
    CONFSCRIPT_STATUS_ADDED_AGAIN = 19,

    /* confscript_restore, _step, _stages and _next: an array does not have the form of enum confscript_part, or for a
       view of enum confscript_view_part. It has fewer numbers than the counts make it, or more, or in place of a flag
       another number than 0 and 1. */
    CONFSCRIPT_STATUS_DIFFERENT_LENGTHS = 21,
    /* confscript_vote: a byte is not one of enum confscript_ballot. */
    CONFSCRIPT_STATUS_BAD_VOTE = 22,
    /* confscript_may_be_down: the voters that count are not a quorum even when all are up. */
    CONFSCRIPT_STATUS_NO_QUORUM = 23,

    /* confscript_plan, _stages and _next: the strategy is not one of enum confscript_strategy. */
    CONFSCRIPT_STATUS_BAD_STRATEGY = 24,
    /* confscript_plan, _stages and _next: no plan that changes one member a step leads into a joint configuration,
       unless it equals the configuration. */
    CONFSCRIPT_STATUS_JOINT_TARGET = 25,

    /* confscript_step: the step is not one of enum confscript_step_kind. */
    CONFSCRIPT_STATUS_BAD_STEP = 26,
    /* confscript_step: the kind of a change is not one of enum confscript_change_kind. The number is that of the change,
       counted from 1. */
    CONFSCRIPT_STATUS_BAD_CHANGE = 27,

    /* confscript_plan: the output is not one of enum confscript_output. */
    CONFSCRIPT_STATUS_BAD_OUTPUT = 28,
    /* confscript_plan: a text cannot be read. How it begins decides in which form it is read. The number is as for
       CONFSCRIPT_STATUS_BAD_CONF_STATE. */
    CONFSCRIPT_STATUS_UNKNOWN_FORM = 29,    /* the configuration begins as no form of one does */
    CONFSCRIPT_STATUS_BAD_PRINTED = 30,     /* it begins with `voters`, and is not a printed configuration */
    CONFSCRIPT_STATUS_BAD_JSON = 31,        /* it begins with `{`, and is not the JSON of a configuration */
    CONFSCRIPT_STATUS_BAD_CHANGE_LIST = 32, /* the target is in no other form, and is blank or not a list of changes */
    /* confscript_plan and _stages: an id that is down is a member of neither configuration. The number is the least such
       id. */
    CONFSCRIPT_STATUS_DOWN_NOT_A_MEMBER = 33,
    /* confscript_next: the strategy is CONFSCRIPT_STRATEGY_SHORTEST, by which new voters vote with empty logs. */
    CONFSCRIPT_STATUS_STRATEGY_MAY_STALL = 34,
    /* confscript_next: the target has auto-leave, so raft leaves it by itself. */
    CONFSCRIPT_STATUS_AUTO_LEAVE_TARGET = 35,
    /* confscript_next: there is a leader, and the number CONFSCRIPT_VIEW_CONF_INDEX is 0. */
    CONFSCRIPT_STATUS_NO_CONF_INDEX = 36,
    /* confscript_next: the leader is a member of the configuration, and the view lists no member with its id. */
    CONFSCRIPT_STATUS_NO_LEADER_PROGRESS = 37
};

/* How a plan goes from one configuration to another. */
enum confscript_strategy {
    CONFSCRIPT_STRATEGY_SHORTEST = 0,       /* as few steps as possible, at most four (JSON and stages may have more) */
    CONFSCRIPT_STRATEGY_LEARNERS_FIRST = 1, /* new voters are learners first, so that they catch up before they vote */
    CONFSCRIPT_STRATEGY_ONE_AT_A_TIME = 2   /* one member a step, once a joint one is left; no plan leads into one */
};

/* What confscript_plan writes. docs/SPECIFICATION.md has the table and the JSON. */
enum confscript_output {
    CONFSCRIPT_OUTPUT_STEPS = 0, /* a line for each step, as confscript_apply takes them */
    CONFSCRIPT_OUTPUT_TABLE = 1, /* who votes on the way, and how many failures are tolerated there, for a reader */
    CONFSCRIPT_OUTPUT_JSON = 2   /* an object on a line for each proposal to etcd's raft, for a program */
};

/* The vote of a voter. */
enum confscript_ballot {
    CONFSCRIPT_BALLOT_NO = 0,
    CONFSCRIPT_BALLOT_YES = 1,
    CONFSCRIPT_BALLOT_NOT_CAST = 2
};

/* The number of confscript_vote, if it is done. */
enum confscript_vote_result {
    CONFSCRIPT_VOTE_PENDING = 0, /* it depends on voters that have not voted */
    CONFSCRIPT_VOTE_LOST = 1,
    CONFSCRIPT_VOTE_WON = 2
};

/*
 * A configuration in numbers is an array of uint64_t that begins with these six and continues with the ids that they
 * count, in the same order. The configuration (1 2)&&(1 2 3) learners_next=(3), left automatically, in which no member
 * is catching up, is
 *     1, 2, 3, 0, 1, 0,  1, 2,  1, 2, 3,  3
 * A call accepts the ids of a list in any order, and writes them in ascending order. The ids that are catching up belong
 * to the step that led to the configuration: a call that is passed it ignores them.
 */
enum confscript_part {
    CONFSCRIPT_PART_AUTO_LEAVE = 0,    /* 1 if the joint configuration is left automatically, else 0 */
    CONFSCRIPT_PART_INCOMING = 1,      /* how many voters there are, or in a joint configuration incoming voters */
    CONFSCRIPT_PART_OUTGOING = 2,      /* how many outgoing voters */
    CONFSCRIPT_PART_LEARNERS = 3,      /* how many learners */
    CONFSCRIPT_PART_LEARNERS_NEXT = 4, /* how many outgoing voters that become learners when it is left */
    CONFSCRIPT_PART_CATCHING_UP = 5,   /* how many members are catching up: with match 0, and next at the last index */
    CONFSCRIPT_PART_IDS = 6            /* the first id, if there is one */
};

/* What a change does to its id. The numbers are those of raftpb.ConfChangeType. A change of the id 0 has no effect. */
enum confscript_change_kind {
    CONFSCRIPT_CHANGE_VOTER = 0,  /* makes it a voter */
    CONFSCRIPT_CHANGE_REMOVE = 1, /* removes it */
    CONFSCRIPT_CHANGE_UPDATE = 2, /* has no effect */
    CONFSCRIPT_CHANGE_LEARNER = 3 /* makes it a learner */
};

struct confscript_change {
    uint32_t kind; /* an enum confscript_change_kind */
    uint64_t id;
};

/* How the changes of confscript_step are made. 0 to 2 are the numbers of raftpb.ConfChangeTransition. */
enum confscript_step_kind {
    /* As etcd does: no change leaves a joint configuration, one is a simple step, and more enter a joint configuration,
       which is left automatically. */
    CONFSCRIPT_STEP_AUTO = 0,
    CONFSCRIPT_STEP_IMPLICIT = 1,   /* they enter a joint configuration, which is left automatically */
    CONFSCRIPT_STEP_EXPLICIT = 2,   /* they enter a joint configuration, which a later step has to leave */
    CONFSCRIPT_STEP_SIMPLE = 3,     /* they change at most one voter, and any number of learners */
    CONFSCRIPT_STEP_LEAVE_JOINT = 4 /* leaves a joint configuration; of the changes only the kinds are checked */
};

/*
 * A plan in numbers is an array of uint64_t that begins with these two and continues with its stages, one after another.
 * The plan from (1 2 3) to (1 2 3 4) by which 4 is a learner first, with 3 down, is
 *     0, 2,
 *     0, 1, 1, 0, 1,  3, 4,  0, 3, 0, 1, 0, 1,  1, 2, 3,  4,  4,
 *     0, 1, 1, 0, 1,  0, 4,  0, 4, 0, 0, 0, 0,  1, 2, 3, 4
 */
enum confscript_stages_part {
    CONFSCRIPT_STAGES_STALLS = 0, /* 1 if the plan stalls with the ids that are down, else 0 */
    CONFSCRIPT_STAGES_COUNT = 1,  /* how many stages there are; 0 if there is nothing to do */
    CONFSCRIPT_STAGES_FIRST = 2   /* the first stage, if there is one */
};

/*
 * A stage is a proposal to etcd's raft, and the configuration that it leads to: these five numbers, the kind and the id
 * of each change, and the configuration as an array of enum confscript_part.
 */
enum confscript_stage_part {
    CONFSCRIPT_STAGE_TRANSITION = 0,          /* of the proposal: one of the first three of enum confscript_step_kind */
    CONFSCRIPT_STAGE_MAY_BE_DOWN = 1,         /* how many ids may be down in the configuration, whichever they are */
    CONFSCRIPT_STAGE_WHILE_CATCHING_UP = 2,   /* how many while members are catching up */
    CONFSCRIPT_STAGE_MAY_BE_DOWN_BESIDES = 3, /* how many besides those that are down, while members are catching up */
    CONFSCRIPT_STAGE_CHANGES = 4,             /* how many changes the proposal has */
    CONFSCRIPT_STAGE_FIRST_CHANGE = 5         /* an enum confscript_change_kind, and the id after it, if there is one */
};

/* In place of how many ids may be down: the voters that count are not a quorum even when all are up. */
#define CONFSCRIPT_STAGE_NO_QUORUM UINT64_MAX

/*
 * What is known of a cluster, for confscript_next: an array of uint64_t that begins with these five numbers and three
 * counts, and continues with three numbers for each member (its id, its match, and 1 if it was heard from, else 0), the
 * ids of the servers that run, and the ids that are retired. Names are those of etcd's raft. A leader takes the numbers
 * from raft's Status, and a tool from what the members report.
 */
enum confscript_view_part {
    /* Who has this index knows that the configuration is in force. With a leader it is not 0. For a leader that applies
       a change: its last index plus one; for one that begins to lead: its last index. If a match is what the member has
       applied: the index of the change itself. */
    CONFSCRIPT_VIEW_CONF_INDEX = 0,
    CONFSCRIPT_VIEW_LEAD = 1,               /* who leads, or 0 */
    CONFSCRIPT_VIEW_COMMIT = 2,             /* the leader's commit index */
    CONFSCRIPT_VIEW_PENDING_CONF_INDEX = 3, /* of a change in the leader's log that it has not applied, or 0 */
    CONFSCRIPT_VIEW_MAX_LAG = 4,            /* how many committed entries a member that has caught up may lack */
    CONFSCRIPT_VIEW_MEMBERS = 5,            /* how many members follow */
    CONFSCRIPT_VIEW_RUNNING = 6,            /* how many servers were started, and not stopped for good */
    CONFSCRIPT_VIEW_RETIRED = 7,            /* how many were stopped for good */
    CONFSCRIPT_VIEW_FIRST = 8               /* the first member, if there is one */
};

/* What to do next. */
enum confscript_action {
    CONFSCRIPT_ACTION_START = 0,    /* start these servers, each with an empty log, which must not exist yet */
    CONFSCRIPT_ACTION_STOP = 1,     /* stop these servers for good: their ids do not come back */
    CONFSCRIPT_ACTION_TRANSFER = 2, /* transfer leadership to this member */
    CONFSCRIPT_ACTION_PROPOSE = 3,  /* propose this stage, at once: the leader whose view this is */
    CONFSCRIPT_ACTION_WAIT = 4,     /* nothing: wait for these ids, for a reason */
    CONFSCRIPT_ACTION_STUCK = 5,    /* nothing: things being so, the target is not reached, for a reason */
    CONFSCRIPT_ACTION_DONE = 6      /* nothing: the target is reached */
};

/* Why to wait, or why the target is not reached. */
enum confscript_reason {
    CONFSCRIPT_REASON_NONE = 0,        /* the action is another one */
    CONFSCRIPT_REASON_NO_LEADER = 1,   /* there is no leader */
    CONFSCRIPT_REASON_PENDING = 2,     /* a change is not applied yet */
    CONFSCRIPT_REASON_HEARD = 3,       /* they are named as down, and are heard from, or one leads */
    CONFSCRIPT_REASON_UNHEARD = 4,     /* they are neither heard from nor named as down */
    CONFSCRIPT_REASON_BEHIND = 5,      /* they are heard from, and have not caught up */
    CONFSCRIPT_REASON_LEAVING = 6,     /* raft leaves the joint configuration by itself */
    CONFSCRIPT_REASON_QUORUM_LOST = 7, /* stuck: the voters that are not down are not a quorum */
    CONFSCRIPT_REASON_STALLS = 8,      /* stuck: with these ids down, nothing commits in a configuration on the way */
    CONFSCRIPT_REASON_REUSED = 9       /* stuck: the target adds ids that were stopped for good */
};

/* An action in numbers: these three, and the ids; for a proposal its stage, as an enum confscript_stage_part. */
enum confscript_action_part {
    CONFSCRIPT_ACTION_KIND = 0,   /* an enum confscript_action */
    CONFSCRIPT_ACTION_REASON = 1, /* an enum confscript_reason */
    CONFSCRIPT_ACTION_COUNT = 2,  /* how many ids follow, in ascending order */
    CONFSCRIPT_ACTION_FIRST = 3   /* the first id, or the stage */
};

struct confscript_answer {
    uint32_t status; /* an enum confscript_status */
    uint64_t number;
};

/*
 * How many numbers confscript_restore and confscript_step write at most, from the lengths that they are passed: an `out`
 * of as many is never too small. Each id that the configuration lists, and each change, adds at most two.
 */
#define CONFSCRIPT_RESTORE_ROOM(configuration_len) CONFSCRIPT_STEP_ROOM(configuration_len, 0)
#define CONFSCRIPT_STEP_ROOM(configuration_len, changes_len) \
    (CONFSCRIPT_PART_IDS + 2 * (CONFSCRIPT_IDS_LEN(configuration_len) + (size_t)(changes_len)))
/* How many ids an array of this length has. */
#define CONFSCRIPT_IDS_LEN(configuration_len) \
    ((size_t)(configuration_len) < CONFSCRIPT_PART_IDS ? 0 : (size_t)(configuration_len) - CONFSCRIPT_PART_IDS)

/*
 * What else a program asks of a configuration, and the call that answers it:
 * - Is the quorum lost? confscript_may_be_down returns CONFSCRIPT_STATUS_NO_QUORUM, with the ids that are down.
 * - Must a voter still acknowledge an index, or can that commit without it? It must if confscript_vote is
 *   CONFSCRIPT_VOTE_LOST, with CONFSCRIPT_BALLOT_YES for each other voter that has acknowledged it or can still do so,
 *   and CONFSCRIPT_BALLOT_NO for the rest.
 * - Does raft leave a joint configuration by itself? Then the number CONFSCRIPT_PART_AUTO_LEAVE of its array is 1.
 * - May an id be removed now? If confscript_step with CONFSCRIPT_CHANGE_REMOVE is done, and confscript_may_be_down too,
 *   for the configuration and for the one that the step wrote, with the ids that are down. Its second number is
 *   how many more may be down afterwards. If one of the two has no quorum, nothing commits there.
 */

/* The version of the library: 10,000 for each major one, 100 for each minor one, and the patch. */
uint32_t confscript_version(void);

/*
 * Writes to `out` what a status means, in words, or `unknown status` for any other number. The text does not end with a
 * zero byte. The number is its length in bytes.
 */
struct confscript_answer confscript_status_text(uint32_t status, uint8_t *out, size_t out_len);

/*
 * Writes to `out` the plan from one configuration to another, by an enum confscript_strategy, as an
 * enum confscript_output: what the program's mode plan prints for the pair. Each text is a configuration in one of these
 * forms:
 *     voters=(1 2)&&(1 2 3) learners=(4) learners_next=(3) autoleave       as the program prints it
 *     Voters:[1 2 3] VotersOutgoing:[] Learners:[4] LearnersNext:[] AutoLeave:false
 *     {"voters":[1,2,3],"learners":[4]}                                     a raftpb.ConfState in JSON
 *     {"members":[{"ID":1},{"ID":2},{"ID":4,"isLearner":true}]}             etcdctl member list -w json
 * The target may also be a list of changes, such as `r1 v4 l5`, which are made at once in the configuration; if
 * that is joint, it is left first. The list must not be empty, remove an id that is not a member of the
 * configuration, or remove a member and make it a voter or a learner again.
 *
 * `down` has the ids that are down, in any order; for none, `down_len` is 0. Each must be a member of one of the two
 * configurations. With CONFSCRIPT_STRATEGY_ONE_AT_A_TIME, voters that are down are removed first, as etcd's server
 * demands, if both configurations commit without them. If ids are down, the table and the JSON report how many others
 * may be down on the way. If nothing commits in some configuration of the plan, the plan stalls: then the steps begin
 * with the line `# stalls with 4 5 down`, or, if the configuration is such a one itself, `# no quorum with 4 5 down: no
 * step can be made`. confscript_apply does not take such a line.
 *
 * Both configurations must be valid and have an incoming voter. The voters before and after each step overlap, and no
 * configuration on the way tolerates fewer failures than the weaker end, once its members have caught up; with
 * CONFSCRIPT_STRATEGY_ONE_AT_A_TIME, fewer besides the ids that are down. If there is nothing to do, the steps are the
 * line `nothing to do`. The text does not end with a zero byte. The number is its length in bytes.
 *
 * - CONFSCRIPT_STRATEGY_SHORTEST: at most four steps. No plan has fewer steps, or names a member in fewer changes; a
 *   member that can keep its progress keeps it. A plan does not see logs: a new voter begins with an empty one, so from
 *   [1 2 3] to [3 4 5] nothing commits until 4 or 5 has caught up.
 * - CONFSCRIPT_STRATEGY_LEARNERS_FIRST: at most one step more than the shortest plan. Each new voter is a learner first,
 *   so the caller can let it catch up before proposing the next step.
 * - CONFSCRIPT_STRATEGY_ONE_AT_A_TIME: each step changes one member, after a joint configuration is left, and each new
 *   voter is a learner first. No plan of this kind has fewer steps. The target must not be joint, unless it equals the
 *   configuration.
 *
 * An id never comes back without its log and its vote: a member that was removed, and begins again with an empty disk,
 * needs a new id. Under the old one it could vote twice in a term, and two leaders could commit different entries.
 *
 * A step `simple` may have several changes, at most one of which changes who votes. To keep the step simple in etcd,
 * propose each change as a ConfChangeV2 of its own, as the JSON has them, so it may have more lines than there are
 * steps. If they are proposed as a single ConfChangeV2, etcd's raft takes them through a joint configuration, which it
 * leaves by itself.
 */
struct confscript_answer confscript_plan(const uint8_t *configuration, size_t configuration_len, const uint8_t *target,
                                         size_t target_len, uint32_t strategy, uint32_t output, const uint64_t *down,
                                         size_t down_len, uint8_t *out, size_t out_len);

/*
 * Applies the steps of a plan to the configuration of a ConfState line. A single step is a plan of one line, and a plan
 * may be applied in parts, each to the line that the call before wrote. The ConfState line of the result is written to
 * `out`, its lists in ascending order, without a newline or a zero byte at its end. The number is its length in bytes.
 * The configuration must be valid, and have an incoming voter or no members.
 */
struct confscript_answer confscript_apply(const uint8_t *configuration, size_t configuration_len, const uint8_t *plan,
                                          size_t plan_len, uint8_t *out, size_t out_len);

/* Reports what is wrong with the configuration of a ConfState line. If nothing is, the call is done, with number 0. */
struct confscript_answer confscript_check(const uint8_t *configuration, size_t configuration_len);

/*
 * Returns the committed index of a voter set, or of a joint pair, from the index that each voter has acknowledged, 0 if
 * it is unknown: the greatest index that more than half of `incoming` have reached, or the smaller one of both sets if
 * `outgoing` is not empty. It is 2^64-1 if there are no voters. Each index counts as that of another voter, so a voter
 * that is listed twice counts twice. The call cannot fail.
 */
uint64_t confscript_committed(const uint64_t *incoming, size_t incoming_len, const uint64_t *outgoing,
                              size_t outgoing_len);

/*
 * Returns the result of a vote by a voter set, or by a joint pair, from the vote of each voter, an
 * enum confscript_ballot. Each set that is not empty must win it. If there are no voters, the vote is won. Each vote
 * counts as that of another voter, so a voter that is listed twice counts twice. The number is an
 * enum confscript_vote_result.
 */
struct confscript_answer confscript_vote(const uint8_t *incoming, size_t incoming_len, const uint8_t *outgoing,
                                         size_t outgoing_len);

/*
 * Checks a saved configuration in numbers (etcd's ConfState), and writes it to `out` with its ids in ascending order and
 * all members catching up, as when a server restarts (etcd's confchange.Restore). The number is how many numbers are
 * written, at most CONFSCRIPT_RESTORE_ROOM(configuration_len).
 */
struct confscript_answer confscript_restore(const uint64_t *configuration, size_t configuration_len, uint64_t *out,
                                            size_t out_len);

/*
 * Applies changes to a configuration in numbers, as an enum confscript_step_kind says, and writes the configuration
 * after them to `out`. A member is catching up if it was none before, or if a change removes it and it is added again,
 * unless it is an outgoing voter; the others keep their progress. The number is how many numbers are written, at most
 * CONFSCRIPT_STEP_ROOM(configuration_len, changes_len). The configuration is checked first, as by confscript_restore.
 */
struct confscript_answer confscript_step(const uint64_t *configuration, size_t configuration_len, uint32_t step,
                                         const struct confscript_change *changes, size_t changes_len, uint64_t *out,
                                         size_t out_len);

/*
 * Writes to `out` the plan of confscript_plan in numbers, as enum confscript_stages_part says. As in JSON, each change
 * of a step `simple` is a stage of its own. Both configurations are checked first, as by confscript_restore, and must
 * have an incoming voter. `down` is that of confscript_plan. The number is how many numbers are written.
 *
 * Propose a stage once the one before it is applied and its members have caught up. A joint configuration that is left
 * automatically is left by raft itself: the stage that leaves it is not proposed, but waited for. With the transition
 * and the changes of a stage, confscript_step writes the configuration of the stage.
 */
struct confscript_answer confscript_stages(const uint64_t *configuration, size_t configuration_len,
                                           const uint64_t *target, size_t target_len, uint32_t strategy,
                                           const uint64_t *down, size_t down_len, uint64_t *out, size_t out_len);

/*
 * Writes to `out` what to do next on the way to a target, as an enum confscript_action_part. Call it on the thread that
 * owns the raft node, with what the node knows now, do what it says, and call it again. It keeps nothing, so a crash
 * between two calls does no harm, and neither does the same action twice. docs/SPECIFICATION.md has the rule.
 *
 * `configuration` is the one that the leader has applied. The strategy is CONFSCRIPT_STRATEGY_LEARNERS_FIRST or
 * CONFSCRIPT_STRATEGY_ONE_AT_A_TIME; by the shortest plan new voters vote with empty logs. `down` has the ids that do
 * not come back: a member that is merely silent is not down. Unlike in confscript_stages, an id that is a member of
 * neither configuration is ignored; but if it leads, or is a member that was heard from, the action is to wait until it
 * is not named as down any more. `view` is what else is known, as an enum confscript_view_part; if it lists a member
 * twice, its first match counts, and a leader that is a member is listed. The configurations are checked as by
 * confscript_stages, and the target has no auto-leave. The number is how many numbers are written.
 */
struct confscript_answer confscript_next(const uint64_t *configuration, size_t configuration_len, const uint64_t *target,
                                         size_t target_len, uint32_t strategy, const uint64_t *down, size_t down_len,
                                         const uint64_t *view, size_t view_len, uint64_t *out, size_t out_len);

/*
 * Returns how many ids may be down, whichever they are, while the other voters in `incoming`, and in `outgoing` if
 * there are any, are a quorum. The ids in `down`, which may also be members whose logs are still empty, do not count
 * for a quorum. The number is the greatest such count. If there are no voters, there is no quorum. An id that is listed
 * twice counts once.
 */
struct confscript_answer confscript_may_be_down(const uint64_t *incoming, size_t incoming_len, const uint64_t *outgoing,
                                                size_t outgoing_len, const uint64_t *down, size_t down_len);

#ifdef __cplusplus
}
#endif

#endif
