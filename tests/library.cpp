// Tests the library from a C++ program whose lists are vectors. An empty one has a null pointer. Prints a line for each
// case, 'ok: ..' or 'FAILED: ..'.
#include <cstdio>
#include <vector>

#include "confscript.h"

using bytes = std::vector<uint8_t>;
using numbers = std::vector<uint64_t>;
using changes = std::vector<confscript_change>;

static bytes text(const char *characters) {
    bytes made;
    for (; *characters; characters++) made.push_back(static_cast<uint8_t>(*characters));
    return made;
}

static void expect(const char *name, confscript_answer got, uint32_t status, uint64_t number) {
    std::printf("%s: %s\n", got.status == status && got.number == number ? "ok" : "FAILED", name);
}

static void expect(const char *name, uint64_t got, uint64_t number) { expect(name, {CONFSCRIPT_STATUS_DONE, got}, CONFSCRIPT_STATUS_DONE, number); }

static confscript_answer plan(const bytes &now, const bytes &target, const numbers &down, bytes &out) {
    return confscript_plan(now.data(), now.size(), target.data(), target.size(), CONFSCRIPT_STRATEGY_SHORTEST, CONFSCRIPT_OUTPUT_STEPS,
                           down.data(), down.size(), out.data(), out.size());
}

static uint64_t committed(const numbers &incoming, const numbers &outgoing) {
    return confscript_committed(incoming.data(), incoming.size(), outgoing.data(), outgoing.size());
}

static confscript_answer vote(const bytes &incoming, const bytes &outgoing) {
    return confscript_vote(incoming.data(), incoming.size(), outgoing.data(), outgoing.size());
}

static confscript_answer step(const numbers &configuration, const changes &by, numbers &out) {
    return confscript_step(configuration.data(), configuration.size(), CONFSCRIPT_STEP_AUTO, by.data(), by.size(), out.data(), out.size());
}

static confscript_answer stages(const numbers &configuration, const numbers &target, const numbers &down, numbers &out) {
    return confscript_stages(configuration.data(), configuration.size(), target.data(), target.size(), CONFSCRIPT_STRATEGY_SHORTEST,
                             down.data(), down.size(), out.data(), out.size());
}

static confscript_answer may_be_down(const numbers &incoming, const numbers &outgoing, const numbers &down) {
    return confscript_may_be_down(incoming.data(), incoming.size(), outgoing.data(), outgoing.size(), down.data(), down.size());
}

int main() {
    bytes no_text, line(64);
    expect("plan: no ids down", plan(text("voters=(1)"), text("v1"), {}, line), CONFSCRIPT_STATUS_DONE, 14);
    expect("plan: no room", plan(text("voters=(1)"), text("v2"), {}, no_text), CONFSCRIPT_STATUS_TOO_SMALL, 10);
    expect("plan: no configuration", plan(no_text, no_text, {}, no_text), CONFSCRIPT_STATUS_UNKNOWN_FORM, 1);
    expect("apply: no text", confscript_apply(no_text.data(), 0, no_text.data(), 0, no_text.data(), 0), CONFSCRIPT_STATUS_BAD_CONF_STATE, 1);
    expect("check: no text", confscript_check(no_text.data(), 0), CONFSCRIPT_STATUS_BAD_CONF_STATE, 1);
    expect("status: no room", confscript_status_text(CONFSCRIPT_STATUS_DONE, no_text.data(), 0), CONFSCRIPT_STATUS_TOO_SMALL, 4);
    expect("committed: no voters", committed({}, {}), UINT64_MAX);
    expect("committed: no outgoing voters", committed({5, 0, 7}, {}), 5);
    expect("committed: no incoming voters", committed({}, {4, 4}), 4);
    expect("vote: no voters", vote({}, {}), CONFSCRIPT_STATUS_DONE, CONFSCRIPT_VOTE_WON);
    expect("vote: no outgoing voters", vote({CONFSCRIPT_BALLOT_NO}, {}), CONFSCRIPT_STATUS_DONE, CONFSCRIPT_VOTE_LOST);
    numbers no_numbers, joint{0, 1, 1, 0, 0, 0, 2, 1}, room(32);
    expect("restore: no numbers", confscript_restore(no_numbers.data(), 0, no_numbers.data(), 0), CONFSCRIPT_STATUS_DIFFERENT_LENGTHS, 0);
    expect("restore: no room", confscript_restore(joint.data(), joint.size(), no_numbers.data(), 0), CONFSCRIPT_STATUS_TOO_SMALL, 10);
    expect("step: no changes", step(joint, {}, room), CONFSCRIPT_STATUS_DONE, 7);
    expect("step: no room", step(joint, {}, no_numbers), CONFSCRIPT_STATUS_TOO_SMALL, 7);
    expect("stages: no numbers", stages(no_numbers, no_numbers, {}, no_numbers), CONFSCRIPT_STATUS_DIFFERENT_LENGTHS, 0);
    expect("stages: no ids down", stages(joint, {0, 1, 0, 0, 0, 0, 2}, {}, room), CONFSCRIPT_STATUS_DONE, 14);
    expect("stages: no room", stages(joint, joint, {2}, no_numbers), CONFSCRIPT_STATUS_TOO_SMALL, 2);
    expect("may be down: no voters", may_be_down({}, {}, {}), CONFSCRIPT_STATUS_NO_QUORUM, 0);
    expect("may be down: no outgoing voters, all count", may_be_down({1, 2, 3}, {}, {}), CONFSCRIPT_STATUS_DONE, 1);
    return 0;
}
