// Plans the change that replaces 1 with 5, with 1 down, and prints the plan as a table. bindings/README.md says how to
// build it.
#include <iostream>
#include <stdexcept>
#include <string>
#include <vector>

#include "confscript.h"

// The text that a call writes. If the buffer is too small, the call is made again with a larger one.
template <typename Call>
std::string written(Call call) {
    std::string text(256, '\0');
    for (;;) {
        confscript_answer answer = call(reinterpret_cast<uint8_t *>(&text[0]), text.size());
        if (answer.status != CONFSCRIPT_STATUS_DONE && answer.status != CONFSCRIPT_STATUS_TOO_SMALL)
            throw std::runtime_error("status " + std::to_string(answer.status) + ", number " + std::to_string(answer.number));
        text.resize(answer.number);
        if (answer.status == CONFSCRIPT_STATUS_DONE) return text;
    }
}

std::string plan(const std::string &now, const std::string &target, confscript_strategy strategy, confscript_output output,
                 const std::vector<uint64_t> &down = {}) {
    auto bytes = [](const std::string &text) { return reinterpret_cast<const uint8_t *>(text.data()); };
    return written([&](uint8_t *out, size_t room) {
        return confscript_plan(bytes(now), now.size(), bytes(target), target.size(), strategy, output,
                               down.data(), down.size(), out, room);
    });
}

int main() {
    try {
        std::cout << plan("voters=(1 2 3)", "r1 v5", CONFSCRIPT_STRATEGY_ONE_AT_A_TIME, CONFSCRIPT_OUTPUT_TABLE, {1});
    } catch (const std::exception &why) {
        std::cerr << "no plan: " << why.what() << '\n';
        return 1;
    }
}
