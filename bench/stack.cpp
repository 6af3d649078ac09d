// What a call takes of the stack: each runs in a thread on a painted stack, and the paint that is gone is counted. The
// arrays of a call have the size of the largest plan whatever the plan, so what counts is how deep the search for a
// pull-out goes. Ends with status 1 where an answer is not the one expected, or a call takes more than FINDER_STACK_MOST.
#include "../cpp/plan.h"
#include "finder.h"
#include <algorithm>
#include <cstdio>
#include <cstring>
#include <functional>
#include <pthread.h>
#include <sys/mman.h>

namespace {

constexpr size_t stack_size = 64 << 20;
constexpr unsigned char paint = 0xA5;

void *run(void *call) {
    (*static_cast<std::function<void()> *>(call))();
    return nullptr;
}

// Bytes of the stack that a thread with this call has written to.
size_t used(std::function<void()> call) {
    auto *stack = static_cast<unsigned char *>(
        mmap(nullptr, stack_size, PROT_READ | PROT_WRITE, MAP_PRIVATE | MAP_ANONYMOUS, -1, 0));
    std::memset(stack, paint, stack_size);
    pthread_attr_t attributes;
    pthread_attr_init(&attributes);
    pthread_attr_setstack(&attributes, stack, stack_size);
    pthread_t thread;
    pthread_create(&thread, &attributes, run, &call);
    pthread_join(thread, nullptr);
    const unsigned char *gone =
        std::find_if(stack, stack + stack_size, [](unsigned char byte) { return byte != paint; });
    const auto clean = static_cast<size_t>(gone - stack);
    munmap(stack, stack_size);
    return stack_size - clean;
}

// A turn at point 0, and a line from there over so many points, each section 26 long. The last section of the line
// closes a loop, so that a pull-out has as many sections as the line has points.
Plan line_behind_turn(uint32_t line, uint32_t c_from, uint32_t s_from) {
    Plan plan{768, {}, {}};
    plan.join(0, c_from, 26);
    plan.join(0, s_from, 26);
    plan.forbid(0, 1);
    for (uint32_t p = 0; p + 1 < line; p++) plan.join(p, p + 1, 26);
    plan.join(line - 1, line / 2, 26);
    return plan;
}

// All points lie on the line: the deepest pull-out that there can be.
struct Asked {
    Plan plan = line_behind_turn(768, 766, 767);
    std::vector<uint32_t> list = std::vector<uint32_t>(FINDER_PULL_OUT_MOST);
    finder_pull pull{};

    void call(uint32_t sections) {
        pull = finder_pull_out(plan.points, plan.sections.data(), plan.sections.size(), plan.turns.data(),
                               plan.turns.size(), 26 * sections, 0, 1, list.data(), list.size());
    }
};

// The only walk goes from section x over c to point 0 and reverses there, onto s and to y. Four points are not on the
// line.
struct Searched {
    static constexpr uint32_t line = 764;
    Plan plan = line_behind_turn(line, 764, 765);
    uint32_t x = plan.join(764, 766, 20000, 1), y = plan.join(765, 767, 20000, 1);
    std::vector<uint32_t> route = std::vector<uint32_t>(FINDER_STEPS_MOST);
    std::vector<uint32_t> labels = std::vector<uint32_t>(2 * plan.count());
    finder_answer answer{}, sheet{};

    Searched() { plan.occupy(x, 0, 0); }

    void search(uint32_t sections) {
        answer =
            finder_search(plan.points, plan.sections.data(), plan.sections.size(), plan.turns.data(), plan.turns.size(),
                          26 * sections, x, 0, y, 0, route.data(), route.size(), labels.data(), labels.size());
    }

    void check(uint32_t sections) {
        sheet = finder_check_sheet(plan.points, plan.sections.data(), plan.sections.size(), plan.turns.data(),
                                   plan.turns.size(), 26 * sections, x, 0, y, 0, 1, route.data(), answer.steps,
                                   labels.data(), labels.size());
    }
};

struct Row {
    const char *call;
    uint32_t sections;
    size_t bytes;
    bool expected;
};

std::vector<Row> rows() {
    const size_t thread_alone = used([] {});
    std::vector<Row> all;
    for (const uint32_t n : {1u, 100u, 400u, 768u}) {
        Asked asked;
        const size_t bytes = used([&] { asked.call(n); }) - thread_alone;
        all.push_back({"finder_pull_out", n, bytes, asked.pull.count == n});
    }
    for (const uint32_t n : {1u, Searched::line}) {
        Searched searched;
        const size_t search = used([&] { searched.search(n); }) - thread_alone;
        const size_t check = used([&] { searched.check(n); }) - thread_alone;
        all.push_back(
            {"finder_search", n, search, searched.answer.refusal == FINDER_OK && searched.answer.reversals == 1});
        all.push_back(
            {"finder_check_sheet", n, check, searched.sheet.refusal == FINDER_OK && searched.sheet.reversals == 1});
    }
    return all;
}

} // namespace

int main() {
    bool good = true;
    std::puts("| Call | Sections of the pull-out | Stack, bytes |\n|---|---|---|");
    for (const Row &row : rows()) {
        std::printf("| %s | %u | %zu |%s\n", row.call, row.sections, row.bytes, row.expected ? "" : " not as expected");
        good = good && row.expected && row.bytes <= FINDER_STACK_MOST;
    }
    return good ? 0 : 1;
}
