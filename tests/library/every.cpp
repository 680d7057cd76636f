// Calls the C++ binding on each script of a list on standard input, whose lines are MODE STATUS SCRIPT TEXT, and compares
// what it gives with the text; also from several threads at once. In the mode `session` SCRIPT has the lines of a session,
// and TEXT their answers.
#include "gakyhera.hpp"

#include <cstdlib>
#include <fstream>
#include <iostream>
#include <iterator>
#include <thread>
#include <utility>
#include <vector>

struct Case {
    std::string mode, path, script, text;
    bool refused;
};

static void must(bool holds, const std::string &what) {
    if (holds) return;
    std::cout << what << std::endl;
    std::_Exit(1);
}

static std::string read_file(const std::string &path) {
    std::ifstream file(path, std::ios::binary);
    must(bool(file), path + " cannot be read");
    return {std::istreambuf_iterator<char>(file), {}};
}

static std::string answers_of(gakyhera::Session &session, const std::string &lines) {
    std::string answers;
    for (std::size_t at = 0, end; at < lines.size(); at = end + 1) {
        end = lines.find('\n', at);
        answers += session.line(std::string_view(lines).substr(at, end - at));
    }
    return answers;
}

// A session that is moved between its lines, and to another thread, and what is left behind.
static void try_moves(const Case &it) {
    const std::size_t half = it.script.find('\n') + 1;
    gakyhera::Session first, other;
    std::string answers = answers_of(first, it.script.substr(0, half));
    other = std::move(first);
    std::thread([&answers, &it, half, moved = std::move(other)]() mutable {
        answers += answers_of(moved, it.script.substr(half));
    }).join();
    must(answers == it.text, it.path + ": another answer after a move");
    for (gakyhera::Session *left : {&first, &other}) {
        try {
            left->line("");
            must(false, "a session that was moved from has an answer");
        } catch (const std::logic_error &) {
        }
    }
}

static void try_case(const Case &it) {
    if (it.mode == "session") {
        gakyhera::Session session;
        must(answers_of(session, it.script) == it.text, it.path + ": another answer");
        return;
    }
    bool refused = !it.refused;
    auto run = it.mode == "fold" ? gakyhera::fold : gakyhera::turns;
    must(run(it.script, &refused) == it.text, it.path + ": another text");
    must(refused == it.refused, it.path + ": another status");
}

int main() {
    std::vector<Case> cases;
    std::string mode, path, text_path;
    for (int status; std::cin >> mode >> status >> path >> text_path;) {
        cases.push_back({mode, path, read_file(path), read_file(text_path), status == GAKYHERA_REFUSED});
    }
    for (const auto &it : cases) try_case(it);
    for (const auto &it : cases) {
        if (it.mode == "session") try_moves(it);
    }
    // a view of nothing, which has a null pointer
    must(gakyhera::turns({}) == "refused 70 NotJson\n", "a view of nothing: another text");
    must(gakyhera::fold(std::string_view()) == "refused 70 NotJson\n", "a view of nothing: another text");
    must(gakyhera::Session().line({}) == "refused 70 NotJson\n\n", "a view of nothing: another answer");
    std::vector<std::thread> threads;
    for (int number = 0; number < 4; number++) {
        threads.emplace_back([&] { for (const auto &it : cases) try_case(it); });
    }
    for (auto &it : threads) it.join();
    std::cout << cases.size() << " scripts\n";
}
