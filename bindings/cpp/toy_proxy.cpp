// Runs a toy proxy beside a session, and stops at the first answer that differs.
//
//   g++ -std=c++17 toy_proxy.cpp $(pkg-config --cflags --libs gakyhera) -o toy_proxy && ./toy_proxy [late]
//
// The toy keeps the version of each key's last write. With `late` it takes a write at the snapshot for a later one.
#include "gakyhera.hpp"

#include <array>
#include <iostream>

int main(int count, char **words) {
    const bool late = count > 1 && words[1] == std::string("late");
    gakyhera::Session session;
    int asked = 0, snapshot = 0, draw = 1;
    std::array<int, 4> written = {-1, -1, -1, -1};
    // Whether the session answers a line as the toy does.
    auto agrees = [&](const std::string &line, const std::string &own) {
        asked++;
        const std::string right = session.line(line);
        if (right == own + "\n\n") return true;
        std::cout << "answer " << asked << " must be: " << right.substr(0, right.size() - 2) << "\n";
        return false;
    };
    if (!agrees(R"({"cluster":{"proxies":1,"resolvers":1,"window":1000000,"step":10}})", "cluster")) return 1;
    for (int row = 0; row < 1000; row++) {
        const int key = (draw = draw * 75 % 65537) % 4;
        const auto number = std::to_string(row), version = std::to_string(10 * row + 10);
        const std::string range = {'[', '[', '"', char('a' + key), '"', ',', '"', char('b' + key), '"', ']', ']'};
        const bool conflict = written[key] > snapshot - late;
        if (!agrees(
                R"({"sequence":{"proxy":0,"batch":[{"snapshot":)" + std::to_string(snapshot) + R"(,"reads":)" + range +
                    R"(,"writes":)" + range + R"(,"mutations":[],"lock_aware":false}]}})",
                "sequence row " + number + " version " + version) ||
            !agrees(
                R"({"offer":{"row":)" + number + R"(,"resolver":0}})",
                "offer row " + number + " resolver 0 judged " + (conflict ? "conflict" : "committed") +
                    " unseen none") ||
            !agrees(
                R"({"finish":{"proxy":0}})",
                "finish proxy 0 version " + version + "\ntxn 0 " +
                    (conflict ? "conflict 1020" : "committed " + version + " 0"))) {
            return 1;
        }
        // after a conflict the client reads anew
        (conflict ? snapshot : written[key]) = 10 * row + (conflict ? 0 : 10);
    }
    std::cout << asked << " answers are the same\n";
}
