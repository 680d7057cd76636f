// Runs fold and turns scripts and sessions in memory: gakyhera.h for C++17. docs/FORMATS.md of Gakyhera has the forms.
//
//   std::string text = gakyhera::turns(script);
//   gakyhera::Session session;
//   std::string answer = session.line(R"({"cluster":{"proxies":1,"resolvers":1,"window":100,"step":10}})");
//
// Threads may call at the same time, but a session has one thread at a time.
#ifndef GAKYHERA_HPP
#define GAKYHERA_HPP

#include "gakyhera.h"

#include <cstddef>
#include <cstdint>
#include <exception>
#include <new>
#include <stdexcept>
#include <string>
#include <string_view>
#include <utility>

namespace gakyhera {

namespace detail {

using call = int (*)(const std::uint8_t *, std::size_t, std::uint8_t *, std::size_t, std::size_t *);

// An empty view may have a null pointer, which a call must not get.
inline const std::uint8_t *bytes_of(std::string_view view) {
    static const char none = 0;
    return reinterpret_cast<const std::uint8_t *>(view.empty() ? &none : view.data());
}

inline std::uint8_t *room_of(std::string &out) { return reinterpret_cast<std::uint8_t *>(out.data()); }

inline std::string text_of(call run, std::string_view script, bool *refused) {
    std::string out(script.size() + 1024, '\0');
    std::size_t made = 0;
    auto run_into_out = [&] { return run(bytes_of(script), script.size(), room_of(out), out.size(), &made); };
    auto status = run_into_out();
    if (status == GAKYHERA_TOO_SMALL) {
        out.resize(made);
        status = run_into_out();
    }
    if (status == GAKYHERA_TOO_LONG) throw std::length_error("the script is longer than 4,294,963,200 bytes");
    if (status != GAKYHERA_DONE && status != GAKYHERA_REFUSED) throw std::bad_alloc();
    if (refused) *refused = status == GAKYHERA_REFUSED;
    out.resize(made);
    return out;
}

}  // namespace detail

// The text of a fold script. Of a wrong script it is the line `refused NUMBER NAME`, and `*refused` becomes true.
// Throws std::bad_alloc if an allocation fails, and std::length_error if the script is too long.
inline std::string fold(std::string_view script, bool *refused = nullptr) {
    return detail::text_of(gakyhera_fold, script, refused);
}

// The text of a turns script. Returns a refusal, and throws, as `fold` does.
inline std::string turns(std::string_view script, bool *refused = nullptr) {
    return detail::text_of(gakyhera_turns, script, refused);
}

// The line was carried out, but an allocation failed for its long answer.
struct AnswerLost : std::exception {
    const char *what() const noexcept override { return "the line is carried out, but its answer is lost"; }
};

// A session with a cluster, which answers each line as proxy_session does. It can be moved, and not copied.
class Session {
public:
    // A session without a cluster. Throws std::bad_alloc if an allocation fails.
    Session() {
        if (gakyhera_session_new(&handle_) != GAKYHERA_DONE) throw std::bad_alloc();
    }
    Session(Session &&other) noexcept { std::swap(handle_.opaque, other.handle_.opaque); }
    // The session that was here is freed.
    Session &operator=(Session &&other) noexcept {
        if (this != &other) {
            gakyhera_session_free(&handle_);
            std::swap(handle_.opaque, other.handle_.opaque);
        }
        return *this;
    }
    ~Session() { gakyhera_session_free(&handle_); }

    // Carries out a line, and returns its answer, which ends with an empty line; that to a refused line begins with
    // `refused `. Throws std::bad_alloc if an allocation fails, and then the session is unchanged; AnswerLost if the
    // line was carried out; std::logic_error if the session was moved from.
    std::string line(std::string_view line) {
        using namespace detail;
        std::string out(first_room, '\0');
        std::size_t made = 0;
        auto status =
            gakyhera_session_line(&handle_, bytes_of(line), line.size(), room_of(out), out.size(), &made);
        if (status == GAKYHERA_OUT_OF_MEMORY) throw std::bad_alloc();
        if (status == GAKYHERA_NO_SESSION) throw std::logic_error("the session was moved from");
        if (status == GAKYHERA_ANSWER_LOST || !is_resized(out, made)) throw AnswerLost();
        if (status == GAKYHERA_TOO_SMALL) gakyhera_session_answer(&handle_, room_of(out), made, &made);
        return out;
    }

private:
    static constexpr std::size_t first_room = 4096;

    static bool is_resized(std::string &out, std::size_t length) {
        try {
            out.resize(length);
            return true;
        } catch (const std::bad_alloc &) {
            return false;
        }
    }

    gakyhera_session handle_ = GAKYHERA_SESSION_INIT;
};

}  // namespace gakyhera

#endif
