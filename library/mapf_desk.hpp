// A plan desk for multi-agent path finding inside a program in C++17. mapf_desk.h says what each call does and what is owed: one thread
// at a time for each desk. Nothing here throws but what std::string does where memory runs out.
#ifndef MAPF_DESK_HPP
#define MAPF_DESK_HPP

#include "mapf_desk.h"

#include <initializer_list>
#include <optional>
#include <string>
#include <string_view>
#include <utility>
#include <variant>
#include <vector>

namespace mapf {

// Why there is no value, in a line of text.
struct Fault {
    std::string text;
};

// A value, or why there is none.
template <class T> class Result {
  public:
    Result(T value) : held(std::move(value)) {}
    Result(Fault fault) : held(std::move(fault)) {}
    explicit operator bool() const noexcept { return std::holds_alternative<T>(held); }
    // Only of a result that has one.
    T &operator*() noexcept { return *std::get_if<T>(&held); }
    const T &operator*() const noexcept { return *std::get_if<T>(&held); }
    T *operator->() noexcept { return std::get_if<T>(&held); }
    const T *operator->() const noexcept { return std::get_if<T>(&held); }
    // Empty where there is a value.
    std::string fault() const { return *this ? std::string() : std::get_if<Fault>(&held)->text; }

  private:
    std::variant<T, Fault> held;
};

// A cell and a conflict, as mapf_desk.h describes them.
using Cell = desk_cell;
using Conflict = desk_conflict;

enum class Mode { stay, disappear };
enum class Form { any, by_time, by_agent, by_session, by_json, by_schedule, by_moves, by_flipped_moves };
enum class Listing { all, only, quiet };

namespace detail {

inline desk_text text(std::string_view it) { return {it.data() ? it.data() : "", it.size()}; }
inline desk_text text(const std::optional<std::string_view> &it) { return it ? text(*it) : desk_nothing(); }
inline desk_mode mode(Mode it) { return it == Mode::disappear ? DESK_DISAPPEAR : DESK_STAY; }

template <class Kinds> std::uint32_t bits(const Kinds &kinds) {
    std::uint32_t bits = 0;
    for (desk_kind kind : kinds)
        bits |= 1u << kind;
    return bits;
}

} // namespace detail

// What a desk is opened of.
struct Problem {
    std::string_view map;
    std::optional<std::string_view> scen = std::nullopt;
    std::uint32_t agents = 0;
    Mode mode = Mode::stay;
    std::uint32_t limit = 100'000;
    std::optional<std::string_view> journal = std::nullopt;
};

// An open desk, or one that was moved from, which answers no call.
class Desk {
  public:
    static Result<Desk> open(const Problem &problem) {
        using detail::text;
        Desk desk;
        const auto mode = detail::mode(problem.mode);
        if (desk_open(&desk.handle, text(problem.map), text(problem.scen), problem.agents, mode, problem.limit, text(problem.journal)))
            return Result<Desk>(std::move(desk));
        std::string why = desk.answer();
        return Fault{why.empty() ? "out of memory" : std::move(why)};
    }

    Desk(Desk &&other) noexcept : handle(std::exchange(other.handle, {})) {}
    Desk &operator=(Desk &&other) noexcept {
        std::swap(handle, other.handle);
        return *this;
    }
    Desk(const Desk &) = delete;
    Desk &operator=(const Desk &) = delete;
    ~Desk() { desk_close(&handle); }

    // The answer to the session's next line, with its line feeds.
    Result<std::string> ask(std::string_view line) { return told(desk_line(&handle, detail::text(line))); }

    // How many commits the desk has accepted.
    Result<std::uint64_t> version() {
        std::uint64_t version = 0;
        const desk_status status = desk_version(&handle, &version);
        return given(status, version);
    }

    // Commits a path of an agent, from its start, and gives the version.
    Result<std::uint64_t> commit_path(std::uint32_t agent, const std::vector<Cell> &path) {
        std::uint64_t version = 0;
        const desk_status status = desk_commit_path(&handle, agent, path.data(), path.size(), &version);
        return given(status, version);
    }

    // The conflicts that the agent would have after that commit.
    Result<std::vector<Conflict>> try_path(std::uint32_t agent, const std::vector<Cell> &path) {
        return filled([&](Conflict *room, std::size_t most, std::size_t *count) {
            return desk_try_path(&handle, agent, path.data(), path.size(), room, most, count);
        });
    }

    // The agent's conflicts, in the order of the report.
    Result<std::vector<Conflict>> conflicts(std::uint32_t agent) {
        return filled([&](Conflict *room, std::size_t most, std::size_t *count) { return desk_conflicts(&handle, agent, room, most, count); });
    }

    // Whether the plans solve by these kinds of conflicts.
    Result<bool> solves(std::initializer_list<desk_kind> kinds) {
        bool answer = false;
        const desk_status status = desk_solves(&handle, detail::bits(kinds), &answer);
        return given(status, answer);
    }

    // The distance in steps of a cell to the agent's goal, if a way leads there.
    Result<std::optional<std::uint32_t>> distance(std::uint32_t agent, Cell cell) {
        std::uint32_t steps = 0;
        const desk_status status = desk_distance(&handle, agent, cell, &steps);
        if (status == DESK_NO_WAY)
            return std::optional<std::uint32_t>();
        return given(status, std::optional<std::uint32_t>(steps));
    }

    // The text of the desk's journal.
    Result<std::string> journal() { return told(desk_journal(&handle)); }

  private:
    Desk() = default;

    // The word of a status.
    static const char *word(desk_status status) {
        static const char *const words[] = {"done", "closed", "out of memory", "no such number", "unknown-agent", "out-of-map", "empty-path",
                                            "not-from-start", "not-a-step", "too-long", "journal-full", "no way", "refused"};
        return status < sizeof words / sizeof *words ? words[status] : "refused";
    }

    template <class T> static Result<T> given(desk_status status, T value) {
        if (status == DESK_DONE)
            return value;
        return Fault{word(status)};
    }

    template <class Call> static Result<std::vector<Conflict>> filled(Call call) {
        std::vector<Conflict> room(8);
        std::size_t count = 0;
        desk_status status = call(room.data(), room.size(), &count);
        if (status == DESK_DONE && count > room.size()) {
            room.resize(count);
            status = call(room.data(), room.size(), &count);
        }
        room.resize(count);
        return given(status, std::move(room));
    }

    Result<std::string> told(bool is_whole) {
        if (is_whole)
            return answer();
        return Fault{handle.at ? "out of memory" : "closed"};
    }

    std::string answer() {
        std::size_t length = 0;
        if (!desk_answer(&handle, nullptr, 0, &length))
            return {};
        std::string bytes(length, '\0');
        desk_answer(&handle, bytes.data(), length, &length);
        return bytes;
    }

    desk handle = {};
};

// What a verdict is asked for; without a number of agents there are as many as paths.
struct Check {
    std::string_view map;
    std::optional<std::string_view> scen = std::nullopt;
    std::optional<std::uint32_t> agents = std::nullopt;
    std::string_view paths;
    Form form = Form::any;
    std::vector<desk_kind> kinds = {DESK_VERTEX, DESK_SWAP};
    Mode mode = Mode::stay;
    Listing listing = Listing::all;
};

// The text of the program's `check`, and whether the paths solve the problem.
struct Verdict {
    bool is_solved;
    std::string text;
};

// The verdict on the paths that a solver wrote, or why there is none.
inline Result<Verdict> check(const Check &asked) {
    std::string bytes(1 << 16, '\0');
    std::size_t length = 0;
    const auto call = [&] {
        return desk_check(detail::text(asked.map), detail::text(asked.scen), asked.agents.value_or(DESK_NONE), detail::text(asked.paths),
                          static_cast<desk_form>(asked.form), detail::bits(asked.kinds), detail::mode(asked.mode),
                          static_cast<desk_listing>(asked.listing), bytes.data(), bytes.size(), &length);
    };
    desk_verdict verdict = call();
    if (length > bytes.size()) {
        bytes.resize(length);
        verdict = call();
    }
    bytes.resize(length);
    if (verdict == DESK_FAULT)
        return Fault{bytes.empty() ? "out of memory" : std::move(bytes)};
    return Verdict{verdict == DESK_SOLVED, std::move(bytes)};
}

} // namespace mapf

#endif
