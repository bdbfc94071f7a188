// The class of C++: desks are opened, asked, moved and refused. Each line that it prints is a call that answered wrongly.
#include "mapf_desk.hpp"
#include <cstdio>
#include <type_traits>

static_assert(!std::is_copy_constructible_v<mapf::Desk> && !std::is_copy_assignable_v<mapf::Desk>);
static_assert(std::is_nothrow_move_constructible_v<mapf::Desk> && std::is_nothrow_move_assignable_v<mapf::Desk>);

static void is(bool holds, const char *what) {
    if (!holds)
        std::printf("not so: %s\n", what);
}

int main() {
    const std::string map = "type octile\nheight 1\nwidth 3\nmap\n...\n";
    auto desk = mapf::Desk::open({map});
    is(bool(desk), "a desk is opened");
    auto answer = desk->ask("agent 0 0,0 2,0");
    is(answer && *answer == "version 1\n" && answer.fault().empty(), "a line is answered");
    mapf::Desk moved = std::move(*desk);
    is(!desk->ask("version") && desk->ask("version").fault() == "closed", "a desk that was moved from answers nothing");
    const auto journal = moved.journal();
    is(bool(journal), "a journal is written");
    auto again = mapf::Desk::open({map, std::nullopt, 0, mapf::Mode::stay, 9, *journal});
    is(again && *again->ask("version") == "version 1\n", "a journal opens as the desk was");
    moved = std::move(*again);
    is(*moved.ask("plan 0") == "plan 0 2,0 0,0\n", "a desk is assigned");
    is(mapf::Desk::open({"type hex\n"}).fault() == "map: not octile", "a map's fault is the text");
    is(mapf::Desk::open({map, std::nullopt, 0, mapf::Mode::stay, 9, "journal 2\nmode disappear\nend 0\n"}).fault() == "journal: mode differs", "modes differ");
    is(bool(mapf::Desk::open({map, std::nullopt, 0, mapf::Mode::disappear, 9, "journal 2\nmode disappear\nend 0\n"})), "modes are the same");
    mapf::Check asked;
    asked.map = map;
    asked.paths = "path 0 0,0 1,0\n";
    is(mapf::check(asked) && mapf::check(asked)->is_solved, "paths solve");
    asked.paths = "path 0 0,0 2,0\n";
    is(mapf::check(asked)->text == "wrong 0 1 not-a-step 0,0 2,0\nsolves no\n" && !mapf::check(asked)->is_solved, "a wrong path is told");
    asked.paths = "path 0 0\n";
    is(mapf::check(asked).fault() == "paths: bad path in line 1", "a fault of the paths is told");
    return 0;
}
