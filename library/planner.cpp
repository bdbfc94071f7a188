// Finds paths for the first agents of a scenario, one after the other, against a desk: planner MAP SCEN AGENTS. An agent takes the shortest path
// that keeps away from where the desk said that it meets agents with paths; so it learns until the desk knows no meeting more.
#include "mapf_desk.hpp"
#include <algorithm>
#include <cstdio>
#include <fstream>
#include <iostream>
#include <iterator>
#include <map>
#include <queue>
#include <set>
#include <tuple>

using mapf::Cell, mapf::Conflict, mapf::Desk;
using Place = std::pair<std::uint32_t, std::uint32_t>;     // column and row
using State = std::tuple<std::uint32_t, Place>;            // a time, and where the agent is then
constexpr std::uint32_t last = 400;

class Planner {
  public:
    explicit Planner(Desk &it) : desk(it) {}

    bool plan(std::uint32_t agent) {
        const std::string line = *desk.ask("plan " + std::to_string(agent));
        Place goal, start;
        if (std::sscanf(line.c_str(), "plan %*u %u,%u %u,%u", &goal.first, &goal.second, &start.first, &start.second) != 4)
            return false;
        goals.push_back(goal);
        taken.clear(), steps.clear();
        for (;;) {
            const auto path = find(agent, start, goal);
            const auto met = desk.try_path(agent, path);
            if (!met)
                return false;
            if (!std::count_if(met->begin(), met->end(), [&](const Conflict &one) { return learn(agent, one); }))
                return bool(desk.commit_path(agent, path));
        }
    }

  private:
    // The steps from a cell to the agent's goal; where there is no way, or no such cell, more than there is time for.
    std::uint32_t way(std::uint32_t agent, Place at) {
        const auto [found, is_new] = steps.try_emplace(at, last);
        if (is_new) {
            const auto told = desk.distance(agent, {at.first, at.second});
            found->second = told ? told->value_or(last) : last;
        }
        return found->second;
    }

    // A* over cells and times that aren't taken, to where the agent can stay (Hart, Nilsson, Raphael 1968).
    std::vector<Cell> find(std::uint32_t agent, Place start, Place goal) {
        std::uint32_t free = 0;
        for (const auto &[time, place] : taken)
            free = place == goal ? std::max(free, time + 1) : free;
        std::map<State, State> came{{{0, start}, {0, start}}};
        std::priority_queue<std::pair<std::uint32_t, State>, std::vector<std::pair<std::uint32_t, State>>, std::greater<>> waiting;
        for (waiting.push({way(agent, start), {0, start}}); !waiting.empty();) {
            const auto [cost, state] = waiting.top();
            const auto [time, place] = state;
            waiting.pop();
            if (place == goal && time >= free)
                return back(came, state);
            const auto [x, y] = place;
            for (const Place &next : {place, Place{x + 1, y}, Place{x - 1, y}, Place{x, y + 1}, Place{x, y - 1}}) {
                const State after{time + 1, next};
                if (way(agent, next) + time + 1 < last && !taken.count(after) && came.emplace(after, state).second)
                    waiting.push({time + 1 + way(agent, next), after});
            }
        }
        return {};
    }

    static std::vector<Cell> back(std::map<State, State> &came, State state) {
        std::vector<Cell> path;
        for (;; state = came.at(state)) {
            path.push_back({std::get<1>(state).first, std::get<1>(state).second});
            if (!std::get<0>(state))
                break;
        }
        std::reverse(path.begin(), path.end());
        return path;
    }

    // Where the agent mustn't be, by a conflict with one that has a path: whether it is with one.
    bool learn(std::uint32_t agent, const Conflict &one) {
        const bool first = one.first == agent, swaps = one.kind == DESK_SWAP;
        const std::uint32_t other = first ? one.second : one.first;
        if (other >= agent || (one.kind != DESK_VERTEX && one.kind != DESK_PARKED && !swaps))
            return false;
        const Cell cell = swaps && first ? one.other : one.cell;
        const Place place{cell.x, cell.y};
        for (std::uint32_t time = one.time + swaps, end = !swaps && place == goals[other] ? last : time + 1; time < end; time++)
            taken.insert({time, place});
        return true;
    }

    Desk &desk;
    std::vector<Place> goals;
    std::set<State> taken;
    std::map<Place, std::uint32_t> steps;
};

static std::string text_of(const char *name) {
    std::ifstream file(name, std::ios::binary);
    return {std::istreambuf_iterator<char>(file), {}};
}

int main(int count, char **words) {
    if (count != 4)
        return 2;
    const std::string map = text_of(words[1]), scen = text_of(words[2]);
    const auto agents = static_cast<std::uint32_t>(std::stoul(words[3]));
    auto desk = Desk::open({map, scen, agents});
    if (!desk)
        return std::cerr << desk.fault() << '\n', 2;
    Planner planner(*desk);
    for (std::uint32_t agent = 0; agent < agents; agent++)
        if (!planner.plan(agent))
            std::cout << "no path for agent " << agent << '\n';
    std::cout << *desk->ask("solves vertex swap");
    return *desk->solves({DESK_VERTEX, DESK_SWAP}) ? 0 : 1;
}
