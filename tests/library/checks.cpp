// Checks as `mapf_desk check` does, by mapf::check; its words and what it prints are those of checks.c, but for the last one, since it has room for all.
#include "mapf_desk.hpp"
#include <cstdio>
#include <fstream>
#include <iterator>
#include <string>

static std::optional<std::string> text_of(const std::string &name) {
    if (name == "-")
        return std::nullopt;
    std::ifstream file(name, std::ios::binary);
    return std::string(std::istreambuf_iterator<char>(file), {});
}

int main(int count, char **words) {
    if (count != 10)
        return 2;
    const auto map = text_of(words[1]), scen = text_of(words[2]), paths = text_of(words[4]);
    mapf::Check asked;
    asked.map = *map;
    asked.paths = *paths;
    if (scen)
        asked.scen = *scen;
    if (std::string(words[3]) != "-")
        asked.agents = std::stoul(words[3]);
    asked.form = static_cast<mapf::Form>(std::stoul(words[5]));
    asked.kinds.clear();
    for (const desk_kind kind : {DESK_VERTEX, DESK_EDGE, DESK_FOLLOW, DESK_SWAP, DESK_CYCLE})
        if (std::stoul(words[6]) >> kind & 1)
            asked.kinds.push_back(kind);
    asked.mode = static_cast<mapf::Mode>(std::stoul(words[7]));
    asked.listing = static_cast<mapf::Listing>(std::stoul(words[8]));
    const auto verdict = mapf::check(asked);
    const std::string text = verdict ? verdict->text : verdict.fault();
    std::printf("%d %zu\n", !verdict ? 2 : verdict->is_solved ? 0 : 1, text.size());
    std::fwrite(text.data(), 1, text.size(), stdout);
    return 0;
}
