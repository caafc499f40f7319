// Families of drawings by their number of edges. The same edges make the same drawing at each run.
#pragma once

#include "contacts.hpp"

#include <map>
#include <optional>

struct Family {
    std::string name;
    std::size_t most_edges;
    // A drawing of about so many edges, without a contact or with one in its middle; nothing where there is none.
    std::function<std::optional<Drawing>(std::size_t edges, bool contact)> draw;
};

// The shorelines are those of the file: a ring a line, `x y x y ..`. Without a name there are none.
std::vector<Family> all_families(const std::string &shorelines);
