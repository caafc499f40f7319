// What the files of this folder share: rings of whole numbers, a question about them, and the calls of the libraries that answer it.
#pragma once

#include <cstddef>
#include <cstdint>
#include <functional>
#include <string>
#include <vector>

struct Point {
    std::int32_t x, y;
};
using Ring = std::vector<Point>;

enum class Question {
    of_ring,  // whether the only ring is free of contacts
    of_rings, // whether all rings together are
    of_each,  // how many rings are, each by itself
};

struct Drawing {
    Question question;
    std::vector<Ring> rings;
    // Of rings together: an outer one and its holes, then those of the next polygon.
    std::size_t rings_of_polygon = 1;
};

// Returns how many rings are free of contacts; 1 or 0 for the first two questions.
using Call = std::function<std::size_t()>;

// A call of a library. What it is to be asked about is made beforehand, and an empty call is returned where it can't be asked.
struct Column {
    std::string name;
    std::function<Call(const Drawing &)> prepare;
};

std::vector<Column> our_columns();
std::vector<Column> geos_columns();
std::vector<Column> boost_columns();
std::vector<Column> cgal_columns();

// A library's notion of a valid polygon, which is an outer ring and its holes: why one isn't valid, or nothing if it is. CGAL's is of one ring alone.
struct Notion {
    std::string name;
    std::function<std::string(const std::vector<Ring> &)> fault;
};

Notion our_notion();
Notion our_touching_notion(); // rings may touch one another
Notion geos_notion();
Notion touching_geos_notion(); // a ring may touch itself and so form a hole
Notion boost_notion();
Notion cgal_notion();
