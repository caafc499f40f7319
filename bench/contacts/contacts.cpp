// contacts [--check] [--only WORD] [--largest N] [--shorelines FILE]
//
// Asks each library whether drawings are free of contacts, and prints how many nanoseconds of the processor an edge takes: the least of five samples, between
// which the other libraries have theirs. Each library's answer is compared with that by which the drawing was made. With --check it times nothing. WORD picks
// the families in whose names it is, N is the greatest number of edges.
#include "contacts.hpp"
#include "families.hpp"

#include <algorithm>
#include <cstdio>
#include <cstdlib>
#include <ctime>
#include <exception>
#include <utility>

namespace {

constexpr double SAMPLE = 5e6;        // nanoseconds, of as many calls as fit
constexpr double MOST_SAMPLES = 5e9;  // no further sample once a call has taken so long
constexpr double MOST = 20e9;         // a call isn't asked that takes so long, if its time is quadratic
constexpr int SAMPLES = 5;

struct Options {
    bool checks = false;
    std::string only, shorelines;
    std::size_t largest = 1'000'000;
};

// In nanoseconds.
double processor_time() {
    timespec at;
    clock_gettime(CLOCK_PROCESS_CPUTIME_ID, &at);
    return double(at.tv_sec) * 1e9 + double(at.tv_nsec);
}

double time_of(const Call &call, std::size_t calls) {
    double start = processor_time();
    for (std::size_t k = 0; k < calls; k++) call();
    return (processor_time() - start) / double(calls);
}

// What a column has for a drawing. Without a least time its call wasn't made.
struct Cell {
    Call call;
    std::size_t answer = 0;
    std::size_t calls = 1;
    double least = 0, spent = 0;

    void ask() {
        double start = processor_time();
        answer = call();
        least = spent = processor_time() - start;
        calls = std::max<std::size_t>(1, std::size_t(SAMPLE / least));
    }

    void take_sample() {
        if (least == 0 || spent > MOST_SAMPLES) return;
        double time = time_of(call, calls);
        least = std::min(least, time);
        spent += time * double(calls);
    }
};

class Table {
  public:
    Table(std::vector<Column> columns, Options options) : columns(std::move(columns)), options(std::move(options)) {}

    void print_head() const {
        std::printf("| family | edges | contact |");
        for (const Column &column : columns) std::printf(" %s |", column.name.c_str());
        std::printf(" first_contact : best of the others | is_simple_polygon : best of the others |\n|---|---|---|");
        for (std::size_t k = 0; k < columns.size() + 2; k++) std::printf("---|");
        std::puts("");
    }

    void add(const Family &family, std::size_t edges, bool contact) {
        std::optional<Drawing> drawing = family.draw(edges, contact);
        if (!drawing) return;
        std::size_t drawn = 0;
        for (const Ring &ring : drawing->rings) drawn += ring.size();
        std::vector<Cell> cells;
        for (const Column &column : columns) {
            Cell cell{column.prepare(*drawing)};
            double &slope = slopes[family.name + (contact ? " with " : " without ") + column.name];
            if (cell.call && slope * double(drawn) * double(drawn) < MOST) {
                cell.ask();
                slope = cell.least / double(drawn) / double(drawn);
            }
            cells.push_back(std::move(cell));
        }
        for (int sample = 0; sample < SAMPLES && !options.checks; sample++)
            for (Cell &cell : cells) cell.take_sample();
        std::string row = family.name + " | " + std::to_string(drawn) + " | " + (contact ? "one" : "none");
        compare(family, row, (drawing->question == Question::of_each ? drawing->rings.size() : 1) - std::size_t(contact), cells);
        if (!options.checks) print(row, cells, double(drawn));
    }

    int print_end() const {
        for (const std::string &line : remarks) std::puts(line.c_str());
        std::printf("%zu answers as expected, %zu others for a known reason, %zu without one\n", agreed, explained, differed);
        return differed == 0 ? 0 : 1;
    }

  private:
    // Why a library is known to return another answer about a family.
    static const char *reason(const std::string &column, const std::string &family) {
        if (family == "equal" && (column == "GEOS isSimple" || column == "Boost intersects")) return "it ignores repeated points";
        if (family == "line" && column == "Boost intersects") return "it finds no contact where one edge goes back over all others";
        return nullptr;
    }

    void compare(const Family &family, const std::string &row, std::size_t expected, const std::vector<Cell> &cells) {
        for (std::size_t k = 0; k < cells.size(); k++) {
            if (cells[k].least == 0) continue;
            if (cells[k].answer == expected) {
                agreed++;
                continue;
            }
            const char *why = reason(columns[k].name, family.name);
            (why ? explained : differed)++;
            remarks.push_back(row + " | " + columns[k].name + ": " + std::to_string(cells[k].answer) + " free of contacts, not " + std::to_string(expected) +
                              (why ? std::string(": ") + why : ""));
        }
    }

    static void print_number(double number) { std::printf(number < 99.95 ? " %.1f |" : " %.0f |", number); }

    void print(const std::string &row, const std::vector<Cell> &cells, double edges) const {
        std::printf("| %s |", row.c_str());
        for (const Cell &cell : cells) {
            if (cell.least > 0) {
                print_number(cell.least / edges);
            } else {
                std::printf(cell.call ? " too long |" : " - |");
            }
        }
        double best = 0;
        for (std::size_t k = OURS; k < cells.size(); k++)
            if (cells[k].least > 0 && (best == 0 || cells[k].least < best)) best = cells[k].least;
        for (std::size_t k : {0, 1}) {
            if (best > 0 && cells[k].least > 0) {
                std::printf(" %.2f |", cells[k].least / best);
            } else {
                std::printf(" - |");
            }
        }
        std::puts("");
        std::fflush(stdout);
    }

    // The first columns are this library's, and the ratios those of the first two.
    static constexpr std::size_t OURS = 4;
    std::vector<Column> columns;
    Options options;
    std::map<std::string, double> slopes;
    std::vector<std::string> remarks;
    std::size_t agreed = 0, explained = 0, differed = 0;
};

Options read_options(int count, char **words) {
    Options options;
    for (int k = 1; k < count; k++) {
        std::string word = words[k];
        if (word == "--check") {
            options.checks = true;
        } else if (k + 1 < count && word == "--only") {
            options.only = words[++k];
        } else if (k + 1 < count && word == "--largest") {
            options.largest = std::strtoull(words[++k], nullptr, 10);
        } else if (k + 1 < count && word == "--shorelines") {
            options.shorelines = words[++k];
        } else {
            std::fprintf(stderr, "contacts: what is %s?\n", words[k]);
            std::exit(2);
        }
    }
    return options;
}

std::vector<Column> all_columns() {
    std::vector<Column> all = our_columns();
    auto add = [&all]([[maybe_unused]] const std::vector<Column> &columns) { all.insert(all.end(), columns.begin(), columns.end()); };
#ifdef WITH_GEOS
    add(geos_columns());
#endif
#ifdef WITH_BOOST
    add(boost_columns());
#endif
#ifdef WITH_CGAL
    add(cgal_columns());
#endif
    return all;
}

} // namespace

int main(int count, char **words) try {
    Options options = read_options(count, words);
    Table table(all_columns(), options);
    if (!options.checks) table.print_head();
    for (const Family &family : all_families(options.shorelines)) {
        if (family.name.find(options.only) == std::string::npos) continue;
        for (std::size_t edges : {10, 1'000, 10'000, 100'000, 1'000'000})
            for (bool contact : {false, true})
                if (edges <= std::min(family.most_edges, options.largest)) table.add(family, edges, contact);
    }
    return table.print_end();
} catch (const std::exception &error) {
    std::fprintf(stderr, "contacts: %s\n", error.what());
    return 2;
}
