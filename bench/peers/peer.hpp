// What the programs of this folder share. Each reads rings, a line `x y x y ..` each, cleans every ring by the call that its first word names, and shows
// what is left in a line: rings parted by ` ; `, `none`, or `fault` where the library reports one. With a second word it shows nothing, and prints how many
// milliseconds of the processor the calls took, the least of five runs. Without words it names its calls.
#pragma once

#include <algorithm>
#include <cstdio>
#include <ctime>
#include <functional>
#include <iostream>
#include <map>
#include <sstream>
#include <string>
#include <utility>
#include <vector>

using Ring = std::vector<std::pair<double, double>>;

// How a ring is given to a library, its calls by name, and how an answer is read. A call reports a fault by throwing.
template <class Given, class Answer> struct Library {
    std::function<Given(const Ring &)> give;
    std::map<std::string, std::function<Answer(const Given &)>> calls;
    std::function<std::vector<Ring>(const Answer &)> read;
};

inline Ring read_ring(const std::string &line) {
    std::istringstream words(line);
    Ring ring;
    for (double x, y; words >> x >> y;) ring.emplace_back(x, y);
    return ring;
}

inline void show(const std::vector<Ring> &rings) {
    const char *before = "";
    for (const Ring &ring : rings) {
        for (const auto &[x, y] : ring) {
            std::printf("%s%.17g %.17g", before, x, y);
            before = " ";
        }
        before = " ; ";
    }
    std::puts(rings.empty() ? "none" : "");
}

// In milliseconds.
inline double processor_time() {
    timespec at;
    clock_gettime(CLOCK_PROCESS_CPUTIME_ID, &at);
    return double(at.tv_sec) * 1e3 + double(at.tv_nsec) * 1e-6;
}

template <class Given, class Answer>
double least_time(const std::vector<Given> &given, const std::function<Answer(const Given &)> &call) {
    double least = 1e300;
    for (int run = 0; run < 5; run++) {
        std::vector<Answer> answers(given.size());
        double start = processor_time();
        for (std::size_t k = 0; k < given.size(); k++) try {
                answers[k] = call(given[k]);
            } catch (const std::exception &) {
            }
        least = std::min(least, processor_time() - start);
    }
    return least;
}

template <class Given, class Answer> int run(int count, char **words, const Library<Given, Answer> &library) {
    auto found = count > 1 ? library.calls.find(words[1]) : library.calls.end();
    if (found == library.calls.end()) {
        for (const auto &[name, call] : library.calls) std::puts(name.c_str());
        return count > 1 ? 2 : 0;
    }
    std::vector<Given> given;
    for (std::string line; std::getline(std::cin, line);) given.push_back(library.give(read_ring(line)));
    if (count > 2) {
        std::printf("%.1f\n", least_time<Given, Answer>(given, found->second));
        return 0;
    }
    for (const Given &ring : given) try {
            show(library.read(found->second(ring)));
        } catch (const std::exception &) {
            std::puts("fault");
        }
    return 0;
}
