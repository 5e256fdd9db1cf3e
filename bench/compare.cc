// The yardstick of compare.sh: how long ICU takes to compare the same pairs of texts.
//
//     yardstick PAIRS STRENGTH TIMES
//
// PAIRS has two texts of UTF-8 a line, parted by a TAB. Each pair is compared TIMES times at
// STRENGTH (1 or 3) by the root collation. Written: how many pairs are equal, and the seconds of
// the comparisons alone.
#include <chrono>
#include <cstdio>
#include <cstdlib>
#include <fstream>
#include <string>
#include <utility>
#include <vector>

#include <unicode/ucol.h>

int main(int argc, char **argv) {
    if (argc != 4) {
        std::fprintf(stderr, "usage: yardstick PAIRS STRENGTH TIMES\n");
        return 2;
    }
    std::ifstream file(argv[1]);
    std::vector<std::pair<std::string, std::string>> pairs;
    for (std::string line; std::getline(file, line);) {
        const size_t tab = line.find('\t');
        pairs.emplace_back(line.substr(0, tab), line.substr(tab + 1));
    }
    UErrorCode error = U_ZERO_ERROR;
    UCollator *collator = ucol_open("root", &error);
    if (U_FAILURE(error)) {
        std::fprintf(stderr, "ICU: %s\n", u_errorName(error));
        return 1;
    }
    const bool primary = std::atoi(argv[2]) == 1;
    ucol_setStrength(collator, primary ? UCOL_PRIMARY : UCOL_TERTIARY);
    const int times = std::atoi(argv[3]);
    size_t equal = 0;
    const auto started = std::chrono::steady_clock::now();
    for (const auto &[left, right] : pairs) {
        for (int turn = 0; turn < times; turn++) {
            equal += ucol_strcollUTF8(collator, left.data(), static_cast<int32_t>(left.size()),
                                      right.data(), static_cast<int32_t>(right.size()),
                                      &error) == UCOL_EQUAL;
        }
    }
    const std::chrono::duration<double> took = std::chrono::steady_clock::now() - started;
    std::printf("%zu %.6f\n", equal / times, took.count());
    ucol_close(collator);
    return U_FAILURE(error) ? 1 : 0;
}
