// The yardstick of bench/group.sh: reads a file of names, a line each, sorts their bytes and groups
// equal ones; prints how many differ and, with a second word, each name with its count.
#include <algorithm>
#include <cstdio>
#include <fstream>
#include <iterator>
#include <string>
#include <string_view>
#include <vector>

int main(int argc, char** argv) {
    if (argc < 2) return 2;
    std::ifstream file(argv[1], std::ios::binary);
    if (!file) return 1;
    std::string all((std::istreambuf_iterator<char>(file)), {});
    std::vector<std::string_view> names;
    for (size_t from = 0; from < all.size();) {
        size_t end = std::min(all.find('\n', from), all.size());
        names.emplace_back(all.data() + from, end - from);
        from = end + 1;
    }
    std::sort(names.begin(), names.end());
    size_t groups = 0;
    for (size_t first = 0; first < names.size(); groups++) {
        size_t behind = first + 1;
        while (behind < names.size() && names[behind] == names[first]) behind++;
        if (argc > 2) {
            std::printf("%.*s\t%zu\n", int(names[first].size()), names[first].data(), behind - first);
        }
        first = behind;
    }
    std::printf("%zu\n", groups);
}
