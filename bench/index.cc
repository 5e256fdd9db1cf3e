// The yardstick of bench/index.sh: reads a file of names, a line each, makes the weights of each by the
// ten characters' table of bench/rows.sh and, with a second word, sorts them with the numbers of their
// lines. Prints how many names there are.
#include <algorithm>
#include <cstdint>
#include <cstdio>
#include <fstream>
#include <iterator>
#include <string>
#include <utility>
#include <vector>

struct Key {
    uint16_t weights[16];
    uint32_t row;
    bool operator<(const Key& other) const {
        auto order = std::lexicographical_compare_three_way(
            weights, weights + 16, other.weights, other.weights + 16);
        return order < 0 || (order == 0 && row < other.row);
    }
};

static void put(Key& key, int& length, uint16_t weight) { key.weights[length++] = weight; }

int main(int argc, char** argv) {
    if (argc < 2) return 2;
    std::ifstream file(argv[1], std::ios::binary);
    if (!file) return 1;
    std::string all((std::istreambuf_iterator<char>(file)), {});
    std::vector<Key> keys;
    for (size_t from = 0; from < all.size();) {
        size_t end = std::min(all.find('\n', from), all.size());
        Key key{{}, uint32_t(keys.size())};
        int length = 0;
        for (size_t at = from; at < end; at++) {
            switch ((unsigned char)all[at]) {
            case '\t': put(key, length, 0x0201); break;
            case ' ': put(key, length, 0x0209); break;
            case 'a': put(key, length, 0x0E33); break;
            case 'b': put(key, length, 0x0E4A); break;
            case 'c': case 'C': put(key, length, 0x0E60); break;
            case 'h': put(key, length, 0x0EE1); break;
            case 's': put(key, length, 0x0FEA); break;
            case 0xC3: put(key, length, 0x0FEA); put(key, length, 0x0FEA); at++; break;
            case 0xC2: at++; break;
            }
        }
        while (length < 16) put(key, length, 0x0209);
        keys.push_back(key);
        from = end + 1;
    }
    if (argc > 2) std::sort(keys.begin(), keys.end());
    std::printf("%zu\n", keys.size());
}
