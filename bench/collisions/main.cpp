// Positions that have one hash under the fixed seed of FoldHasher, and what an IndexMap does with positions under it.
//
//     collisions find N    so many positions that have the hash of (0, 0), a line each, by x
//     collisions count     how many groups of its table an IndexMap looks at, and how many keys it compares, while the
//                          positions on standard input, a line each and no two the same, are put in
#include <algorithm>
#include <cinttypes>
#include <cstdint>
#include <cstdio>
#include <cstdlib>
#include <cstring>
#include <utility>
#include <vector>

using Wide = unsigned __int128;
using Position = std::pair<int64_t, int64_t>;

// ---- the hash

constexpr uint64_t SEED = 0x243f'6a88'85a3'08d3, MULTIPLIER = 0x9e37'79b9'7f4a'7c15;
// A coordinate is written as 8 bytes, and twice their number goes into the multiplier.
constexpr uint64_t FACTOR = MULTIPLIER ^ 16;

static uint64_t folded(uint64_t number) {
    Wide product = Wide(number) * FACTOR;
    return uint64_t(product) ^ uint64_t(product >> 64);
}

static uint64_t hash_of(Position position) {
    return folded(folded(SEED ^ uint64_t(position.first)) ^ uint64_t(position.second));
}

// What the table keeps of it.
static uint32_t half_of(uint64_t hash) { return uint32_t(hash ^ hash >> 32); }

// ---- the search

constexpr int64_t REACH = 1'000'000'000'000;
// Coordinates that are not negative are below BLOCK.
constexpr int BITS = 40;
constexpr uint64_t BLOCK = uint64_t(1) << BITS;
// What is left of the seed after x = 0, and is multiplied for y = 0.
static const uint64_t WANTED = folded(SEED);

// How often a factor is added, at least once, until the sum is below BLOCK, around 2^64.
static uint64_t times_to_block(uint64_t factor) {
    uint64_t times = 1;
    while (times * factor >= BLOCK) times++;
    return times;
}

// Adds the positions whose x makes of the seed a number from `from` to below `to` of which the lower half of the
// product is less than BLOCK above `low`. From one such number to the next it is one of two steps, or both.
static void search(uint64_t from, uint64_t to, uint64_t low, std::vector<Position>& found) {
    static const uint64_t up = times_to_block(FACTOR), down = times_to_block(-FACTOR);
    const uint64_t rise = up * FACTOR, fall = down * -FACTOR;
    for (uint64_t number = from; number < to;) {
        uint64_t above = number * FACTOR - low;
        if (above >= BLOCK) {  // no such number was met yet
            number++;
            continue;
        }
        int64_t x = int64_t(number ^ SEED), y = int64_t(folded(number) ^ WANTED);
        if (std::abs(x) <= REACH && std::abs(y) <= REACH) found.emplace_back(x, y);
        number += above < BLOCK - rise ? up : above >= fall ? down : up + down;
    }
}

// All positions for which the second multiplication is that of (0, 0): for each x there is one y. It is in range only
// where what is left after x has the upper bits of WANTED, or the opposite of each. The upper half of the product has
// the same upper bits for many x, so that those of the lower half are known.
static std::vector<Position> all_found() {
    std::vector<Position> found;
    for (uint64_t block : {SEED / BLOCK * BLOCK, ~SEED / BLOCK * BLOCK}) {
        for (uint64_t from = block; from < block + BLOCK;) {
            uint64_t upper = uint64_t(Wide(from) * FACTOR >> 64) >> BITS;
            uint64_t beyond = uint64_t(((Wide(upper + 1) << (64 + BITS)) - 1) / FACTOR) + 1;
            uint64_t to = std::min(block + BLOCK, beyond);
            for (uint64_t bits : {WANTED >> BITS, ~WANTED >> BITS}) search(from, to, (bits ^ upper) << BITS, found);
            from = to;
        }
    }
    std::sort(found.begin(), found.end());
    return found;
}

static int find(size_t count) {
    std::vector<Position> found = all_found();
    if (count > found.size()) {
        fprintf(stderr, "there are %zu positions\n", found.size());
        return 1;
    }
    for (size_t i = 0; i < count; i++) {
        Position position = found[i * found.size() / count];
        printf("%" PRId64 " %" PRId64 "\n", position.first, position.second);
    }
    return 0;
}

// ---- the table

constexpr size_t LANES = 12, LOAD = 9;

struct Group {
    uint8_t tags[LANES];
    uint32_t used = 0, overflow = 0;
};

// The table of an IndexMap that nothing is taken out of.
class Table {
    std::vector<Group> groups_;
    std::vector<uint32_t> halves_;

    static uint8_t tag(uint32_t half) { return uint8_t(std::max(half >> 24, 1u)); }
    static uint32_t overflow_bit(uint32_t half) { return 1u << (tag(half) & 31); }
    size_t start(uint32_t half) const { return half & (groups_.size() - 1); }
    size_t next(size_t at) const { return (at + 1) & (groups_.size() - 1); }

    // Looks for a key that is not there, so that each key of its tag is compared in vain.
    void look_for(uint32_t half) {
        if (groups_.empty()) return;
        size_t at = start(half);
        do {
            const Group& group = groups_[at];
            looked_at++;
            compared += uint64_t(std::count(group.tags, group.tags + group.used, tag(half)));
            if (!(group.overflow & overflow_bit(half))) return;
            at = next(at);
        } while (at != start(half));
    }

    void put(uint32_t half) {
        size_t at = start(half);
        while (looked_at++, groups_[at].used == LANES) {
            groups_[at].overflow |= overflow_bit(half);
            at = next(at);
        }
        Group& group = groups_[at];
        group.tags[group.used++] = tag(half);
    }

    void grow() {
        groups_.assign(std::max<size_t>(2 * groups_.size(), 1), Group());
        for (uint32_t half : halves_) put(half);
    }

public:
    uint64_t looked_at = 0, compared = 0;

    void insert(uint32_t half) {
        look_for(half);
        if (halves_.size() == LOAD * groups_.size()) grow();
        halves_.push_back(half);
        put(half);
    }
};

static int count() {
    Table table;
    Position position;
    while (scanf("%" SCNd64 " %" SCNd64, &position.first, &position.second) == 2)
        table.insert(half_of(hash_of(position)));
    printf("%" PRIu64 " %" PRIu64 "\n", table.looked_at, table.compared);
    return 0;
}

int main(int number, char** words) {
    if (number == 3 && !strcmp(words[1], "find")) return find(strtoull(words[2], nullptr, 10));
    if (number == 2 && !strcmp(words[1], "count")) return count();
    fprintf(stderr, "collisions find N, or collisions count\n");
    return 2;
}
