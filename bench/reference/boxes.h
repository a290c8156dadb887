// An index of numbered boxes that stays local on any map. What is small beside a cell of a grid stands in the cells that
// it meets, of which each is a tree; what is larger stands in one more tree, and what is outside the grid in a third.
#pragma once

#include <cmath>
#include <vector>

#include "geometry.h"

struct Entry {
    Box box;
    uint32_t number;
};

// Trees over one store of nodes. A tree is the index of its root, and 0 while it is bare. A box goes down its way, which
// is the bits of its middle from the greatest on, in turn in x and y, then those of its size, and stays in the first node
// with room.
class Trees {
    static constexpr uint32_t ROOM = 4;

    struct Node {
        Box bounds = NOTHING;
        uint32_t sides[2] = {0, 0}, count = 0;
        Entry entries[ROOM];
    };

    std::vector<Node> nodes_{Node()};
    std::vector<uint32_t> unused_, path_;

    uint32_t made() {
        if (unused_.empty()) {
            nodes_.emplace_back();
            return uint32_t(nodes_.size() - 1);
        }
        uint32_t node = unused_.back();
        unused_.pop_back();
        nodes_[node] = Node();
        return node;
    }

    bool is_bare(const Node& node) const { return node.count == 0 && !node.sides[0] && !node.sides[1]; }

    void draw_bounds(Node& node) {
        node.bounds = NOTHING;
        for (uint32_t i = 0; i < node.count; i++) grow(node.bounds, node.entries[i].box);
        for (uint32_t side : node.sides)
            if (side) grow(node.bounds, nodes_[side].bounds);
    }

    static bool take_from(Node& node, uint32_t number) {
        for (uint32_t i = 0; i < node.count; i++)
            if (node.entries[i].number == number) {
                node.entries[i] = node.entries[--node.count];
                return true;
            }
        return false;
    }

public:
    // The way of a box through a tree over a region: the sums of its ends, from some bit on, and its size.
    struct Way {
        uint64_t x, y, size;
        int bits_x, bits_y, bits_size = 42;

        Way(int64_t x, int64_t y, const Box& b, int bits_x, int bits_y)
            : x(uint64_t(x)), y(uint64_t(y)), size(uint64_t(b.east - b.west + b.north - b.south)), bits_x(bits_x), bits_y(bits_y) {}

        bool next() {
            if (bits_x < 0 && bits_y < 0) return bits_size >= 0 && size >> bits_size-- & 1;
            bool takes_x = bits_x >= bits_y;
            int bit = takes_x ? bits_x-- : bits_y--;
            return (takes_x ? x : y) >> bit & 1;
        }
    };

    void put(uint32_t& root, const Entry& entry, Way way) {
        if (!root) root = made();
        uint32_t at = root;
        while (true) {
            grow(nodes_[at].bounds, entry.box);
            Node& node = nodes_[at];
            if (node.count < ROOM) {
                node.entries[node.count++] = entry;
                return;
            }
            bool side = way.next();
            if (!node.sides[side]) {
                uint32_t fresh = made();
                nodes_[at].sides[side] = fresh;
            }
            at = nodes_[at].sides[side];
        }
    }

    // Takes out an entry that stands in the tree.
    void take_out(uint32_t& root, const Entry& entry, Way way) {
        path_.clear();
        for (uint32_t at = root;; at = nodes_[at].sides[way.next()]) {
            path_.push_back(at);
            if (take_from(nodes_[at], entry.number)) break;
        }
        for (size_t i = path_.size(); i-- > 0;) {
            Node& node = nodes_[path_[i]];
            if (is_bare(node)) {
                uint32_t& held = i ? nodes_[path_[i - 1]].sides[nodes_[path_[i - 1]].sides[1] == path_[i]] : root;
                held = 0;
                unused_.push_back(path_[i]);
            } else if (is_strictly_in(entry.box, node.bounds)) {
                return;
            } else {
                draw_bounds(node);
            }
        }
    }

    template <class Visit>
    void each(uint32_t at, const Box& asked, Visit& visit) const {
        while (at && do_meet(nodes_[at].bounds, asked)) {
            const Node& node = nodes_[at];
            for (uint32_t i = 0; i < node.count; i++)
                if (do_meet(node.entries[i].box, asked)) visit(node.entries[i]);
            if (node.sides[1]) each(node.sides[1], asked, visit);
            // Where no bits are left the way goes on over this side, so a long one takes no stack.
            at = node.sides[0];
        }
    }
};

class BoxIndex {
    // Cells of a block, in each direction, as a power of two; and how many cells are looked at without asking their blocks.
    static constexpr int BLOCK = 4;
    static constexpr int64_t FEW = 16;
    static constexpr int64_t REACH = int64_t(1) << 42;
    static constexpr int REACH_BITS = 43;

    struct Cells {
        int64_t west, south, east, north;
    };

    Trees trees_;
    Box extent_ = NOTHING;
    int shift_x_ = 0, shift_y_ = 0, bits_ = 0;
    int64_t columns_ = 0, rows_ = 0, block_columns_ = 0;
    std::vector<uint32_t> cells_, filled_;
    uint32_t large_ = 0, outside_ = 0;

    static int shift_for(int64_t length, double most) {
        int shift = 0;
        while (double(length >> shift) > most) shift++;
        return shift;
    }
    static int64_t within(int64_t n, int64_t count) { return n < 0 ? 0 : n >= count ? count - 1 : n; }
    int64_t column(int64_t x) const { return within((x >> shift_x_) - (extent_.west >> shift_x_), columns_); }
    int64_t row(int64_t y) const { return within((y >> shift_y_) - (extent_.south >> shift_y_), rows_); }
    Cells cells_of(const Box& b) const { return {column(b.west), row(b.south), column(b.east), row(b.north)}; }
    uint32_t& filled(int64_t column, int64_t row) { return filled_[(row >> BLOCK) * block_columns_ + (column >> BLOCK)]; }

    Trees::Way way_in_cell(const Box& b) const {
        return {b.west + b.east, b.south + b.north, b, shift_x_, shift_y_};
    }
    Trees::Way way_in_extent(const Box& b) const {
        int64_t x = b.west + b.east - 2 * extent_.west, y = b.south + b.north - 2 * extent_.south;
        return {x, y, b, bits_, bits_};
    }
    static Trees::Way way_outside(const Box& b) {
        return {b.west + b.east + REACH, b.south + b.north + REACH, b, REACH_BITS, REACH_BITS};
    }

    bool is_outside(const Box& b) const {
        return b.west < extent_.west || b.east > extent_.east || b.south < extent_.south || b.north > extent_.north;
    }
    static bool is_small(const Cells& c) { return c.east - c.west <= 1 && c.north - c.south <= 1; }

    template <class Visit>
    void each_in_cells(const Cells& c, const Box& asked, Visit& visit) const {
        for (int64_t r = c.south; r <= c.north; r++)
            for (int64_t k = c.west; k <= c.east; k++) {
                // An entry is given from one cell alone: that of the least corner of what it has in common with the box.
                auto once = [&](const Entry& entry) {
                    int64_t west = std::max(asked.west, entry.box.west), south = std::max(asked.south, entry.box.south);
                    if (column(west) == k && row(south) == r) visit(entry);
                };
                trees_.each(cells_[r * columns_ + k], asked, once);
            }
    }

    template <class Visit>
    void each_in_blocks(const Cells& c, const Box& asked, Visit& visit) const {
        const int64_t size = int64_t(1) << BLOCK;
        for (int64_t r = c.south >> BLOCK; r <= c.north >> BLOCK; r++)
            for (int64_t k = c.west >> BLOCK; k <= c.east >> BLOCK; k++)
                if (filled_[r * block_columns_ + k]) {
                    int64_t east = (k + 1) * size - 1, north = (r + 1) * size - 1;
                    Cells part{std::max(c.west, k * size), std::max(c.south, r * size), std::min(c.east, east),
                               std::min(c.north, north)};
                    each_in_cells(part, asked, visit);
                }
    }

public:
    // An index for about so many boxes within an extent; it takes any others too.
    BoxIndex(Box extent, size_t count) {
        if (extent.west > extent.east) extent = {0, 0, 0, 0};
        extent_ = extent;
        double side = std::sqrt(double(count) / 2 + 1);
        shift_x_ = shift_for(extent.east - extent.west, side);
        shift_y_ = shift_for(extent.north - extent.south, side);
        columns_ = (extent.east >> shift_x_) - (extent.west >> shift_x_) + 1;
        rows_ = (extent.north >> shift_y_) - (extent.south >> shift_y_) + 1;
        block_columns_ = (columns_ >> BLOCK) + 1;
        cells_.assign(size_t(columns_ * rows_), 0);
        filled_.assign(size_t(block_columns_ * ((rows_ >> BLOCK) + 1)), 0);
        while (2 * std::max(extent.east - extent.west, extent.north - extent.south) >> bits_ > 1) bits_++;
    }

    void put(const Entry& entry) {
        Cells c = cells_of(entry.box);
        if (is_outside(entry.box)) {
            trees_.put(outside_, entry, way_outside(entry.box));
        } else if (!is_small(c)) {
            trees_.put(large_, entry, way_in_extent(entry.box));
        } else {
            for (int64_t r = c.south; r <= c.north; r++)
                for (int64_t k = c.west; k <= c.east; k++) {
                    uint32_t& cell = cells_[r * columns_ + k];
                    if (!cell) filled(k, r)++;
                    trees_.put(cell, entry, way_in_cell(entry.box));
                }
        }
    }

    // Takes out an entry that was put in.
    void take_out(const Entry& entry) {
        Cells c = cells_of(entry.box);
        if (is_outside(entry.box)) {
            trees_.take_out(outside_, entry, way_outside(entry.box));
        } else if (!is_small(c)) {
            trees_.take_out(large_, entry, way_in_extent(entry.box));
        } else {
            for (int64_t r = c.south; r <= c.north; r++)
                for (int64_t k = c.west; k <= c.east; k++) {
                    uint32_t& cell = cells_[r * columns_ + k];
                    trees_.take_out(cell, entry, way_in_cell(entry.box));
                    if (!cell) filled(k, r)--;
                }
        }
    }

    // Visits each entry whose box meets this one, once.
    template <class Visit>
    void each(const Box& asked, Visit&& visit) const {
        Cells c = cells_of(asked);
        if ((c.east - c.west + 1) * (c.north - c.south + 1) <= FEW)
            each_in_cells(c, asked, visit);
        else
            each_in_blocks(c, asked, visit);
        trees_.each(large_, asked, visit);
        trees_.each(outside_, asked, visit);
    }
};
