// The newest changes, each with what takes it back.
#pragma once

#include "document.h"

// A change of a vertex: it was moved to p from a, or was put in at p, or was left out at p between a and b.
struct Step {
    enum { Moved, Inserted, Removed } kind;
    Position p, a, b;
};

using Shape = std::vector<std::vector<std::vector<Position>>>;

// A feature as it was: its rings by positions, and its item, whose links say where it stood.
struct Before {
    uint32_t number;
    Item item;
    uint32_t item_number;
    Shape shape;
};

struct Change {
    std::vector<Step> steps;
    std::vector<Before> features;
    // The feature that the change made.
    uint32_t made = NONE;
};

class History {
    std::deque<Change> changes_;
    size_t depth_;

public:
    explicit History(size_t depth) : depth_(depth) {}

    bool is_empty() const { return changes_.empty(); }

    void keep(Change&& change) {
        if (changes_.size() == depth_) changes_.pop_front();
        changes_.push_back(std::move(change));
    }
    void keep(const Step& step) {
        Change change;
        change.steps.push_back(step);
        keep(std::move(change));
    }
    Change taken() {
        Change change = std::move(changes_.back());
        changes_.pop_back();
        return change;
    }
};
