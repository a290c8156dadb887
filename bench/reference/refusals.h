// Why a line is refused, and the least pair of segments in conflict.
#pragma once

#include "document.h"

struct Refusal {
    std::string why;
};

inline void refuse_if(bool holds, const char* why) {
    if (holds) throw Refusal{why};
}

inline std::string text_of(Wide number) {
    std::string digits;
    bool is_negative = number < 0;
    unsigned __int128 rest = is_negative ? -number : number;
    for (; rest || digits.empty(); rest /= 10) digits += char('0' + int(rest % 10));
    if (is_negative) digits += '-';
    std::reverse(digits.begin(), digits.end());
    return digits;
}

inline std::string text_of(Position p) { return std::to_string(p.x) + ' ' + std::to_string(p.y); }

inline std::string text_of(const Segment& s) {
    return text_of(s.low) + ' ' + text_of(s.high);
}

// The least pair of segments in conflict of those that are met.
class Conflicts {
    std::optional<std::pair<Segment, Segment>> least_;

public:
    void test(const Segment& s, const Segment& t) {
        if (!do_meet(box_of(s), box_of(t)) || !do_conflict(s, t)) return;
        std::pair<Segment, Segment> pair = s < t ? std::pair(s, t) : std::pair(t, s);
        if (!least_ || pair < *least_) least_ = pair;
    }
    void test_among(const std::vector<Segment>& added) {
        for (size_t i = 0; i < added.size(); i++)
            for (size_t k = 0; k < i; k++) test(added[i], added[k]);
    }
    std::optional<Refusal> refusal() const {
        if (!least_) return std::nullopt;
        return Refusal{"conflict " + text_of(least_->first) + " / " + text_of(least_->second)};
    }
    void refuse() const {
        if (least_) throw *refusal();
    }
};
