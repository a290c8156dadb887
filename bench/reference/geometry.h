// Positions, segments and boxes on a grid of whole numbers, and the exact tests of them. A coordinate is from -10^12 to
// 10^12, so a difference fits in 64 bits and a product of two differences in 128.
#pragma once

#include <algorithm>
#include <cstdint>

using Wide = __int128;

struct Position {
    int64_t x, y;
};

inline bool operator==(Position a, Position b) { return a.x == b.x && a.y == b.y; }
inline bool operator!=(Position a, Position b) { return !(a == b); }
inline bool operator<(Position a, Position b) { return a.x < b.x || (a.x == b.x && a.y < b.y); }

// The lesser end comes first.
struct Segment {
    Position low, high;
};

inline bool operator==(const Segment& s, const Segment& t) { return s.low == t.low && s.high == t.high; }
inline bool operator<(const Segment& s, const Segment& t) {
    return s.low < t.low || (s.low == t.low && s.high < t.high);
}
inline Segment segment_between(Position a, Position b) { return a < b ? Segment{a, b} : Segment{b, a}; }

struct Box {
    int64_t west, south, east, north;
};

// What every box contains, and what grows to any box.
constexpr Box NOTHING{INT64_MAX, INT64_MAX, INT64_MIN, INT64_MIN};

inline Box box_of(Position a, Position b) {
    return {std::min(a.x, b.x), std::min(a.y, b.y), std::max(a.x, b.x), std::max(a.y, b.y)};
}
inline Box box_of(const Segment& s) { return box_of(s.low, s.high); }
inline bool do_meet(const Box& a, const Box& b) {
    return a.west <= b.east && b.west <= a.east && a.south <= b.north && b.south <= a.north;
}
inline bool is_in(Position p, const Box& b) {
    return b.west <= p.x && p.x <= b.east && b.south <= p.y && p.y <= b.north;
}
inline bool is_strictly_in(const Box& a, const Box& b) {
    return b.west < a.west && a.east < b.east && b.south < a.south && a.north < b.north;
}
inline void grow(Box& b, const Box& by) {
    b.west = std::min(b.west, by.west);
    b.south = std::min(b.south, by.south);
    b.east = std::max(b.east, by.east);
    b.north = std::max(b.north, by.north);
}
inline void grow(Box& b, Position by) { grow(b, Box{by.x, by.y, by.x, by.y}); }

// 1 where c lies to the left of the way from a to b, -1 to the right, 0 on its line.
inline int turn(Position a, Position b, Position c) {
    Wide one = Wide(b.x - a.x) * (c.y - a.y), other = Wide(b.y - a.y) * (c.x - a.x);
    return (one > other) - (one < other);
}

inline bool is_on(Position p, const Segment& s) { return is_in(p, box_of(s)) && turn(s.low, s.high, p) == 0; }

// Whether p is no end of the segment and lies on it, given that it lies on its line.
inline bool does_touch(Position p, const Segment& s) { return p != s.low && p != s.high && is_in(p, box_of(s)); }

// Whether two segments cross, or an end of one that is no end of the other lies on the other.
inline bool do_conflict(const Segment& s, const Segment& t) {
    int a = turn(s.low, s.high, t.low), b = turn(s.low, s.high, t.high);
    if (a * b > 0) return false;
    int c = turn(t.low, t.high, s.low), d = turn(t.low, t.high, s.high);
    if (c * d > 0) return false;
    if (a * b < 0 && c * d < 0) return true;
    return (a == 0 && does_touch(t.low, s)) || (b == 0 && does_touch(t.high, s)) || (c == 0 && does_touch(s.low, t)) ||
           (d == 0 && does_touch(s.high, t));
}

// Whether a triangle, which may be flat, holds a position on its border or inside.
inline bool does_hold(Position a, Position b, Position c, Position p) {
    Box box = box_of(a, b);
    grow(box, c);
    if (!is_in(p, box)) return false;
    int one = turn(a, b, p), two = turn(b, c, p), three = turn(c, a, p);
    return !((one > 0 || two > 0 || three > 0) && (one < 0 || two < 0 || three < 0));
}

// Whether the edge from a to b counts for p by the even-odd rule: one end is above p, and p to the left of its way up.
inline bool does_count(Position a, Position b, Position p) {
    if ((a.y > p.y) == (b.y > p.y)) return false;
    return b.y > a.y ? turn(a, b, p) > 0 : turn(a, b, p) < 0;
}
