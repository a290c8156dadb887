// The map as a graph: vertices found by their positions, segments between them, rings of segments, and polygons. A border
// stands in it once, however many rings have it.
#pragma once

#include <optional>
#include <string>
#include <string_view>
#include <vector>

#include "boxes.h"

constexpr uint32_t NONE = UINT32_MAX;

// A list of numbers in no order, of which two stand in place.
class Few {
    static constexpr uint32_t HELD = 2;
    uint32_t count_ = 0, room_ = HELD;
    union {
        uint32_t held_[HELD];
        uint32_t* list_;
    };

public:
    Few() : held_{0, 0} {}
    Few(Few&& from) noexcept { take(from); }
    Few& operator=(Few&& from) noexcept {
        if (this != &from) {
            if (room_ > HELD) delete[] list_;
            take(from);
        }
        return *this;
    }
    ~Few() {
        if (room_ > HELD) delete[] list_;
    }

    uint32_t size() const { return count_; }
    const uint32_t* begin() const { return room_ > HELD ? list_ : held_; }
    const uint32_t* end() const { return begin() + count_; }

    void push(uint32_t number) {
        if (count_ == room_) {
            uint32_t* longer = new uint32_t[2 * room_];
            std::copy(begin(), end(), longer);
            if (room_ > HELD) delete[] list_;
            list_ = longer;
            room_ *= 2;
        }
        first()[count_++] = number;
    }
    bool has(uint32_t number) const { return std::find(begin(), end(), number) != end(); }
    void drop(uint32_t number) {
        replace(number, first()[count_ - 1]);
        count_--;
    }
    void replace(uint32_t number, uint32_t by) { *std::find(first(), first() + count_, number) = by; }

private:
    uint32_t* first() { return room_ > HELD ? list_ : held_; }
    void take(Few& from) {
        count_ = from.count_;
        room_ = from.room_;
        if (room_ > HELD) list_ = from.list_;
        else std::copy(from.held_, from.held_ + HELD, held_);
        from.count_ = 0;
        from.room_ = HELD;
    }
};

struct Vertex {
    Position at;
    Few segments;
};

struct Edge {
    uint32_t ends[2];
    Few rings;
};

// A segment in one of its directions: twice its number, and one more where it is passed from its second end to its first.
using Dart = uint32_t;

struct Ring {
    uint32_t polygon;
    std::vector<Dart> darts;
};

// Its outer ring comes first.
struct Polygon {
    uint32_t feature;
    std::vector<uint32_t> rings;
    Box box = NOTHING;
};

// Numbers of vertices by their positions.
class Table {
    struct Slot {
        uint32_t vertex = NONE, mark = 0;
    };
    std::vector<Slot> slots_ = std::vector<Slot>(1024);
    size_t count_ = 0;

    static uint64_t hash(Position p) {
        uint64_t h = uint64_t(p.x) * 0x9E3779B97F4A7C15ull ^ (uint64_t(p.y) * 0xC2B2AE3D27D4EB4Full);
        h = (h ^ (h >> 32)) * 0xD6E8FEB86659FD93ull;
        return h ^ (h >> 32);
    }
    size_t mask() const { return slots_.size() - 1; }

    void put(uint64_t h, uint32_t vertex) {
        size_t i = h & mask();
        while (slots_[i].vertex != NONE) i = (i + 1) & mask();
        slots_[i] = {vertex, uint32_t(h >> 32)};
    }
    void widen(const std::vector<Vertex>& vertices) {
        std::vector<Slot> before(2 * slots_.size());
        before.swap(slots_);
        for (const Slot& slot : before)
            if (slot.vertex != NONE) put(hash(vertices[slot.vertex].at), slot.vertex);
    }
    size_t place(const std::vector<Vertex>& vertices, Position p) const {
        uint64_t h = hash(p);
        size_t i = h & mask();
        while (slots_[i].vertex != NONE && !(slots_[i].mark == uint32_t(h >> 32) && vertices[slots_[i].vertex].at == p))
            i = (i + 1) & mask();
        return i;
    }

public:
    size_t count() const { return count_; }
    uint32_t find(const std::vector<Vertex>& vertices, Position p) const { return slots_[place(vertices, p)].vertex; }

    void add(const std::vector<Vertex>& vertices, uint32_t vertex) {
        if (2 * ++count_ > slots_.size()) widen(vertices);
        put(hash(vertices[vertex].at), vertex);
    }
    // Leaves no mark behind: what follows is put nearer to its own place.
    void drop(const std::vector<Vertex>& vertices, Position p) {
        size_t hole = place(vertices, p);
        count_--;
        for (size_t i = (hole + 1) & mask(); slots_[i].vertex != NONE; i = (i + 1) & mask()) {
            size_t own = hash(vertices[slots_[i].vertex].at) & mask();
            if (((i - own) & mask()) >= ((i - hole) & mask())) {
                slots_[hole] = slots_[i];
                hole = i;
            }
        }
        slots_[hole] = Slot();
    }
};

// Things by number, of which those that are gone are used again.
template <class Thing>
class Store {
    std::vector<Thing> all_;
    std::vector<uint32_t> unused_;

public:
    uint32_t add(Thing&& thing) {
        if (unused_.empty()) {
            all_.push_back(std::move(thing));
            return uint32_t(all_.size() - 1);
        }
        uint32_t number = unused_.back();
        unused_.pop_back();
        all_[number] = std::move(thing);
        return number;
    }
    void drop(uint32_t number) {
        all_[number] = Thing();
        unused_.push_back(number);
    }
    Thing& operator[](uint32_t number) { return all_[number]; }
    const Thing& operator[](uint32_t number) const { return all_[number]; }
    size_t size() const { return all_.size(); }
    size_t count() const { return all_.size() - unused_.size(); }
    const std::vector<Thing>& all() const { return all_; }
};

class Graph {
    Table table_;
    std::optional<BoxIndex> segments_, polygons_;

public:
    Store<Vertex> vertices;
    Store<Edge> edges;
    Store<Ring> rings;
    Store<Polygon> polygons;

    // ---- vertices and segments

    uint32_t vertex(Position p) const { return table_.find(vertices.all(), p); }
    uint32_t vertex_at(Position p) {
        uint32_t found = vertex(p);
        if (found != NONE) return found;
        found = vertices.add(Vertex{p, Few()});
        table_.add(vertices.all(), found);
        return found;
    }
    size_t vertex_count() const { return table_.count(); }
    Position at(uint32_t vertex) const { return vertices[vertex].at; }
    bool is_junction(uint32_t vertex) const { return vertices[vertex].segments.size() > 2; }

    uint32_t origin(Dart dart) const { return edges[dart >> 1].ends[dart & 1]; }
    uint32_t target(Dart dart) const { return edges[dart >> 1].ends[~dart & 1]; }
    Position from(Dart dart) const { return at(origin(dart)); }
    Position to(Dart dart) const { return at(target(dart)); }
    uint32_t other_end(uint32_t edge, uint32_t vertex) const {
        const Edge& e = edges[edge];
        return e.ends[0] == vertex ? e.ends[1] : e.ends[0];
    }
    Segment segment(uint32_t edge) const { return segment_between(at(edges[edge].ends[0]), at(edges[edge].ends[1])); }
    Entry entry(uint32_t edge) const { return {box_of(at(edges[edge].ends[0]), at(edges[edge].ends[1])), edge}; }

    uint32_t edge_between(uint32_t a, uint32_t b) const {
        for (uint32_t edge : vertices[a].segments)
            if (other_end(edge, a) == b) return edge;
        return NONE;
    }
    // The segment between two vertices in this direction, which is made where it is not there.
    Dart dart_between(uint32_t a, uint32_t b) {
        uint32_t edge = edge_between(a, b);
        if (edge == NONE) {
            edge = edges.add(Edge{{a, b}, Few()});
            vertices[a].segments.push(edge);
            vertices[b].segments.push(edge);
            if (segments_) segments_->put(entry(edge));
        }
        return 2 * edge + (edges[edge].ends[0] != a);
    }

    // Takes out a segment that no ring has any more, and its ends where they have no other.
    void leave_out(uint32_t edge) {
        segments_->take_out(entry(edge));
        for (uint32_t end : edges[edge].ends) {
            vertices[end].segments.drop(edge);
            if (vertices[end].segments.size() == 0) {
                table_.drop(vertices.all(), at(end));
                vertices.drop(end);
            }
        }
        edges.drop(edge);
    }

    // Puts a vertex at a position that has none.
    void move(uint32_t vertex, Position to) {
        for (uint32_t edge : vertices[vertex].segments) segments_->take_out(entry(edge));
        table_.drop(vertices.all(), at(vertex));
        vertices[vertex].at = to;
        table_.add(vertices.all(), vertex);
        for (uint32_t edge : vertices[vertex].segments) {
            segments_->put(entry(edge));
            for (uint32_t ring : edges[edge].rings) widen(rings[ring].polygon, to);
        }
    }

    // Puts a vertex at a position that has none into a segment, in every ring that has it.
    void put_into(uint32_t edge, Position p) {
        segments_->take_out(entry(edge));
        uint32_t vertex = vertex_at(p), far = edges[edge].ends[1];
        edges[edge].ends[1] = vertex;
        vertices[far].segments.drop(edge);
        vertices[vertex].segments.push(edge);
        segments_->put(entry(edge));
        uint32_t fresh = dart_between(vertex, far) >> 1;
        for (uint32_t ring : edges[edge].rings) {
            edges[fresh].rings.push(ring);
            std::vector<Dart>& darts = rings[ring].darts;
            auto at = std::find_if(darts.begin(), darts.end(), [&](Dart dart) { return dart >> 1 == edge; });
            bool goes_back = *at & 1;
            darts.insert(at + !goes_back, 2 * fresh + goes_back);
            widen(rings[ring].polygon, p);
        }
    }

    // Leaves a vertex of two segments out of every ring: one of them goes on to the end of the other.
    void take_from_between(uint32_t vertex) {
        uint32_t kept = vertices[vertex].segments.begin()[0], gone = vertices[vertex].segments.begin()[1];
        uint32_t far = other_end(gone, vertex);
        for (uint32_t ring : edges[gone].rings) {
            std::vector<Dart>& darts = rings[ring].darts;
            darts.erase(std::find_if(darts.begin(), darts.end(), [&](Dart dart) { return dart >> 1 == gone; }));
        }
        segments_->take_out(entry(kept));
        segments_->take_out(entry(gone));
        edges[kept].ends[edges[kept].ends[1] == vertex] = far;
        vertices[far].segments.replace(gone, kept);
        table_.drop(vertices.all(), at(vertex));
        vertices.drop(vertex);
        edges.drop(gone);
        segments_->put(entry(kept));
    }

    // Whether a ring has the vertex.
    bool has(uint32_t ring, uint32_t vertex) const {
        for (uint32_t edge : vertices[vertex].segments)
            if (edges[edge].rings.has(ring)) return true;
        return false;
    }

    // ---- rings and polygons

    Box box_of_ring(uint32_t ring) const {
        Box box = NOTHING;
        for (Dart dart : rings[ring].darts) grow(box, from(dart));
        return box;
    }

    // Twice a ring's area, positive where it runs to the left.
    Wide area(const std::vector<Dart>& darts) const {
        Wide sum = 0;
        Position first = from(darts[0]);
        for (Dart dart : darts) {
            Position a = from(dart), b = to(dart);
            sum += Wide(a.x - first.x) * (b.y - first.y) - Wide(b.x - first.x) * (a.y - first.y);
        }
        return sum;
    }

    // How many segments of a polygon count for a position.
    bool holds(const std::vector<Dart>& darts, Position p) const {
        bool odd = false;
        for (Dart dart : darts) odd ^= does_count(from(dart), to(dart), p);
        return odd;
    }
    bool is_inside(const Polygon& polygon, Position p) const {
        bool odd = false;
        for (uint32_t ring : polygon.rings) odd ^= holds(rings[ring].darts, p);
        return odd;
    }

    void use(uint32_t ring) {
        for (Dart dart : rings[ring].darts) edges[dart >> 1].rings.push(ring);
    }
    void give_up(uint32_t ring, Dart dart) {
        edges[dart >> 1].rings.drop(ring);
        if (edges[dart >> 1].rings.size() == 0) leave_out(dart >> 1);
    }

    // Puts a polygon's box, that of its outer ring and its holes, into the index.
    void show(uint32_t polygon) {
        Polygon& it = polygons[polygon];
        it.box = NOTHING;
        for (uint32_t ring : it.rings) grow(it.box, box_of_ring(ring));
        if (!it.rings.empty()) polygons_->put({it.box, polygon});
    }
    void hide(uint32_t polygon) {
        if (!polygons[polygon].rings.empty()) polygons_->take_out({polygons[polygon].box, polygon});
    }
    // Lets a polygon's box have a position; it is not drawn in again, since it need only have the polygon.
    void widen(uint32_t polygon, Position by) {
        Polygon& it = polygons[polygon];
        if (is_in(by, it.box)) return;
        polygons_->take_out({it.box, polygon});
        grow(it.box, by);
        polygons_->put({it.box, polygon});
    }

    // ---- the indexes

    // Visits each segment whose box meets this one.
    template <class Visit>
    void each_segment(const Box& asked, Visit&& visit) const {
        segments_->each(asked, [&](const Entry& entry) { visit(entry.number); });
    }
    template <class Visit>
    void each_polygon(Position p, Visit&& visit) const {
        polygons_->each({p.x, p.y, p.x, p.y}, [&](const Entry& entry) { visit(entry.number); });
    }

    // Lays the indexes over all segments and polygons; whether no two segments conflict.
    bool lay_indexes() {
        Box extent = NOTHING;
        for (const Vertex& vertex : vertices.all()) grow(extent, vertex.at);
        segments_.emplace(extent, edges.size());
        polygons_.emplace(extent, polygons.size());
        for (uint32_t polygon = 0; polygon < polygons.size(); polygon++) show(polygon);
        bool is_planar = true;
        for (uint32_t edge = 0; edge < edges.size() && is_planar; edge++) {
            Segment one = segment(edge);
            each_segment(box_of(one), [&](uint32_t other) { is_planar &= !do_conflict(one, segment(other)); });
            segments_->put(entry(edge));
        }
        return is_planar;
    }
};
