// The lines that change vertices: each is refused by the first condition that fails, and then changes nothing.
#pragma once

#include "history.h"
#include "refusals.h"

class VertexEditor {
    static constexpr size_t MOST_POSITIONS = 4'000'000;

    Document& document_;
    Graph& graph_;
    History& history_;
    // Room that is used again from line to line: the segments that an edit may meet, and those that it adds.
    std::vector<Segment> near_, added_;
    std::vector<Position> around_;

    // Gathers the segments with a box that meets this one, but for those that go.
    template <class Goes>
    void look_around(const Box& all, Goes goes) {
        near_.clear();
        graph_.each_segment(all, [&](uint32_t edge) {
            if (!goes(edge)) near_.push_back(graph_.segment(edge));
        });
    }

    Conflicts conflicts_of_added() const {
        Conflicts conflicts;
        for (const Segment& one : added_)
            for (const Segment& other : near_) conflicts.test(one, other);
        conflicts.test_among(added_);
        return conflicts;
    }

    // Whether a triangle holds another vertex than its corners, of the segments that are near.
    bool does_sweep(Position a, Position b, Position c) const {
        auto is_swept = [&](Position p) { return p != a && p != b && p != c && does_hold(a, b, c, p); };
        for (const Segment& s : near_)
            if (is_swept(s.low) || is_swept(s.high)) return true;
        return std::any_of(around_.begin(), around_.end(), is_swept);
    }

    // ---- moving

    void look_around_move(uint32_t vertex, Position to) {
        Box all = box_of(graph_.at(vertex), to);
        added_.clear(), around_.clear();
        for (uint32_t edge : graph_.vertices[vertex].segments) {
            Position a = graph_.at(graph_.other_end(edge, vertex));
            around_.push_back(a);
            added_.push_back(segment_between(a, to));
            grow(all, a);
        }
        look_around(all, [&](uint32_t edge) {
            const Edge& e = graph_.edges[edge];
            return e.ends[0] == vertex || e.ends[1] == vertex;
        });
    }

    // ---- leaving out

    struct Neighbours {
        uint32_t vertex, a, b;
    };

    // A vertex of two segments, with its neighbours.
    Neighbours between(uint32_t vertex) const {
        const uint32_t* segments = graph_.vertices[vertex].segments.begin();
        return {vertex, graph_.other_end(segments[0], vertex), graph_.other_end(segments[1], vertex)};
    }

    bool has_short_ring(uint32_t vertex) const {
        for (uint32_t ring : graph_.edges[*graph_.vertices[vertex].segments.begin()].rings)
            if (graph_.rings[ring].darts.size() == 3) return true;
        return false;
    }

    // Why a vertex that is no junction may not be left out.
    std::optional<Refusal> refusal_of(const Neighbours& it) {
        if (has_short_ring(it.vertex)) return Refusal{"ring short"};
        if (graph_.edge_between(it.a, it.b) != NONE) return Refusal{"segment exists"};
        Position a = graph_.at(it.a), p = graph_.at(it.vertex), b = graph_.at(it.b);
        added_.assign(1, segment_between(a, b));
        around_.clear();
        Box all = box_of(a, b);
        grow(all, p);
        look_around(all, [&](uint32_t edge) {
            const Edge& e = graph_.edges[edge];
            return e.ends[0] == it.vertex || e.ends[1] == it.vertex;
        });
        std::optional<Refusal> refusal = conflicts_of_added().refusal();
        if (!refusal && does_sweep(a, p, b)) refusal = Refusal{"sweeps"};
        return refusal;
    }

    // Leaves a vertex out, and says what takes it back.
    Step taken_out(const Neighbours& it) {
        Step step{Step::Removed, graph_.at(it.vertex), graph_.at(it.a), graph_.at(it.b)};
        document_.positions -= graph_.edges[*graph_.vertices[it.vertex].segments.begin()].rings.size();
        graph_.take_from_between(it.vertex);
        return step;
    }

    bool is_flat(const Neighbours& it, Wide bound) const {
        Position a = graph_.at(it.a), p = graph_.at(it.vertex), b = graph_.at(it.b);
        Wide twice = Wide(p.x - a.x) * (b.y - a.y) - Wide(p.y - a.y) * (b.x - a.x);
        return (twice < 0 ? -twice : twice) <= bound;
    }

public:
    VertexEditor(Document& document, History& history) : document_(document), graph_(document.graph), history_(history) {}

    void move(Position from, Position to) {
        uint32_t vertex = graph_.vertex(from);
        refuse_if(vertex == NONE, "no vertex");
        refuse_if(graph_.vertex(to) != NONE, "occupied");
        look_around_move(vertex, to);
        conflicts_of_added().refuse();
        Segment way = segment_between(from, to);
        for (const Segment& s : near_) refuse_if(do_conflict(way, s), "sweeps");
        for (Position a : around_) refuse_if(does_sweep(a, from, to), "sweeps");
        graph_.move(vertex, to);
        history_.keep({Step::Moved, to, from, from});
    }

    void insert(Position a, Position b, Position p) {
        uint32_t from = graph_.vertex(a), to = graph_.vertex(b);
        uint32_t edge = from == NONE || to == NONE ? NONE : graph_.edge_between(from, to);
        refuse_if(edge == NONE, "no segment");
        refuse_if(graph_.vertex(p) != NONE, "occupied");
        size_t more = graph_.edges[edge].rings.size();
        refuse_if(document_.positions + more > MOST_POSITIONS, "too large");
        added_ = {segment_between(a, p), segment_between(p, b)};
        around_.clear();
        Box all = box_of(a, b);
        grow(all, p);
        look_around(all, [&](uint32_t other) { return other == edge; });
        conflicts_of_added().refuse();
        refuse_if(does_sweep(a, p, b), "sweeps");
        document_.positions += more;
        graph_.put_into(edge, p);
        history_.keep({Step::Inserted, p, a, b});
    }

    void remove(Position p) {
        uint32_t vertex = graph_.vertex(p);
        refuse_if(vertex == NONE, "no vertex");
        refuse_if(graph_.is_junction(vertex), "junction");
        Neighbours it = between(vertex);
        if (std::optional<Refusal> refusal = refusal_of(it)) throw *refusal;
        history_.keep(taken_out(it));
    }

    // How many vertices were left out.
    size_t thin(Wide bound) {
        std::vector<Position> all;
        for (const Vertex& vertex : graph_.vertices.all())
            if (vertex.segments.size()) all.push_back(vertex.at);
        std::sort(all.begin(), all.end());
        Change change;
        for (Position p : all) {
            uint32_t vertex = graph_.vertex(p);
            if (graph_.is_junction(vertex)) continue;
            Neighbours it = between(vertex);
            if (is_flat(it, bound) && !refusal_of(it)) change.steps.push_back(taken_out(it));
        }
        size_t count = change.steps.size();
        if (count) history_.keep(std::move(change));
        return count;
    }

    void take_back(const Step& step) {
        if (step.kind == Step::Moved) {
            graph_.move(graph_.vertex(step.p), step.a);
        } else if (step.kind == Step::Inserted) {
            taken_out(between(graph_.vertex(step.p)));
        } else {
            uint32_t edge = graph_.edge_between(graph_.vertex(step.a), graph_.vertex(step.b));
            document_.positions += graph_.edges[edge].rings.size();
            graph_.put_into(edge, step.p);
        }
    }
};
