// The lines that change features: each is refused by the first condition that fails, and then changes nothing.
#pragma once

#include "history.h"
#include "refusals.h"

class FeatureEditor {
    static constexpr size_t MOST_NUMBERS = 200'000, MOST_POSITIONS = 4'000'000;

    Document& document_;
    Graph& graph_;
    History& history_;

    void need_feature(uint64_t number) const { refuse_if(!document_.has(number), "no feature"); }

    // ---- keeping features as they were

    Before as_it_is(uint64_t number) {
        const Feature& feature = document_.features[number];
        Before before{uint32_t(number), document_.items[feature.item], feature.item, {}};
        for (uint32_t polygon : feature.polygons) {
            before.shape.emplace_back();
            for (uint32_t ring : graph_.polygons[polygon].rings) before.shape.back().push_back(positions_of(ring));
        }
        return before;
    }

    std::vector<Position> positions_of(uint32_t ring) const {
        std::vector<Position> positions;
        positions.reserve(graph_.rings[ring].darts.size());
        for (Dart dart : graph_.rings[ring].darts) positions.push_back(graph_.from(dart));
        return positions;
    }

    // Takes the rings of a feature out of the graph.
    void clear(uint32_t number) {
        for (uint32_t polygon : document_.features[number].polygons) {
            graph_.hide(polygon);
            for (uint32_t ring : graph_.polygons[polygon].rings) {
                std::vector<Dart> darts = std::move(graph_.rings[ring].darts);
                document_.positions -= darts.size();
                for (Dart dart : darts) graph_.give_up(ring, dart);
                graph_.rings.drop(ring);
            }
            graph_.polygons.drop(polygon);
        }
        document_.features[number].polygons.clear();
    }

    void lay(const Before& before) {
        for (const std::vector<std::vector<Position>>& rings : before.shape) {
            uint32_t polygon = graph_.polygons.add(Polygon{before.number, {}, NOTHING});
            for (std::vector<Position> positions : rings) {
                positions.push_back(positions.front());
                uint32_t ring = graph_.rings.add(Ring{polygon, darts_along(positions)});
                document_.positions += graph_.rings[ring].darts.size();
                graph_.use(ring);
                graph_.polygons[polygon].rings.push_back(ring);
            }
            graph_.show(polygon);
            document_.features[before.number].polygons.push_back(polygon);
        }
    }

    // ---- splitting

    // An outer ring parted at the ends of a path: both ways along it, what the first way closes with the path, and how many
    // positions the map has more.
    struct Parted {
        std::vector<Dart> first, second;
        std::vector<Position> part_one;
        size_t more;
    };

    // The polygon whose outer ring has both vertices, and whose holes have neither.
    uint32_t polygon_with(uint64_t feature, uint32_t a, uint32_t b) const {
        if (a == NONE || b == NONE) return NONE;
        for (uint32_t polygon : document_.features[feature].polygons) {
            const std::vector<uint32_t>& rings = graph_.polygons[polygon].rings;
            if (rings.empty() || !graph_.has(rings[0], a) || !graph_.has(rings[0], b)) continue;
            auto is_apart = [&](uint32_t hole) { return !graph_.has(hole, a) && !graph_.has(hole, b); };
            if (std::all_of(rings.begin() + 1, rings.end(), is_apart)) return polygon;
        }
        return NONE;
    }

    static void refuse_repeated(std::vector<Position> path) {
        std::sort(path.begin(), path.end());
        refuse_if(std::adjacent_find(path.begin(), path.end()) != path.end(), "repeated point");
    }

    void test_path(const std::vector<Position>& path) {
        refuse_repeated(path);
        for (size_t i = 1; i + 1 < path.size(); i++) refuse_if(graph_.vertex(path[i]) != NONE, "occupied");
        std::vector<Segment> added;
        for (size_t i = 1; i < path.size(); i++) {
            uint32_t a = graph_.vertex(path[i - 1]), b = graph_.vertex(path[i]);
            refuse_if(a != NONE && b != NONE && graph_.edge_between(a, b) != NONE, "segment exists");
            added.push_back(segment_between(path[i - 1], path[i]));
        }
        Conflicts conflicts;
        for (const Segment& one : added)
            graph_.each_segment(box_of(one), [&](uint32_t edge) { conflicts.test(one, graph_.segment(edge)); });
        conflicts.test_among(added);
        conflicts.refuse();
    }

    size_t place_of(const std::vector<Dart>& ring, uint32_t vertex) const {
        size_t at = 0;
        while (graph_.origin(ring[at]) != vertex) at++;
        return at;
    }

    static int sign(Wide number) { return (number > 0) - (number < 0); }

    // Twice the area of a ring of positions.
    static Wide area(const std::vector<Position>& ring) {
        Wide sum = 0;
        for (size_t i = 0; i < ring.size(); i++) {
            Position a = ring[i], b = ring[i + 1 == ring.size() ? 0 : i + 1];
            sum += Wide(a.x - ring[0].x) * (b.y - ring[0].y) - Wide(b.x - ring[0].x) * (a.y - ring[0].y);
        }
        return sum;
    }

    // The darts of a ring from one place on to another.
    static std::vector<Dart> stretch(const std::vector<Dart>& ring, size_t from, size_t to) {
        std::vector<Dart> way;
        for (size_t i = from; i != to; i = i + 1 == ring.size() ? 0 : i + 1) way.push_back(ring[i]);
        return way;
    }

    // The part that a way along the ring and the path in one of its directions close.
    std::vector<Position> part_of(const std::vector<Dart>& way, const std::vector<Position>& path, bool goes_back) const {
        std::vector<Position> part;
        for (Dart dart : way) part.push_back(graph_.from(dart));
        part.push_back(graph_.to(way.back()));
        if (goes_back) part.insert(part.end(), path.rbegin() + 1, path.rend() - 1);
        else part.insert(part.end(), path.begin() + 1, path.end() - 1);
        return part;
    }

    static bool holds(const std::vector<Position>& ring, Position p) {
        bool odd = false;
        for (size_t i = 0; i < ring.size(); i++) odd ^= does_count(ring[i], ring[i + 1 == ring.size() ? 0 : i + 1], p);
        return odd;
    }

    Parted parted_by(uint32_t polygon, const std::vector<Position>& path) const {
        const std::vector<Dart>& ring = graph_.rings[graph_.polygons[polygon].rings[0]].darts;
        size_t from = place_of(ring, graph_.vertex(path.front())), to = place_of(ring, graph_.vertex(path.back()));
        Parted it;
        it.first = stretch(ring, from, to);
        it.second = stretch(ring, to, from);
        it.part_one = part_of(it.first, path, true);
        std::vector<Position> part_two = part_of(it.second, path, false);
        int side = sign(graph_.area(ring));
        refuse_if(sign(area(it.part_one)) != side || sign(area(part_two)) != side, "wrong side");
        it.more = it.part_one.size() + part_two.size() - ring.size();
        bool is_large = document_.features.size() >= MOST_NUMBERS || document_.positions + it.more > MOST_POSITIONS;
        refuse_if(is_large, "too large");
        return it;
    }

    // Which rings of a polygon stay with the part that the outer one becomes.
    std::vector<bool> staying(uint32_t polygon, const std::vector<Position>& part) const {
        const std::vector<uint32_t>& rings = graph_.polygons[polygon].rings;
        std::vector<bool> stays(rings.size(), true);
        if (rings.size() == 1) return stays;
        std::vector<Position> sorted = part;
        std::sort(sorted.begin(), sorted.end());
        for (size_t i = 1; i < rings.size(); i++) stays[i] = goes_with(rings[i], part, sorted);
        return stays;
    }

    // Whether a hole goes with a part: all of it is of the part, or the least other position is inside.
    bool goes_with(uint32_t hole, const std::vector<Position>& part, const std::vector<Position>& sorted) const {
        std::optional<Position> least;
        for (Dart dart : graph_.rings[hole].darts) {
            Position p = graph_.from(dart);
            if (!std::binary_search(sorted.begin(), sorted.end(), p) && (!least || p < *least)) least = p;
        }
        return !least || holds(part, *least);
    }

    std::vector<Dart> darts_along(const std::vector<Position>& path) {
        std::vector<Dart> darts;
        for (size_t i = 1; i < path.size(); i++) {
            uint32_t from = graph_.vertex_at(path[i - 1]);
            darts.push_back(graph_.dart_between(from, graph_.vertex_at(path[i])));
        }
        return darts;
    }

    uint32_t cut_off(uint64_t feature, std::string_view id) {
        uint32_t item = uint32_t(document_.items.size()), before = document_.features[feature].item;
        document_.items.push_back(document_.items[before]);
        document_.items[item].kind = Kind::Polygon;
        document_.items[item].id = kept_text(id);
        document_.put_behind(item, document_.items[before].parent, before);
        return document_.add_feature(item);
    }

    std::string_view kept_text(std::string_view text) { return document_.texts.emplace_back(text); }

    // Parts an outer ring in two, of which the second becomes a ring of another polygon.
    void part_ring(uint32_t outer, uint32_t fresh, Parted&& it, const std::vector<Dart>& path) {
        uint32_t other = graph_.rings.add(Ring{fresh, {}});
        for (Dart dart : it.second) graph_.edges[dart >> 1].rings.replace(outer, other);
        for (Dart dart : path)
            for (uint32_t ring : {outer, other}) graph_.edges[dart >> 1].rings.push(ring);
        for (size_t i = path.size(); i-- > 0;) it.first.push_back(path[i] ^ 1);
        it.second.insert(it.second.end(), path.begin(), path.end());
        graph_.rings[outer].darts = std::move(it.first);
        graph_.rings[other].darts = std::move(it.second);
        graph_.polygons[fresh].rings = {other};
    }

    // Gives each hole to the part that it goes with.
    void part_holes(uint32_t polygon, uint32_t fresh, const std::vector<bool>& stays) {
        std::vector<uint32_t> rings = std::move(graph_.polygons[polygon].rings);
        graph_.polygons[polygon].rings = {rings[0]};
        for (size_t i = 1; i < rings.size(); i++) {
            uint32_t to = stays[i] ? polygon : fresh;
            graph_.rings[rings[i]].polygon = to;
            graph_.polygons[to].rings.push_back(rings[i]);
        }
    }

    // ---- merging

    uint32_t only_polygon(uint64_t feature) const {
        const std::vector<uint32_t>& polygons = document_.features[feature].polygons;
        refuse_if(polygons.size() != 1 || graph_.polygons[polygons[0]].rings.empty(), "not one polygon");
        return polygons[0];
    }

    // Which darts of a ring have another ring on their segment.
    std::vector<bool> common_with(uint32_t ring, uint32_t other) const {
        std::vector<bool> is_common;
        for (Dart dart : graph_.rings[ring].darts) is_common.push_back(graph_.edges[dart >> 1].rings.has(other));
        return is_common;
    }

    static size_t runs_of(const std::vector<bool>& is_common) {
        size_t runs = 0;
        for (size_t i = 0; i < is_common.size(); i++) runs += is_common[i] && !is_common[i ? i - 1 : is_common.size() - 1];
        return runs;
    }

    // Refuses where the rings have a vertex in common that is no end of a common segment.
    void refuse_common_else(uint32_t ring, uint32_t other, const std::vector<bool>& is_common) const {
        const std::vector<Dart>& darts = graph_.rings[ring].darts;
        std::optional<Position> least;
        for (size_t i = 0; i < darts.size(); i++) {
            uint32_t vertex = graph_.origin(darts[i]);
            if (is_common[i] || is_common[i ? i - 1 : darts.size() - 1] || !graph_.is_junction(vertex)) continue;
            if (graph_.has(other, vertex) && (!least || graph_.at(vertex) < *least)) least = graph_.at(vertex);
        }
        if (least) throw Refusal{"common else " + text_of(*least)};
    }

    // Whether the other ring passes the common segments in the same direction.
    static bool is_along(const std::vector<Dart>& ring, const std::vector<bool>& is_common, const std::vector<Dart>& other) {
        Dart dart = ring[size_t(std::find(is_common.begin(), is_common.end(), true) - is_common.begin())];
        return *std::find_if(other.begin(), other.end(), [&](Dart d) { return d >> 1 == dart >> 1; }) == dart;
    }

    // The darts of a ring that are not marked, from behind the run of those that are.
    static std::vector<Dart> rest_of(const std::vector<Dart>& ring, const std::vector<bool>& is_marked) {
        auto next = [&](size_t at) { return at + 1 == ring.size() ? 0 : at + 1; };
        size_t at = 0;
        while (!is_marked[at] || is_marked[next(at)]) at++;
        std::vector<Dart> rest;
        for (at = next(at); !is_marked[at]; at = next(at)) rest.push_back(ring[at]);
        return rest;
    }

    static void reverse(std::vector<Dart>& darts) {
        std::reverse(darts.begin(), darts.end());
        for (Dart& dart : darts) dart ^= 1;
    }

    // Joins a ring to an outer one, along the darts of that one that are marked.
    void join_rings(uint32_t outer, uint32_t other, const std::vector<bool>& is_common, bool is_reversed) {
        std::vector<Dart> ring = std::move(graph_.rings[outer].darts), rest = rest_of(ring, is_common);
        std::vector<Dart> other_rest = rest_of(graph_.rings[other].darts, common_with(other, outer));
        for (Dart dart : other_rest) graph_.edges[dart >> 1].rings.replace(other, outer);
        for (size_t i = 0; i < ring.size(); i++)
            if (is_common[i]) {
                graph_.edges[ring[i] >> 1].rings.drop(other);
                graph_.give_up(outer, ring[i]);
            }
        if (is_reversed) reverse(other_rest);
        rest.insert(rest.end(), other_rest.begin(), other_rest.end());
        graph_.rings[outer].darts = std::move(rest);
        graph_.rings.drop(other);
    }

    void join_holes(uint32_t polygon, uint32_t gone) {
        const std::vector<uint32_t>& rings = graph_.polygons[gone].rings;
        for (size_t i = 1; i < rings.size(); i++) {
            graph_.polygons[polygon].rings.push_back(rings[i]);
            graph_.rings[rings[i]].polygon = polygon;
        }
    }

public:
    FeatureEditor(Document& document, History& history) : document_(document), graph_(document.graph), history_(history) {}

    // The number of the new feature.
    uint32_t split(uint64_t feature, std::string_view id, const std::vector<Position>& path) {
        need_feature(feature);
        refuse_if(document_.item_of(uint32_t(feature)).parent == NONE, "no collection");
        uint32_t polygon = polygon_with(feature, graph_.vertex(path.front()), graph_.vertex(path.back()));
        refuse_if(polygon == NONE, "not on outer ring");
        test_path(path);
        Parted parted = parted_by(polygon, path);
        std::vector<bool> stays = staying(polygon, parted.part_one);
        Change change;
        change.features.push_back(as_it_is(feature));
        uint32_t number = change.made = cut_off(feature, id);
        history_.keep(std::move(change));
        uint32_t fresh = graph_.polygons.add(Polygon{number, {}, NOTHING});
        document_.features[number].polygons = {fresh};
        document_.positions += parted.more;
        graph_.hide(polygon);
        part_ring(graph_.polygons[polygon].rings[0], fresh, std::move(parted), darts_along(path));
        part_holes(polygon, fresh, stays);
        graph_.show(polygon);
        graph_.show(fresh);
        return number;
    }

    void merge(uint64_t feature, uint64_t other_feature) {
        need_feature(feature), need_feature(other_feature);
        refuse_if(feature == other_feature, "same feature");
        uint32_t polygon = only_polygon(feature), gone = only_polygon(other_feature);
        uint32_t outer = graph_.polygons[polygon].rings[0], other = graph_.polygons[gone].rings[0];
        std::vector<bool> is_common = common_with(outer, other);
        size_t common = size_t(std::count(is_common.begin(), is_common.end(), true)), runs = runs_of(is_common);
        refuse_if(common == 0, "not neighbours");
        if (runs > 1) throw Refusal{"runs " + std::to_string(runs)};
        refuse_common_else(outer, other, is_common);
        const std::vector<Dart>&ring = graph_.rings[outer].darts, &other_ring = graph_.rings[other].darts;
        bool is_reversed = is_along(ring, is_common, other_ring);
        bool do_turn_alike = (graph_.area(ring) >= 0) == (graph_.area(other_ring) >= 0);
        refuse_if(common == ring.size() || is_reversed == do_turn_alike, "same side");
        Change change;
        for (uint64_t number : {feature, other_feature}) change.features.push_back(as_it_is(number));
        history_.keep(std::move(change));
        document_.positions -= 2 * common;
        graph_.hide(polygon);
        graph_.hide(gone);
        join_rings(outer, other, is_common, is_reversed);
        join_holes(polygon, gone);
        graph_.polygons.drop(gone);
        graph_.show(polygon);
        document_.take_out_feature(uint32_t(other_feature));
    }

    void rename(uint64_t feature, std::string_view id) {
        need_feature(feature);
        Change change;
        change.features.push_back(as_it_is(feature));
        history_.keep(std::move(change));
        document_.item_of(uint32_t(feature)).id = kept_text(id);
    }

    void remove_feature(uint64_t feature) {
        need_feature(feature);
        Change change;
        change.features.push_back(as_it_is(feature));
        history_.keep(std::move(change));
        clear(uint32_t(feature));
        document_.take_out_feature(uint32_t(feature));
    }

    // Puts features back as they were, and takes out what the change made.
    void take_back(const Change& change) {
        if (change.made != NONE) {
            clear(change.made);
            document_.take_out_feature(change.made);
        }
        for (const Before& before : change.features)
            if (document_.has(before.number)) clear(before.number);
        for (const Before& before : change.features) {
            document_.put_back(before.number, before.item_number, before.item);
            lay(before);
        }
    }
};
