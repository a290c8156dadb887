// Opens a map: reads its text in one pass, lays its arcs into a graph, each once, and tests its rings and segments.
// All is tested that the program tests; which fault a map has, and where, is not told.
#pragma once

#include <set>

#include "document.h"
#include "json.h"

class Reader {
    static constexpr size_t MOST_BYTES = 67'108'864, MOST_FEATURES = 200'000, MOST_POSITIONS = 4'000'000;
    static constexpr int64_t FARTHEST = 1'000'000'000'000;

    // A ring as it stands in the text: a run of indexes of arcs.
    struct RawRing {
        uint32_t polygon;
        size_t begin, end;
    };

    Document& document_;
    std::vector<Position> positions_;
    // Where each arc begins among the positions and, once it is laid, among the darts.
    std::vector<size_t> arcs_{0};
    std::vector<std::pair<size_t, size_t>> laid_;
    std::vector<Dart> darts_;
    std::vector<int64_t> indexes_;
    std::vector<RawRing> rings_;

    [[noreturn]] static void refuse(const char* why) { throw Fault(why); }
    static void need(bool holds, const char* why) {
        if (!holds) refuse(why);
    }

    // Names that no other one of an object may be equal to.
    class Names {
        std::vector<std::string_view> plain_;
        std::set<std::string> decoded_;

    public:
        std::string add(std::string_view token) {
            std::string text = decoded(token);
            if (plain_.size() < 16 && token.find('\\') == std::string_view::npos) {
                for (std::string_view name : plain_) need(name != token, "duplicate");
                plain_.push_back(token);
                need(!decoded_.count(text), "duplicate");
            } else {
                for (std::string_view name : plain_) need(name.substr(1, name.size() - 2) != text, "duplicate");
                need(decoded_.insert(text).second, "duplicate");
            }
            return text;
        }
    };

    // ---- the text

    void read_topology(Scanner& scan) {
        if (scan.peek() != '{') {
            scan.value();
            refuse(scan.is_done() ? "not a topology" : "not json");
        }
        Names names;
        std::string_view type;
        bool has_objects = false, has_arcs = false;
        scan.object([&](std::string_view token) {
            std::string name = names.add(token);
            if (name == "type") type = scan.value();
            else if (name == "transform") document_.transform = scan.value();
            else if (name == "objects") has_objects = true, read_layers(scan);
            else if (name == "arcs") has_arcs = true, read_arcs(scan);
            else if (name == "bbox") scan.value();
            else document_.members.push_back({token, scan.value()});
        });
        need(scan.is_done(), "not json");
        need(!type.empty() && type[0] == '"' && decoded(type) == "Topology", "not a topology");
        need(has_objects && has_arcs, "bad member");
        if (!document_.transform.empty()) test_transform();
    }

    void test_transform() {
        Scanner scan(document_.transform);
        need(scan.peek() == '{', "bad member");
        Names names;
        int found = 0;
        scan.object([&](std::string_view token) {
            std::string name = names.add(token);
            std::string_view pair = scan.value();
            if (name != "scale" && name != "translate") return;
            found++;
            Scanner inside(pair);
            need(inside.peek() == '[', "bad member");
            int count = 0;
            inside.list([&] {
                unsigned char c = inside.peek();
                need(c == '-' || (c >= '0' && c <= '9'), "bad member");
                inside.value();
                count++;
            });
            need(count == 2, "bad member");
        });
        need(found == 2, "bad member");
    }

    void read_layers(Scanner& scan) {
        need(scan.peek() == '{', "bad member");
        Names names;
        scan.object([&](std::string_view token) {
            names.add(token);
            document_.layers.push_back({token, read_geometry(scan)});
        });
    }

    // The number of the item that a geometry becomes.
    uint32_t read_geometry(Scanner& scan) {
        need(scan.peek() == '{', "bad member");
        uint32_t item = uint32_t(document_.items.size());
        document_.items.emplace_back();
        Names names;
        std::string_view type, id, properties, arcs, later;
        std::vector<Member> members;
        bool has_items = false;
        const char* start = scan.place();
        scan.object([&](std::string_view token) {
            std::string name = names.add(token);
            if (name == "geometries" && type == "\"GeometryCollection\"") {
                has_items = true;
                read_items(scan, item);
                return;
            }
            std::string_view value = scan.value();
            if (name == "type") type = value;
            else if (name == "id") id = value;
            else if (name == "properties") properties = value;
            else if (name != "bbox") members.push_back({token, value});
            if (name == "arcs") arcs = value;
            if (name == "geometries") later = value;
        });
        need(!type.empty(), "bad member");
        Item& it = document_.items[item];
        it.id = id;
        it.properties = properties;
        it.kept = std::string_view(start, size_t(scan.place() - start));
        it.kind = kind_of(type);
        if (it.kind == Kind::Kept) return item;
        bool is_collection = it.kind == Kind::Collection;
        std::string_view known = is_collection ? later : it.kind == Kind::Null ? std::string_view() : arcs;
        for (const Member& member : members)
            if (member.value.data() != known.data()) it.members.push_back(member);
        if (is_collection && !has_items) {
            need(!later.empty(), "bad member");
            Scanner inside(later);
            read_items(inside, item);
        }
        if (!is_collection) read_feature(item, arcs);
        return item;
    }

    static Kind kind_of(std::string_view type) {
        if (type == "null") return Kind::Null;
        need(type[0] == '"', "bad member");
        std::string name = decoded(type);
        if (name == "Polygon") return Kind::Polygon;
        if (name == "MultiPolygon") return Kind::MultiPolygon;
        if (name == "GeometryCollection") return Kind::Collection;
        need(name == "Point" || name == "MultiPoint", "unsupported");
        return Kind::Kept;
    }

    void read_items(Scanner& scan, uint32_t parent) {
        need(scan.peek() == '[', "bad member");
        uint32_t before = NONE;
        scan.list([&] {
            uint32_t item = read_geometry(scan);
            document_.put_behind(item, parent, before);
            before = item;
        });
    }

    void read_feature(uint32_t item, std::string_view arcs) {
        need(document_.features.size() < MOST_FEATURES, "too large");
        uint32_t feature = document_.add_feature(item);
        Kind kind = document_.items[item].kind;
        if (kind == Kind::Null) return;
        need(!arcs.empty(), "bad member");
        Scanner scan(arcs);
        if (kind == Kind::Polygon) {
            read_polygon(scan, feature);
        } else {
            need(scan.peek() == '[', "bad member");
            scan.list([&] { read_polygon(scan, feature); });
        }
    }

    void read_polygon(Scanner& scan, uint32_t feature) {
        need(scan.peek() == '[', "bad member");
        uint32_t polygon = document_.graph.polygons.add(Polygon{feature, {}, NOTHING});
        document_.features[feature].polygons.push_back(polygon);
        scan.list([&] {
            need(scan.peek() == '[', "bad member");
            size_t begin = indexes_.size();
            scan.list([&] { indexes_.push_back(scan.whole()); });
            rings_.push_back({polygon, begin, indexes_.size()});
        });
    }

    void read_arcs(Scanner& scan) {
        need(scan.peek() == '[', "bad member");
        scan.list([&] {
            need(scan.peek() == '[', "bad position");
            scan.list([&] {
                need(scan.peek() == '[', "bad position");
                int64_t pair[2];
                int count = 0;
                scan.list([&] {
                    need(count < 2, "bad position");
                    pair[count++] = scan.whole();
                });
                need(count == 2, "bad position");
                positions_.push_back({pair[0], pair[1]});
            });
            need(positions_.size() - arcs_.back() >= 2, "bad position");
            arcs_.push_back(positions_.size());
        });
    }

    // ---- arcs and rings

    static bool is_near(int64_t n) { return -FARTHEST <= n && n <= FARTHEST; }

    void sum_up() {
        for (size_t arc = 0; arc + 1 < arcs_.size(); arc++)
            for (size_t i = arcs_[arc]; i < arcs_[arc + 1]; i++) {
                if (!document_.transform.empty() && i > arcs_[arc]) {
                    positions_[i].x += positions_[i - 1].x;
                    positions_[i].y += positions_[i - 1].y;
                }
                need(is_near(positions_[i].x) && is_near(positions_[i].y), "out of range");
            }
    }

    size_t arc_of(int64_t index) const { return size_t(index < 0 ? ~index : index); }

    void test_indexes() {
        const int64_t count = int64_t(arcs_.size()) - 1;
        for (int64_t index : indexes_) {
            need(-count <= index && index < count, "bad arc index");
            document_.positions += arcs_[arc_of(index) + 1] - arcs_[arc_of(index)];
        }
        need(document_.positions <= MOST_POSITIONS, "too large");
        document_.positions = 0;
    }

    // Makes an arc's segments, where they were not made before.
    std::pair<size_t, size_t> laid(size_t arc) {
        auto& [begin, end] = laid_[arc];
        if (begin != SIZE_MAX) return laid_[arc];
        begin = darts_.size();
        uint32_t from = document_.graph.vertex_at(positions_[arcs_[arc]]);
        for (size_t i = arcs_[arc] + 1; i < arcs_[arc + 1]; i++) {
            if (positions_[i] == positions_[i - 1]) continue;
            uint32_t to = document_.graph.vertex_at(positions_[i]);
            darts_.push_back(document_.graph.dart_between(from, to));
            from = to;
        }
        end = darts_.size();
        return laid_[arc];
    }

    Position end_of(int64_t index, bool is_last) const {
        size_t arc = arc_of(index);
        return is_last == (index >= 0) ? positions_[arcs_[arc + 1] - 1] : positions_[arcs_[arc]];
    }

    std::vector<Dart> ring_of(const RawRing& raw) {
        std::vector<Dart> ring;
        need(raw.begin < raw.end, "ring short");
        int64_t before = indexes_[raw.end - 1];
        for (size_t i = raw.begin; i < raw.end; before = indexes_[i++]) {
            need(end_of(before, true) == end_of(indexes_[i], false), "arcs do not meet");
            auto [begin, end] = laid(arc_of(indexes_[i]));
            if (indexes_[i] >= 0) ring.insert(ring.end(), darts_.begin() + begin, darts_.begin() + end);
            else
                for (size_t k = end; k-- > begin;) ring.push_back(darts_[k] ^ 1);
        }
        return ring;
    }

    void lay_rings() {
        Graph& graph = document_.graph;
        laid_.assign(arcs_.size(), {SIZE_MAX, 0});
        std::vector<uint32_t> last;
        for (const RawRing& raw : rings_) {
            std::vector<Dart> darts = ring_of(raw);
            need(darts.size() >= 3, "ring short");
            document_.positions += darts.size();
            last.resize(graph.vertices.size(), NONE);
            uint32_t ring = graph.rings.add(Ring{raw.polygon, std::move(darts)});
            for (Dart dart : graph.rings[ring].darts) {
                need(last[graph.origin(dart)] != ring, "ring repeats");
                last[graph.origin(dart)] = ring;
            }
            graph.polygons[raw.polygon].rings.push_back(ring);
            graph.use(ring);
        }
    }

public:
    explicit Reader(Document& document) : document_(document) {}

    void open() {
        need(document_.map.size() <= MOST_BYTES, "too large");
        Scanner scan(document_.map);
        read_topology(scan);
        sum_up();
        test_indexes();
        lay_rings();
        need(document_.graph.lay_indexes(), "conflict");
    }
};
