// Writes the text of a document: arcs cut at the junctions, each border once.
#pragma once

#include <charconv>

#include "document.h"

class Writer {
    Document& document_;
    std::string text_, arcs_;
    // Of each segment the arc that it stands in, or its ones' complement where the arc passes it from its second end on.
    std::vector<int32_t> arc_of_;
    int32_t arc_count_ = 0;
    static constexpr int32_t UNWRITTEN = INT32_MAX;

    static void append(std::string& to, int64_t number) {
        char digits[24];
        to.append(digits, std::to_chars(digits, digits + sizeof digits, number).ptr);
    }
    void append_pair(int64_t x, int64_t y) {
        arcs_ += '[';
        append(arcs_, x);
        arcs_ += ',';
        append(arcs_, y);
        arcs_ += ']';
    }
    // A comma, where something stands before in this list or object.
    void separate() {
        if (text_.back() != '[' && text_.back() != '{') text_ += ',';
    }
    void member(std::string_view name, std::string_view value) {
        separate();
        text_.append(name).append(":").append(value);
    }
    void member_if(std::string_view name, std::string_view value) {
        if (!value.empty()) member(name, value);
    }

    // ---- arcs

    void write_arc(const std::vector<Dart>& ring, size_t begin, size_t count) {
        const Graph& graph = document_.graph;
        bool is_delta = !document_.transform.empty();
        if (arc_count_) arcs_ += ',';
        arcs_ += '[';
        Position before = graph.from(ring[begin]);
        append_pair(before.x, before.y);
        for (size_t i = 0, at = begin; i < count; i++) {
            Position p = graph.to(ring[at]);
            arcs_ += ',';
            append_pair(is_delta ? p.x - before.x : p.x, is_delta ? p.y - before.y : p.y);
            before = p;
            arc_of_[ring[at] >> 1] = ring[at] & 1 ? ~arc_count_ : arc_count_;
            if (++at == ring.size()) at = 0;
        }
        arcs_ += ']';
        arc_count_++;
    }

    // Writes the index of a piece of a ring, which becomes an arc where it is none yet.
    void write_piece(const std::vector<Dart>& ring, size_t begin, size_t count) {
        if (arc_of_[ring[begin] >> 1] == UNWRITTEN) write_arc(ring, begin, count);
        int32_t arc = arc_of_[ring[begin] >> 1];
        separate();
        append(text_, ring[begin] & 1 ? ~arc : arc);
    }

    static size_t least_of(const Graph& graph, const std::vector<Dart>& ring) {
        size_t least = 0;
        for (size_t i = 1; i < ring.size(); i++)
            if (graph.from(ring[i]) < graph.from(ring[least])) least = i;
        return least;
    }

    void write_ring(const std::vector<Dart>& ring) {
        const Graph& graph = document_.graph;
        size_t size = ring.size(), begin = least_of(graph, ring), passed = 0;
        auto next = [&](size_t at) { return at + 1 == size ? 0 : at + 1; };
        while (passed < size && !graph.is_junction(graph.origin(ring[begin]))) begin = next(begin), passed++;
        separate();
        text_ += '[';
        for (size_t at = begin, done = 0; done < size;) {
            size_t start = at, count = 0;
            do at = next(at), count++;
            while (done + count < size && !graph.is_junction(graph.origin(ring[at])));
            write_piece(ring, start, count);
            done += count;
        }
        text_ += ']';
    }

    // ---- geometries

    void write_polygon(uint32_t polygon) {
        separate();
        text_ += '[';
        for (uint32_t ring : document_.graph.polygons[polygon].rings) write_ring(document_.graph.rings[ring].darts);
        text_ += ']';
    }

    void write_shape(const Item& item) {
        separate();
        text_ += "\"arcs\":";
        const std::vector<uint32_t>& polygons = document_.features[item.feature].polygons;
        if (item.kind == Kind::Polygon) return write_single(polygons[0]);
        text_ += '[';
        for (uint32_t polygon : polygons) write_polygon(polygon);
        text_ += ']';
    }
    void write_single(uint32_t polygon) {
        text_ += '[';
        for (uint32_t ring : document_.graph.polygons[polygon].rings) write_ring(document_.graph.rings[ring].darts);
        text_ += ']';
    }

    void write_items(const Item& collection) {
        separate();
        text_ += "\"geometries\":[";
        for (uint32_t i = collection.first; i != NONE; i = document_.items[i].after) {
            separate();
            write_item(document_.items[i]);
        }
        text_ += ']';
    }

    void write_item(const Item& item) {
        if (item.kind == Kind::Kept) {
            text_ += item.kept;
            return;
        }
        text_ += '{';
        member("\"type\"", type_of(item.kind));
        member_if("\"id\"", item.id);
        member_if("\"properties\"", item.properties);
        if (item.kind == Kind::Collection) write_items(item);
        else if (item.kind != Kind::Null) write_shape(item);
        for (const Member& kept : item.members) member(kept.name, kept.value);
        text_ += '}';
    }

    static std::string_view type_of(Kind kind) {
        if (kind == Kind::Collection) return "\"GeometryCollection\"";
        if (kind == Kind::Polygon) return "\"Polygon\"";
        return kind == Kind::MultiPolygon ? "\"MultiPolygon\"" : "null";
    }

public:
    explicit Writer(Document& document) : document_(document) {}

    std::string written() {
        arc_of_.assign(document_.graph.edges.size(), UNWRITTEN);
        text_ = "{";
        text_.reserve(document_.map.size());
        arcs_.reserve(document_.map.size());
        member("\"type\"", "\"Topology\"");
        member_if("\"transform\"", document_.transform);
        separate();
        text_ += "\"objects\":{";
        for (const Layer& layer : document_.layers) {
            separate();
            text_.append(layer.name).append(":");
            write_item(document_.items[layer.item]);
        }
        text_ += "},\"arcs\":[";
        text_ += arcs_;
        text_ += ']';
        for (const Member& kept : document_.members) member(kept.name, kept.value);
        text_ += '}';
        return std::move(text_);
    }
};
