// The lines that ask.
#pragma once

#include "refusals.h"

class Questions {
    const Document& document_;
    const Graph& graph_;

    static void sort_once(std::vector<uint32_t>& numbers) {
        std::sort(numbers.begin(), numbers.end());
        numbers.erase(std::unique(numbers.begin(), numbers.end()), numbers.end());
    }
    static void append(std::string& answer, const std::vector<uint32_t>& numbers) {
        for (uint32_t n : numbers) answer += ' ', answer += std::to_string(n);
    }
    uint32_t feature_of(uint32_t ring) const { return graph_.polygons[graph_.rings[ring].polygon].feature; }
    void need_feature(uint64_t number) const { refuse_if(!document_.has(number), "no feature"); }

    Wide size_of(uint32_t ring) const {
        Wide area = graph_.area(graph_.rings[ring].darts);
        return area < 0 ? -area : area;
    }

    std::string ring_text(const std::vector<Dart>& ring) const {
        size_t least = 0;
        for (size_t i = 1; i < ring.size(); i++)
            if (graph_.from(ring[i]) < graph_.from(ring[least])) least = i;
        std::string text;
        for (size_t i = 0; i < ring.size(); i++) {
            Position p = graph_.from(ring[(least + i) % ring.size()]);
            text += (i ? ",[" : "[") + std::to_string(p.x) + ',' + std::to_string(p.y) + ']';
        }
        return '[' + text + ']';
    }

public:
    explicit Questions(const Document& document) : document_(document), graph_(document.graph) {}

    // Looks only at the polygons with a box that holds the position.
    std::string at(Position p) const {
        std::vector<uint32_t> inside, border, held;
        graph_.each_segment({p.x, p.y, p.x, p.y}, [&](uint32_t edge) {
            if (!is_on(p, graph_.segment(edge))) return;
            for (uint32_t ring : graph_.edges[edge].rings) border.push_back(feature_of(ring));
        });
        graph_.each_polygon(p, [&](uint32_t polygon) {
            if (graph_.is_inside(graph_.polygons[polygon], p)) held.push_back(graph_.polygons[polygon].feature);
        });
        sort_once(border), sort_once(held);
        std::set_difference(held.begin(), held.end(), border.begin(), border.end(), std::back_inserter(inside));
        std::string answer = "inside:";
        append(answer, inside);
        answer += " border:";
        append(answer, border);
        return answer;
    }

    std::string area(uint64_t feature) const {
        need_feature(feature);
        Wide sum = 0;
        for (uint32_t polygon : document_.features[feature].polygons) {
            const std::vector<uint32_t>& rings = graph_.polygons[polygon].rings;
            for (size_t i = 0; i < rings.size(); i++) sum += i ? -size_of(rings[i]) : size_of(rings[i]);
        }
        return text_of(sum);
    }

    std::string neighbours(uint64_t feature) const {
        need_feature(feature);
        std::vector<uint32_t> found;
        uint32_t last = uint32_t(feature);
        for (uint32_t polygon : document_.features[feature].polygons)
            for (uint32_t ring : graph_.polygons[polygon].rings)
                for (Dart dart : graph_.rings[ring].darts)
                    for (uint32_t other : graph_.edges[dart >> 1].rings) {
                        uint32_t number = other == ring ? uint32_t(feature) : feature_of(other);
                        if (number != feature && number != last) found.push_back(last = number);
                    }
        sort_once(found);
        std::string answer = "neighbours:";
        append(answer, found);
        return answer;
    }

    std::string rings(uint64_t feature) const {
        need_feature(feature);
        std::string text;
        for (uint32_t polygon : document_.features[feature].polygons) {
            std::string inner;
            for (uint32_t ring : graph_.polygons[polygon].rings)
                inner += (inner.empty() ? "" : ",") + ring_text(graph_.rings[ring].darts);
            text += (text.empty() ? "[" : ",[") + inner + ']';
        }
        return '[' + text + ']';
    }

    std::string count() const {
        std::string features = "features " + std::to_string(document_.feature_count);
        std::string vertices = " vertices " + std::to_string(graph_.vertex_count());
        return features + vertices + " segments " + std::to_string(graph_.edges.count());
    }
};
