// The document: layers of collections, features and kept texts, over a graph.
#pragma once

#include <deque>

#include "graph.h"

struct Member {
    std::string_view name, value;
};

enum class Kind { Collection, Polygon, MultiPolygon, Null, Kept };

// A geometry; its texts are pieces of the map's. A collection has its items as a linked list.
struct Item {
    Kind kind = Kind::Kept;
    std::string_view id, properties, kept;
    std::vector<Member> members;
    uint32_t parent = NONE, first = NONE, before = NONE, after = NONE, feature = NONE;
};

struct Feature {
    uint32_t item;
    std::vector<uint32_t> polygons;
};

struct Layer {
    std::string_view name;
    uint32_t item;
};

struct Document {
    std::string map;
    std::string_view transform;
    std::vector<Member> members;
    std::vector<Layer> layers;
    std::vector<Item> items;
    std::vector<Feature> features;
    size_t feature_count = 0, positions = 0;
    Graph graph;
    // Texts that the map has not.
    std::deque<std::string> texts;

    bool has(uint64_t number) const { return number < features.size() && features[number].item != NONE; }
    Item& item_of(uint32_t feature) { return items[features[feature].item]; }

    // Adds an item to a collection behind another one of it, or in front of all.
    void put_behind(uint32_t item, uint32_t parent, uint32_t before) {
        uint32_t& link = before == NONE ? items[parent].first : items[before].after;
        items[item].parent = parent;
        items[item].before = before;
        items[item].after = link;
        if (link != NONE) items[link].before = item;
        link = item;
    }
    void take_out(uint32_t item) {
        const Item& it = items[item];
        (it.before == NONE ? items[it.parent].first : items[it.before].after) = it.after;
        if (it.after != NONE) items[it.after].before = it.before;
    }

    // Takes a feature out of its collection; a layer's own one leaves an empty collection.
    void take_out_feature(uint32_t feature) {
        uint32_t item = features[feature].item;
        if (items[item].parent == NONE) {
            items[item] = Item();
            items[item].kind = Kind::Collection;
        } else {
            take_out(item);
        }
        features[feature] = {NONE, {}};
        feature_count--;
    }
    // Puts a feature back without its rings, with its item as it was: the links of an item that was taken out last say
    // where it stood.
    void put_back(uint32_t feature, uint32_t item, const Item& it) {
        bool was_out = !has(feature);
        Item now = items[item];
        items[item] = it;
        if (was_out) {
            features[feature].item = item;
            feature_count++;
            if (it.parent != NONE) put_behind(item, it.parent, it.before);
        } else {
            items[item].before = now.before;
            items[item].after = now.after;
        }
    }
    uint32_t add_feature(uint32_t item) {
        features.push_back({item, {}});
        feature_count++;
        items[item].feature = uint32_t(features.size() - 1);
        return items[item].feature;
    }
};
