// The lines of a script and their answers.
#pragma once

#include "feature_edits.h"
#include "json.h"
#include "questions.h"
#include "vertex_edits.h"
#include "writer.h"

struct BadLine {};

// The words of a line, with one space between them.
class Words {
    std::string_view rest_;

public:
    explicit Words(std::string_view line) : rest_(line) {}

    bool are_over() const { return rest_.empty(); }

    std::string_view word() {
        size_t end = std::min(rest_.find(' '), rest_.size());
        std::string_view word = rest_.substr(0, end);
        if (end == 0 || end + 1 == rest_.size()) throw BadLine();
        rest_.remove_prefix(std::min(end + 1, rest_.size()));
        return word;
    }

    // A JSON string, which may hold spaces, as it is written for what it stands for.
    std::string string() {
        Scanner scan(rest_);
        try {
            if (rest_.empty() || rest_[0] != '"') throw BadLine();
            std::string_view token = scan.text();
            rest_.remove_prefix(token.size());
            if (!rest_.empty() && (rest_[0] != ' ' || rest_.size() == 1)) throw BadLine();
            rest_.remove_prefix(std::min(size_t(1), rest_.size()));
            return encoded(decoded(token));
        } catch (const Fault&) {
            throw BadLine();
        }
    }

    // A whole number of at most so many digits, with no zero before others and no minus before zero.
    template <class Number>
    Number number(Number least, Number most, size_t longest) {
        std::string_view text = word();
        bool is_negative = text[0] == '-';
        std::string_view digits = text.substr(is_negative);
        if (digits.empty() || digits.size() > longest) throw BadLine();
        if (digits[0] == '0' && (digits.size() > 1 || is_negative)) throw BadLine();
        Number n = 0;
        for (char c : digits) {
            if (c < '0' || c > '9') throw BadLine();
            n = 10 * n + (c - '0');
        }
        n = is_negative ? -n : n;
        if (n < least || n > most) throw BadLine();
        return n;
    }
    uint64_t feature() { return uint64_t(number<int64_t>(0, UINT32_MAX, 10)); }
    Position position() {
        const int64_t farthest = 1'000'000'000'000;
        int64_t x = number(-farthest, farthest, 13);
        return {x, number(-farthest, farthest, 13)};
    }
    Wide bound() { return number<Wide>(0, 8 * Wide(1'000'000'000'000) * 1'000'000'000'000, 25); }
    void end() const {
        if (!are_over()) throw BadLine();
    }
};

class Answers {
    static constexpr size_t LONGEST_LINE = 8192, LONGEST_PATH = 256;

    Document& document_;
    History history_;
    VertexEditor vertices_;
    FeatureEditor features_;
    Questions questions_;
    bool are_all_accepted_ = true;

    std::string split(Words& words) {
        uint64_t feature = words.feature();
        std::string id = words.string();
        std::vector<Position> path;
        while (!words.are_over()) path.push_back(words.position());
        if (path.size() < 2 || path.size() > LONGEST_PATH) throw BadLine();
        return "ok " + std::to_string(features_.split(feature, id, path));
    }

    std::string thin(Words& words) {
        Wide bound = words.bound();
        words.end();
        return "ok " + std::to_string(vertices_.thin(bound));
    }

    void undo() {
        refuse_if(history_.is_empty(), "nothing to undo");
        Change change = history_.taken();
        for (size_t i = change.steps.size(); i-- > 0;) vertices_.take_back(change.steps[i]);
        features_.take_back(change);
    }

    // Whether the line is an edit of vertices.
    bool does_edit_vertices(std::string_view word, Words& words) {
        if (word == "move") {
            Position from = words.position(), to = words.position();
            words.end();
            vertices_.move(from, to);
        } else if (word == "insert") {
            Position a = words.position(), b = words.position(), p = words.position();
            words.end();
            vertices_.insert(a, b, p);
        } else if (word == "remove") {
            Position p = words.position();
            words.end();
            vertices_.remove(p);
        } else {
            return false;
        }
        return true;
    }

    void edit_features(std::string_view word, Words& words) {
        if (word == "merge") {
            uint64_t feature = words.feature(), other = words.feature();
            words.end();
            features_.merge(feature, other);
        } else if (word == "delete") {
            uint64_t feature = words.feature();
            words.end();
            features_.remove_feature(feature);
        } else if (word == "rename") {
            uint64_t feature = words.feature();
            std::string id = words.string();
            words.end();
            features_.rename(feature, id);
        } else if (word == "undo") {
            words.end();
            undo();
        } else {
            throw BadLine();
        }
    }

    std::string of_feature(std::string_view word, uint64_t feature) const {
        if (word == "area") return questions_.area(feature);
        return word == "rings" ? questions_.rings(feature) : questions_.neighbours(feature);
    }

    std::string answer(std::string_view line) {
        Words words(line);
        std::string_view word = words.word();
        if (does_edit_vertices(word, words)) return "ok";
        if (word == "split") return split(words);
        if (word == "thin") return thin(words);
        if (word == "count") return words.end(), questions_.count();
        if (word == "document") return words.end(), Writer(document_).written();
        if (word == "at") {
            Position p = words.position();
            return words.end(), questions_.at(p);
        }
        if (word == "area" || word == "neighbours" || word == "rings") {
            uint64_t feature = words.feature();
            return words.end(), of_feature(word, feature);
        }
        return edit_features(word, words), "ok";
    }

public:
    // Answers lines on a document, keeping so many changes.
    Answers(Document& document, size_t depth)
        : document_(document),
          history_(depth),
          vertices_(document, history_),
          features_(document, history_),
          questions_(document) {}

    bool are_all_accepted() const { return are_all_accepted_; }

    // Appends the answer to a line, if it has one.
    void append(std::string& to, std::string_view line) {
        bool is_long = line.size() > LONGEST_LINE;
        if (!line.empty() && line.back() == '\r') line.remove_suffix(1);
        if (line.empty() || (line[0] == '#' && !is_long)) return;
        try {
            if (is_long) throw BadLine();
            to += answer(line);
        } catch (const Refusal& refusal) {
            are_all_accepted_ = false;
            to += "refused " + refusal.why;
        } catch (const BadLine&) {
            are_all_accepted_ = false;
            to += "bad line";
        }
        to += '\n';
    }
};
