// Goes over a JSON text (RFC 8259), testing it, and reads its strings.
#pragma once

#include <cstdint>
#include <stdexcept>
#include <string>
#include <string_view>

struct Fault : std::runtime_error {
    using std::runtime_error::runtime_error;
};

class Scanner {
    static constexpr int DEEPEST = 100;
    // Digits that surely fit in 64 bits.
    static constexpr int MOST_DIGITS = 18;
    const unsigned char *at_, *end_;
    int depth_ = 0;

    [[noreturn]] static void fail() { throw Fault("not json"); }
    static bool is_digit(unsigned char c) { return unsigned(c - '0') < 10; }
    unsigned char now() const { return *at_; }
    std::string_view since(const unsigned char* start) const {
        return {reinterpret_cast<const char*>(start), size_t(at_ - start)};
    }

    void space() {
        while (*at_ <= ' ' && (*at_ == ' ' || *at_ == '\n' || *at_ == '\t' || *at_ == '\r')) at_++;
    }
    void expect(unsigned char c) {
        if (now() != c) fail();
        at_++;
    }
    void digits() {
        if (!is_digit(now())) fail();
        while (is_digit(now())) at_++;
    }
    void fraction_and_exponent() {
        if (now() == '.') at_++, digits();
        if ((now() | 32) == 'e') {
            at_++;
            if (now() == '+' || now() == '-') at_++;
            digits();
        }
    }
    void number() {
        if (now() == '-') at_++;
        if (now() == '0') at_++;
        else digits();
        fraction_and_exponent();
    }
    void word(std::string_view text) {
        for (unsigned char c : text) expect(c);
    }
    // One character of more than one byte (RFC 3629, 4).
    void wide_character() {
        unsigned char c = *at_;
        int more = c >= 0xC2 && c <= 0xDF ? 1 : (c & 0xF0) == 0xE0 ? 2 : c >= 0xF0 && c <= 0xF4 ? 3 : 0;
        if (!more) fail();
        unsigned char least = c == 0xE0 ? 0xA0 : c == 0xF0 ? 0x90 : 0x80, most = c == 0xED ? 0x9F : c == 0xF4 ? 0x8F : 0xBF;
        if (at_[1] < least || at_[1] > most) fail();
        for (int i = 2; i <= more; i++)  // a zero behind the text is no such byte either
            if ((at_[i] & 0xC0) != 0x80) fail();
        at_ += more + 1;
    }
    void escape() {
        at_++;
        unsigned char c = now();
        if (std::string_view("\"\\/bfnrtu").find(char(c)) == std::string_view::npos) fail();
        at_++;
        for (int i = 0; c == 'u' && i < 4; i++, at_++)
            if (!is_digit(now()) && unsigned((now() | 32) - 'a') >= 6) fail();
    }
    void string() {
        expect('"');
        while (true) {
            while (*at_ >= 0x20 && *at_ < 0x80 && *at_ != '"' && *at_ != '\\') at_++;
            if (now() == '"') break;
            if (now() == '\\') escape();
            else if (now() >= 0x80) wide_character();
            else fail();
        }
        at_++;
    }
    // Goes over what stands between brackets.
    template <class Item>
    void between(unsigned char open, unsigned char close, Item&& item) {
        expect(open);
        if (++depth_ > DEEPEST) throw Fault("too deep");
        space();
        if (now() == close) {
            at_++;
        } else {
            while (true) {
                item();
                space();
                if (now() != ',') break;
                at_++;
            }
            expect(close);
        }
        depth_--;
    }

public:
    // A text behind which a zero stands, or a value that was tested.
    explicit Scanner(std::string_view text)
        : at_(reinterpret_cast<const unsigned char*>(text.data())), end_(at_ + text.size()) {}

    // The first byte of what follows.
    unsigned char peek() {
        space();
        return now();
    }
    bool is_done() { return space(), at_ == end_; }
    const char* place() const { return reinterpret_cast<const char*>(at_); }

    // Calls `item` before each item of a list, which has to go over it.
    template <class Item>
    void list(Item&& item) {
        between('[', ']', item);
    }
    // Calls `member` with the token of each name of an object, before its value.
    template <class Member>
    void object(Member&& member) {
        between('{', '}', [&] {
            space();
            const unsigned char* start = at_;
            string();
            std::string_view name = since(start);
            space();
            expect(':');
            member(name);
        });
    }

    // Goes over a value; its text.
    std::string_view value() {
        space();
        const unsigned char* start = at_;
        switch (now()) {
            case '{': object([&](std::string_view) { value(); }); break;
            case '[': list([&] { value(); }); break;
            case '"': string(); break;
            case 't': word("true"); break;
            case 'f': word("false"); break;
            case 'n': word("null"); break;
            default: number();
        }
        return since(start);
    }

    // Goes over a string; its token.
    std::string_view text() {
        const unsigned char* start = at_;
        string();
        return since(start);
    }

    // Reads a whole number: one without exponent whose fraction, if it has one, is zeros.
    int64_t whole() {
        space();
        bool is_negative = now() == '-';
        at_ += is_negative;
        const unsigned char* start = at_;
        if (now() == '0' || !is_digit(now())) {
            expect('0');
            if (is_digit(now())) fail();
        }
        int64_t n = 0;
        for (; is_digit(now()); at_++) {
            if (at_ - start == MOST_DIGITS) throw Fault("out of range");
            n = 10 * n + (*at_ - '0');
        }
        if (now() == '.' || now() == 'e' || now() == 'E') {
            const unsigned char* rest = at_;
            fraction_and_exponent();
            if (since(rest).find_first_not_of(".0") != std::string_view::npos) throw Fault("not whole");
        }
        return is_negative ? -n : n;
    }
};

// ---- strings

inline void append_utf8(std::string& text, uint32_t code) {
    auto put = [&](uint32_t byte) { text += char(byte); };
    if (code < 0x80) return put(code);
    if (code < 0x800) return put(0xC0 | code >> 6), put(0x80 | (code & 63));
    if (code < 0x10000) put(0xE0 | code >> 12);
    else put(0xF0 | code >> 18), put(0x80 | (code >> 12 & 63));
    put(0x80 | (code >> 6 & 63)), put(0x80 | (code & 63));
}

// What a tested string token stands for; it throws where that is no text.
inline std::string decoded(std::string_view token) {
    std::string text;
    auto unit = [&](size_t i) { return uint32_t(std::stoul(std::string(token.substr(i, 4)), nullptr, 16)); };
    for (size_t i = 1; i + 1 < token.size(); i++) {
        if (token[i] != '\\') {
            text += token[i];
            continue;
        }
        char c = token[++i];
        if (c != 'u') {
            const std::string_view from = "bfnrt", to = "\b\f\n\r\t";
            text += from.find(c) == std::string_view::npos ? c : to[from.find(c)];
            continue;
        }
        uint32_t code = unit(i + 1);
        i += 4;
        if (code >= 0xD800 && code < 0xE000) {
            uint32_t low = code < 0xDC00 && token.substr(i + 1, 2) == "\\u" ? unit(i + 3) : 0;
            if (low < 0xDC00 || low >= 0xE000) throw Fault("no text");
            code = 0x10000 + ((code - 0xD800) << 10) + (low - 0xDC00);
            i += 6;
        }
        append_utf8(text, code);
    }
    return text;
}

// The token of a text, with as few escapes as can be.
inline std::string encoded(std::string_view text) {
    std::string token = "\"";
    const std::string_view from = "\"\\\b\f\n\r\t", to = "\"\\bfnrt";
    for (char c : text) {
        size_t at = from.find(c);
        if (at != std::string_view::npos) {
            token += '\\', token += to[at];
        } else if (uint8_t(c) < 0x20) {
            token += "\\u00", token += "01"[uint8_t(c) >> 4], token += "0123456789abcdef"[c & 15];
        } else {
            token += c;
        }
    }
    return token + '"';
}
