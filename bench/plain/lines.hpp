// Lines, tokens and assignments of Ninja files (docs/FORMATS.md, "Lines, tokens and assignments").
#pragma once

#include <algorithm>
#include <cctype>
#include <cstddef>
#include <cstdint>
#include <optional>
#include <string>
#include <string_view>
#include <vector>

#include "collate.hpp"
#include "faults.hpp"

// A logical line without its end.
struct Line {
    std::string_view text;
    std::uint64_t number;
    bool is_comment;
};

// Reports the fault of a line.
[[noreturn]] inline void refuse_line(std::uint64_t number, const std::string& fault) {
    throw Refusal("line " + std::to_string(number) + ": " + fault);
}

// A fault of the bytes in a line, and its offset.
struct LexFault {
    const char* text;
    std::size_t place;

    std::string line() const { return std::string(text) + " at " + std::to_string(place); }
};

// A fault of what a line's words stand for, by its text.
struct LineFault {
    std::string text;
};

// Hands out the lines of a text.
class LineReader {
public:
    explicit LineReader(std::string_view text) : rest_(text) {}

    std::uint64_t number() const { return number_; }

    // The next line, or none at the end of the text.
    std::optional<Line> next() {
        if (rest_.empty()) {
            return std::nullopt;
        }
        const std::size_t first = rest_.find_first_not_of(' ');
        const bool is_comment = first != std::string_view::npos && rest_[first] == '#';
        const std::size_t end = is_comment ? rest_.find('\n') : end_of_line();
        if (end >= max_line) {
            throw LineFault{rest_.size() >= max_line ? "N5 LineTooLong" : "N6 Truncated"};
        }
        Line line{rest_.substr(0, end), number_, is_comment};
        number_ +=
            1 + static_cast<std::uint64_t>(std::count(line.text.begin(), line.text.end(), '\n'));
        rest_.remove_prefix(end + 1);
        if (line.text.ends_with('\r')) {
            line.text.remove_suffix(1);
        }
        return line;
    }

private:
    std::string_view rest_;
    std::uint64_t number_ = 1;

    // Whether the byte is the second one of an escape: an odd number of $ precedes it.
    static bool is_escaped(std::string_view text, std::size_t place) {
        std::size_t first = place;
        while (first > 0 && text[first - 1] == '$') {
            --first;
        }
        return (place - first) % 2 == 1;
    }

    // The first LF that no $ precedes as an escape. A continuation may have a CR between the two.
    std::size_t end_of_line() const {
        for (std::size_t from = 0;;) {
            const std::size_t end = rest_.find('\n', from);
            if (end == std::string_view::npos) {
                return end;
            }
            const bool has_return = end > 0 && rest_[end - 1] == '\r';
            if (!is_escaped(rest_, end) && !(has_return && is_escaped(rest_, end - 1))) {
                return end;
            }
            from = end + 1;
        }
    }
};

enum class Kind { word, bar, two_bars, bar_at, colon, end };

// A token. A word has its bytes as they are in the text, with escapes.
struct Token {
    Kind kind;
    std::string_view raw = {};
};

inline bool is_name_byte(char byte) {
    return std::isalnum(static_cast<unsigned char>(byte)) || byte == '_' || byte == '.' ||
           byte == '-';
}

// How many bytes the unit at the place has whose first byte is $: an escape,
// or a continuation with its spaces.
inline std::size_t dollar_length(std::string_view text, std::size_t place) {
    const char next = place + 1 < text.size() ? text[place + 1] : '\0';
    if (next == '$' || next == ' ' || next == ':') {
        return 2;
    }
    const bool has_return = next == '\r' && place + 2 < text.size() && text[place + 2] == '\n';
    if (next == '\n' || has_return) {
        const std::size_t end = text.find_first_not_of(' ', place + (has_return ? 3 : 2));
        return std::min(end, text.size()) - place;
    }
    const bool is_variable = next == '{' || (next != '.' && is_name_byte(next));
    throw LexFault{is_variable ? "N9 Variable" : "N10 BadEscape", place};
}

// Whether the unit is a continuation.
inline bool is_continuation(std::string_view text, std::size_t place) {
    return text[place] == '$' && (text[place + 1] == '\n' || text[place + 1] == '\r');
}

// Makes tokens of lines that are no comments. One is used for all lines,
// so that their list is allocated once.
class Lexer {
public:
    // The tokens of a line, with one after them that says that it ends.
    // They are valid until the next line is read.
    const std::vector<Token>& read(std::string_view text) {
        tokens_.clear();
        for (std::size_t place = 0; place < text.size();) {
            place = read_token(text, place);
        }
        tokens_.push_back({Kind::end});
        return tokens_;
    }

private:
    std::vector<Token> tokens_;

    std::size_t read_token(std::string_view text, std::size_t place) {
        const char second = place + 1 < text.size() ? text[place + 1] : ' ';
        if (text[place] == ' ') {
            return place + 1;
        }
        if (text[place] == ':') {
            tokens_.push_back({Kind::colon});
            return place + 1;
        }
        if (text[place] == '|') {
            const Kind kind = second == '@'   ? Kind::bar_at
                              : second == '|' ? Kind::two_bars
                                              : Kind::bar;
            tokens_.push_back({kind});
            return place + (kind == Kind::bar ? 1 : 2);
        }
        const std::size_t length = text[place] == '$' ? dollar_length(text, place) : 0;
        return length != 0 && is_continuation(text, place) ? place + length
                                                           : read_word(text, place);
    }

    std::size_t read_word(std::string_view text, std::size_t first) {
        // after the last piece, without continuations that only spaces follow
        std::size_t end = first;
        std::size_t place = first;
        while (place < text.size()) {
            const char byte = text[place];
            if (byte == ' ' || byte == ':' || byte == '|') {
                break;
            }
            if (byte == '\0' || byte == '\r') {
                throw LexFault{byte == '\r' ? "N8 LoneCr" : "N7 Nul", place};
            }
            const std::size_t length = byte == '$' ? dollar_length(text, place) : 1;
            const bool is_between = is_continuation(text, place);
            place += length;
            end = is_between ? end : place;
        }
        tokens_.push_back({Kind::word, text.substr(first, end - first)});
        return place;
    }
};

// What a word or an assignment's value stands for.
inline std::string value_of(std::string_view raw) {
    std::string value;
    value.reserve(raw.size());
    for (std::size_t place = 0; place < raw.size();) {
        const std::size_t run = std::min(raw.find('$', place), raw.size());
        value.append(raw, place, run - place);
        place = run;
        if (place < raw.size()) {
            const std::size_t length = dollar_length(raw, place);
            if (!is_continuation(raw, place)) {
                value += raw[place + 1];
            }
            place += length;
        }
    }
    return value;
}

// A name, = and a value, as in a line.
struct Assignment {
    std::string_view name;
    std::size_t place;
    std::string_view raw;
};

// The end of the spaces and continuations at a place.
inline std::size_t behind_blanks(std::string_view text, std::size_t place) {
    while (place < text.size()) {
        if (text[place] == '$' && is_continuation(text, place)) {
            place += dollar_length(text, place);
        } else if (text[place] == ' ') {
            ++place;
        } else {
            return place;
        }
    }
    return place;
}

// The assignment of a line in which there is no fault.
inline std::optional<Assignment> assignment_of(std::string_view text) {
    const std::size_t first = behind_blanks(text, 0);
    std::size_t end = first;
    while (end < text.size() && is_name_byte(text[end])) {
        ++end;
    }
    const std::size_t equals = behind_blanks(text, end);
    if (end == first || equals == text.size() || text[equals] != '=') {
        return std::nullopt;
    }
    const std::size_t value = behind_blanks(text, equals + 1);
    return Assignment{text.substr(first, end - first), first, text.substr(value)};
}
