// Edge listings and dyndep files: how they are read, what a dyndep file adds to a graph, and the
// order of its edges (docs/FORMATS.md, "Dyndep files, as the reader takes them" and "Edge
// listings").
#pragma once

#include <algorithm>
#include <cstddef>
#include <cstdint>
#include <iterator>
#include <optional>
#include <string>
#include <string_view>
#include <unordered_map>
#include <utility>
#include <vector>

#include "digraph.hpp"
#include "faults.hpp"
#include "lines.hpp"
#include "paths.hpp"

struct Edge {
    std::string_view rule;
    std::vector<std::string> outputs;
    std::vector<std::string> implicit_outputs;
    std::vector<std::string> inputs;
    std::vector<std::string> implicit_inputs;
    std::vector<std::string> order_only;
    std::optional<std::string> dyndep;
    bool restat = false;
};

// What a dyndep file says of an edge. The paths are as they are written, without escapes.
struct Statement {
    std::string output;
    std::vector<std::string> implicit_outputs;
    std::vector<std::string> implicit_inputs;
    bool restat = false;
};

// Passes each line of a text that is no comment to a reader, with its tokens, and then the end. A
// fault is reported with the line's number, after the label.
template <class Reader>
void read_lines(std::string_view text, const char* label, Reader& reader) {
    LineReader lines(text);
    Lexer lexer;
    std::uint64_t number = lines.number();
    const auto refuse = [&](const std::string& fault) {
        throw Refusal(label + ("line " + std::to_string(number) + ": ") + fault);
    };
    try {
        while (const std::optional<Line> line = lines.next()) {
            number = line->number;
            if (!line->is_comment) {
                reader.line(line->text, lexer.read(line->text));
            }
            number = lines.number();
        }
        reader.finish();
    } catch (const LexFault& fault) {
        refuse(fault.line());
    } catch (const LineFault& fault) {
        refuse(fault.text);
    }
}

inline bool is_keyword(const Token& token, std::string_view keyword) {
    return token.kind == Kind::word && token.raw == keyword;
}

// Whether a line begins, at its first byte, with the keyword build.
inline bool is_build_line(std::string_view text, const std::vector<Token>& tokens) {
    return text.starts_with("build") && is_keyword(tokens.front(), "build");
}

// Reads an edge listing.
class ListingReader {
public:
    std::vector<Edge> edges;

    void line(std::string_view text, const std::vector<Token>& tokens) {
        if (tokens.front().kind == Kind::end) {
            is_open_ = false;
        } else if (text.starts_with(' ')) {
            read_binding(text);
        } else if (is_build_line(text, tokens)) {
            read_edge(tokens);
        } else {
            throw form();
        }
    }

    void finish() {}

private:
    PathReader paths_;
    bool is_open_ = false;
    bool has_restat_ = false;

    static LineFault form() { return {"E3 Form"}; }

    std::string read_path(std::string_view raw) {
        try {
            return raw.find('$') == std::string_view::npos ? paths_.read(raw)
                                                           : paths_.read(value_of(raw));
        } catch (const PathFault& fault) {
            throw LineFault{std::string("E3 Path ") + fault.text};
        }
    }

    void read_binding(std::string_view text) {
        const std::optional<Assignment> found = is_open_ ? assignment_of(text) : std::nullopt;
        if (found && found->name == "dyndep" && !edges.back().dyndep) {
            edges.back().dyndep = read_path(found->raw);
        } else if (found && found->name == "restat" && !has_restat_) {
            has_restat_ = true;
            edges.back().restat = !value_of(found->raw).empty();
        } else {
            throw form();
        }
    }

    // The words from a token on. The token then is that after them.
    static std::vector<std::string_view> take_words(const Token*& token) {
        const Token* end = token;
        while (end->kind == Kind::word) {
            ++end;
        }
        std::vector<std::string_view> words;
        words.reserve(static_cast<std::size_t>(end - token));
        for (; token != end; ++token) {
            words.push_back(token->raw);
        }
        return words;
    }

    // The words after a token of this kind, if it is there.
    static std::vector<std::string_view> take_part(const Token*& token, Kind kind) {
        if (token->kind != kind) {
            return {};
        }
        ++token;
        return take_words(token);
    }

    std::vector<std::string> read_paths(const std::vector<std::string_view>& words) {
        std::vector<std::string> paths;
        paths.reserve(words.size());
        for (std::string_view word : words) {
            paths.push_back(read_path(word));
        }
        return paths;
    }

    void read_edge(const std::vector<Token>& tokens) {
        const Token* token = tokens.data() + 1;
        const auto outputs = take_words(token);
        const auto implicit_outputs = take_part(token, Kind::bar);
        if (outputs.empty() || token->kind != Kind::colon) {
            throw form();
        }
        ++token;
        const std::string_view rule = token->raw;
        if (token->kind != Kind::word || !std::all_of(rule.begin(), rule.end(), is_name_byte)) {
            throw form();
        }
        ++token;
        const auto inputs = take_words(token);
        const auto implicit_inputs = take_part(token, Kind::bar);
        const auto order_only = take_part(token, Kind::two_bars);
        if (token->kind != Kind::end) {
            throw form();
        }
        edges.push_back({rule, read_paths(outputs), read_paths(implicit_outputs),
                         read_paths(inputs), read_paths(implicit_inputs), read_paths(order_only),
                         std::nullopt});
        is_open_ = true;
        has_restat_ = false;
    }
};

// Reads a dyndep file.
class DyndepReader {
public:
    std::vector<Statement> statements;

    void line(std::string_view text, const std::vector<Token>& tokens) {
        const std::optional<Assignment> found = assignment_of(text);
        const bool is_version = found && found->place == 0 && found->name == "ninja_dyndep_version";
        if (tokens.front().kind == Kind::end) {
            is_open_ = false;
        } else if (!has_version_) {
            read_version(is_version, found);
        } else if (text.starts_with(' ')) {
            read_binding(found);
        } else if (is_version) {
            throw LineFault{"Y6 SecondVersion"};
        } else if (is_build_line(text, tokens)) {
            read_statement(tokens);
        } else {
            throw LineFault{"Y8 BadLine"};
        }
    }

    void finish() const {
        if (!has_version_) {
            throw LineFault{"Y4 NoVersion"};
        }
    }

private:
    bool has_version_ = false;
    bool is_open_ = false;

    void read_version(bool is_version, const std::optional<Assignment>& found) {
        if (!is_version) {
            throw LineFault{"Y4 NoVersion"};
        }
        const std::string value = value_of(found->raw);
        const std::size_t length = value.starts_with("1.0") ? 3 : value.starts_with('1') ? 1 : 0;
        const char next = length < value.size() ? value[length] : ' ';
        const bool goes_on = (next >= '0' && next <= '9') || (length == 1 && next == '.');
        if (length == 0 || goes_on) {
            throw LineFault{"Y5 BadVersion"};
        }
        has_version_ = true;
    }

    void read_binding(const std::optional<Assignment>& found) {
        if (!is_open_) {
            throw LineFault{"Y7 Indent"};
        }
        if (!found || found->name != "restat") {
            throw LineFault{"Y15 BadBinding"};
        }
        statements.back().restat = !value_of(found->raw).empty();
        is_open_ = false;
    }

    // The fault of a token that is not allowed there: those of order-only inputs and validations,
    // or otherwise another.
    static LineFault fault_of(const Token& token, const char* other) {
        if (token.kind == Kind::two_bars) {
            return {"Y13 OrderOnly"};
        }
        return {token.kind == Kind::bar_at ? "Y14 Validation" : other};
    }

    // The words after a bar, if it is there.
    static std::vector<std::string> take_part(const Token*& token) {
        std::vector<std::string> paths;
        if (token->kind == Kind::bar) {
            for (++token; token->kind == Kind::word; ++token) {
                paths.push_back(value_of(token->raw));
            }
        }
        return paths;
    }

    void read_statement(const std::vector<Token>& tokens) {
        const Token* token = tokens.data() + 1;
        if (token->kind != Kind::word) {
            throw LineFault{"Y9 NoOutput"};
        }
        Statement statement;
        statement.output = value_of(token->raw);
        ++token;
        if (token->kind == Kind::word) {
            throw LineFault{"Y10 SecondOutput"};
        }
        statement.implicit_outputs = take_part(token);
        if (token->kind != Kind::colon) {
            throw fault_of(*token, "Y8 BadLine");
        }
        ++token;
        if (!is_keyword(*token, "dyndep")) {
            throw LineFault{"Y11 BadRule"};
        }
        ++token;
        if (token->kind == Kind::word) {
            throw LineFault{"Y12 ExplicitInput"};
        }
        statement.implicit_inputs = take_part(token);
        if (token->kind != Kind::end) {
            throw fault_of(*token, "Y8 BadLine");
        }
        statements.push_back(std::move(statement));
        is_open_ = true;
    }
};

// Edges, and which of them makes each path.
class Graph {
public:
    explicit Graph(std::vector<Edge> edges) : edges_(std::move(edges)) {
        makers_.reserve(2 * edges_.size());
        for (std::size_t number = 0; number < edges_.size(); ++number) {
            add_makers(edges_[number].outputs, number);
            add_makers(edges_[number].implicit_outputs, number);
        }
        for (const Edge& edge : edges_) {
            if (edge.dyndep && !has_input(edge, *edge.dyndep)) {
                throw Refusal("E2 DyndepNotInput " + edge.outputs.front());
            }
        }
    }

    const std::vector<Edge>& edges() const { return edges_; }

    // Adds what the statements of a dyndep file say of the edges that name it.
    void apply(const std::string& name, std::vector<Statement> statements) {
        make_canonical(statements);
        std::vector<std::size_t> bound;
        bound.reserve(statements.size());
        for (const Statement& statement : statements) {
            const auto found = makers_.find(statement.output);
            if (found == makers_.end() || edges_[found->second].dyndep != name) {
                throw Refusal("E5 NotBound " + statement.output);
            }
            bound.push_back(found->second);
        }
        check_mentioned(name, statements, bound);
        check_added(statements, bound);
        for (std::size_t number = 0; number < statements.size(); ++number) {
            add(edges_[bound[number]], statements[number]);
        }
    }

    // The edges, each after those that make its inputs, or the error of a cycle.
    std::vector<Node> order() const {
        Digraph needs;
        for (const Edge& edge : edges_) {
            for (const auto* inputs : {&edge.inputs, &edge.implicit_inputs, &edge.order_only}) {
                add_needs(needs, *inputs);
            }
            needs.end_row();
        }
        std::vector<Node> order = order_of(needs);
        if (order.size() < edges_.size()) {
            refuse_cycle(needs);
        }
        return order;
    }

private:
    std::vector<Edge> edges_;
    // the keys are copies, since the lists of an edge grow
    std::unordered_map<std::string, std::size_t> makers_;

    static bool has_input(const Edge& edge, const std::string& path) {
        const auto has = [&](const std::vector<std::string>& paths) {
            return std::find(paths.begin(), paths.end(), path) != paths.end();
        };
        return has(edge.inputs) || has(edge.implicit_inputs) || has(edge.order_only);
    }

    void add_makers(const std::vector<std::string>& paths, std::size_t number) {
        for (const std::string& path : paths) {
            if (!makers_.try_emplace(path, number).second) {
                throw Refusal("E1 ProducedTwice " + path);
            }
        }
    }

    static void make_canonical(std::vector<Statement>& statements) {
        PathReader paths;
        for (std::size_t number = 0; number < statements.size(); ++number) {
            Statement& statement = statements[number];
            std::size_t path = 0;
            try {
                statement.output = paths.read(statement.output);
                for (auto* list : {&statement.implicit_outputs, &statement.implicit_inputs}) {
                    for (std::string& text : *list) {
                        ++path;
                        text = paths.read(text);
                    }
                }
            } catch (const PathFault& fault) {
                throw Refusal("E8 BadPath statement " + std::to_string(number) + " path " +
                              std::to_string(path) + " " + fault.text);
            }
        }
    }

    void check_mentioned(const std::string& name, const std::vector<Statement>& statements,
                         const std::vector<std::size_t>& bound) const {
        std::vector<bool> is_mentioned(edges_.size());
        for (std::size_t number = 0; number < bound.size(); ++number) {
            if (is_mentioned[bound[number]]) {
                throw Refusal("E4 StatementTwice " + statements[number].output);
            }
            is_mentioned[bound[number]] = true;
        }
        for (std::size_t number = 0; number < edges_.size(); ++number) {
            if (edges_[number].dyndep == name && !is_mentioned[number]) {
                throw Refusal("E6 NotMentioned " + edges_[number].outputs.front());
            }
        }
    }

    void check_added(const std::vector<Statement>& statements,
                     const std::vector<std::size_t>& bound) {
        for (std::size_t number = 0; number < statements.size(); ++number) {
            for (const std::string& path : statements[number].implicit_outputs) {
                if (!makers_.try_emplace(path, bound[number]).second) {
                    throw Refusal("E7 AddedTwice " + path);
                }
            }
        }
    }

    static void add(Edge& edge, Statement& statement) {
        std::move(statement.implicit_outputs.begin(), statement.implicit_outputs.end(),
                  std::back_inserter(edge.implicit_outputs));
        std::move(statement.implicit_inputs.begin(), statement.implicit_inputs.end(),
                  std::back_inserter(edge.implicit_inputs));
        edge.restat = edge.restat || statement.restat;
    }

    void add_needs(Digraph& needs, const std::vector<std::string>& inputs) const {
        for (const std::string& path : inputs) {
            const auto found = makers_.find(path);
            if (found != makers_.end()) {
                needs.add(static_cast<Node>(found->second));
            }
        }
    }

    [[noreturn]] void refuse_cycle(const Digraph& needs) const {
        std::string text = "cycle";
        const char* between = " ";
        for (Node edge : least_cycle(needs)) {
            text += between + edges_[edge].outputs.front();
            between = " -> ";
        }
        throw Refusal(text);
    }
};

// The graph of an edge listing, whose rules' names are slices of the text.
inline Graph graph_of(std::string_view text) {
    ListingReader reader;
    read_lines(text, "edges: ", reader);
    return Graph(std::move(reader.edges));
}

inline std::vector<Statement> statements_of(std::string_view text) {
    DyndepReader reader;
    read_lines(text, "", reader);
    return std::move(reader.statements);
}

inline void append_part(std::string& text, const char* mark,
                        const std::vector<std::string>& paths) {
    text += paths.empty() ? "" : mark;
    for (const std::string& path : paths) {
        text += ' ';
        append_path(text, path);
    }
}

// The listing of edges.
inline std::string listing_text(const std::vector<Edge>& edges) {
    std::string text;
    for (const Edge& edge : edges) {
        const std::size_t start = text.size();
        text += "build";
        append_part(text, "", edge.outputs);
        append_part(text, " |", edge.implicit_outputs);
        text += ": ";
        text += edge.rule;
        append_part(text, "", edge.inputs);
        append_part(text, " |", edge.implicit_inputs);
        append_part(text, " ||", edge.order_only);
        text += '\n';
        if (text.size() - start > max_line) {
            throw Refusal("E9 ListingTooLong " + edge.outputs.front());
        }
        if (edge.dyndep) {
            text += "  dyndep = ";
            append_path(text, *edge.dyndep);
            text += '\n';
        }
        text += edge.restat ? "  restat = 1\n" : "";
    }
    return text;
}
