// What is written for a target: its dyndep text,
// its info and the maps of its objects (docs/FORMATS.md).
#pragma once

#include <algorithm>
#include <cstddef>
#include <cstdio>
#include <string>
#include <string_view>
#include <utility>
#include <vector>

#include "documents.hpp"
#include "faults.hpp"
#include "paths.hpp"
#include "table.hpp"

constexpr std::size_t max_line = 1'048'576;

struct Collated {
    std::string dyndep;
    std::string info;
    // a text for each object, if there are maps
    std::vector<std::string> maps;
};

// Appends the statement of an object.
inline void append_statement(std::string& text, const Table& table, std::size_t object) {
    const Rule& rule = table.rules()[object];
    const std::size_t start = text.size();
    text += "build ";
    append_path(text, rule.object);
    text += rule.provided.empty() ? "" : " |";
    for (const Module& module : rule.provided) {
        text += ' ';
        append_path(text, module.file);
    }
    text += ": dyndep";
    const Digraph::Row required = table.required(object);
    text += required.begin() == required.end() ? "" : " |";
    for (Node number : required) {
        text += ' ';
        append_path(text, *table.module(number).file);
    }
    text += '\n';
    if (text.size() - start > max_line) {
        throw Refusal("Y2 StatementTooLong statement " + std::to_string(object));
    }
    text += rule.provided.empty() ? "" : "  restat = 1\n";
}

inline std::string dyndep_text(const Table& table) {
    std::string text = "ninja_dyndep_version = 1\n";
    for (std::size_t object = 0; object < table.rules().size(); ++object) {
        append_statement(text, table, object);
    }
    return text;
}

// Appends a JSON text.
inline void append_json(std::string& text, std::string_view value) {
    text += '"';
    for (char byte : value) {
        const auto code = static_cast<unsigned char>(byte);
        constexpr std::string_view short_codes = "\b\t\n\f\r\"\\";
        const std::size_t found = short_codes.find(byte);
        if (code >= 32 && found == std::string_view::npos) {
            text += byte;
        } else if (found != std::string_view::npos) {
            text += '\\';
            text += "btnfr\"\\"[found];
        } else {
            char escape[8];
            std::snprintf(escape, sizeof escape, "\\u%04x", code);
            text += escape;
        }
    }
    text += '"';
}

// Appends the file and the name of a module, and begins the list of what it requires.
inline void append_pair(std::string& text, const Provided& module) {
    text += "{\"bmi\":";
    append_json(text, *module.file);
    text += ",\"name\":";
    append_json(text, module.name);
}

inline std::string info_text(const Table& table, const TargetSpec& spec) {
    std::vector<std::string_view> kept = spec.kept;
    std::sort(kept.begin(), kept.end());
    std::string text = "{\"modules\":[";
    for (std::size_t number = 0; number < table.own_count(); ++number) {
        const Provided& module = table.module(static_cast<Node>(number));
        text += number == 0 ? "" : ",";
        append_pair(text, module);
        text += ",\"requires\":[";
        const char* between = "";
        for (Node required : table.required(module.maker)) {
            text += between;
            append_pair(text, table.module(required));
            text += '}';
            between = ",";
        }
        const bool is_kept = std::binary_search(kept.begin(), kept.end(), module.name);
        text += is_kept ? "],\"visibility\":\"private\"}" : "],\"visibility\":\"public\"}";
    }
    text += "],\"target\":";
    append_json(text, spec.name);
    return text + ",\"version\":2}";
}

// Writes the maps of objects.
class MapWriter {
public:
    MapWriter(const Table& table, Map map)
        : table_(table), map_(map), finder_(table), is_unfit_(table.module_count()) {
        for (std::size_t number = 0; number < table.module_count(); ++number) {
            const std::string& file = *table.module(static_cast<Node>(number)).file;
            is_unfit_[number] = std::any_of(file.begin(), file.end(), is_quoted);
        }
    }

    std::string text(std::size_t object) {
        const std::vector<Node>& needed = finder_.needed(object);
        const Node first = table_.first_module(object);
        const Node last = table_.first_module(object + 1);
        std::string text;
        for (Node number = first; number < last; ++number) {
            append_provided(text, checked(number));
        }
        for (Node number : needed) {
            append_needed(text, checked(number));
        }
        if (map_ == Map::clang && last - first > 1) {
            throw Refusal("K2 TwoProvided " + table_.rules()[object].object);
        }
        return text;
    }

private:
    const Table& table_;
    Map map_;
    NeededFinder finder_;
    std::vector<bool> is_unfit_;

    // Whether a path with the byte would need quotes.
    static bool is_quoted(char byte) {
        const auto code = static_cast<unsigned char>(byte);
        return code < 33 || code == 127 || byte == '\'' || byte == '"' || byte == '\\';
    }

    const Provided& checked(Node number) const {
        const Provided& module = table_.module(number);
        if (is_unfit_[number]) {
            throw Refusal("K1 MapPath " + *module.file);
        }
        return module;
    }

    void append_provided(std::string& text, const Provided& module) const {
        if (map_ == Map::clang) {
            text += "-x c++-module\n-fmodule-output=";
            text += *module.file;
            text += '\n';
        } else {
            append_needed(text, module);
        }
    }

    void append_needed(std::string& text, const Provided& module) const {
        text += map_ == Map::clang ? "-fmodule-file=" : "";
        text += module.name;
        text += map_ == Map::clang ? '=' : ' ';
        text += *module.file;
        text += '\n';
    }
};

inline std::vector<std::string> map_texts(const Table& table, Map map) {
    std::vector<std::string> texts;
    texts.reserve(table.rules().size());
    MapWriter writer(table, map);
    for (std::size_t object = 0; object < table.rules().size(); ++object) {
        texts.push_back(writer.text(object));
    }
    return texts;
}

// What is written for a target of these rules and info files.
inline Collated collate(const TargetSpec& spec, const std::vector<Rule>& rules,
                        const std::vector<const Info*>& infos) {
    const Table table(rules, infos, spec.kept);
    Collated collated;
    collated.dyndep = dyndep_text(table);
    if (spec.map != Map::none) {
        collated.maps = map_texts(table, spec.map);
    }
    collated.info = info_text(table, spec);
    return collated;
}

// The rules of a target's scan documents, whose bytes must stay where they are.
inline std::vector<Rule> scan_rules(std::vector<std::string>& scans, const Setting& setting) {
    std::vector<Rule> rules;
    ScanReader reader(setting);
    for (std::size_t number = 0; number < scans.size(); ++number) {
        labelled([&] { return "scan " + std::to_string(number); }, [&] {
            reader.read(scans[number], rules);
            if (rules.size() > max_entries) {
                refuse("S8 TooLarge", {});
            }
        });
    }
    return rules;
}
