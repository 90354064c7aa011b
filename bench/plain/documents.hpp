// Scan, info, target and project documents (docs/FORMATS.md, "Documents"), read with RapidJSON
// (Debian's package rapidjson-dev). The checks are made in the order of that page.
#pragma once

// RapidJSON then skips spaces by instructions of SSE 4.2
#ifdef __SSE4_2__
#define RAPIDJSON_SSE42
#endif
#include <rapidjson/document.h>

#include <algorithm>
#include <array>
#include <cstddef>
#include <string>
#include <string_view>
#include <utility>
#include <vector>

#include "faults.hpp"
#include "paths.hpp"

using rapidjson::Value;

constexpr std::size_t max_document = 16'777'216;
constexpr rapidjson::SizeType max_entries = 65'536;
constexpr std::size_t max_name = 1'024;

// A module that a document tells. The name is a slice of the document.
struct Module {
    std::string_view name;
    std::string file;
};

// What a scan document says of one source.
struct Rule {
    std::string object;
    std::vector<Module> provided;
    std::vector<std::string_view> required;
};

// What an info tells of a module.
struct InfoModule {
    std::string_view name;
    std::string file;
    std::vector<Module> required;
    bool is_private = false;
};

struct Info {
    std::string_view target;
    std::vector<InfoModule> modules;
};

// Where modules are compiled to, and the build directory, which is empty if there is none.
struct Setting {
    std::string_view module_dir;
    std::string_view module_ext;
    std::string build_directory = {};
};

enum class Map { none, gcc, clang };

// What a target document says. The texts are slices of it.
struct TargetSpec {
    std::string_view name;
    Setting setting;
    std::vector<std::string_view> scans;
    std::vector<std::string_view> linked;
    std::vector<std::string_view> kept;
    std::string_view dyndep;
    std::string dyndep_path;
    std::string_view info;
    Map map = Map::none;
    std::string_view edges;
    bool has_edges = false;
};

// A place in a document. Its text is made if an error needs it.
struct Place {
    const char* list = nullptr;
    std::size_t number = 0;
    const char* part = nullptr;
    std::size_t entry = 0;

    std::string text() const {
        if (list == nullptr) {
            return "document";
        }
        std::string text = std::string(list) + " " + std::to_string(number);
        if (part != nullptr) {
            text += std::string(" ") + part + " " + std::to_string(entry);
        }
        return text;
    }
};

[[noreturn]] inline void refuse(const char* fault, const Place& place, const char* rest = "") {
    throw Refusal(std::string(fault) + " " + place.text() + rest);
}

[[noreturn]] inline void refuse_shape(const Place& place, const char* member) {
    throw Refusal("S3 BadShape " + place.text() + " member " + member);
}

[[noreturn]] inline void refuse_path(const Place& place, const PathFault& fault) {
    throw Refusal("S7 BadPath " + place.text() + " " + fault.text);
}

inline std::string_view view(const Value& text) {
    return {text.GetString(), text.GetStringLength()};
}

// A member that is there and not null, or a null pointer. The last one of a name counts.
inline const Value* member_of(const Value& object, std::string_view name) {
    for (auto member = object.MemberEnd(); member != object.MemberBegin();) {
        --member;
        if (view(member->name) == name) {
            return member->value.IsNull() ? nullptr : &member->value;
        }
    }
    return nullptr;
}

inline const Value* text_member(const Value& object, const char* name, const Place& place) {
    const Value* member = member_of(object, name);
    if (member != nullptr && !member->IsString()) {
        refuse_shape(place, name);
    }
    return member;
}

inline const Value* array_member(const Value& object, const char* name, const Place& place) {
    const Value* member = member_of(object, name);
    if (member != nullptr && !member->IsArray()) {
        refuse_shape(place, name);
    }
    return member;
}

inline bool flag_member(const Value& object, const char* name, const Place& place) {
    const Value* member = member_of(object, name);
    if (member != nullptr && !member->IsBool()) {
        refuse_shape(place, name);
    }
    return member != nullptr && member->GetBool();
}

// A text that must be there.
inline std::string_view needed_text(const Value& object, const char* name, const Place& place) {
    const Value* member = text_member(object, name, place);
    if (member == nullptr) {
        refuse_shape(place, name);
    }
    return view(*member);
}

// An array that must be there.
inline const Value& needed_array(const Value& object, const char* name, const Place& place) {
    const Value* member = array_member(object, name, place);
    if (member == nullptr) {
        refuse_shape(place, name);
    }
    return *member;
}

inline std::vector<std::string_view> texts_of(const Value* list, const char* name) {
    std::vector<std::string_view> texts;
    if (list == nullptr) {
        return texts;
    }
    texts.reserve(list->Size());
    for (const Value& text : list->GetArray()) {
        if (!text.IsString()) {
            refuse_shape({}, name);
        }
        texts.push_back(view(text));
    }
    return texts;
}

inline std::vector<std::string_view> texts_member(const Value& object, const char* name) {
    return texts_of(array_member(object, name, {}), name);
}

// The bytes that no name may have.
constexpr std::array<bool, 256> refused_in_names = [] {
    std::array<bool, 256> refused{};
    for (std::size_t byte = 0; byte < 33; ++byte) {
        refused[byte] = true;
    }
    for (unsigned char byte : {'/', '\\', '"', '\'', '=', '|', '$', '\x7f'}) {
        refused[byte] = true;
    }
    return refused;
}();

inline bool is_name(std::string_view text) {
    if (text.empty() || text.size() > max_name) {
        return false;
    }
    bool is_part_empty = true;
    bool has_colon = false;
    for (char byte : text) {
        if (refused_in_names[static_cast<unsigned char>(byte)]) {
            return false;
        }
        const bool is_separator = byte == '.' || byte == ':';
        if (is_separator && (is_part_empty || (byte == ':' && has_colon))) {
            return false;
        }
        has_colon = has_colon || byte == ':';
        is_part_empty = is_separator;
    }
    return !is_part_empty;
}

inline bool is_target_name(std::string_view text) {
    const auto is_control = [](char byte) {
        return static_cast<unsigned char>(byte) < 32 || byte == 127;
    };
    return !text.empty() && text.size() <= max_name &&
           std::none_of(text.begin(), text.end(), is_control);
}

// Parses documents in place, one after the other, with one allocator. A document's values are valid
// until the next is read, and its texts as long as its bytes.
class JsonReader {
public:
    // The members of a document, whose version must be one of those from the least to the greatest.
    const Value& read(std::string& bytes, unsigned least, unsigned greatest) {
        if (bytes.size() > max_document) {
            refuse("S8 TooLarge", {});
        }
        document_.SetNull();
        allocator_.Clear();
        constexpr unsigned flags = rapidjson::kParseValidateEncodingFlag;
        if (document_.ParseInsitu<flags>(bytes.data()).HasParseError()) {
            refuse("S1 NotJson", {});
        }
        if (!document_.IsObject()) {
            refuse_shape({}, "document");
        }
        const Value* version = member_of(document_, "version");
        if (version == nullptr || !version->IsUint() || version->GetUint() < least ||
            version->GetUint() > greatest) {
            refuse("S2 BadVersion", {});
        }
        version_ = version->GetUint();
        return document_;
    }

    unsigned version() const { return version_; }

private:
    rapidjson::Document::AllocatorType allocator_;
    rapidjson::Document document_{&allocator_};
    unsigned version_ = 0;
};

// Reads scan documents.
class ScanReader {
public:
    explicit ScanReader(const Setting& setting) : setting_(setting) {}

    // Appends the rules of a document.
    void read(std::string& bytes, std::vector<Rule>& rules) {
        const Value& document = json_.read(bytes, 0, 1);
        const Value& list = needed_array(document, "rules", {});
        if (list.Size() > max_entries) {
            refuse("S8 TooLarge", {});
        }
        std::size_t number = 0;
        for (const Value& rule : list.GetArray()) {
            rules.push_back(read_rule(rule, Place{"rule", number++}));
        }
    }

private:
    const Setting& setting_;
    JsonReader json_;
    PathReader paths_;

    static bool has_too_many(const Value* entries) {
        return entries != nullptr && entries->Size() > max_entries;
    }

    std::string read_path(std::string_view text, std::string_view work_directory,
                          const Place& place) {
        try {
            return paths_.place(text, work_directory, setting_.build_directory);
        } catch (const PathFault& fault) {
            refuse_path(place, fault);
        }
    }

    Rule read_rule(const Value& value, const Place& place) {
        if (!value.IsObject()) {
            refuse_shape(place, "rule");
        }
        const Value* output = text_member(value, "primary-output", place);
        const Value* directory = text_member(value, "work-directory", place);
        const Value* provided = array_member(value, "provides", place);
        const Value* required = array_member(value, "requires", place);
        if (output == nullptr) {
            refuse("S4 NoPrimaryOutput", place);
        }
        const std::string_view work_directory =
            directory == nullptr ? std::string_view() : view(*directory);
        Rule rule;
        rule.object = read_path(view(*output), work_directory, place);
        if (has_too_many(provided) || has_too_many(required)) {
            refuse("S8 TooLarge", place);
        }
        read_entries(provided, "provides", place, rule.provided,
                     [&](const Value& entry, const Place& at) {
                         return read_provided(entry, work_directory, at);
                     });
        read_entries(required, "requires", place, rule.required,
                     [&](const Value& entry, const Place& at) { return read_required(entry, at); });
        return rule;
    }

    template <class Entry, class Read>
    static void read_entries(const Value* list, const char* name, const Place& place,
                             std::vector<Entry>& entries, const Read& read) {
        if (list == nullptr) {
            return;
        }
        entries.reserve(list->Size());
        for (const Value& entry : list->GetArray()) {
            entries.push_back(read(entry, Place{place.list, place.number, name, entries.size()}));
        }
    }

    // The logical name of an entry, whose bytes are not checked yet.
    static std::string_view read_logical_name(const Value& entry, const Place& place) {
        if (!entry.IsObject()) {
            refuse_shape(place, "entry");
        }
        return needed_text(entry, "logical-name", place);
    }

    Module read_provided(const Value& entry, std::string_view work_directory, const Place& place) {
        const std::string_view name = read_logical_name(entry, place);
        const Value* file = text_member(entry, "compiled-module-path", place);
        const bool is_header_unit = flag_member(entry, "unique-on-source-path", place);
        flag_member(entry, "is-interface", place);
        if (is_header_unit) {
            refuse("S5 HeaderUnit", place);
        }
        if (!is_name(name)) {
            refuse("S6 BadName", place);
        }
        if (file != nullptr) {
            return {name, read_path(view(*file), work_directory, place)};
        }
        return {name, read_path(module_file(name), {}, place)};
    }

    static std::string_view read_required(const Value& entry, const Place& place) {
        const std::string_view name = read_logical_name(entry, place);
        bool is_header_unit = flag_member(entry, "unique-on-source-path", place);
        if (const Value* method = text_member(entry, "lookup-method", place)) {
            const bool is_include =
                view(*method) == "include-angle" || view(*method) == "include-quote";
            if (!is_include && view(*method) != "by-name") {
                refuse_shape(place, "lookup-method");
            }
            is_header_unit = is_header_unit || is_include;
        }
        if (is_header_unit) {
            refuse("S5 HeaderUnit", place);
        }
        if (!is_name(name)) {
            refuse("S6 BadName", place);
        }
        return name;
    }

    // Where a module is compiled to, for which the document names no file.
    std::string module_file(std::string_view name) const {
        std::string file(setting_.module_dir);
        if (!file.empty()) {
            file += '/';
        }
        file += name;
        std::replace(file.end() - static_cast<std::ptrdiff_t>(name.size()), file.end(), ':', '-');
        file += setting_.module_ext;
        return file;
    }
};

// The name of the target of an info or a target document.
inline std::string_view target_name_of(const Value& document) {
    const std::string_view name = needed_text(document, "target", {});
    if (!is_target_name(name)) {
        refuse("S6 BadName", {});
    }
    return name;
}

// Reads info files.
class InfoReader {
public:
    Info read(std::string& bytes) {
        const Value& document = json_.read(bytes, 1, 2);
        Info info;
        info.target = target_name_of(document);
        const Value& list = needed_array(document, "modules", {});
        info.modules.reserve(list.Size());
        for (const Value& module : list.GetArray()) {
            info.modules.push_back(read_module(module, Place{"module", info.modules.size()}));
        }
        return info;
    }

private:
    JsonReader json_;
    PathReader paths_;

    Module read_pair(std::string_view name, std::string_view file, const Place& place) {
        if (!is_name(name)) {
            refuse("S6 BadName", place);
        }
        try {
            return {name, paths_.read(file)};
        } catch (const PathFault& fault) {
            refuse_path(place, fault);
        }
    }

    InfoModule read_module(const Value& value, const Place& place) {
        if (!value.IsObject()) {
            refuse_shape(place, "entry");
        }
        const std::string_view file = needed_text(value, "bmi", place);
        const std::string_view name = needed_text(value, "name", place);
        const Value& required = needed_array(value, "requires", place);
        const bool is_private = json_.version() == 2 && read_visibility(value, place);
        Module pair = read_pair(name, file, place);
        InfoModule module{pair.name, std::move(pair.file), {}, is_private};
        module.required.reserve(required.Size());
        for (const Value& entry : required.GetArray()) {
            const Place at{place.list, place.number, "requires", module.required.size()};
            if (!entry.IsObject()) {
                refuse_shape(at, "entry");
            }
            const std::string_view entry_file = needed_text(entry, "bmi", at);
            const std::string_view entry_name = needed_text(entry, "name", at);
            module.required.push_back(read_pair(entry_name, entry_file, at));
        }
        return module;
    }

    // Whether the module is private.
    static bool read_visibility(const Value& value, const Place& place) {
        const std::string_view visibility = needed_text(value, "visibility", place);
        if (visibility != "public" && visibility != "private") {
            refuse_shape(place, "visibility");
        }
        return visibility == "private";
    }
};

// Reads target documents.
class SpecReader {
public:
    TargetSpec read(std::string& bytes) {
        const Value& document = json_.read(bytes, 1, 1);
        TargetSpec spec;
        spec.name = target_name_of(document);
        spec.setting.module_dir = needed_text(document, "module-dir", {});
        spec.setting.module_ext = needed_text(document, "module-ext", {});
        spec.setting.build_directory = read_build_directory(document);
        spec.scans = texts_member(document, "scans");
        spec.linked = texts_member(document, "linked");
        spec.kept = texts_member(document, "private");
        if (!std::all_of(spec.kept.begin(), spec.kept.end(), is_name)) {
            refuse("S6 BadName", {});
        }
        read_outputs(document, spec);
        return spec;
    }

    // The target documents of a project document.
    std::vector<std::string_view> read_project(std::string& bytes) {
        const Value& document = json_.read(bytes, 1, 1);
        return texts_of(&needed_array(document, "targets", {}), "targets");
    }

private:
    JsonReader json_;
    PathReader paths_;

    std::string read_build_directory(const Value& document) {
        const Value* directory = text_member(document, "build-dir", {});
        if (directory == nullptr) {
            return {};
        }
        try {
            std::string path = paths_.read(view(*directory));
            if (path.starts_with('/')) {
                return path;
            }
        } catch (const PathFault&) {
        }
        refuse_shape({}, "build-dir");
    }

    // Where a target's files go.
    void read_outputs(const Value& document, TargetSpec& spec) {
        spec.dyndep = needed_text(document, "dyndep", {});
        try {
            spec.dyndep_path = paths_.read(spec.dyndep, spec.setting.build_directory);
        } catch (const PathFault& fault) {
            refuse_path({}, fault);
        }
        spec.info = needed_text(document, "info", {});
        if (spec.info.empty()) {
            refuse_shape({}, "info");
        }
        if (const Value* map = text_member(document, "map", {})) {
            if (view(*map) != "gcc" && view(*map) != "clang") {
                refuse_shape({}, "map");
            }
            spec.map = view(*map) == "gcc" ? Map::gcc : Map::clang;
        }
        if (const Value* edges = text_member(document, "edges", {})) {
            spec.has_edges = true;
            spec.edges = view(*edges);
        }
    }
};
