// What an expert writes who needs `dyncollate collate` to be fast and proves nothing: the second
// program that dyncollate is compared with. It uses simdjson (Debian's package libsimdjson-dev),
// one arena for all strings, flat tables of numbers, and one open file for each directory that it
// writes to. It makes every check of docs/FORMATS.md. If there is an error, it prints only a code,
// and if there are several, maybe another one than dyncollate. It has no edge lists and no
// `restat`.
#include <fcntl.h>
#include <simdjson.h>
#include <sys/mman.h>
#include <sys/random.h>
#include <sys/stat.h>
#include <unistd.h>

#include <algorithm>
#include <cstddef>
#include <cstdint>
#include <cstdio>
#include <cstdlib>
#include <cstring>
#include <string>
#include <string_view>
#include <vector>

namespace {

using simdjson::dom::element;
using std::string_view;
using Number = std::uint32_t;

constexpr Number none = UINT32_MAX;
constexpr std::size_t max_document = 16'777'216;
constexpr std::size_t max_entries = 65'536;
constexpr std::size_t max_name = 1'024;
constexpr std::size_t max_path = 4'096;
constexpr std::size_t max_line = 1'048'576;

// ---- how a run ends early

[[noreturn]] void fail(const char* code) {
    std::fprintf(stderr, "dyncollate: %s\n", code);
    _exit(1);
}

[[noreturn]] void fail_file(const char* what, const char* name) {
    std::fprintf(stderr, "dyncollate: cannot %s %s\n", what, name);
    _exit(3);
}

// ---- memory

// Memory that is given back at the end of the run.
class Arena {
public:
    char* take(std::size_t size) {
        if (static_cast<std::size_t>(end_ - next_) < size) {
            const std::size_t block = std::max<std::size_t>(size, 1 << 20);
            void* const memory =
                mmap(nullptr, block, PROT_READ | PROT_WRITE, MAP_PRIVATE | MAP_ANONYMOUS, -1, 0);
            if (memory == MAP_FAILED) {
                std::fputs("dyncollate: out of memory\n", stderr);
                _exit(3);
            }
            next_ = static_cast<char*>(memory);
            end_ = next_ + block;
        }
        next_ += size;
        return next_ - size;
    }

    string_view copy(string_view text) {
        char* const room = take(text.size());
        std::memcpy(room, text.data(), text.size());
        return {room, text.size()};
    }

    // A copy with a zero at its end, as the system takes names.
    const char* name(string_view text) {
        char* const room = take(text.size() + 1);
        std::memcpy(room, text.data(), text.size());
        room[text.size()] = '\0';
        return room;
    }

private:
    char* next_ = nullptr;
    char* end_ = nullptr;
};

Arena arena;

// Bytes that grow. Unlike those of std::string, new ones are not set to zero.
class Buffer {
public:
    char* data() const { return data_; }
    std::size_t size() const { return size_; }
    std::size_t room() const { return room_ - size_; }
    string_view from(std::size_t start) const { return {data_ + start, size_ - start}; }
    void clear() { size_ = 0; }

    void reserve(std::size_t more) {
        if (size_ + more > room_) {
            room_ = std::max({2 * room_, size_ + more, std::size_t{1} << 16});
            data_ = static_cast<char*>(std::realloc(data_, room_));
            if (data_ == nullptr) {
                std::fputs("dyncollate: out of memory\n", stderr);
                _exit(3);
            }
        }
    }
    // Adds bytes that were written after the last one.
    void extend(std::size_t more) { size_ += more; }

    Buffer& operator<<(string_view text) {
        reserve(text.size());
        std::memcpy(data_ + size_, text.data(), text.size());
        size_ += text.size();
        return *this;
    }
    Buffer& operator<<(char byte) {
        reserve(1);
        data_[size_++] = byte;
        return *this;
    }

private:
    char* data_ = nullptr;
    std::size_t size_ = 0;
    std::size_t room_ = 0;
};

// ---- hash tables

std::uint64_t seed;

std::uint64_t folded(std::uint64_t first, std::uint64_t second) {
    const unsigned __int128 product = static_cast<unsigned __int128>(first) * second;
    return static_cast<std::uint64_t>(product) ^ static_cast<std::uint64_t>(product >> 64);
}

template <class Word>
std::uint64_t word_at(const char* bytes) {
    Word word;
    std::memcpy(&word, bytes, sizeof word);
    return word;
}

// The hash of Wang Yi's wyhash, with a seed that is drawn for each run.
std::uint64_t hash_of(string_view text) {
    const char* bytes = text.data();
    std::size_t size = text.size();
    std::uint64_t hash = seed ^ size;
    std::uint64_t first = 0, last = 0;
    if (size > 16) {
        for (; size > 16; bytes += 16, size -= 16) {
            hash = folded(word_at<std::uint64_t>(bytes) ^ 0xa0761d6478bd642f,
                          word_at<std::uint64_t>(bytes + 8) ^ hash);
        }
        first = word_at<std::uint64_t>(bytes + size - 16);
        last = word_at<std::uint64_t>(bytes + size - 8);
    } else if (size >= 4) {
        const std::size_t middle = size / 8 * 4;
        first = word_at<std::uint32_t>(bytes) << 32 | word_at<std::uint32_t>(bytes + middle);
        last = word_at<std::uint32_t>(bytes + size - 4) << 32 |
               word_at<std::uint32_t>(bytes + size - 4 - middle);
    } else if (size > 0) {
        const auto byte = [&](std::size_t index) {
            return std::uint64_t{static_cast<unsigned char>(bytes[index])};
        };
        first = byte(0) << 16 | byte(size / 2) << 8 | byte(size - 1);
    }
    return folded(0xe7037ed1a0b428db ^ text.size(),
                  folded(first ^ 0x8ebc6af09c88c6e3, last ^ hash));
}

// Numbers by the string that each has, with open addressing.
// `text_of` returns the string of a number.
class Table {
public:
    explicit Table(std::size_t most) {
        std::size_t size = 16;
        while (size < 2 * most) {
            size *= 2;
        }
        slots_.assign(size, {0, none});
    }

    // Returns the number that has the string. If there is none, this one is added.
    template <class TextOf>
    Number add(string_view text, Number number, const TextOf& text_of) {
        const std::uint64_t hash = hash_of(text);
        Slot& slot = slots_[find(hash, text, text_of)];
        const Number found = slot.number;
        if (found == none) {
            slot = {tag_of(hash), number};
        }
        return found;
    }

    template <class TextOf>
    Number number_of(string_view text, const TextOf& text_of) const {
        return slots_[find(hash_of(text), text, text_of)].number;
    }

private:
    struct Slot {
        std::uint32_t tag;
        Number number;
    };
    std::vector<Slot> slots_;

    static std::uint32_t tag_of(std::uint64_t hash) {
        return static_cast<std::uint32_t>(hash >> 32);
    }

    // The slot of the string, or the empty slot for it.
    template <class TextOf>
    std::size_t find(std::uint64_t hash, string_view text, const TextOf& text_of) const {
        const std::size_t mask = slots_.size() - 1;
        std::size_t index = hash & mask;
        while (slots_[index].number != none &&
               (slots_[index].tag != tag_of(hash) || text_of(slots_[index].number) != text)) {
            index = (index + 1) & mask;
        }
        return index;
    }
};

// ---- names and paths

// What a byte may not be in, or not without an escape.
enum Kind : unsigned char {
    in_no_path = 1,
    in_no_name = 2,
    escaped_by_ninja = 4,
    escaped_in_json = 8,
    in_no_map = 16
};

struct Kinds {
    unsigned char of[256] = {};

    constexpr Kinds() {
        for (unsigned byte = 0; byte < 33; ++byte) {
            of[byte] |= in_no_name | in_no_map | (byte < 32 ? escaped_in_json : 0);
        }
        add("/\\\"'=|$\x7f", in_no_name);
        add({"|\0\r\n", 4}, in_no_path);
        add("$ :", escaped_by_ninja);
        add("\"\\", escaped_in_json);
        add("\x7f'\"\\", in_no_map);
    }
    constexpr void add(string_view bytes, unsigned char kind) {
        for (char byte : bytes) {
            of[static_cast<unsigned char>(byte)] |= kind;
        }
    }
};

constexpr Kinds kinds;

unsigned char kinds_of(char byte) {
    return kinds.of[static_cast<unsigned char>(byte)];
}

bool has_kind(string_view text, Kind kind) {
    return std::any_of(text.begin(), text.end(), [=](char byte) { return kinds_of(byte) & kind; });
}

void check_name(string_view text) {
    bool is_part_empty = true;
    bool has_colon = false;
    for (char byte : text) {
        const bool is_separator = byte == '.' || byte == ':';
        if (kinds_of(byte) & in_no_name ||
            (is_separator && (is_part_empty || (byte == ':' && has_colon)))) {
            fail("S6");
        }
        has_colon |= byte == ':';
        is_part_empty = is_separator;
    }
    if (is_part_empty || text.size() > max_name) {
        fail("S6");
    }
}

// A canonical path in the arena. Its kinds are at least those of its bytes.
struct Path {
    string_view text;
    unsigned char kinds;
};

bool has_kind(const Path& path, Kind kind) {
    return path.kinds & kind && has_kind(path.text, kind);
}

// A canonical path in the arena, of a text that is not one.
string_view reduced(string_view text) {
    static std::vector<string_view> components;
    components.clear();
    for (std::size_t start = 0; start <= text.size();) {
        const std::size_t end = std::min(text.find('/', start), text.size());
        const string_view component = text.substr(start, end - start);
        if (component == ".." && !components.empty() && components.back() != "..") {
            components.pop_back();
        } else if (!component.empty() && component != ".") {
            components.push_back(component);
        }
        start = end + 1;
    }
    const bool is_absolute = text.starts_with('/');
    if (components.empty()) {
        fail("N1");
    }
    if (is_absolute && components.front() == "..") {
        fail("N2");
    }
    char* const room = arena.take(text.size());
    std::size_t size = 0;
    for (string_view component : components) {
        if (is_absolute || size > 0) {
            room[size++] = '/';
        }
        std::memcpy(room + size, component.data(), component.size());
        size += component.size();
    }
    return {room, size};
}

// The path of a text, taken from a build directory, which is empty if there is none.
Path path_of(string_view text, string_view build_directory) {
    unsigned char found = 0;
    // whether the text is canonical as far as it was read, and its last component has only dots
    bool is_canonical = true;
    bool is_dots = true;
    for (std::size_t index = 0; index < text.size(); ++index) {
        const char byte = text[index];
        found |= kinds_of(byte);
        if (byte == '/') {
            is_canonical &= !is_dots || index == 0;
            is_dots = true;
        } else if (byte != '.') {
            is_dots = false;
        }
    }
    if (found & in_no_path) {
        fail("N3");
    }
    is_canonical &= !is_dots;
    string_view path = is_canonical ? text : reduced(text);
    const std::size_t length = build_directory.size();
    if (length > 0 && path.size() > length && path[length] == '/' &&
        path.starts_with(build_directory)) {
        path.remove_prefix(length + 1);
    }
    if (path.size() > max_path) {
        fail("N4");
    }
    return {is_canonical ? arena.copy(path) : path, found};
}

// ---- documents

simdjson::dom::parser parser;

// Reads a whole file. After its bytes there is the room that the parser needs.
void read_file(const char* name, Buffer& buffer) {
    const int file = open(name, O_RDONLY | O_CLOEXEC);
    if (file < 0) {
        fail_file("read", name);
    }
    buffer.clear();
    buffer.reserve(16'384 + simdjson::SIMDJSON_PADDING);
    for (;;) {
        const std::size_t room = buffer.room() - simdjson::SIMDJSON_PADDING;
        const ssize_t count = read(file, buffer.data() + buffer.size(), room);
        if (count < 0) {
            fail_file("read", name);
        }
        buffer.extend(static_cast<std::size_t>(count));
        if (static_cast<std::size_t>(count) < room) {
            break;
        }
        buffer.reserve(buffer.size() + simdjson::SIMDJSON_PADDING);
    }
    close(file);
}

// A member of an object. If it is there several times, the last one counts,
// and null means that it is not there.
class Member {
public:
    void operator=(element value) {
        value_ = value;
        is_there_ = !value.is_null();
    }
    bool is_there() const { return is_there_; }

    bool flag() const {
        bool flag = false;
        if (is_there_ && value_.get(flag)) {
            fail("S3");
        }
        return flag;
    }
    string_view text() const {
        string_view text;
        if (!is_there_ || value_.get(text)) {
            fail("S3");
        }
        return text;
    }
    string_view text_if_there() const { return is_there_ ? text() : string_view(); }

    // Passes each entry of a list to the function.
    template <class Read>
    void each(const Read& read) const {
        simdjson::dom::array list;
        if (is_there_ && value_.get(list)) {
            fail("S3");
        }
        if (is_there_) {
            for (element entry : list) {
                read(entry);
            }
        }
    }
    void check_is_there() const {
        if (!is_there_) {
            fail("S3");
        }
    }

private:
    element value_;
    bool is_there_ = false;
};

simdjson::dom::object object_of(element value) {
    simdjson::dom::object object;
    if (value.get(object)) {
        fail("S3");
    }
    return object;
}

// The members of a document whose version is at least one number and at most another.
simdjson::dom::object document_of(const Buffer& buffer, std::uint64_t least, std::uint64_t most) {
    if (buffer.size() > max_document) {
        fail("S8");
    }
    element root;
    if (parser.parse(reinterpret_cast<const std::uint8_t*>(buffer.data()), buffer.size(), false)
            .get(root)) {
        fail("S1");
    }
    const simdjson::dom::object document = object_of(root);
    bool is_known = false;
    for (const auto& [key, value] : document) {
        std::uint64_t version = 0;
        if (key == "version") {
            is_known = !value.get(version) && version >= least && version <= most;
        }
    }
    if (!is_known) {
        fail("S2");
    }
    return document;
}

// What a target document says. The strings are in the arena.
struct Spec {
    string_view target, module_dir, module_ext, build_dir, dyndep, info, map;
    std::vector<const char*> scans, linked;
    std::vector<string_view> private_names;
};

Spec read_spec(const char* name) {
    Buffer buffer;
    read_file(name, buffer);
    Member target, module_dir, module_ext, build_dir, dyndep, info, map, scans, linked,
        private_names;
    for (const auto& [key, value] : document_of(buffer, 1, 1)) {
        if (key == "target") target = value;
        else if (key == "module-dir") module_dir = value;
        else if (key == "module-ext") module_ext = value;
        else if (key == "build-dir") build_dir = value;
        else if (key == "dyndep") dyndep = value;
        else if (key == "info") info = value;
        else if (key == "map") map = value;
        else if (key == "scans") scans = value;
        else if (key == "linked") linked = value;
        else if (key == "private") private_names = value;
        else if (key == "edges" || key == "restat")
            fail("members that this program does not have: edges, restat");
    }
    Spec spec{arena.copy(target.text()),
              arena.copy(module_dir.text()),
              arena.copy(module_ext.text()),
              {},
              arena.copy(dyndep.text()),
              arena.copy(info.text()),
              arena.copy(map.text_if_there()),
              {},
              {},
              {}};
    if (build_dir.is_there()) {
        spec.build_dir = path_of(build_dir.text(), {}).text;
    }
    const bool has_map_form = spec.map.empty() || spec.map == "gcc" || spec.map == "clang";
    const bool has_build_dir = !build_dir.is_there() || spec.build_dir.starts_with('/');
    if (spec.target.empty() || spec.dyndep.empty() || spec.info.empty() || !has_map_form ||
        !has_build_dir) {
        fail("S3");
    }
    const auto string_of = [](element entry) {
        string_view text;
        if (entry.get(text)) {
            fail("S3");
        }
        return text;
    };
    scans.each([&](element entry) { spec.scans.push_back(arena.name(string_of(entry))); });
    linked.each([&](element entry) { spec.linked.push_back(arena.name(string_of(entry))); });
    private_names.each([&](element entry) {
        spec.private_names.push_back(arena.copy(string_of(entry)));
        check_name(spec.private_names.back());
    });
    return spec;
}

// A module of an object or of an info file. Its producer is the number of the object, or that of
// the info file after those.
struct Module {
    string_view name;
    Path file;
    Number producer;
    Number last_user = none;
    bool is_private = false;
};

// An object, with the indexes at which its modules and the names that it requires begin and end in
// the lists of all.
struct Object {
    Path path;
    Number first_module, end_module, first_required, end_required;
};

// A module of an info file, with the indexes at which its requirements begin and end in the list of
// all.
struct Known {
    Number first, end;
};

struct Required {
    string_view name;
    string_view file;
};

// ---- a target

class Collation {
public:
    explicit Collation(const char* target_document) : spec_(read_spec(target_document)) {
        Buffer buffer;
        objects_.reserve(spec_.scans.size());
        for (const char* name : spec_.scans) {
            read_file(name, buffer);
            read_scan(buffer);
        }
        object_count_ = static_cast<Number>(objects_.size());
        own_count_ = static_cast<Number>(modules_.size());
        for (const char* name : spec_.linked) {
            read_file(name, buffer);
            read_info(buffer);
        }
    }

    void run() {
        check_unique();
        find_required();
        check_no_cycle();
        check_private();
        write_dyndep();
        if (!spec_.map.empty()) {
            write_maps();
        }
        write_info();
        write_files();
    }

private:
    Spec spec_;
    std::vector<Object> objects_;
    // the modules of objects, then those of info files
    std::vector<Module> modules_;
    std::vector<string_view> required_names_;
    std::vector<Known> known_;
    std::vector<Required> known_required_;
    std::vector<string_view> linked_targets_;
    Number object_count_ = 0;
    Number own_count_ = 0;
    Table names_{0};
    // required_ from ends_[row] up to ends_[row + 1] has the modules that an object requires, and
    // after all objects those that a module of an info file requires
    std::vector<Number> ends_{0};
    std::vector<Number> required_;
    std::vector<bool> is_kept_;
    Buffer placed_, dyndep_, info_, maps_;
    std::vector<std::size_t> map_ends_;

    Path placed(string_view text, string_view work_directory) {
        if (text.empty() || text.front() == '/' || work_directory.empty()) {
            return path_of(text, spec_.build_dir);
        }
        placed_.clear();
        placed_ << work_directory << '/' << text;
        return path_of(placed_.from(0), spec_.build_dir);
    }

    // The file of a module for which a scan document names none.
    Path module_file(string_view name) {
        placed_.clear();
        if (!spec_.module_dir.empty()) {
            placed_ << spec_.module_dir << '/';
        }
        placed_ << name;
        std::replace(placed_.data() + placed_.size() - name.size(), placed_.data() + placed_.size(),
                     ':', '-');
        placed_ << spec_.module_ext;
        return path_of(placed_.from(0), spec_.build_dir);
    }

    void read_scan(const Buffer& buffer) {
        Member rules;
        for (const auto& [key, value] : document_of(buffer, 0, 1)) {
            if (key == "rules") rules = value;
        }
        rules.check_is_there();
        rules.each([&](element rule) { read_rule(rule); });
    }

    void read_rule(element rule) {
        Member output, work_directory, provides, requirements;
        for (const auto& [key, value] : object_of(rule)) {
            if (key == "primary-output") output = value;
            else if (key == "requires") requirements = value;
            else if (key == "provides") provides = value;
            else if (key == "work-directory") work_directory = value;
        }
        if (!output.is_there()) {
            fail("S4");
        }
        const string_view directory = work_directory.text_if_there();
        Object object{placed(output.text(), directory), static_cast<Number>(modules_.size()), 0,
                      static_cast<Number>(required_names_.size()), 0};
        provides.each([&](element entry) { read_provided(entry, directory); });
        requirements.each([&](element entry) { read_required(entry); });
        object.end_module = static_cast<Number>(modules_.size());
        object.end_required = static_cast<Number>(required_names_.size());
        objects_.push_back(object);
        if (objects_.size() > max_entries ||
            object.end_module - object.first_module > max_entries ||
            object.end_required - object.first_required > max_entries) {
            fail("S8");
        }
    }

    void read_provided(element entry, string_view directory) {
        Member name, file, unique, is_interface;
        for (const auto& [key, value] : object_of(entry)) {
            if (key == "logical-name") name = value;
            else if (key == "is-interface") is_interface = value;
            else if (key == "compiled-module-path") file = value;
            else if (key == "unique-on-source-path") unique = value;
        }
        is_interface.flag();
        if (unique.flag()) {
            fail("S5");
        }
        check_name(name.text());
        const Path path =
            file.is_there() ? placed(file.text(), directory) : module_file(name.text());
        modules_.push_back({arena.copy(name.text()), path, static_cast<Number>(objects_.size())});
    }

    void read_required(element entry) {
        Member name, method, unique;
        for (const auto& [key, value] : object_of(entry)) {
            if (key == "logical-name") name = value;
            else if (key == "lookup-method") method = value;
            else if (key == "unique-on-source-path") unique = value;
        }
        if (method.is_there() && method.text() != "by-name") {
            fail(method.text().starts_with("include-") ? "S5" : "S3");
        }
        if (unique.flag()) {
            fail("S5");
        }
        check_name(name.text());
        required_names_.push_back(arena.copy(name.text()));
    }

    void read_info(const Buffer& buffer) {
        Member target, modules;
        bool has_visibility = false;
        for (const auto& [key, value] : document_of(buffer, 1, 2)) {
            std::uint64_t version = 0;
            if (key == "target") target = value;
            else if (key == "modules") modules = value;
            else if (key == "version") has_visibility = !value.get(version) && version == 2;
        }
        const auto producer = static_cast<Number>(objects_.size() + linked_targets_.size());
        linked_targets_.push_back(arena.copy(target.text()));
        modules.check_is_there();
        modules.each([&](element entry) { read_known(entry, producer, has_visibility); });
    }

    void read_known(element entry, Number producer, bool has_visibility) {
        Member name, file, requirements, visibility;
        for (const auto& [key, value] : object_of(entry)) {
            if (key == "bmi") file = value;
            else if (key == "name") name = value;
            else if (key == "requires") requirements = value;
            else if (key == "visibility") visibility = value;
        }
        const bool is_private = has_visibility && visibility.text() == "private";
        if (has_visibility && !is_private && visibility.text() != "public") {
            fail("S3");
        }
        check_name(name.text());
        modules_.push_back(
            {arena.copy(name.text()), path_of(file.text(), {}), producer, none, is_private});
        const auto first = static_cast<Number>(known_required_.size());
        requirements.check_is_there();
        requirements.each([&](element required) { read_known_required(required); });
        known_.push_back({first, static_cast<Number>(known_required_.size())});
    }

    void read_known_required(element entry) {
        Member name, file;
        for (const auto& [key, value] : object_of(entry)) {
            if (key == "bmi") file = value;
            else if (key == "name") name = value;
        }
        check_name(name.text());
        known_required_.push_back({arena.copy(name.text()), path_of(file.text(), {}).text});
    }

    // ---- the checks of the modules

    auto name_of() const {
        return [this](Number number) { return modules_[number].name; };
    }

    // An object, a target, a module or a file that is there twice: M1 to M4.
    void check_unique() {
        const auto file_of = [&](Number number) {
            return number < object_count_ ? objects_[number].path.text
                                          : modules_[number - object_count_].file.text;
        };
        const auto target_of = [&](Number number) { return linked_targets_[number]; };
        Table files(objects_.size() + modules_.size());
        add_all(files, 0, object_count_, file_of, "M1");
        Table targets(linked_targets_.size());
        add_all(targets, 0, static_cast<Number>(linked_targets_.size()), target_of, "M2");
        names_ = Table(modules_.size());
        add_all(names_, 0, static_cast<Number>(modules_.size()), name_of(), "M3");
        add_all(files, object_count_, object_count_ + static_cast<Number>(modules_.size()), file_of,
                "M4");
    }

    template <class TextOf>
    static void add_all(Table& table, Number first, Number end, const TextOf& text_of,
                        const char* code) {
        for (Number number = first; number < end; ++number) {
            if (table.add(text_of(number), number, text_of) != none) {
                fail(code);
            }
        }
    }

    // The modules that objects and known modules require, each once: M5 to M7.
    void find_required() {
        ends_.reserve(objects_.size() + known_.size() + 1);
        required_.reserve(required_names_.size() + known_required_.size());
        for (Number number = 0; number < object_count_; ++number) {
            for (Number index = objects_[number].first_required;
                 index < objects_[number].end_required; ++index) {
                const Number found = names_.number_of(required_names_[index], name_of());
                if (found == none) {
                    fail("M5");
                }
                if (modules_[found].last_user != number) {
                    modules_[found].last_user = number;
                    required_.push_back(found);
                }
            }
            ends_.push_back(static_cast<Number>(required_.size()));
        }
        for (const Known& known : known_) {
            for (Number index = known.first; index < known.end; ++index) {
                const Number found = names_.number_of(known_required_[index].name, name_of());
                if (found == none || found < own_count_) {
                    fail("M6");
                }
                if (modules_[found].file.text != known_required_[index].file) {
                    fail("M7");
                }
                required_.push_back(found);
            }
            ends_.push_back(static_cast<Number>(required_.size()));
        }
    }

    struct Row {
        const Number* first;
        const Number* last;
        const Number* begin() const { return first; }
        const Number* end() const { return last; }
        bool is_empty() const { return first == last; }
    };

    // What an object requires.
    Row required_by(Number row) const {
        return {required_.data() + ends_[row], required_.data() + ends_[row + 1]};
    }

    // What a module requires: what its object does, or what the info file says.
    Row required_by_module(Number number) const {
        return required_by(number < own_count_ ? modules_[number].producer
                                               : object_count_ + number - own_count_);
    }

    // M8, by removing objects that no remaining one requires.
    void check_no_cycle() const {
        std::vector<Number> users(object_count_), free;
        free.reserve(object_count_);
        for (Number index = 0; index < ends_[object_count_]; ++index) {
            if (required_[index] < own_count_) {
                ++users[modules_[required_[index]].producer];
            }
        }
        for (Number number = 0; number < object_count_; ++number) {
            if (users[number] == 0) {
                free.push_back(number);
            }
        }
        for (std::size_t next = 0; next < free.size(); ++next) {
            for (Number required : required_by(free[next])) {
                if (required < own_count_ && --users[modules_[required].producer] == 0) {
                    free.push_back(modules_[required].producer);
                }
            }
        }
        if (free.size() < object_count_) {
            fail("M8");
        }
    }

    // M9 and M10.
    void check_private() {
        for (Number index = 0; index < ends_[object_count_]; ++index) {
            if (modules_[required_[index]].is_private) {
                fail("M9");
            }
        }
        for (Number number = own_count_; number < modules_.size(); ++number) {
            for (Number required : required_by_module(number)) {
                if (modules_[required].is_private &&
                    modules_[required].producer != modules_[number].producer) {
                    fail("M9");
                }
            }
        }
        is_kept_.resize(own_count_);
        for (string_view name : spec_.private_names) {
            const Number found = names_.number_of(name, name_of());
            if (found >= own_count_) {
                fail("M10");
            }
            is_kept_[found] = true;
        }
    }

    // ---- what is written

    static void put_path(Buffer& text, const Path& path) {
        if (!(path.kinds & escaped_by_ninja)) {
            text << path.text;
            return;
        }
        for (char byte : path.text) {
            if (kinds_of(byte) & escaped_by_ninja) {
                text << '$';
            }
            text << byte;
        }
    }

    static void put_json(Buffer& text, string_view value) {
        text << '"';
        if (!has_kind(value, escaped_in_json)) {
            text << value << '"';
            return;
        }
        for (char byte : value) {
            constexpr string_view short_codes = "\b\t\n\f\r\"\\";
            const std::size_t found = short_codes.find(byte);
            if (!(kinds_of(byte) & escaped_in_json)) {
                text << byte;
            } else if (found != string_view::npos) {
                text << '\\' << "btnfr\"\\"[found];
            } else {
                char escape[8];
                std::snprintf(escape, sizeof escape, "\\u%04x", static_cast<unsigned>(byte));
                text << escape;
            }
        }
        text << '"';
    }

    void write_dyndep() {
        dyndep_ << "ninja_dyndep_version = 1\n";
        for (Number number = 0; number < object_count_; ++number) {
            const Object& object = objects_[number];
            const bool provides = object.first_module < object.end_module;
            const std::size_t start = dyndep_.size();
            dyndep_ << "build ";
            put_path(dyndep_, object.path);
            dyndep_ << (provides ? " |" : "");
            for (Number module = object.first_module; module < object.end_module; ++module) {
                put_path(dyndep_ << ' ', modules_[module].file);
            }
            dyndep_ << ": dyndep" << (required_by(number).is_empty() ? "" : " |");
            for (Number required : required_by(number)) {
                put_path(dyndep_ << ' ', modules_[required].file);
            }
            dyndep_ << '\n';
            if (dyndep_.size() - start > max_line) {
                fail("Y2");
            }
            dyndep_ << (provides ? "  restat = 1\n" : "");
        }
    }

    const Module& mapped(Number number) const {
        if (has_kind(modules_[number].file, in_no_map)) {
            fail("K1");
        }
        return modules_[number];
    }

    // The maps of all objects. What an object needs is found by numbers of names in order, so that
    // these and not the names are sorted.
    void write_maps() {
        const bool is_clang = spec_.map == "clang";
        std::vector<Number> by_name(modules_.size()), rank(modules_.size()),
            seen(modules_.size(), none), needed;
        for (Number number = 0; number < modules_.size(); ++number) {
            by_name[number] = number;
        }
        std::sort(by_name.begin(), by_name.end(), [&](Number one, Number other) {
            return modules_[one].name < modules_[other].name;
        });
        for (Number index = 0; index < by_name.size(); ++index) {
            rank[by_name[index]] = index;
        }
        for (Number number = 0; number < object_count_; ++number) {
            const auto add = [&](Row row) {
                for (Number required : row) {
                    if (seen[required] != number) {
                        seen[required] = number;
                        needed.push_back(required);
                    }
                }
            };
            needed.clear();
            add(required_by(number));
            for (std::size_t next = 0; next < needed.size(); ++next) {
                add(required_by_module(needed[next]));
            }
            std::transform(needed.begin(), needed.end(), needed.begin(),
                           [&](Number module) { return rank[module]; });
            std::sort(needed.begin(), needed.end());
            const Object& object = objects_[number];
            for (Number module = object.first_module; module < object.end_module; ++module) {
                put_provided(mapped(module), is_clang);
            }
            for (Number index : needed) {
                put_needed(mapped(by_name[index]), is_clang);
            }
            if (is_clang && object.end_module - object.first_module > 1) {
                fail("K2");
            }
            map_ends_.push_back(maps_.size());
        }
    }

    void put_provided(const Module& module, bool is_clang) {
        if (is_clang) {
            maps_ << "-x c++-module\n-fmodule-output=" << module.file.text << '\n';
        } else {
            put_needed(module, false);
        }
    }

    void put_needed(const Module& module, bool is_clang) {
        maps_ << (is_clang ? "-fmodule-file=" : "") << module.name << (is_clang ? '=' : ' ')
              << module.file.text << '\n';
    }

    void put_pair(const Module& module) {
        info_ << "{\"bmi\":";
        put_json(info_, module.file.text);
        info_ << ",\"name\":";
        put_json(info_, module.name);
    }

    void write_info() {
        info_ << "{\"modules\":[";
        for (Number number = 0; number < own_count_; ++number) {
            info_ << (number == 0 ? "" : ",");
            put_pair(modules_[number]);
            info_ << ",\"requires\":[";
            const char* between = "";
            for (Number required : required_by_module(number)) {
                info_ << between;
                put_pair(modules_[required]);
                info_ << '}';
                between = ",";
            }
            info_ << (is_kept_[number] ? "],\"visibility\":\"private\"}"
                                       : "],\"visibility\":\"public\"}");
        }
        info_ << "],\"target\":";
        put_json(info_, spec_.target);
        info_ << ",\"version\":2}";
    }

    // ---- files

    struct Directory {
        string_view name;
        int file;
    };
    std::vector<Directory> directories_;

    // The directory of this name, opened once, or -1 if it cannot be opened or too many are open.
    int opened(string_view name) {
        for (std::size_t index = directories_.size(); index-- > 0;) {
            if (directories_[index].name == name) {
                return directories_[index].file;
            }
        }
        const int file = directories_.size() > 200
                             ? -1
                             : open(arena.name(name), O_PATH | O_DIRECTORY | O_CLOEXEC);
        if (file >= 0) {
            directories_.push_back({name, file});
        }
        return file;
    }

    // Writes a new file, which then replaces the old one.
    void write_file(string_view path, const char* ending, string_view text) {
        const std::string name = std::string(path) + ending;
        const std::size_t slash = path.rfind('/');
        const int found =
            slash == string_view::npos || slash == 0 ? -1 : opened(path.substr(0, slash));
        const int directory = found < 0 ? AT_FDCWD : found;
        const char* const last = name.c_str() + (found < 0 ? 0 : slash + 1);
        char other[max_path + 64];
        std::snprintf(other, sizeof other, "%s.%d.tmp", last, static_cast<int>(getpid()));
        struct stat old;
        const bool is_there = fstatat(directory, last, &old, AT_SYMLINK_NOFOLLOW) == 0;
        const int file =
            is_there && !S_ISREG(old.st_mode)
                ? -1
                : openat(directory, other, O_WRONLY | O_CREAT | O_EXCL | O_CLOEXEC, 0666);
        if (file < 0 || (is_there && fchmod(file, old.st_mode & 07777) != 0)) {
            fail_file("write", name.c_str());
        }
        while (!text.empty()) {
            const ssize_t count = write(file, text.data(), text.size());
            if (count <= 0) {
                unlinkat(directory, other, 0);
                fail_file("write", name.c_str());
            }
            text.remove_prefix(static_cast<std::size_t>(count));
        }
        close(file);
        if (renameat(directory, other, directory, last) != 0) {
            fail_file("write", name.c_str());
        }
    }

    void write_files() {
        std::size_t start = 0;
        for (std::size_t number = 0; number < map_ends_.size(); ++number) {
            write_file(objects_[number].path.text, ".modmap",
                       maps_.from(start).substr(0, map_ends_[number] - start));
            start = map_ends_[number];
        }
        write_file(spec_.info, "", info_.from(0));
        write_file(spec_.dyndep, "", dyndep_.from(0));
    }
};

}  // namespace

int main(int count, char** words) {
    if (count != 3 || words[1] != string_view("collate")) {
        std::fputs("usage: expert collate TARGETFILE\n", stderr);
        return 2;
    }
    if (getrandom(&seed, sizeof seed, 0) != sizeof seed) {
        return 3;
    }
    Collation collation(words[2]);
    collation.run();
    _exit(0);  // nothing is given back
}
