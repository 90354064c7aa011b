// libdyncollate for C++17: dyncollate.h with strings, vectors and exceptions.
//
//     std::map<std::string, std::string> files = {{"main.ddi", scan}};
//     for (const dyncollate::file &made : dyncollate::collate(document, files))
//         write(made.name, made.data);
//
// `files` is any range of pairs of strings or string views: names, and the bytes of the files. A
// command that fails throws dyncollate::error. If an allocation fails, std::bad_alloc is thrown,
// and if a name is not UTF-8, std::invalid_argument.
#ifndef DYNCOLLATE_HPP
#define DYNCOLLATE_HPP

#include "dyncollate.h"

#include <cstring>
#include <initializer_list>
#include <new>
#include <stdexcept>
#include <string>
#include <string_view>
#include <tuple>
#include <utility>
#include <vector>

namespace dyncollate {

// A command that fails: what() is its line on standard error.
struct error : std::runtime_error {
    error(std::uint32_t with, const std::string &line, const dyncollate_location &at);

    std::uint32_t status;  // DYNCOLLATE_REJECTED or DYNCOLLATE_UNREAD
    dyncollate_location location;
    // The code, such as "M5", and the name after it, "ModuleUnknown". A cycle of edges and a file
    // that cannot be read have neither.
    std::string code, name;
    // The modules, files and targets in the line, in its order; for a cycle all that are on it; for
    // S3 the member.
    std::vector<std::string> names;
};

namespace detail {

inline const std::uint8_t *bytes(std::string_view text) {
    return reinterpret_cast<const std::uint8_t *>(text.data());
}

// Takes what is before the first or the last of these separators off a text, and the separator.
inline std::string cut(std::string_view &text, std::initializer_list<std::string_view> separators,
                       bool is_last = false)
{
    std::size_t end = text.npos, size = 0;
    for (const std::string_view it : separators) {
        const std::size_t at = is_last ? text.rfind(it) : text.find(it);
        if (at != text.npos && (end == text.npos || (at > end) == is_last)) {
            end = at;
            size = it.size();
        }
    }
    std::string part(text.substr(0, end));
    text.remove_prefix(end == text.npos ? text.size() : end + size);
    return part;
}

// What an error with this code, or without one, names.
inline std::vector<std::string> names_of(const std::string &code, std::string_view text)
{
    std::vector<std::string> names;
    if (code == "M3" || code == "M4") {
        names = {cut(text, {" by object ", " by info "}),
                 cut(text, {" and object ", " and info "}, true)};
    } else if (code == "M5") {
        names = {cut(text, {" in "})};
    } else if (code == "M6" || code == "M7") {
        const std::size_t last = text.rfind(' '), before = text.rfind(' ', last - 1);
        names.emplace_back(text.substr(0, before));
        names.emplace_back(text.substr(before + 1, last - before - 1));
        text.remove_prefix(last + 1);
    } else if (code == "M9") {
        names = {cut(text, {" of "}), cut(text, {" in object ", " in info "})};
    } else if (code == "M8" || code.empty()) {
        while (text.find(" -> ") != text.npos)
            names.push_back(cut(text, {" -> "}));
    } else if (code == "E3" || code == "E8" || code.find_first_of("MKE") != 0) {
        cut(text, {" member "});
    }
    if (!text.empty())
        names.emplace_back(text);
    return names;
}

}  // namespace detail

inline error::error(std::uint32_t with, const std::string &line, const dyncollate_location &at)
    : std::runtime_error(line), status(with), location(at)
{
    std::string_view rest = line;
    const auto begins = [&](std::string_view word) { return rest.substr(0, word.size()) == word; };
    // Labels, such as "dyncollate: target 2: scan 0: ", are before the error.
    const auto is_code = [&] { return rest[0] >= 'A' && rest[0] <= 'Z'; };
    while (!rest.empty() && !is_code() && !begins("cycle ") && !begins("cannot read "))
        detail::cut(rest, {": "});
    if (location.letter) {
        code = char(location.letter) + std::to_string(location.number);
        detail::cut(rest, {" "});
        name = detail::cut(rest, {" "});
        names = detail::names_of(code, rest);
    } else if (begins("cycle ")) {
        names = detail::names_of("", rest.substr(6));
    } else if (begins("cannot read ")) {
        names.emplace_back(rest.substr(12));
    }
}

// A file to write. If `restat`, it is left alone if it already has these bytes.
struct file {
    std::string name, data;
    bool restat;
};

// A statement of a dyndep file, with its implicit outputs and inputs.
struct statement {
    std::string output;
    std::vector<std::string> outputs, inputs;
    bool restat;
};

namespace detail {

// The result of a call. Its numbers are taken one by one, and its strings likewise, each of which
// has its length as the next number.
struct reply {
    // Room for twelve, which the location of an error takes, is always there.
    std::vector<std::size_t> numbers = std::vector<std::size_t>(64);
    std::string text = std::string(16384, '\0');
    std::uint32_t status = 0;
    std::size_t count = 0, next = 0, at = 0;

    // Calls the function with room for the result, and again if it needs more.
    template <class Call>
    explicit reply(Call call)
    {
        for (bool written = false; !written;) {
            const auto got = call(numbers.data(), numbers.size(),
                                  reinterpret_cast<std::uint8_t *>(text.data()), text.size());
            if (got.status == DYNCOLLATE_NO_MEMORY)
                throw std::bad_alloc();
            if (got.status == DYNCOLLATE_MISUSED)
                throw std::invalid_argument("dyncollate: a name is not UTF-8");
            count = got.numbers;
            numbers.resize(count < 12 ? 12 : count);
            text.resize(got.text);
            status = got.status;
            written = got.written;
        }
    }
    bool more() const { return next < count; }
    std::size_t number() { return numbers[next++]; }
    std::string string()
    {
        const std::size_t size = number();
        return text.substr(std::exchange(at, at + size), size);
    }
    // What a command prints on standard output. It throws if the command fails.
    std::string printed()
    {
        const std::string out = string(), line = string();
        if (status != DYNCOLLATE_DONE) {
            dyncollate_location at;
            std::memcpy(&at, &numbers[next], sizeof at);
            throw error(status, line.substr(0, line.find('\n')), at);
        }
        return out;
    }
};

// What a command prints that is given strings.
template <class Function, class... Strings>
std::string printed(Function function, Strings... strings)
{
    const auto given = std::tuple_cat(std::make_tuple(bytes(strings), strings.size())...);
    return reply([&](auto... room) {
        return std::apply([&](auto... it) { return function(it..., room...); }, given);
    }).printed();
}

template <class Files, class Function>
std::vector<file> collated(Function function, std::string_view document, const Files &files)
{
    std::vector<std::size_t> lengths;
    std::string joined;
    for (const auto &[name, data] : files) {
        lengths.insert(lengths.end(), {name.size(), data.size()});
        joined.append(name).append(data);
    }
    reply got([&](auto... room) {
        return function(bytes(document), document.size(), lengths.data(), lengths.size(),
                        bytes(joined), joined.size(), room...);
    });
    got.printed();
    std::vector<file> made;
    while (got.more()) {
        std::string name = got.string(), data = got.string();
        made.push_back({std::move(name), std::move(data), got.number() != 0});
    }
    return made;
}

}  // namespace detail

// The files that `dyncollate collate` writes for a target document and these files, in the order in
// which they are to be written.
template <class Files>
std::vector<file> collate(std::string_view document, const Files &files)
{
    return detail::collated(dyncollate_collate, document, files);
}

// The files that `dyncollate project` writes for a project document and these files.
template <class Files>
std::vector<file> project(std::string_view document, const Files &files)
{
    return detail::collated(dyncollate_project, document, files);
}

// The dyndep file of a scan document.
inline std::string one(std::string_view scan, std::string_view dir, std::string_view ext)
{
    return detail::printed(dyncollate_one, scan, dir, ext);
}

// The edge list as it is once Ninja has loaded the dyndep file under this name.
inline std::string effect(std::string_view name, std::string_view edges, std::string_view dyndep)
{
    return detail::printed(dyncollate_effect, name, edges, dyndep);
}

// The first outputs of the edges, each after those that it needs.
inline std::vector<std::string> order(std::string_view edges)
{
    const std::string lines = detail::printed(dyncollate_order, edges);
    std::vector<std::string> outputs;
    for (std::string_view rest = lines; !rest.empty();)
        outputs.push_back(detail::cut(rest, {"\n"}));
    return outputs;
}

// The dyndep file as `dyncollate` writes it.
inline std::string show(std::string_view dyndep)
{
    return detail::printed(dyncollate_show, dyndep);
}

// The statements of a dyndep file.
inline std::vector<statement> statements(std::string_view dyndep)
{
    detail::reply got([&](auto... room) {
        return dyncollate_statements(detail::bytes(dyndep), dyndep.size(), room...);
    });
    if (got.status != DYNCOLLATE_DONE)
        show(dyndep);  // throws this error
    std::vector<statement> found;
    while (got.more()) {
        statement &it = found.emplace_back();
        it.restat = got.number() != 0;
        it.outputs.resize(got.number());
        it.inputs.resize(got.number());
        it.output = got.string();
        for (auto *paths : {&it.outputs, &it.inputs})
            for (std::string &path : *paths)
                path = got.string();
    }
    return found;
}

}  // namespace dyncollate

#endif
