// Canonical paths, and how they are written (docs/FORMATS.md, "Paths").
#pragma once

#include <algorithm>
#include <cstddef>
#include <string>
#include <string_view>
#include <vector>

constexpr std::size_t max_path = 4'096;

// Why a text is no path: the code and the name.
struct PathFault {
    const char* text;
};

// Makes paths canonical. One is used for all paths,
// so that the list of components is allocated once.
class PathReader {
public:
    std::string read(std::string_view text) { return read(text, std::string_view()); }

    // The path of a text, taken from a build directory that is a canonical path or empty.
    std::string read(std::string_view text, std::string_view build_directory) {
        const bool is_absolute = text.starts_with('/');
        split(text);
        if (components_.empty()) {
            throw PathFault{"N1 Empty"};
        }
        if (is_absolute && components_.front() == "..") {
            throw PathFault{"N2 AboveRoot"};
        }
        if (std::any_of(text.begin(), text.end(), is_unwritable)) {
            throw PathFault{"N3 Unwritable"};
        }
        std::string path = join(is_absolute, text.size());
        take_off(path, build_directory);
        if (path.size() > max_path) {
            throw PathFault{"N4 TooLong"};
        }
        return path;
    }

    // The path of a text that is seen from a work directory.
    std::string place(std::string_view text, std::string_view work_directory,
                      std::string_view build_directory) {
        if (text.empty() || text.starts_with('/') || work_directory.empty()) {
            return read(text, build_directory);
        }
        std::string placed(work_directory);
        placed += '/';
        placed += text;
        return read(placed, build_directory);
    }

private:
    std::vector<std::string_view> components_;

    static bool is_unwritable(char byte) {
        return byte == '|' || byte == '\0' || byte == '\r' || byte == '\n';
    }

    static void take_off(std::string& path, std::string_view build_directory) {
        const std::size_t length = build_directory.size();
        if (length > 0 && path.size() > length && path[length] == '/' &&
            path.starts_with(build_directory)) {
            path.erase(0, length + 1);
        }
    }

    void split(std::string_view text) {
        components_.clear();
        for (std::size_t start = 0; start <= text.size();) {
            const std::size_t end = std::min(text.find('/', start), text.size());
            const std::string_view component = text.substr(start, end - start);
            if (component == ".." && !components_.empty() && components_.back() != "..") {
                components_.pop_back();
            } else if (!component.empty() && component != ".") {
                components_.push_back(component);
            }
            start = end + 1;
        }
    }

    std::string join(bool is_absolute, std::size_t most) const {
        std::string path;
        path.reserve(most);
        for (std::string_view component : components_) {
            if (is_absolute || !path.empty()) {
                path += '/';
            }
            path += component;
        }
        return path;
    }
};

// Appends a path as it is written in a Ninja file.
inline void append_path(std::string& text, std::string_view path) {
    const auto is_escaped = [](char byte) { return byte == '$' || byte == ' ' || byte == ':'; };
    auto run = path.begin();
    for (;;) {
        const auto end = std::find_if(run, path.end(), is_escaped);
        text.append(run, end);
        if (end == path.end()) {
            return;
        }
        text += '$';
        text += *end;
        run = end + 1;
    }
}
