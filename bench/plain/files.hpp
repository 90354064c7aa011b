// Files, read and written whole; one that is written takes the place of the old one by a rename.
// Where the environment variable PLAIN_CALLS names a file, what is read and written is noted there,
// a line for each call, for floor.cpp.
#pragma once

#include <fcntl.h>
#include <sys/stat.h>
#include <unistd.h>

#include <cstddef>
#include <cstdio>
#include <cstdlib>
#include <string>
#include <string_view>

#include "faults.hpp"

// A file that is closed at the end of its scope.
class OpenFile {
public:
    OpenFile(const char* name, int flags) : file_(open(name, flags, 0644)) {}
    OpenFile(const OpenFile&) = delete;
    OpenFile& operator=(const OpenFile&) = delete;
    ~OpenFile() {
        if (file_ >= 0) {
            close(file_);
        }
    }
    int get() const { return file_; }

private:
    int file_;
};

inline void note(char call, std::size_t length, const std::string& name) {
    static const char* const wanted = std::getenv("PLAIN_CALLS");
    static std::FILE* const calls = wanted == nullptr ? nullptr : std::fopen(wanted, "w");
    if (calls != nullptr) {
        std::fprintf(calls, "%c %zu %s\n", call, length, name.c_str());
    }
}

inline std::string read_file(const std::string& name) {
    const OpenFile file(name.c_str(), O_RDONLY);
    struct stat about;
    if (file.get() < 0 || fstat(file.get(), &about) < 0) {
        throw FileError("cannot read " + name);
    }
    std::string bytes(static_cast<std::size_t>(about.st_size), '\0');
    std::size_t length = 0;
    while (length < bytes.size()) {
        const ssize_t count = read(file.get(), bytes.data() + length, bytes.size() - length);
        if (count <= 0) {
            throw FileError("cannot read " + name);
        }
        length += static_cast<std::size_t>(count);
    }
    note('r', length, name);
    return bytes;
}

// Whether all bytes were written.
inline bool write_all(int file, std::string_view text) {
    while (!text.empty()) {
        const ssize_t count = write(file, text.data(), text.size());
        if (count <= 0) {
            return false;
        }
        text.remove_prefix(static_cast<std::size_t>(count));
    }
    return true;
}

// Whether a new file with this text took the place of the one of this name.
inline bool replace_file(const std::string& name, std::string_view text) {
    const std::string other = name + "." + std::to_string(getpid()) + ".tmp";
    struct stat old;
    const bool is_there = lstat(name.c_str(), &old) == 0;
    if (is_there && !S_ISREG(old.st_mode)) {
        return false;
    }
    {
        const OpenFile file(other.c_str(), O_WRONLY | O_CREAT | O_EXCL);
        if (file.get() < 0) {
            return false;
        }
        if (is_there) {
            fchmod(file.get(), old.st_mode & 07777);
        }
        if (!write_all(file.get(), text)) {
            unlink(other.c_str());
            throw FileError("cannot write " + name);
        }
    }
    return rename(other.c_str(), name.c_str()) == 0;
}

inline void write_file(const std::string& name, std::string_view text) {
    if (!replace_file(name, text)) {
        const OpenFile file(name.c_str(), O_WRONLY | O_CREAT | O_TRUNC);
        if (file.get() < 0 || !write_all(file.get(), text)) {
            throw FileError("cannot write " + name);
        }
    }
    note('w', text.size(), name);
}

inline void write_out(std::string_view text) {
    if (!write_all(STDOUT_FILENO, text)) {
        throw FileError("cannot write standard output");
    }
    note('o', text.size(), "");
}
