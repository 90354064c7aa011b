// What no program can do without: floor WORDS.. reads and writes the files that plain read and
// wrote, as many bytes of each, and does nothing else. It knows them from the file ../calls, in
// which plain noted them (plain/files.hpp): a line for each file, and last `end` with the status.
// The arguments are ignored.
#include <fcntl.h>
#include <sys/stat.h>
#include <unistd.h>

#include <algorithm>
#include <cstddef>
#include <cstdio>
#include <cstdlib>
#include <fstream>
#include <string>

namespace {

std::string bytes;

[[noreturn]] void give_up(const std::string& name) {
    std::fprintf(stderr, "floor: %s\n", name.c_str());
    std::exit(3);
}

void read_file(const std::string& name) {
    const int file = open(name.c_str(), O_RDONLY);
    struct stat about;
    if (file < 0 || fstat(file, &about) < 0) {
        give_up(name);
    }
    const auto length = static_cast<std::size_t>(about.st_size);
    bytes.resize(std::max(bytes.size(), length));
    for (std::size_t done = 0; done < length;) {
        const ssize_t count = read(file, bytes.data() + done, length - done);
        if (count <= 0) {
            give_up(name);
        }
        done += static_cast<std::size_t>(count);
    }
    close(file);
}

void write_bytes(int file, std::size_t length, const std::string& name) {
    bytes.resize(std::max(bytes.size(), length));
    for (std::size_t done = 0; done < length;) {
        const ssize_t count = file < 0 ? -1 : write(file, bytes.data() + done, length - done);
        if (count <= 0) {
            give_up(name);
        }
        done += static_cast<std::size_t>(count);
    }
}

void write_file(const std::string& name, std::size_t length) {
    const int file = open(name.c_str(), O_WRONLY | O_CREAT | O_TRUNC, 0644);
    write_bytes(file, length, name);
    close(file);
}

}  // namespace

int main() {
    std::ifstream calls("../calls");
    std::string call;
    std::size_t length;
    while (calls >> call >> length && call != "end") {
        std::string name;
        calls.get();
        std::getline(calls, name);
        if (call == "r") {
            read_file(name);
        } else if (call == "w") {
            write_file(name, length);
        } else {
            write_bytes(STDOUT_FILENO, length, "standard output");
        }
    }
    return call == "end" ? static_cast<int>(length) : 3;
}
