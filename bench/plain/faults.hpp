// Why a run of the plain program ends, and what it prints then.
#pragma once

#include <stdexcept>
#include <string>
#include <string_view>

// Why the input is rejected. The text is what the program prints after its name.
struct Refusal : std::runtime_error {
    using std::runtime_error::runtime_error;
};

// A file that cannot be read or written.
struct FileError : std::runtime_error {
    using std::runtime_error::runtime_error;
};

// The text with ? for control bytes, as lines are printed.
inline std::string shown(std::string_view text) {
    std::string line(text);
    for (char& byte : line) {
        if (static_cast<unsigned char>(byte) < 32 || byte == 127) {
            byte = '?';
        }
    }
    return line;
}

// Runs a step. If that fails, the label is put before what is printed.
template <class Label, class Step>
auto labelled(const Label& label, const Step& step) {
    try {
        return step();
    } catch (const Refusal& refusal) {
        throw Refusal(std::string(label()) + ": " + refusal.what());
    }
}
