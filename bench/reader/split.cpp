// Splits dyndep texts by hand and proves nothing: what DyndepReader is compared with. It makes the
// texts by the rule of src/text.rt.bench, and prints the processor time of the fastest of several
// rounds in which a text is split.
#include <cctype>
#include <cstdint>
#include <cstdio>
#include <cstdlib>
#include <ctime>
#include <limits>
#include <string>
#include <string_view>
#include <utility>
#include <vector>

struct Statement {
    std::string output;
    std::vector<std::string> implicit_outputs;
    std::vector<std::string> implicit_inputs;
    bool restat = false;
};

// Splits a text, and reads the NUL after its last byte as well,
// so that no look ahead needs a test of its own.
class Splitter {
public:
    explicit Splitter(const std::string& text) : at_(text.c_str()), end_(at_ + text.size()) {}

    std::vector<Statement> split() {
        while (at_ != end_) {
            split_line();
        }
        if (!has_version_) {
            refuse("no version");
        }
        return std::move(statements_);
    }

private:
    const char* at_;
    const char* end_;
    std::vector<Statement> statements_;
    bool has_version_ = false;
    bool open_ = false;
    unsigned long line_ = 1;

    [[noreturn]] void refuse(const char* why) const {
        std::fprintf(stderr, "line %lu: %s\n", line_, why);
        std::exit(1);
    }

    void split_line() {
        const char* start = at_;
        skip_spaces();
        if (*at_ == '#') {
            skip_comment();
        } else if (at_line_end()) {
            open_ = false;
            end_line();
        } else if (at_ != start) {
            split_binding();
        } else if (take_name("build")) {
            split_build();
        } else {
            split_version();
        }
    }

    void split_version() {
        if (!take_name("ninja_dyndep_version") || has_version_) {
            refuse("neither version, build line, binding nor comment");
        }
        const std::string version = take_value();
        if (version != "1" && version != "1.0") {
            refuse("a version other than 1");
        }
        has_version_ = true;
    }

    void split_binding() {
        if (!open_ || !take_name("restat")) {
            refuse("a binding of no statement, or of another name than restat");
        }
        statements_.back().restat = !take_value().empty();
        open_ = false;
    }

    void split_build() {
        if (!has_version_) {
            refuse("no version");
        }
        Statement& statement = statements_.emplace_back();
        skip_spaces();
        take_path(statement.output);
        if (statement.output.empty()) {
            refuse("no output");
        }
        take_part(statement.implicit_outputs);
        if (*at_ != ':') {
            refuse("no ':' after the outputs");
        }
        ++at_;
        skip_spaces();
        if (!take_name("dyndep")) {
            refuse("a rule other than dyndep");
        }
        take_part(statement.implicit_inputs);
        end_line();
        open_ = true;
    }

    // Takes the paths after a '|', if there is one.
    void take_part(std::vector<std::string>& paths) {
        skip_spaces();
        if (*at_ != '|') {
            return;
        }
        ++at_;
        if (*at_ == '|' || *at_ == '@') {
            refuse("order-only inputs or validations");
        }
        skip_spaces();
        while (!ends_path(*at_)) {
            take_path(paths.emplace_back());
            skip_spaces();
        }
    }

    void take_path(std::string& path) {
        take_text(path, ends_path);
    }

    // Takes '=' and what goes from there to the line's end.
    std::string take_value() {
        skip_spaces();
        if (*at_ != '=') {
            refuse("no '=' after the name");
        }
        ++at_;
        skip_spaces();
        std::string value;
        take_text(value, ends_value);
        end_line();
        return value;
    }

    // Appends the bytes up to an end, by runs without a '$'.
    template <typename Ends>
    void take_text(std::string& text, Ends ends) {
        while (!ends(*at_)) {
            const char* run = at_;
            while (*at_ != '$' && !ends(*at_)) {
                ++at_;
            }
            text.append(run, at_);
            if (*at_ == '$' && !take_continuation()) {
                text.push_back(take_escape());
            }
        }
    }

    char take_escape() {
        const char escaped = at_[1];
        if (escaped != '$' && escaped != ' ' && escaped != ':') {
            refuse("a '$' that escapes nothing");
        }
        at_ += 2;
        return escaped;
    }

    // Takes '$', a line's end and the spaces after it.
    bool take_continuation() {
        if (at_[1] != '\n' && (at_[1] != '\r' || at_[2] != '\n')) {
            return false;
        }
        at_ += at_[1] == '\n' ? 2 : 3;
        ++line_;
        while (*at_ == ' ') {
            ++at_;
        }
        return true;
    }

    void skip_spaces() {
        while (*at_ == ' ' || (*at_ == '$' && take_continuation())) {
            if (*at_ == ' ') {
                ++at_;
            }
        }
    }

    // Takes a name. Returns false, and takes nothing, if there is another one here.
    bool take_name(std::string_view name) {
        if (!std::string_view(at_, end_).starts_with(name)) {
            return false;
        }
        const unsigned char next = at_[name.size()];
        if (std::isalnum(next) || next == '_' || next == '.' || next == '-' || next == '$') {
            return false;
        }
        at_ += name.size();
        return true;
    }

    void skip_comment() {
        while (*at_ != '\n') {
            if (at_ == end_) {
                refuse("a line without an end");
            }
            ++at_;
        }
        end_line();
    }

    bool at_line_end() const {
        return *at_ == '\n' || (*at_ == '\r' && at_[1] == '\n');
    }

    void end_line() {
        if (!at_line_end()) {
            refuse("a byte out of place, or a line without an end");
        }
        at_ += *at_ == '\n' ? 1 : 2;
        ++line_;
    }

    static bool ends_value(char byte) {
        return byte == '\n' || byte == '\r' || byte == '\0';
    }

    static bool ends_path(char byte) {
        return ends_value(byte) || byte == ' ' || byte == ':' || byte == '|';
    }
};

std::string compiled_module(std::size_t number) {
    return "mod/some.module" + std::to_string(number) + ".bmi";
}

// The text of that many statements.
std::string dyndep_text(std::size_t count) {
    std::string text = "ninja_dyndep_version = 1\n";
    for (std::size_t number = 0; number < count; ++number) {
        text += number % 8 == 0 ? "build obj/my$ dir" : "build obj/dir";
        text += std::to_string(number / 100) + "/file" + std::to_string(number) + ".cpp.o";
        text += " | " + compiled_module(number) + ": dyndep |";
        for (std::size_t entry = 0; entry < 3; ++entry) {
            text += " " + compiled_module((number * 7 + entry) % count);
        }
        text += "\n  restat = 1\n";
    }
    return text;
}

double processor_seconds() {
    timespec now;
    clock_gettime(CLOCK_THREAD_CPUTIME_ID, &now);
    return static_cast<double>(now.tv_sec) + static_cast<double>(now.tv_nsec) * 1e-9;
}

// The time of the fastest round. What was split is given back after the time is taken.
double least_time(const std::string& text, int rounds) {
    double least = std::numeric_limits<double>::infinity();
    for (int round = 0; round < rounds; ++round) {
        const double start = processor_seconds();
        const std::vector<Statement> statements = Splitter(text).split();
        const double time = processor_seconds() - start;
        least = time < least ? time : least;
    }
    return least;
}

// The sum of the bytes modulo 2^32.
std::uint32_t sum(const std::string& bytes) {
    std::uint32_t sum = 0;
    for (unsigned char byte : bytes) {
        sum += byte;
    }
    return sum;
}

// How many paths there are, and the sum of their bytes.
std::pair<std::size_t, std::uint32_t> count_paths(const std::vector<Statement>& statements) {
    std::size_t count = 0;
    std::uint32_t total = 0;
    for (const Statement& statement : statements) {
        count += 1 + statement.implicit_outputs.size() + statement.implicit_inputs.size();
        total += sum(statement.output);
        for (const auto* paths : {&statement.implicit_outputs, &statement.implicit_inputs}) {
            for (const std::string& path : *paths) {
                total += sum(path);
            }
        }
    }
    return {count, total};
}

int main() {
    const std::pair<std::size_t, int> sizes[] = {{1'000, 200}, {10'000, 40}, {60'000, 12}};
    double smallest = 0;
    for (const auto& [statements, rounds] : sizes) {
        const std::string text = dyndep_text(statements);
        const auto [paths, path_sum] = count_paths(Splitter(text).split());
        const double time = least_time(text, rounds);
        const double length = static_cast<double>(text.size());
        const double each = time / length;
        smallest = smallest == 0 ? each : smallest;
        std::printf("%-8s %10zu %9zu %10u %7zu %10u %9.3f %8.2f %6.2f %7.1f\n", "C++", statements,
                    text.size(), sum(text), paths, path_sum, time * 1e3, each * 1e9,
                    each / smallest, length / time / 1e6);
    }
}
