// Runs programs in turn and tells what they take: rounds ROUNDS STATUS DIR PROGRAM [DIR PROGRAM]..
// -- WORDS.. runs each program with the words, in each round, in its directory DIR, whose files out
// and err take what it prints. It prints a line for each program: the processor time of its fastest
// run and of its median one, in milliseconds, and the kilobytes that it held at most. It fails if a
// run ends with another status than STATUS.
#include <fcntl.h>
#include <spawn.h>
#include <sys/resource.h>
#include <sys/wait.h>
#include <unistd.h>

#include <algorithm>
#include <cstdio>
#include <cstdlib>
#include <fstream>
#include <iostream>
#include <string>
#include <string_view>
#include <vector>

struct Measured {
    const char* directory;
    char* program;
    std::vector<double> milliseconds = {};
    long kilobytes = 0;
};

double milliseconds(const timeval& time) {
    return static_cast<double>(time.tv_sec) * 1e3 + static_cast<double>(time.tv_usec) * 1e-3;
}

// Ends with what a program wrote to its standard error.
[[noreturn]] void give_up(const Measured& measured) {
    std::fprintf(stderr, "%s did not end as it should\n", measured.program);
    std::ifstream err(std::string(measured.directory) + "/err");
    if (err.is_open() && err.peek() != EOF) {
        std::cerr << err.rdbuf();
    }
    std::exit(1);
}

// Runs the program once. The words begin with a place for its name and end with a null pointer.
void run(Measured& measured, char** words, int wanted) {
    words[0] = measured.program;
    posix_spawn_file_actions_t actions;
    posix_spawn_file_actions_init(&actions);
    posix_spawn_file_actions_addchdir_np(&actions, measured.directory);
    constexpr int flags = O_WRONLY | O_CREAT | O_TRUNC;
    posix_spawn_file_actions_addopen(&actions, STDOUT_FILENO, "out", flags, 0644);
    posix_spawn_file_actions_addopen(&actions, STDERR_FILENO, "err", flags, 0644);
    pid_t process;
    if (posix_spawn(&process, measured.program, &actions, nullptr, words, environ) != 0) {
        give_up(measured);
    }
    int status;
    rusage used;
    if (wait4(process, &status, 0, &used) < 0 || !WIFEXITED(status) ||
        WEXITSTATUS(status) != wanted) {
        give_up(measured);
    }
    measured.milliseconds.push_back(milliseconds(used.ru_utime) + milliseconds(used.ru_stime));
    measured.kilobytes = std::max(measured.kilobytes, used.ru_maxrss);
    posix_spawn_file_actions_destroy(&actions);
}

int main(int count, char** words) {
    const int rounds = count > 1 ? std::atoi(words[1]) : 0;
    std::vector<Measured> programs;
    int next = 3;
    while (next + 1 < count && words[next] != std::string_view("--")) {
        programs.push_back({words[next], words[next + 1]});
        next += 2;
    }
    if (rounds < 1 || programs.empty() || next >= count) {
        std::fputs("usage: rounds ROUNDS STATUS DIR PROGRAM [DIR PROGRAM].. -- WORDS..\n", stderr);
        return 2;
    }
    for (int round = 0; round < rounds; ++round) {
        for (Measured& measured : programs) {
            run(measured, words + next, std::atoi(words[2]));
        }
    }
    for (Measured& measured : programs) {
        std::vector<double>& times = measured.milliseconds;
        std::sort(times.begin(), times.end());
        std::printf("%.3f %.3f %ld\n", times.front(), times[times.size() / 2], measured.kilobytes);
    }
}
