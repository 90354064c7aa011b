// Calls dyncollate.hpp, and prints what it returns and throws. With an argument, it prints what the
// errors on standard input say, which are the numbers of a location and a line.
#include <dyncollate.hpp>

#include <iostream>
#include <map>
#include <string>
#include <string_view>
#include <utility>
#include <vector>

// Prints the error of a call.
template <class Call>
void fails(Call call)
{
    try {
        call();
        std::cout << "no error\n";
    } catch (const dyncollate::error &error) {
        std::cout << error.status << " " << error.what() << "\n";
    } catch (const std::invalid_argument &error) {
        std::cout << error.what() << "\n";
    }
}

// The library's allocations, which the linker redirects to these.
extern "C" void *__real_malloc(std::size_t size);
extern "C" void *__real_realloc(void *block, std::size_t size);
static bool has_memory = true;
extern "C" void *__wrap_malloc(std::size_t size)
{
    return has_memory ? __real_malloc(size) : nullptr;
}
extern "C" void *__wrap_realloc(void *block, std::size_t size)
{
    return has_memory ? __real_realloc(block, size) : nullptr;
}

static int print_errors()
{
    for (dyncollate_location at;
         std::cin >> at.document >> at.letter >> at.number >> at.list >> at.target >> at.index >>
         at.line >> at.item >> at.entry >> at.offset >> std::ws;) {
        std::string line;
        std::getline(std::cin, line);
        const dyncollate::error error(1, line, at);
        std::cout << error.code << "|" << error.name;
        for (const std::string &name : error.names)
            std::cout << "|" << name;
        std::cout << "\n";
    }
    return 0;
}

int main(int count, char **)
{
    if (count > 1)
        return print_errors();
    const std::string version = "ninja_dyndep_version = 1\n";
    for (const dyncollate::statement& it : dyncollate::statements(
             version + "build a | b c: dyndep | d e f\n  restat = 1\nbuild g: dyndep\n")) {
        std::cout << it.output << (it.restat ? " restat:" : ":");
        for (const std::string &path : it.outputs)
            std::cout << " " << path;
        std::cout << " |";
        for (const std::string &path : it.inputs)
            std::cout << " " << path;
        std::cout << "\n";
    }

    // More numbers and more text than there is room for at first
    std::string many = version;
    for (int i = 0; i < 3000; i++)
        many += "build object" + std::to_string(i) + ".o | m" + std::to_string(i) + ": dyndep\n";
    const auto statements = dyncollate::statements(many);
    std::cout << statements.size() << " " << statements.back().output << " "
              << statements.back().outputs[0] << "\n";

    const std::string_view scan = R"({"version":1,"rules":[{"primary-output":"b.o"}]})";
    std::cout << dyncollate::one(scan, "", "");
    const std::string target =
        R"({"version":1,"target":"t","module-dir":"","module-ext":"","scans":["s"],)"
        R"("dyndep":"d","info":"i","restat":true})";
    for (const auto& it : dyncollate::collate(
             target, std::vector<std::pair<std::string_view, std::string_view>>{{"s", scan}}))
        std::cout << it.name << " " << it.data.size() << (it.restat ? " restat\n" : "\n");
    const std::map<std::string, std::string> files = {{"s", std::string(scan)}, {"t.json", target}};
    std::cout << dyncollate::project(R"({"version":1,"targets":["t.json"]})", files).size() << "\n";

    fails([&] { dyncollate::collate(target, std::map<std::string, std::string>()); });
    fails([&] { dyncollate::collate("{}", files); });
    fails([&] { dyncollate::collate("{}", std::map<std::string, std::string>{{"\xff", ""}}); });
    fails([&] { dyncollate::one("", "", ""); });
    fails([&] { dyncollate::statements(version + "build\n"); });
    std::cout << dyncollate::statements(version).size() << "\n";

    try {
        dyncollate::one(R"({"version":1,"rules":[{"primary-output":"a.o"},{"primary-output":"b.o"},
            {"primary-output":"c.o","requires":[{"logical-name":"A"},{"logical-name":""}]}]})",
                        "", "");
    } catch (const dyncollate::error &error) {
        const dyncollate_location &at = error.location;
        std::cout << at.document << " " << char(at.letter) << at.number << " rule " << at.item
                  << (at.list == DYNCOLLATE_REQUIRES ? " requires " : " ? ") << at.entry << "\n";
    }
    try {
        dyncollate::statements(version + "build\n");
    } catch (const dyncollate::error &error) {
        const dyncollate_location &at = error.location;
        std::cout << at.document << " " << char(at.letter) << at.number << " line " << at.line
                  << (at.item == DYNCOLLATE_ABSENT && at.index == DYNCOLLATE_ABSENT ? "\n"
                                                                                    : " ?\n");
    }

    const std::string edges = "build a: x | b || t.dd\n  dyndep = t.dd\nbuild b: x\n";
    for (const std::string &output : dyncollate::order(edges))
        std::cout << output << "\n";
    std::cout << dyncollate::effect("./t.dd", edges, version + "build a | c: dyndep\n")
              << dyncollate::show(version + "build   a: dyndep\n");
    fails([&] { dyncollate::order("build a: x a\n"); });
    fails([&] { dyncollate::effect("", edges, version); });
    fails([&] { dyncollate::show(version + "build a$x: dyndep\n"); });

    has_memory = false;
    try {
        dyncollate::one(scan, "", "");
    } catch (const std::bad_alloc &) {
        std::cout << "no memory\n";
    }
}
