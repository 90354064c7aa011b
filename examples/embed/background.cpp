// Collates a target on a thread of its own, as a build tool does that has other work meanwhile.
//
//     c++ -std=c++17 -pthread background.cpp $(pkg-config --cflags --libs dyncollate) -o background
#include <dyncollate.hpp>

#include <future>
#include <iostream>
#include <map>
#include <string>

int main()
{
    const std::string document =
        R"({"version":1,"target":"app","module-dir":"bmi","module-ext":".pcm",
        "scans":["main.ddi","greet.ddi"],"dyndep":"app.dd","info":"app.info.json","map":"clang"})";
    const std::map<std::string, std::string> files = {
        {"main.ddi",
         R"({"version":1,"rules":[
            {"primary-output":"main.o","requires":[{"logical-name":"greet"}]}]})"},
        {"greet.ddi",
         R"({"version":1,"rules":[
            {"primary-output":"greet.o","provides":[{"logical-name":"greet"}]}]})"},
    };
    auto collation =
        std::async(std::launch::async, [&] { return dyncollate::collate(document, files); });
    std::cout << "collating\n";
    try {
        for (const dyncollate::file &made : collation.get())
            std::cout << "==> " << made.name << " <==\n"
                      << made.data << (made.name == "app.info.json" ? "\n" : "");
    } catch (const dyncollate::error &error) {
        std::cerr << error.what() << "\n";
        return static_cast<int>(error.status);
    }
}
