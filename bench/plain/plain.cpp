// Does what dyncollate does, by hand, and proves nothing: what the program is compared with. It has
// the commands one, collate, project, effect and order, with the files, the standard output and the
// errors of docs/FORMATS.md. It takes all arguments as they are, also those that begin with a
// hyphen.
#include <cstddef>
#include <cstdio>
#include <string>
#include <string_view>
#include <unordered_map>
#include <utility>
#include <vector>

#include "collate.hpp"
#include "documents.hpp"
#include "faults.hpp"
#include "files.hpp"
#include "graph.hpp"

namespace {

// A target, and the bytes that its rules and info files are slices of.
struct Target {
    std::string bytes;
    TargetSpec spec;
    std::vector<std::string> scans;
    std::string listing;
    std::vector<Rule> rules;
    Collated collated;
};

// Reads a target document.
void read_target(Target& target, const std::string& name, SpecReader& reader) {
    target.bytes = read_file(name);
    labelled([] { return "target"; }, [&] { target.spec = reader.read(target.bytes); });
}

std::vector<std::string> read_files(const std::vector<std::string_view>& names) {
    std::vector<std::string> files;
    files.reserve(names.size());
    for (std::string_view name : names) {
        files.push_back(read_file(std::string(name)));
    }
    return files;
}

void read_listing(Target& target) {
    if (target.spec.has_edges) {
        target.listing = read_file(std::string(target.spec.edges));
    }
}

// Rejects a target whose listing has no order once its dyndep file is applied.
void check_edges(const Target& target) {
    if (target.spec.has_edges) {
        Graph graph = graph_of(target.listing);
        graph.apply(target.spec.dyndep_path, statements_of(target.collated.dyndep));
        graph.order();
    }
}

void write_target(const Target& target) {
    for (std::size_t object = 0; object < target.collated.maps.size(); ++object) {
        write_file(target.rules[object].object + ".modmap", target.collated.maps[object]);
    }
    write_file(std::string(target.spec.info), target.collated.info);
    write_file(std::string(target.spec.dyndep), target.collated.dyndep);
}

void run_collate(const char* file) {
    Target target;
    SpecReader spec_reader;
    read_target(target, file, spec_reader);
    target.scans = read_files(target.spec.scans);
    std::vector<std::string> texts = read_files(target.spec.linked);
    read_listing(target);
    target.rules = scan_rules(target.scans, target.spec.setting);
    std::vector<Info> infos;
    infos.reserve(texts.size());
    std::vector<const Info*> linked;
    InfoReader reader;
    for (std::string& text : texts) {
        const auto label = [&] { return "info " + std::to_string(infos.size()); };
        infos.push_back(labelled(label, [&] { return reader.read(text); }));
        linked.push_back(&infos.back());
    }
    target.collated = collate(target.spec, target.rules, linked);
    check_edges(target);
    write_target(target);
}

// A project's targets, in order.
class Project {
public:
    void run(const char* file) {
        std::string bytes = read_file(file);
        const std::vector<std::string_view> names =
            labelled([] { return "project"; }, [&] { return reader_.read_project(bytes); });
        targets_.resize(names.size());
        links_.resize(names.size());
        infos_.resize(names.size());
        texts_.resize(names.size());
        each_target([&](std::size_t number) { read(number, std::string(names[number])); });
        each_target([&](std::size_t number) { collate_target(number); });
        each_target([&](std::size_t number) { check_edges(targets_[number]); });
        for (const Target& target : targets_) {
            write_target(target);
        }
    }

private:
    SpecReader reader_;
    InfoReader info_reader_;
    std::vector<Target> targets_;
    // the targets that each one links, by number
    std::vector<std::vector<std::size_t>> links_;
    // what each target's info says, as a target that links it reads it, and the bytes of that
    std::vector<Info> infos_;
    std::vector<std::string> texts_;
    std::unordered_map<std::string_view, std::size_t> latest_;

    template <class Step>
    void each_target(const Step& step) {
        for (std::size_t number = 0; number < targets_.size(); ++number) {
            labelled([&] { return "target " + std::to_string(number); }, [&] { step(number); });
        }
    }

    void read(std::size_t number, const std::string& name) {
        Target& target = targets_[number];
        read_target(target, name, reader_);
        if (target.spec.map != targets_.front().spec.map) {
            throw Refusal("target: S3 BadShape document member map");
        }
        for (std::string_view text : target.spec.linked) {
            const auto found = latest_.find(text);
            if (found == latest_.end()) {
                throw Refusal("K3 LinkedLater");
            }
            links_[number].push_back(found->second);
        }
        latest_[target.spec.info] = number;
        target.scans = read_files(target.spec.scans);
        read_listing(target);
    }

    void collate_target(std::size_t number) {
        Target& target = targets_[number];
        target.rules = scan_rules(target.scans, target.spec.setting);
        std::vector<const Info*> linked;
        for (std::size_t link : links_[number]) {
            const auto label = [&] { return "info " + std::to_string(linked.size()); };
            linked.push_back(labelled(label, [&] { return info_of(link); }));
        }
        target.collated = collate(target.spec, target.rules, linked);
    }

    // The info that a target wrote, which is read once.
    const Info* info_of(std::size_t number) {
        if (texts_[number].empty()) {
            texts_[number] = targets_[number].collated.info;
            infos_[number] = info_reader_.read(texts_[number]);
        }
        return &infos_[number];
    }
};

void run_one(const char* scan, const char* dir, const char* ext) {
    Target target;
    target.spec.setting = {dir, ext};
    target.scans.push_back(read_file(scan));
    target.rules = scan_rules(target.scans, target.spec.setting);
    const std::vector<const Info*> none;
    const Table table(target.rules, none, {});
    write_out(dyndep_text(table));
}

void run_effect(const char* word, const char* edges, const char* dyndep) {
    const std::string listing = read_file(edges);
    const std::string text = read_file(dyndep);
    std::string name;
    try {
        name = PathReader().read(word);
    } catch (const PathFault& fault) {
        throw Refusal(std::string("name: ") + fault.text);
    }
    Graph graph = graph_of(listing);
    graph.apply(name, statements_of(text));
    write_out(listing_text(graph.edges()));
}

void run_order(const char* edges) {
    const std::string listing = read_file(edges);
    const Graph graph = graph_of(listing);
    std::string text;
    for (Node edge : graph.order()) {
        text += shown(graph.edges()[edge].outputs.front());
        text += '\n';
    }
    write_out(text);
}

// Runs the command of the arguments, and returns whether there is one.
bool run(int count, char** words) {
    const std::string_view command = count > 1 ? words[1] : "";
    if (command == "one" && count == 5) {
        run_one(words[2], words[3], words[4]);
    } else if (command == "collate" && count == 3) {
        run_collate(words[2]);
    } else if (command == "project" && count == 3) {
        Project().run(words[2]);
    } else if (command == "effect" && count == 5) {
        run_effect(words[2], words[3], words[4]);
    } else if (command == "order" && count == 3) {
        run_order(words[2]);
    } else {
        return false;
    }
    return true;
}

int told(const std::exception& fault, int status) {
    std::fprintf(stderr, "dyncollate: %s\n", shown(fault.what()).c_str());
    return status;
}

}  // namespace

int main(int count, char** words) {
    try {
        if (!run(count, words)) {
            std::fputs("dyncollate: usage\n", stderr);
            return 2;
        }
        return 0;
    } catch (const Refusal& refusal) {
        return told(refusal, 1);
    } catch (const FileError& error) {
        return told(error, 3);
    }
}
