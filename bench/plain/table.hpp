// The modules of a target (docs/FORMATS.md, "The modules of a target"): who provides each,
// and what each object requires.
#pragma once

#include <algorithm>
#include <cstddef>
#include <cstdint>
#include <numeric>
#include <string>
#include <string_view>
#include <unordered_map>
#include <utility>
#include <vector>

#include "digraph.hpp"
#include "documents.hpp"

// A module of an object or of an info file. Modules are numbered: those of the objects in order,
// then those of the info files.
struct Provided {
    std::string_view name;
    const std::string* file;
    // the object, or the number of objects and the info
    Node maker;
    Node last_user = static_cast<Node>(-1);
    bool is_private = false;
};

class Table {
public:
    // The rules and info files are borrowed, and stay where they are.
    Table(const std::vector<Rule>& rules, const std::vector<const Info*>& infos,
          const std::vector<std::string_view>& kept)
        : rules_(rules), infos_(infos) {
        check_targets_twice();
        add_modules();
        add_files();
        require_of_objects();
        require_of_infos();
        check_order();
        check_private(kept);
    }

    const std::vector<Rule>& rules() const { return rules_; }
    const Provided& module(Node number) const { return modules_[number]; }

    // The modules that an object requires, each once.
    Digraph::Row required(std::size_t object) const { return required_.row(object); }

    // What the modules of an object or an info's module need in turn: the row of its requirements.
    Digraph::Row required_of_module(Node number) const {
        const Node maker = modules_[number].maker;
        return required_.row(maker < rules_.size() ? maker : number - own_ + rules_.size());
    }

    std::size_t module_count() const { return modules_.size(); }
    // How many modules the objects provide.
    std::size_t own_count() const { return own_; }
    // The number of an object's first module; they are numbered in a row.
    Node first_module(std::size_t object) const { return first_[object]; }

private:
    const std::vector<Rule>& rules_;
    const std::vector<const Info*>& infos_;
    std::vector<Provided> modules_;
    std::vector<Node> first_;
    std::size_t own_ = 0;
    std::unordered_map<std::string_view, Node> names_;
    std::unordered_map<std::string_view, Node> makers_;
    // the rows of the objects, then those of the info files' modules
    Digraph required_;

    std::string maker_text(Node maker) const {
        if (maker < rules_.size()) {
            return "object " + rules_[maker].object;
        }
        return "info " + std::string(infos_[maker - rules_.size()]->target);
    }

    std::string by(Node first, Node second) const {
        return " by " + maker_text(first) + " and " + maker_text(second);
    }

    void check_targets_twice() {
        makers_.reserve(2 * rules_.size());
        for (std::size_t rule = 0; rule < rules_.size(); ++rule) {
            if (!makers_.try_emplace(rules_[rule].object, static_cast<Node>(rule)).second) {
                throw Refusal("M1 ObjectTwice " + rules_[rule].object);
            }
        }
        std::unordered_map<std::string_view, std::size_t> targets;
        for (std::size_t info = 0; info < infos_.size(); ++info) {
            if (!targets.try_emplace(infos_[info]->target, info).second) {
                throw Refusal("M2 InfoTwice " + std::string(infos_[info]->target));
            }
        }
    }

    void add_module(const Provided& module) {
        const auto number = static_cast<Node>(modules_.size());
        const auto [found, is_new] = names_.try_emplace(module.name, number);
        if (!is_new) {
            const Node first = modules_[found->second].maker;
            throw Refusal("M3 ProvidedTwice " + std::string(module.name) + by(first, module.maker));
        }
        modules_.push_back(module);
    }

    void add_modules() {
        names_.reserve(rules_.size());
        modules_.reserve(rules_.size());
        first_.reserve(rules_.size() + 1);
        for (std::size_t rule = 0; rule < rules_.size(); ++rule) {
            first_.push_back(static_cast<Node>(modules_.size()));
            for (const Module& module : rules_[rule].provided) {
                add_module({module.name, &module.file, static_cast<Node>(rule)});
            }
        }
        own_ = modules_.size();
        first_.push_back(static_cast<Node>(own_));
        for (std::size_t info = 0; info < infos_.size(); ++info) {
            const auto maker = static_cast<Node>(rules_.size() + info);
            for (const InfoModule& module : infos_[info]->modules) {
                Provided provided{module.name, &module.file, maker};
                provided.is_private = module.is_private;
                add_module(provided);
            }
        }
    }

    void add_files() {
        for (const Provided& module : modules_) {
            const auto [found, is_new] = makers_.try_emplace(*module.file, module.maker);
            if (!is_new) {
                throw Refusal("M4 BmiTwice " + *module.file + by(found->second, module.maker));
            }
        }
    }

    void require_of_objects() {
        required_.reserve(rules_.size() + modules_.size() - own_, 4 * rules_.size());
        for (std::size_t number = 0; number < rules_.size(); ++number) {
            for (std::string_view name : rules_[number].required) {
                const auto found = names_.find(name);
                if (found == names_.end()) {
                    throw Refusal("M5 ModuleUnknown " + std::string(name) + " in " +
                                  rules_[number].object);
                }
                Provided& module = modules_[found->second];
                if (module.last_user != number) {
                    module.last_user = static_cast<Node>(number);
                    required_.add(found->second);
                }
            }
            required_.end_row();
        }
    }

    [[noreturn]] static void refuse_requirement(const char* fault, const Info& info,
                                                const InfoModule& module, const Module& required) {
        throw Refusal(std::string(fault) + " " + std::string(info.target) + " " +
                      std::string(module.name) + " " + std::string(required.name));
    }

    // A module that an info's module requires.
    Node required_of_info(const Info& info, const InfoModule& module,
                          const Module& required) const {
        const auto found = names_.find(required.name);
        if (found == names_.end() || found->second < own_) {
            refuse_requirement("M6 InfoUnknown", info, module, required);
        }
        return found->second;
    }

    // M6 comes before M7 wherever they are, so all files are compared after all names.
    void require_of_infos() {
        for (const Info* info : infos_) {
            for (const InfoModule& module : info->modules) {
                for (const Module& required : module.required) {
                    required_.add(required_of_info(*info, module, required));
                }
                required_.end_row();
            }
        }
        std::size_t row = rules_.size();
        for (const Info* info : infos_) {
            for (const InfoModule& module : info->modules) {
                const Node* number = required_.row(row++).begin();
                for (const Module& required : module.required) {
                    if (*modules_[*number++].file != required.file) {
                        refuse_requirement("M7 InfoDisagrees", *info, module, required);
                    }
                }
            }
        }
    }

    // Takes away objects that no other one needs any more, until none is left.
    void check_order() const {
        std::vector<std::size_t> users(rules_.size());
        for (std::size_t rule = 0; rule < rules_.size(); ++rule) {
            count_users(rule, users, 1);
        }
        std::vector<Node> free;
        free.reserve(rules_.size());
        for (std::size_t rule = 0; rule < rules_.size(); ++rule) {
            if (users[rule] == 0) {
                free.push_back(static_cast<Node>(rule));
            }
        }
        for (std::size_t next = 0; next < free.size(); ++next) {
            for (Node number : required(free[next])) {
                const Node maker = modules_[number].maker;
                if (number < own_ && --users[maker] == 0) {
                    free.push_back(maker);
                }
            }
        }
        if (free.size() < rules_.size()) {
            refuse_cycle();
        }
    }

    void count_users(std::size_t rule, std::vector<std::size_t>& users, std::size_t count) const {
        for (Node number : required(rule)) {
            if (number < own_) {
                users[modules_[number].maker] += count;
            }
        }
    }

    [[noreturn]] void refuse_cycle() const {
        Digraph needs;
        for (std::size_t rule = 0; rule < rules_.size(); ++rule) {
            for (Node number : required(rule)) {
                if (number < own_) {
                    needs.add(modules_[number].maker);
                }
            }
            needs.end_row();
        }
        std::string text = "M8 ImportCycle";
        const char* between = " ";
        for (Node object : least_cycle(needs)) {
            text += between + rules_[object].object;
            between = " -> ";
        }
        throw Refusal(text);
    }

    void check_use(Node user, const Provided& module) const {
        if (module.is_private && module.maker != user) {
            throw Refusal("M9 ModulePrivate " + std::string(module.name) + " of " +
                          std::string(infos_[module.maker - rules_.size()]->target) + " in " +
                          maker_text(user));
        }
    }

    void check_private(const std::vector<std::string_view>& kept) const {
        for (std::size_t rule = 0; rule < rules_.size(); ++rule) {
            for (Node number : required(rule)) {
                check_use(static_cast<Node>(rule), modules_[number]);
            }
        }
        for (std::size_t number = own_; number < modules_.size(); ++number) {
            for (Node required : required_of_module(static_cast<Node>(number))) {
                check_use(modules_[number].maker, modules_[required]);
            }
        }
        for (std::string_view name : kept) {
            const auto found = names_.find(name);
            if (found == names_.end() || found->second >= own_) {
                throw Refusal("M10 PrivateUnknown " + std::string(name));
            }
        }
    }
};

// Finds what objects need: all modules that chains of requirements lead to,
// in the order of their names.
class NeededFinder {
public:
    explicit NeededFinder(const Table& table)
        : table_(table), ranks_(table.module_count()), by_rank_(table.module_count()),
          last_user_(table.module_count(), static_cast<std::size_t>(-1)) {
        std::iota(by_rank_.begin(), by_rank_.end(), Node{0});
        std::sort(by_rank_.begin(), by_rank_.end(), [&](Node first, Node second) {
            return table.module(first).name < table.module(second).name;
        });
        for (std::size_t rank = 0; rank < by_rank_.size(); ++rank) {
            ranks_[by_rank_[rank]] = static_cast<Node>(rank);
        }
    }

    // The modules that an object needs. They are valid until the next object is asked for.
    const std::vector<Node>& needed(std::size_t object) {
        found_.clear();
        add(object, table_.required(object));
        for (std::size_t next = 0; next < found_.size(); ++next) {
            add(object, table_.required_of_module(found_[next]));
        }
        for (Node& number : found_) {
            number = ranks_[number];
        }
        std::sort(found_.begin(), found_.end());
        for (Node& rank : found_) {
            rank = by_rank_[rank];
        }
        return found_;
    }

private:
    const Table& table_;
    std::vector<Node> ranks_;
    std::vector<Node> by_rank_;
    // the object that a module was last found for
    std::vector<std::size_t> last_user_;
    std::vector<Node> found_;

    void add(std::size_t object, Digraph::Row row) {
        for (Node number : row) {
            if (last_user_[number] != object) {
                last_user_[number] = object;
                found_.push_back(number);
            }
        }
    }
};
