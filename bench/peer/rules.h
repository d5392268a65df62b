// Rules under prefixes.
#pragma once

#include <array>
#include <cstdint>
#include <functional>
#include <optional>
#include <unordered_map>

#include "words.h"

struct Rule {
    std::uint16_t low, high;
    std::uint8_t life;
    std::uint32_t keep;
};

struct PrefixHash {
    std::size_t operator()(const Prefix &prefix) const { return std::hash<std::uint64_t>()(prefix.bits << 8 | prefix.length); }
};

using RuleEntry = std::pair<const Prefix, Rule>;

class Rules {
public:
    using Table = std::unordered_map<Prefix, Rule, PrefixHash>;

    std::size_t size() const { return rules.size(); }
    const Table &all() const { return rules; }
    bool has(Prefix prefix) const { return rules.count(prefix) > 0; }

    void set(Prefix prefix, const Rule &rule)
    {
        if (rules.insert_or_assign(prefix, rule).second)
            of_length[prefix.length]++;
    }

    void clear(Prefix prefix) { of_length[prefix.length] -= rules.erase(prefix); }

    // The rule of the longest prefix of this identity that has one, or null.
    const RuleEntry *find(Identity identity) const
    {
        for (unsigned length = identity_bits + 1; length-- > 0;) {
            if (of_length[length] == 0)
                continue;
            const auto found = rules.find(prefix_of(identity, length));
            if (found != rules.end())
                return &*found;
        }
        return nullptr;
    }

private:
    Table rules;
    // How many prefixes of each length have a rule.
    std::array<std::size_t, identity_bits + 1> of_length{};
};
