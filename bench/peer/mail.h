// What waits for radios: messages and delivery reports.
#pragma once

#include <algorithm>
#include <cstdint>
#include <map>
#include <optional>
#include <unordered_map>
#include <vector>

#include "bits.h"
#include "words.h"

struct Key {
    Identity destination, source;
    std::uint8_t reference;
    // 'm' for a message, 'r' for a report
    char kind;

    bool operator==(const Key &other) const
    {
        return destination == other.destination && source == other.source && reference == other.reference && kind == other.kind;
    }
};

struct KeyHash {
    std::size_t operator()(const Key &key) const
    {
        const std::uint64_t rest = key.source.bits << 16 | std::uint64_t{key.reference} << 8 | static_cast<unsigned char>(key.kind);
        return (rest ^ key.destination.bits * 0x9E3779B97F4A7C15) * 0xC2B2AE3D27D4EB4F >> 16;
    }
};

struct Item {
    std::uint64_t number, deadline;
    Bits pdu;
    // As of `ShortData`
    std::uint8_t request;
    // Of a copy of a message to a group
    std::optional<Identity> group;
};

class Mail {
    struct Slot {
        Item item;
        std::multimap<std::uint64_t, Key>::iterator deadline;
    };

public:
    using Entry = std::pair<const Key, Slot>;
    using Inbox = std::vector<const Entry *>;
    using Inboxes = std::unordered_map<Identity, Inbox>;
    using Slots = std::unordered_map<Key, Slot, KeyHash>;

    std::size_t size() const { return slots.size(); }
    const Slots &all() const { return slots; }
    const Inboxes &all_inboxes() const { return inboxes; }

    // The item, or null.
    const Item *find(const Key &key) const
    {
        const auto found = slots.find(key);
        return found == slots.end() ? nullptr : &found->second.item;
    }

    // What waits for a destination, in order of the numbers.
    const Inbox &inbox(Identity destination) const
    {
        static const Inbox empty;
        const auto found = inboxes.find(destination);
        return found == inboxes.end() ? empty : found->second;
    }

    // Adds an item with the greatest number so far. Nothing with its key may wait.
    void add(const Key &key, const Item &item)
    {
        const auto deadline = deadlines.emplace(item.deadline, key);
        const auto added = slots.emplace(key, Slot{item, deadline}).first;
        inboxes[key.destination].push_back(&*added);
    }

    // Removes an item that waits.
    void remove(const Key &key)
    {
        const auto slot = slots.find(key);
        const auto inbox = inboxes.find(key.destination);
        inbox->second.erase(std::find(inbox->second.begin(), inbox->second.end(), &*slot));
        if (inbox->second.empty())
            inboxes.erase(inbox);
        deadlines.erase(slot->second.deadline);
        slots.erase(slot);
    }

    // Removes each item whose deadline is at most this moment.
    void expire(std::uint64_t moment)
    {
        while (!deadlines.empty() && deadlines.begin()->first <= moment)
            remove(Key(deadlines.begin()->second));
    }

private:
    Slots slots;
    Inboxes inboxes;
    std::multimap<std::uint64_t, Key> deadlines;
};
