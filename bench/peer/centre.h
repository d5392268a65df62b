// The register and message centre: what commands do.
#pragma once

#include <cstdint>
#include <optional>
#include <unordered_map>

#include "commands.h"
#include "mail.h"
#include "pdus.h"
#include "radios.h"
#include "refusals.h"
#include "rules.h"

constexpr std::size_t most_items = 128;

struct Limits {
    std::size_t rules, radios, mail;
    std::uint16_t stations;
};

// The PDU for the radio, if any.
using Reply = std::optional<Bits>;

// The last accepted command of a station.
struct Served {
    std::uint32_t sequence;
    std::uint64_t number;
    Reply pdu;
};

struct Answer {
    Refusal refusal = Refusal::none;
    bool is_resend = false;
    // Of an accepted command
    std::uint64_t number = 0;
    // Of a refusal `old_sequence` the last sequence
    std::uint32_t last = 0;
    Reply pdu;
};

class Centre {
public:
    explicit Centre(const Limits &limits) : limits(limits) {}

    Answer apply(std::uint16_t station, const Command &command);

    std::uint64_t count() const { return accepted; }
    const Limits &all_limits() const { return limits; }
    std::size_t served_stations() const { return served.size(); }

    // The last accepted command of a station, or null.
    const Served *last_of(std::uint16_t station) const
    {
        const auto found = served.find(station);
        return found == served.end() ? nullptr : &found->second;
    }

    const Rules &all_rules() const { return rules; }
    const Radios &all_radios() const { return radios; }
    const Mail &all_mail() const { return mail; }

private:
    struct Context {
        std::uint16_t station;
        std::uint64_t moment;
    };

    void take(std::uint16_t station, const Command &command, Answer &answer);

    Refusal run(Context at, const SetRule &command, Reply &reply);
    Refusal run(Context at, const ClearRule &command, Reply &reply);
    Refusal run(Context at, const Mobility &command, Reply &reply);
    Refusal run(Context at, const ShortDataTo &command, Reply &reply);
    Refusal run(Context at, const ShortDataToGroup &command, Reply &reply);
    Refusal run(Context at, const Sent &command, Reply &reply);
    Refusal run(Context at, const Delete &command, Reply &reply);
    Refusal run(Context at, const Expire &command, Reply &reply);

    Refusal locate(Context at, const Mobility &command, std::uint8_t update, Reply &reply);
    Refusal locate_refusal(const Mobility &command, std::uint8_t update) const;
    Refusal attach(Identity itsi, const Uplink &uplink, Reply &reply);
    Refusal post(const Key &key, const Item &item);
    Refusal report(Identity reporter, Identity origin, const ShortData &value, const Item &item);
    Refusal remove(const Key &key);
    Refusal group_refusal(const std::vector<Key> &keys) const;
    Item new_item(const ShortData &value, const Bits &pdu, std::uint64_t deadline) const;

    Limits limits;
    Rules rules;
    Radios radios;
    Mail mail;
    std::unordered_map<std::uint16_t, Served> served;
    std::uint64_t accepted = 0;
};
