// The PDUs that the switch reads and writes (docs/formats/pdus.md).
#pragma once

#include <array>
#include <cstdint>
#include <vector>

#include "bits.h"
#include "words.h"

// Mobility management

enum class UplinkKind { detach, demand, groups };

// An address as it came: a GSSI, and perhaps MCC and MNC.
struct Address {
    bool is_extended;
    std::uint32_t gssi, extension;

    // A GSSI alone is of the radio's own network.
    Identity group(Identity radio) const { return {(is_extended ? extension : radio.bits >> 24) << 24 | gssi}; }
};

struct GroupItem {
    bool is_detach;
    std::uint8_t usage;
    Address address;
};

constexpr std::size_t most_groups = 32;

struct Uplink {
    Refusal fault;
    UplinkKind kind;
    std::uint8_t update;
    bool detaches_all;
    std::vector<GroupItem> items;
};

Uplink read_uplink(const Bits &bits);

// What an attach item is answered: its class and lifetime, or a rejection.
struct GroupAnswer {
    Address address;
    bool is_accepted;
    std::uint8_t usage, life;
};

Bits accept(std::uint8_t update);
Bits reject(std::uint8_t update, std::uint8_t cause);
Bits acknowledgement(const std::vector<GroupAnswer> &answers);

// Short data

enum class ShortDataKind { message, report, acknowledgement };

struct ShortData {
    Refusal fault;
    ShortDataKind kind;
    // Of a message the report that it asks for, 0 to 3; of a report whether it asks for an acknowledgement.
    std::uint8_t request;
    std::uint8_t status, reference;
};

ShortData read_short_data(const Bits &bits);

// The bits that are kept of a message or report.
Bits kept_bits(const ShortData &value, Bits bits);
