// Commands, as values.
#pragma once

#include <cstdint>
#include <variant>

#include "bits.h"
#include "mail.h"
#include "rules.h"
#include "words.h"

struct SetRule {
    Prefix prefix;
    Rule rule;
};

struct ClearRule {
    Prefix prefix;
};

struct Mobility {
    Identity itsi;
    std::uint16_t area;
    Bits pdu;
};

struct ShortDataTo {
    Identity source, destination;
    Bits pdu;
};

struct ShortDataToGroup {
    Identity source, group;
    Bits pdu;
};

struct Sent {
    Key key;
};

struct Delete {
    Key key;
};

struct Expire {};

using Body = std::variant<SetRule, ClearRule, Mobility, ShortDataTo, ShortDataToGroup, Sent, Delete, Expire>;

struct Command {
    std::uint32_t sequence, moment;
    Body body;
};
