// Listings: what the register holds, as lines, an entry after another.
#pragma once

#include <cstdint>
#include <optional>

#include "centre.h"
#include "text.h"

// A waiting item, with its destination or without.
void print_item(Text &text, const Mail::Entry &entry, bool names_destination);

// Each of these prints what follows the words of the query.

void print_rules(Text &text, const Centre &centre);
void print_radios(Text &text, const Centre &centre, Prefix under);
void print_items(Text &text, const Centre &centre, std::optional<std::uint32_t> due);
void print_waiting(Text &text, const Centre &centre, std::uint16_t station);
void print_last(Text &text, const Centre &centre, std::uint16_t station);
void print_room(Text &text, const Centre &centre);
void print_dump(Text &text, const Centre &centre);

// Where a radio is, or was last.
void print_whereabouts(Text &text, const Radio &radio);

// A rule after its prefix.
void print_rule(Text &text, const RuleEntry &entry);
