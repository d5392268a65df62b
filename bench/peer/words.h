// The words of lines: numbers, identities, prefixes and bit strings, read and printed.
#pragma once

#include <cstdint>
#include <functional>
#include <string_view>

#include "bits.h"
#include "text.h"

constexpr unsigned identity_bits = 48;

// 48 bits: MCC (10), MNC (14), SSI (24).
struct Identity {
    std::uint64_t bits;

    bool operator==(Identity other) const { return bits == other.bits; }
    bool operator!=(Identity other) const { return bits != other.bits; }
    bool operator<(Identity other) const { return bits < other.bits; }
};

template <> struct std::hash<Identity> {
    std::size_t operator()(Identity identity) const { return std::hash<std::uint64_t>()(identity.bits); }
};

// The first `length` bits of an identity; the others are 0.
struct Prefix {
    std::uint64_t bits;
    unsigned length;

    bool operator==(const Prefix &other) const { return bits == other.bits && length == other.length; }
};

inline Prefix prefix_of(Identity identity, unsigned length)
{
    const unsigned rest = identity_bits - length;
    return {identity.bits >> rest << rest, length};
}

// Each of these answers whether the word has its form and range. If not, the value is of no use.

bool read_identity(std::string_view word, Identity &identity);
bool read_prefix(std::string_view word, Prefix &prefix);
bool read_bits(std::string_view word, Bits &bits);

// Takes the digits that `rest` begins with.
bool take_digits(std::string_view &rest, std::uint64_t &value);

template <typename Number> bool take_number(std::string_view &rest, std::uint32_t least, std::uint32_t most, Number &number)
{
    std::uint64_t value;
    if (!take_digits(rest, value) || value < least || value > most)
        return false;
    number = value;
    return true;
}

template <typename Number> bool read_number(std::string_view word, std::uint32_t least, std::uint32_t most, Number &number)
{
    return take_number(word, least, most, number) && word.empty();
}

Text &operator<<(Text &text, Identity identity);
Text &operator<<(Text &text, Prefix prefix);
Text &operator<<(Text &text, const Bits &bits);
