// Strings of bits, the first bit greatest in its byte.
#pragma once

#include <algorithm>
#include <array>
#include <cstddef>
#include <cstdint>

#include "refusals.h"

constexpr std::size_t most_bits = 2048;

// At most 2,048 bits.
class Bits {
public:
    std::size_t length() const { return count; }

    // The bits of byte k. Those after the last one are 0.
    std::uint8_t byte(std::size_t k) const { return bytes[k]; }

    // These bits, at most 32, as a number.
    std::uint32_t number(std::size_t at, unsigned width) const
    {
        std::uint64_t value = 0;
        const std::size_t end = at + width, last = (end + 7) / 8;
        for (std::size_t k = at / 8; k < last; k++)
            value = value << 8 | bytes[k];
        return (value >> (8 * last - end)) & ((std::uint64_t{1} << width) - 1);
    }

    // Adds a number as so many bits, at most 32.
    void put(std::uint32_t number, unsigned width)
    {
        while (width > 0) {
            const unsigned room = 8 - count % 8, taken = std::min(room, width);
            const std::uint32_t part = (number >> (width - taken)) & ((1u << taken) - 1);
            bytes[count / 8] |= part << (room - taken);
            count += taken;
            width -= taken;
        }
    }

    // Adds four bits. The length has to be a multiple of 4.
    void put_digit(unsigned digit)
    {
        bytes[count / 8] |= digit << (4 - count % 8);
        count += 4;
    }

    // Cuts off the bits after the first `length`. Whether they were 0.
    bool cut(std::size_t length)
    {
        const bool is_zero = number(length, count - length) == 0;
        count = length;
        return is_zero;
    }

    void clear_bit(std::size_t at) { bytes[at / 8] &= ~(0x80 >> at % 8); }

private:
    std::array<std::uint8_t, most_bits / 8> bytes{};
    std::size_t count = 0;
};

// Takes bits from the left. After the first fault nothing is left, and what is taken is 0.
class BitReader {
public:
    // `wanting` is the fault where bits are missing.
    BitReader(const Bits &bits, Refusal wanting) : BitReader(bits, 0, bits.length(), wanting) {}

    Refusal fault() const { return first_fault; }
    bool is_at_end() const { return at == end; }

    void fail(Refusal fault)
    {
        if (first_fault == Refusal::none)
            first_fault = fault;
        at = end;
    }

    std::uint32_t take(unsigned width)
    {
        if (!skip(width))
            return 0;
        return bits.number(at - width, width);
    }

    bool flag() { return take(1) == 1; }

    // Whether so many bits were there.
    bool skip(std::size_t width)
    {
        if (end - at < width) {
            fail(wanting);
            return false;
        }
        at += width;
        return true;
    }

    // A reader of the next bits alone; an empty one if they are missing.
    BitReader part(std::size_t width, Refusal wanting_there)
    {
        const std::size_t start = skip(width) ? at - width : at;
        return BitReader(bits, start, at, wanting_there);
    }

private:
    BitReader(const Bits &bits, std::size_t at, std::size_t end, Refusal wanting) : bits(bits), at(at), end(end), wanting(wanting) {}

    const Bits &bits;
    std::size_t at, end;
    Refusal wanting, first_fault = Refusal::none;
};
