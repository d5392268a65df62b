#include "words.h"

bool take_digits(std::string_view &rest, std::uint64_t &value)
{
    constexpr std::size_t most_digits = 10;
    const char *start = rest.data(), *end = start + rest.size(), *at = start;
    std::uint64_t read = 0;
    for (; at != end && *at >= '0' && *at <= '9'; at++)
        read = 10 * read + (*at - '0');
    const std::size_t count = at - start;
    rest.remove_prefix(count);
    value = read;
    return count > 0 && count <= most_digits && (*start != '0' || count == 1);
}

static bool take(std::string_view &rest, char byte)
{
    const bool is_there = !rest.empty() && rest[0] == byte;
    rest.remove_prefix(is_there);
    return is_there;
}

static bool take_identity(std::string_view &rest, std::uint64_t &bits)
{
    std::uint64_t mcc, mnc, ssi;
    if (!take_number(rest, 0, (1 << 10) - 1, mcc) || !take(rest, '-') || !take_number(rest, 0, (1 << 14) - 1, mnc) || !take(rest, '-')
        || !take_number(rest, 0, (1 << 24) - 1, ssi))
        return false;
    bits = mcc << 38 | mnc << 24 | ssi;
    return true;
}

bool read_identity(std::string_view word, Identity &identity)
{
    return take_identity(word, identity.bits) && word.empty();
}

bool read_prefix(std::string_view word, Prefix &prefix)
{
    return take_identity(word, prefix.bits) && take(word, '/') && read_number(word, 0, identity_bits, prefix.length)
        && prefix == prefix_of({prefix.bits}, prefix.length);
}

// The value of a hexadecimal digit, or -1.
static int digit_value(char digit)
{
    if (digit >= '0' && digit <= '9')
        return digit - '0';
    if (digit >= 'A' && digit <= 'F')
        return digit - 'A' + 10;
    return digit >= 'a' && digit <= 'f' ? digit - 'a' + 10 : -1;
}

bool read_bits(std::string_view word, Bits &bits)
{
    std::size_t length;
    if (!take_number(word, 0, most_bits, length) || !take(word, ':') || word.size() != (length + 3) / 4)
        return false;
    for (char digit : word) {
        const int value = digit_value(digit);
        if (value < 0)
            return false;
        bits.put_digit(value);
    }
    return bits.cut(length);
}

Text &operator<<(Text &text, Identity identity)
{
    const std::uint64_t mcc = identity.bits >> 38, mnc = identity.bits >> 24 & ((1 << 14) - 1), ssi = identity.bits & ((1 << 24) - 1);
    return text << mcc << '-' << mnc << '-' << ssi;
}

Text &operator<<(Text &text, Prefix prefix)
{
    return text << Identity{prefix.bits} << '/' << prefix.length;
}

Text &operator<<(Text &text, const Bits &bits)
{
    static constexpr char digits[] = "0123456789ABCDEF";
    text << bits.length() << ':';
    const std::size_t count = (bits.length() + 3) / 4;
    char *start = text.room(count);
    for (std::size_t k = 0; k < count; k++)
        start[k] = digits[bits.byte(k / 2) >> (k % 2 == 0 ? 4 : 0) & 15];
    return text.grow(count);
}
