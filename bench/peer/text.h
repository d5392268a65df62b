// A text that grows at its end.
#pragma once

#include <charconv>
#include <cstring>
#include <string_view>
#include <type_traits>
#include <vector>

class Text {
public:
    void clear() { length = 0; }
    std::string_view view() const { return {bytes.data(), length}; }

    Text &operator<<(char byte)
    {
        *room(1) = byte;
        return grow(1);
    }

    Text &operator<<(std::string_view part)
    {
        std::memcpy(room(part.size()), part.data(), part.size());
        return grow(part.size());
    }

    // In decimal.
    template <typename Number> std::enable_if_t<std::is_unsigned_v<Number>, Text &> operator<<(Number number)
    {
        constexpr std::size_t most_digits = 20;
        char *start = room(most_digits);
        return grow(std::to_chars(start, start + most_digits, std::uint64_t{number}).ptr - start);
    }

    // Where so many bytes may be written. `grow` then adds them to the text.
    char *room(std::size_t size)
    {
        if (bytes.size() - length < size)
            bytes.resize(2 * (bytes.size() + size));
        return bytes.data() + length;
    }

    Text &grow(std::size_t size)
    {
        length += size;
        return *this;
    }

private:
    std::vector<char> bytes;
    std::size_t length = 0;
};
