// Lines and their answers (docs/formats/lines.md).
#pragma once

#include <cstdint>
#include <string_view>

#include "centre.h"
#include "text.h"

// Answers the lines of one station in order.
class Console {
public:
    Console(Centre &centre, std::uint16_t station) : centre(centre), station(station) {}

    // The answer to the next line, without its end; empty for a silent line. It is kept until the next call.
    std::string_view answer(std::string_view line);

    bool is_troubled() const { return troubled; }

private:
    Centre &centre;
    std::uint16_t station;
    std::uint64_t lines = 0;
    bool troubled = false;
    Text text;
};
