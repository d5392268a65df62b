// Answers the lines of station 1 from standard input over a register in memory, as `tetra-switch` does without words, but
// nothing is proved, and no answer is `memory`. Status: 0; 1 where a line was bad; 4 where standard input or output failed.

#include <unistd.h>

#include <cerrno>
#include <string>
#include <string_view>

#include "lines.h"

namespace {

constexpr Limits limits{16, 16, 256, 4};
constexpr std::size_t piece_size = 65536;
// What is kept of an unfinished line at most. A line of so many bytes is too long, also if a CR is dropped.
constexpr std::size_t most_kept = 1026;

bool write_all(std::string_view text)
{
    while (!text.empty()) {
        const ssize_t written = write(STDOUT_FILENO, text.data(), text.size());
        if (written < 0 && errno != EINTR)
            return false;
        text.remove_prefix(written > 0 ? written : 0);
    }
    return true;
}

// Splits pieces of text into lines, and answers each.
class Lines {
public:
    explicit Lines(Console &console) : console(console) {}

    bool take(std::string_view piece)
    {
        for (;;) {
            const std::size_t end = piece.find('\n');
            if (end == piece.npos)
                break;
            if (!finish(piece.substr(0, end)))
                return false;
            piece.remove_prefix(end + 1);
        }
        keep(piece);
        return true;
    }

    // The last line may lack its end.
    bool end() { return unfinished.empty() || write_all(console.answer(unfinished)); }

private:
    void keep(std::string_view part) { unfinished += part.substr(0, most_kept - unfinished.size()); }

    bool finish(std::string_view line)
    {
        if (unfinished.empty())
            return answer(line);
        keep(line);
        const bool is_written = answer(unfinished);
        unfinished.clear();
        return is_written;
    }

    bool answer(std::string_view line)
    {
        if (!line.empty() && line.back() == '\r')
            line.remove_suffix(1);
        return write_all(console.answer(line));
    }

    Console &console;
    std::string unfinished;
};

bool serve(Lines &lines)
{
    static char piece[piece_size];
    for (;;) {
        const ssize_t got = read(STDIN_FILENO, piece, sizeof piece);
        if (got < 0 && errno == EINTR)
            continue;
        if (got <= 0)
            return got == 0 && lines.end();
        if (!lines.take({piece, static_cast<std::size_t>(got)}))
            return false;
    }
}

}

int main()
{
    Centre centre(limits);
    Console console(centre, 1);
    Lines lines(console);
    if (!serve(lines))
        return 4;
    return console.is_troubled() ? 1 : 0;
}
