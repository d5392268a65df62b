// The plain way to list radios. It reads a listing from the file that is named into a map, and answers each line of standard input with
// that listing, made anew and written at once. It looks for the radio after each one, as a walk by `next` calls does; with another word
// it steps from node to node.
// Usage: walk FILE [steps] < LINES
#include <unistd.h>

#include <fstream>
#include <iostream>
#include <map>
#include <sstream>
#include <string>

#include "peer/text.h"
#include "peer/words.h"

namespace {

struct Radio {
    std::uint16_t station, area;
    bool is_present;
};

using Radios = std::map<Identity, Radio>;

// radio ITSI station N la N present
bool read_radio(const std::string &line, Radios &radios)
{
    std::istringstream words(line);
    std::string name, itsi, presence, other;
    Identity identity;
    Radio radio;
    if (!(words >> name >> itsi >> other >> radio.station >> other >> radio.area >> presence) || name != "radio" || !read_identity(itsi, identity))
        return false;
    radio.is_present = presence == "present";
    return radios.emplace(identity, radio).second;
}

bool read_all(const char *file, Radios &radios)
{
    std::ifstream in(file);
    std::string line;
    if (!std::getline(in, line))
        return false;
    while (std::getline(in, line))
        if (!read_radio(line, radios))
            return false;
    return true;
}

void print(Text &text, const Radios::value_type &entry)
{
    const Radio &radio = entry.second;
    text << "radio " << entry.first << " station " << radio.station << " la " << radio.area << (radio.is_present ? " present\n" : " absent\n");
}

void print_by_next(Text &text, const Radios &radios)
{
    for (auto at = radios.begin(); at != radios.end(); at = radios.upper_bound(at->first))
        print(text, *at);
}

void print_by_steps(Text &text, const Radios &radios)
{
    for (const auto &entry : radios)
        print(text, entry);
}

bool write_all(std::string_view text)
{
    while (!text.empty()) {
        const ssize_t written = write(STDOUT_FILENO, text.data(), text.size());
        if (written <= 0)
            return false;
        text.remove_prefix(written);
    }
    return true;
}

}

int main(int count, char **words)
{
    Radios radios;
    if (count < 2 || !read_all(words[1], radios))
        return 2;
    Text text;
    std::string line;
    while (std::getline(std::cin, line)) {
        text.clear();
        text << "radios " << radios.size() << '\n';
        (count > 2 ? print_by_steps : print_by_next)(text, radios);
        if (!write_all(text.view()))
            return 4;
    }
    return 0;
}
