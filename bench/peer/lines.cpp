#include "lines.h"

#include <algorithm>
#include <array>

#include "listings.h"

namespace {

constexpr std::size_t longest_line = 1024, longest_mark = 32;
constexpr std::uint32_t most_32 = 0xFFFFFFFF, most_area = 16383, most_life = 3, most_reference = 255, most_station = 65535;

// The longest form has eight words. Of longer lines only the number of words counts.
struct Words {
    static constexpr std::size_t most = 8;
    std::array<std::string_view, most> at;
    std::size_t count = 0;
};

Words split(std::string_view line)
{
    Words words;
    const char *at = line.data(), *end = at + line.size();
    for (;;) {
        const char *space = std::find(at, end, ' ');
        if (words.count < Words::most)
            words.at[words.count] = {at, static_cast<std::size_t>(space - at)};
        words.count++;
        if (space == end)
            return words;
        at = space + 1;
    }
}

// Commands. Each reader gets the words after the keyword, and answers whether they have their forms and ranges.

using Word = const std::string_view *;

bool read(Word words, SetRule &command)
{
    Rule &rule = command.rule;
    return read_prefix(words[0], command.prefix) && read_number(words[1], 0, most_area, rule.low) && read_number(words[2], 0, most_area, rule.high)
        && read_number(words[3], 0, most_life, rule.life) && read_number(words[4], 0, most_32, rule.keep) && rule.low <= rule.high;
}

bool read(Word words, ClearRule &command)
{
    return read_prefix(words[0], command.prefix);
}

bool read(Word words, Mobility &command)
{
    return read_identity(words[0], command.itsi) && read_number(words[1], 0, most_area, command.area) && read_bits(words[2], command.pdu);
}

bool read(Word words, ShortDataTo &command)
{
    return read_identity(words[0], command.source) && read_identity(words[1], command.destination) && read_bits(words[2], command.pdu);
}

bool read(Word words, ShortDataToGroup &command)
{
    return read_identity(words[0], command.source) && read_identity(words[1], command.group) && read_bits(words[2], command.pdu);
}

bool read(Word words, Key &key)
{
    if (words[3] != "m" && words[3] != "r")
        return false;
    key.kind = words[3][0];
    return read_identity(words[0], key.destination) && read_identity(words[1], key.source) && read_number(words[2], 0, most_reference, key.reference);
}

bool read(Word words, Sent &command)
{
    return read(words, command.key);
}

bool read(Word words, Delete &command)
{
    return read(words, command.key);
}

bool read(Word, Expire &)
{
    return true;
}

template <typename Kind> bool read_as(Word words, Body &body)
{
    return read(words, body.emplace<Kind>());
}

struct CommandForm {
    std::string_view keyword;
    std::size_t words;
    bool (*read)(Word, Body &);
};

constexpr CommandForm commands[] = {
    {"mm", 3, read_as<Mobility>}, {"sds", 3, read_as<ShortDataTo>}, {"gsds", 3, read_as<ShortDataToGroup>}, {"sent", 4, read_as<Sent>},
    {"delete", 4, read_as<Delete>}, {"expire", 0, read_as<Expire>}, {"rule", 5, read_as<SetRule>}, {"unrule", 1, read_as<ClearRule>},
};

bool read_command(const CommandForm &form, const Words &words, Command &command)
{
    return read_number(words.at[0], 1, most_32, command.sequence) && read_number(words.at[1], 0, most_32, command.moment)
        && form.read(words.at.data() + 3, command.body);
}

void print_answer(Text &text, std::uint32_t sequence, const Answer &answer)
{
    text << sequence;
    if (answer.refusal == Refusal::none)
        text << (answer.is_resend ? " kept " : " ok ") << answer.number;
    else
        text << " no " << word_of(answer.refusal);
    if (answer.refusal == Refusal::old_sequence)
        text << ' ' << answer.last;
    if (answer.pdu)
        text << ' ' << *answer.pdu;
    else if (answer.refusal == Refusal::none)
        text << " -";
    text << '\n';
}

// Queries. Each gets an identity, and prints what follows it.

void print_where(Text &text, const Centre &centre, Identity itsi)
{
    const Radio *radio = centre.all_radios().find(itsi);
    if (radio)
        print_whereabouts(text, *radio);
    else
        text << " unknown\n";
}

void print_look(Text &text, const Centre &centre, Identity identity)
{
    const RuleEntry *found = centre.all_rules().find(identity);
    if (found)
        print_rule(text, *found);
    else
        text << " none\n";
}

void print_groups(Text &text, const Centre &centre, Identity itsi)
{
    static const Radio unknown{};
    const Radio *radio = centre.all_radios().find(itsi);
    const std::vector<Attachment> &groups = (radio ? radio : &unknown)->groups;
    text << ' ' << groups.size() << '\n';
    for (const Attachment &one : groups)
        text << "group " << one.group << ' ' << one.usage << ' ' << one.life << '\n';
}

void print_members(Text &text, const Centre &centre, Identity group)
{
    const std::vector<Member> members = centre.all_radios().present_members(group);
    text << ' ' << members.size() << '\n';
    for (const Member &member : members)
        text << "member " << member.itsi << ' ' << member.usage << '\n';
}

void print_mail(Text &text, const Centre &centre, Identity itsi)
{
    const Mail::Inbox &inbox = centre.all_mail().inbox(itsi);
    text << ' ' << inbox.size() << '\n';
    for (const Mail::Entry *entry : inbox)
        print_item(text, *entry, false);
}

struct QueryForm {
    std::string_view keyword;
    void (*print)(Text &, const Centre &, Identity);
};

constexpr QueryForm queries[] = {
    {"where", print_where}, {"look", print_look}, {"groups", print_groups}, {"members", print_members}, {"mail", print_mail},
};

// Queries of the whole register. Each gets the words after the keyword, and prints what follows all of them. Answers whether they have
// their forms and ranges; else nothing is printed.

bool answer_count(Text &text, const Centre &centre, Word)
{
    text << "count " << centre.count() << '\n';
    return true;
}

bool answer_rules(Text &text, const Centre &centre, Word)
{
    text << "rules";
    print_rules(text, centre);
    return true;
}

bool answer_radios(Text &text, const Centre &centre, Word)
{
    text << "radios";
    print_radios(text, centre, Prefix{0, 0});
    return true;
}

bool answer_radios_under(Text &text, const Centre &centre, Word words)
{
    Prefix under;
    if (!read_prefix(words[0], under))
        return false;
    text << "radios " << under;
    print_radios(text, centre, under);
    return true;
}

bool answer_items(Text &text, const Centre &centre, Word)
{
    text << "items";
    print_items(text, centre, std::nullopt);
    return true;
}

bool answer_due(Text &text, const Centre &centre, Word words)
{
    std::uint32_t moment;
    if (!read_number(words[0], 0, most_32, moment))
        return false;
    text << "due " << moment;
    print_items(text, centre, moment);
    return true;
}

bool answer_waiting(Text &text, const Centre &centre, Word words)
{
    std::uint16_t station;
    if (!read_number(words[0], 0, most_station, station))
        return false;
    text << "waiting " << station;
    print_waiting(text, centre, station);
    return true;
}

bool answer_last(Text &text, const Centre &centre, Word words)
{
    std::uint16_t station;
    if (!read_number(words[0], 0, most_station, station))
        return false;
    text << "last " << station;
    print_last(text, centre, station);
    return true;
}

bool answer_room(Text &text, const Centre &centre, Word)
{
    text << "room";
    print_room(text, centre);
    return true;
}

bool answer_dump(Text &text, const Centre &centre, Word)
{
    text << "dump";
    print_dump(text, centre);
    return true;
}

struct ListingForm {
    std::string_view keyword;
    std::size_t words;
    bool (*answer)(Text &, const Centre &, Word);
};

constexpr ListingForm listings[] = {
    {"count", 0, answer_count}, {"rules", 0, answer_rules}, {"radios", 0, answer_radios}, {"radios", 1, answer_radios_under},
    {"items", 0, answer_items}, {"due", 1, answer_due}, {"waiting", 1, answer_waiting}, {"last", 1, answer_last}, {"room", 0, answer_room}, {"dump", 0, answer_dump},
};

// Lines that ask nothing of the register. Each gets the number of its station and the words after the keyword, and prints its answer.
// Answers whether they have their forms; else nothing is printed.

bool answer_mark(Text &text, std::uint16_t, Word words)
{
    const std::string_view word = words[0];
    if (word.empty() || word.size() > longest_mark || !std::all_of(word.begin(), word.end(), [](char byte) { return byte > ' ' && byte <= '~'; }))
        return false;
    text << "mark " << word << '\n';
    return true;
}

bool answer_station(Text &text, std::uint16_t station, Word)
{
    text << "station " << station << '\n';
    return true;
}

struct PlainForm {
    std::string_view keyword;
    std::size_t words;
    bool (*answer)(Text &, std::uint16_t, Word);
};

constexpr PlainForm plain_lines[] = {{"mark", 1, answer_mark}, {"station", 0, answer_station}};

// The form of a keyword and so many words after it.
template <typename Form, std::size_t Count> const Form *form_in(const Form (&forms)[Count], const Words &words)
{
    for (const Form &form : forms)
        if (words.count == form.words + 1 && words.at[0] == form.keyword)
            return &form;
    return nullptr;
}

const CommandForm *command_form(const Words &words)
{
    for (const CommandForm &form : commands)
        if (words.count == form.words + 3 && words.at[2] == form.keyword)
            return &form;
    return nullptr;
}

const QueryForm *query_form(const Words &words)
{
    for (const QueryForm &form : queries)
        if (words.count == 2 && words.at[0] == form.keyword)
            return &form;
    return nullptr;
}

// Each of these answers the word of a bad line, or none.

std::string_view answer_command(Text &text, Centre &centre, std::uint16_t station, const CommandForm &form, const Words &words)
{
    Command command;
    if (!read_command(form, words, command))
        return "value";
    print_answer(text, command.sequence, centre.apply(station, command));
    return {};
}

std::string_view answer_query(Text &text, const Centre &centre, const QueryForm &form, const Words &words)
{
    Identity identity;
    if (!read_identity(words.at[1], identity))
        return "value";
    text << form.keyword << ' ' << words.at[1];
    form.print(text, centre, identity);
    return {};
}

std::string_view answer_line(Text &text, Centre &centre, std::uint16_t station, std::string_view line)
{
    if (line.size() > longest_line)
        return "too-long";
    if (line.empty() || line[0] == '#')
        return {};
    const Words words = split(line);
    if (const CommandForm *form = command_form(words))
        return answer_command(text, centre, station, *form, words);
    if (const QueryForm *form = query_form(words))
        return answer_query(text, centre, *form, words);
    if (const ListingForm *form = form_in(listings, words))
        return form->answer(text, centre, words.at.data() + 1) ? std::string_view{} : "value";
    if (const PlainForm *form = form_in(plain_lines, words))
        return form->answer(text, station, words.at.data() + 1) ? std::string_view{} : "value";
    return "syntax";
}

}

std::string_view Console::answer(std::string_view line)
{
    text.clear();
    lines++;
    const std::string_view fault = answer_line(text, centre, station, line);
    if (!fault.empty()) {
        troubled = true;
        text << "line " << lines << " bad " << fault << '\n';
    }
    return text.view();
}
