#include "listings.h"

#include <algorithm>
#include <tuple>
#include <vector>

namespace {

// Pointers to the entries of a table for which this holds, in order.
template <typename Table, typename Is, typename Order> auto listed(const Table &table, Is is, Order order)
{
    std::vector<const typename Table::value_type *> entries;
    for (const auto &entry : table)
        if (is(entry))
            entries.push_back(&entry);
    std::sort(entries.begin(), entries.end(), [=](const auto *one, const auto *other) { return order(*one) < order(*other); });
    return entries;
}

auto prefix_order(const RuleEntry &entry)
{
    return std::make_pair(entry.first.bits, entry.first.length);
}

auto item_order(const Mail::Entry &entry)
{
    const Key &key = entry.first;
    return std::make_tuple(entry.second.item.number, key.destination.bits, key.source.bits, key.reference, key.kind);
}

// The first inbox with the most items, by its first item; or null.
const Mail::Inboxes::value_type *fullest(const Mail &mail)
{
    const Mail::Inboxes::value_type *best = nullptr;
    const auto is_fuller = [](const Mail::Inbox &one, const Mail::Inbox &other) {
        return one.size() > other.size() || (one.size() == other.size() && item_order(*one[0]) < item_order(*other[0]));
    };
    for (const auto &box : mail.all_inboxes())
        if (!best || is_fuller(box.second, best->second))
            best = &box;
    return best;
}

}

void print_whereabouts(Text &text, const Radio &radio)
{
    text << " station " << radio.station << " la " << radio.area << (radio.is_present ? " present\n" : " absent\n");
}

void print_rule(Text &text, const RuleEntry &entry)
{
    const Rule &rule = entry.second;
    text << ' ' << entry.first << ' ' << rule.low << ' ' << rule.high << ' ' << rule.life << ' ' << rule.keep << '\n';
}

void print_item(Text &text, const Mail::Entry &entry, bool names_destination)
{
    const Key &key = entry.first;
    const Item &item = entry.second.item;
    text << "item " << item.number << ' ';
    if (names_destination)
        text << key.destination << ' ';
    text << key.kind << ' ' << key.source << ' ' << key.reference << ' ' << item.deadline << ' ' << item.pdu;
    if (item.group)
        text << ' ' << *item.group;
    text << '\n';
}

namespace {

void print_list(Text &text, const std::vector<const Mail::Entry *> &items)
{
    text << ' ' << items.size() << '\n';
    for (const Mail::Entry *entry : items)
        print_item(text, *entry, true);
}

}

void print_rules(Text &text, const Centre &centre)
{
    const auto rules = listed(centre.all_rules().all(), [](const RuleEntry &) { return true; }, prefix_order);
    text << ' ' << rules.size() << '\n';
    for (const RuleEntry *entry : rules) {
        text << "rule";
        print_rule(text, *entry);
    }
}

void print_radios(Text &text, const Centre &centre, Prefix under)
{
    using Entry = Radios::Table::value_type;
    const auto is_under = [=](const Entry &entry) { return prefix_of(entry.first, under.length) == under; };
    const auto radios = listed(centre.all_radios().all(), is_under, [](const Entry &entry) { return entry.first; });
    text << ' ' << radios.size() << '\n';
    for (const Entry *entry : radios) {
        text << "radio " << entry->first;
        print_whereabouts(text, entry->second);
    }
}

void print_items(Text &text, const Centre &centre, std::optional<std::uint32_t> due)
{
    const auto is_due = [=](const Mail::Entry &entry) { return !due || entry.second.item.deadline <= *due; };
    print_list(text, listed(centre.all_mail().all(), is_due, item_order));
}

void print_waiting(Text &text, const Centre &centre, std::uint16_t station)
{
    const auto is_there = [&](const Mail::Entry &entry) {
        const Radio *radio = centre.all_radios().find(entry.first.destination);
        return radio && radio->is_present && radio->station == station;
    };
    print_list(text, listed(centre.all_mail().all(), is_there, item_order));
}

void print_last(Text &text, const Centre &centre, std::uint16_t station)
{
    const Served *last = centre.last_of(station);
    if (!last) {
        text << " none\n";
        return;
    }
    text << ' ' << last->sequence << ' ' << last->number << ' ';
    if (last->pdu)
        text << *last->pdu << '\n';
    else
        text << "-\n";
}

void print_room(Text &text, const Centre &centre)
{
    const Limits &limits = centre.all_limits();
    text << " rules " << centre.all_rules().size() << '/' << limits.rules << " radios " << centre.all_radios().size() << '/' << limits.radios
         << " items " << centre.all_mail().size() << '/' << limits.mail << " stations " << centre.served_stations() << '/' << limits.stations
         << " fullest ";
    if (const auto *box = fullest(centre.all_mail()))
        text << box->first << ' ' << box->second.size() << '/' << most_items << '\n';
    else
        text << "none\n";
}

void print_dump(Text &text, const Centre &centre)
{
    const auto any = [](const auto &) { return true; };
    const Limits &limits = centre.all_limits();
    const auto rules = listed(centre.all_rules().all(), any, prefix_order);
    const auto radios = listed(centre.all_radios().all(), any, [](const Radios::Table::value_type &entry) { return entry.first; });
    const auto items = listed(centre.all_mail().all(), any, item_order);
    text << ' ' << 2 + rules.size() + radios.size() + items.size() + centre.served_stations() << '\n';
    text << "tetra-switch register 1 rules " << limits.rules << " radios " << limits.radios << " items " << limits.mail << " stations " << limits.stations << '\n';
    text << "count " << centre.count() << " rules " << rules.size() << " radios " << radios.size() << " items " << items.size() << " stations "
         << centre.served_stations() << '\n';
    for (const RuleEntry *entry : rules) {
        text << "rule";
        print_rule(text, *entry);
    }
    for (const auto *entry : radios) {
        const Radio &radio = entry->second;
        text << "radio " << entry->first << " station " << radio.station << " la " << radio.area << (radio.is_present ? " present" : " absent");
        for (const Attachment &one : radio.groups)
            text << ' ' << one.group << ' ' << one.usage << ' ' << one.life;
        text << '\n';
    }
    for (const Mail::Entry *entry : items)
        print_item(text, *entry, true);
    for (std::uint16_t station = 1; station <= limits.stations; ++station)
        if (centre.last_of(station)) {
            text << "last " << station;
            print_last(text, centre, station);
        }
}
