#include "centre.h"

namespace {

constexpr std::uint64_t last_number = std::uint64_t{1} << 62;

enum Update { roaming, migrating, periodic, itsi_attach, service_roaming, service_migrating, demanded, disabled };

// The lifetimes that an accepted location update ends, a bit for each.
unsigned ended_lives(std::uint8_t update)
{
    switch (update) {
    case periodic:
        return 0;
    case itsi_attach:
        return 1 << 1 | 1 << 2 | 1 << 3;
    default:
        return 1 << 3;
    }
}

// The cause of a D-LOCATION UPDATE REJECT.
std::uint8_t cause_of(Refusal refusal)
{
    switch (refusal) {
    case Refusal::unknown_identity:
        return 1;
    case Refusal::la_not_allowed:
        return 3;
    case Refusal::congestion:
        return 6;
    default:
        return 12;
    }
}

}

Answer Centre::apply(std::uint16_t station, const Command &command)
{
    Answer answer;
    const Served *last = last_of(station);
    if (station == 0 || station > limits.stations) {
        answer.refusal = Refusal::unknown_station;
    } else if (last && command.sequence < last->sequence) {
        answer.refusal = Refusal::old_sequence;
        answer.last = last->sequence;
    } else if (last && command.sequence == last->sequence) {
        answer.is_resend = true;
        answer.number = last->number;
        answer.pdu = last->pdu;
    } else {
        take(station, command, answer);
    }
    return answer;
}

// Carries out a new command, or refuses it.
void Centre::take(std::uint16_t station, const Command &command, Answer &answer)
{
    const Context at{station, command.moment};
    if (accepted == last_number)
        answer.refusal = Refusal::numbers_used_up;
    else
        answer.refusal = std::visit([&](const auto &body) { return run(at, body, answer.pdu); }, command.body);
    if (answer.refusal != Refusal::none)
        return;
    answer.number = ++accepted;
    Served &last = served[station];
    last.sequence = command.sequence;
    last.number = accepted;
    last.pdu = answer.pdu;
}

Refusal Centre::run(Context, const SetRule &command, Reply &)
{
    if (!rules.has(command.prefix) && rules.size() >= limits.rules)
        return Refusal::rules_full;
    rules.set(command.prefix, command.rule);
    return Refusal::none;
}

Refusal Centre::run(Context, const ClearRule &command, Reply &)
{
    rules.clear(command.prefix);
    return Refusal::none;
}

Refusal Centre::run(Context at, const Mobility &command, Reply &reply)
{
    const Uplink uplink = read_uplink(command.pdu);
    if (uplink.fault != Refusal::none)
        return uplink.fault;
    if (uplink.kind == UplinkKind::demand)
        return locate(at, command, uplink.update, reply);
    if (!radios.is_present(command.itsi))
        return Refusal::not_attached;
    if (uplink.kind == UplinkKind::groups)
        return attach(command.itsi, uplink, reply);
    radios.detach(command.itsi);
    return Refusal::none;
}

Refusal Centre::locate(Context at, const Mobility &command, std::uint8_t update, Reply &reply)
{
    const Refusal refusal = locate_refusal(command, update);
    if (refusal == Refusal::none) {
        radios.locate(command.itsi, at.station, command.area, ended_lives(update));
        reply = accept(update);
    } else if (refusal != Refusal::unsupported_type) {
        reply = reject(update, cause_of(refusal));
    }
    return refusal;
}

Refusal Centre::locate_refusal(const Mobility &command, std::uint8_t update) const
{
    if (update == disabled)
        return Refusal::unsupported_type;
    if (update == migrating || update == service_migrating)
        return Refusal::migration;
    const RuleEntry *rule = rules.find(command.itsi);
    if (!rule)
        return Refusal::unknown_identity;
    if (command.area < rule->second.low || command.area > rule->second.high)
        return Refusal::la_not_allowed;
    const bool is_full = radios.size() >= limits.radios;
    return is_full && !radios.find(command.itsi) ? Refusal::congestion : Refusal::none;
}

Refusal Centre::attach(Identity itsi, const Uplink &uplink, Reply &reply)
{
    std::vector<Attachment> groups;
    if (!uplink.detaches_all)
        groups = radios.find(itsi)->groups;
    std::vector<GroupAnswer> answers;
    for (const GroupItem &item : uplink.items) {
        const Identity group = item.address.group(itsi);
        const auto place = place_of(groups, group);
        const bool is_there = place != groups.end() && place->group == group;
        if (item.is_detach) {
            if (is_there)
                groups.erase(place);
            continue;
        }
        const RuleEntry *rule = rules.find(group);
        answers.push_back({item.address, rule != nullptr, item.usage, rule ? rule->second.life : std::uint8_t{0}});
        if (rule && is_there)
            *place = {group, item.usage, rule->second.life};
        else if (rule)
            groups.insert(place, {group, item.usage, rule->second.life});
    }
    if (groups.size() > most_groups)
        return Refusal::too_many_groups;
    radios.set_groups(itsi, std::move(groups));
    reply = acknowledgement(answers);
    return Refusal::none;
}

Item Centre::new_item(const ShortData &value, const Bits &pdu, std::uint64_t deadline) const
{
    return {accepted + 1, deadline, kept_bits(value, pdu), value.request, std::nullopt};
}

Refusal Centre::run(Context at, const ShortDataTo &command, Reply &)
{
    const ShortData value = read_short_data(command.pdu);
    if (value.fault != Refusal::none)
        return value.fault;
    const RuleEntry *rule = rules.find(command.destination);
    if (!rule)
        return Refusal::unknown_destination;
    if (!radios.is_present(command.source))
        return Refusal::not_attached;
    if (value.kind == ShortDataKind::acknowledgement)
        return remove({command.source, command.destination, value.reference, 'r'});
    const Item item = new_item(value, command.pdu, at.moment + rule->second.keep);
    if (value.kind == ShortDataKind::report)
        return report(command.source, command.destination, value, item);
    return post({command.destination, command.source, value.reference, 'm'}, item);
}

Refusal Centre::post(const Key &key, const Item &item)
{
    if (mail.find(key))
        return Refusal::reference_busy;
    if (mail.inbox(key.destination).size() >= most_items)
        return Refusal::mailbox_full;
    if (mail.size() >= limits.mail)
        return Refusal::centre_full;
    mail.add(key, item);
    return Refusal::none;
}

// A report on the message from `origin` that waits for `reporter`. The limits are judged on the mail as it will be.
Refusal Centre::report(Identity reporter, Identity origin, const ShortData &value, const Item &item)
{
    const Key message{reporter, origin, value.reference, 'm'}, key{origin, reporter, value.reference, 'r'};
    const Item *reported = mail.find(message);
    if (!reported)
        return Refusal::no_such_message;
    const bool is_ended = value.status == 2 || (value.status == 0 && reported->request < 2);
    const bool is_replaced = mail.find(key) != nullptr;
    const std::size_t removed_here = is_replaced + (is_ended && reporter == origin);
    if (mail.inbox(origin).size() - removed_here >= most_items)
        return Refusal::mailbox_full;
    if (mail.size() - is_replaced - is_ended >= limits.mail)
        return Refusal::centre_full;
    if (is_replaced)
        mail.remove(key);
    if (is_ended)
        mail.remove(message);
    mail.add(key, item);
    return Refusal::none;
}

Refusal Centre::remove(const Key &key)
{
    if (!mail.find(key))
        return Refusal::no_such_message;
    mail.remove(key);
    return Refusal::none;
}

Refusal Centre::run(Context at, const ShortDataToGroup &command, Reply &)
{
    const ShortData value = read_short_data(command.pdu);
    if (value.fault != Refusal::none)
        return value.fault;
    if (value.kind != ShortDataKind::message)
        return Refusal::not_a_transfer;
    const RuleEntry *rule = rules.find(command.group);
    if (!rule)
        return Refusal::unknown_destination;
    if (!radios.is_present(command.source))
        return Refusal::not_attached;
    std::vector<Key> keys;
    for (const Member &member : radios.present_members(command.group))
        if (member.itsi != command.source)
            keys.push_back({member.itsi, command.source, value.reference, 'm'});
    const Refusal refusal = group_refusal(keys);
    if (refusal != Refusal::none)
        return refusal;
    Item item = new_item(value, command.pdu, at.moment + rule->second.keep);
    item.group = command.group;
    for (const Key &key : keys)
        mail.add(key, item);
    return Refusal::none;
}

Refusal Centre::group_refusal(const std::vector<Key> &keys) const
{
    if (keys.empty())
        return Refusal::no_members;
    if (std::any_of(keys.begin(), keys.end(), [this](const Key &key) { return mail.find(key); }))
        return Refusal::reference_busy;
    if (std::any_of(keys.begin(), keys.end(), [this](const Key &key) { return mail.inbox(key.destination).size() >= most_items; }))
        return Refusal::mailbox_full;
    return mail.size() + keys.size() > limits.mail ? Refusal::centre_full : Refusal::none;
}

Refusal Centre::run(Context, const Sent &command, Reply &)
{
    if (!radios.is_present(command.key.destination))
        return Refusal::not_attached;
    const Item *item = mail.find(command.key);
    if (!item)
        return Refusal::no_such_message;
    if (item->request == 0)
        mail.remove(command.key);
    return Refusal::none;
}

Refusal Centre::run(Context, const Delete &command, Reply &)
{
    return remove(command.key);
}

Refusal Centre::run(Context at, const Expire &, Reply &)
{
    mail.expire(at.moment);
    return Refusal::none;
}
