// Radios, and the groups that they are attached to.
#pragma once

#include <algorithm>
#include <cstdint>
#include <unordered_map>
#include <vector>

#include "words.h"

struct Attachment {
    Identity group;
    std::uint8_t usage, life;
};

struct Radio {
    std::uint16_t station, area;
    bool is_present;
    // In order of the groups.
    std::vector<Attachment> groups;
};

struct Member {
    Identity itsi;
    std::uint8_t usage;
};

inline std::vector<Attachment>::iterator place_of(std::vector<Attachment> &groups, Identity group)
{
    return std::lower_bound(groups.begin(), groups.end(), group, [](const Attachment &one, Identity other) { return one.group < other; });
}

class Radios {
public:
    using Table = std::unordered_map<Identity, Radio>;

    std::size_t size() const { return radios.size(); }
    const Table &all() const { return radios; }

    // The radio, or null.
    const Radio *find(Identity itsi) const
    {
        const auto found = radios.find(itsi);
        return found == radios.end() ? nullptr : &found->second;
    }

    bool is_present(Identity itsi) const
    {
        const Radio *radio = find(itsi);
        return radio && radio->is_present;
    }

    void detach(Identity itsi) { radios.at(itsi).is_present = false; }

    // Puts a radio here, and ends its attachments of each lifetime whose bit is set.
    void locate(Identity itsi, std::uint16_t station, std::uint16_t area, unsigned ended_lives)
    {
        Radio &radio = radios[itsi];
        radio.station = station;
        radio.area = area;
        radio.is_present = true;
        const auto is_ended = [=](const Attachment &one) { return (ended_lives >> one.life & 1) == 1; };
        for (const Attachment &one : radio.groups)
            if (is_ended(one))
                leave(one.group, itsi);
        radio.groups.erase(std::remove_if(radio.groups.begin(), radio.groups.end(), is_ended), radio.groups.end());
    }

    // Gives a radio these attachments in place of those that it has.
    void set_groups(Identity itsi, std::vector<Attachment> groups)
    {
        Radio &radio = radios.at(itsi);
        for (const Attachment &one : radio.groups)
            leave(one.group, itsi);
        for (const Attachment &one : groups)
            members[one.group][itsi] = one.usage;
        radio.groups = std::move(groups);
    }

    // The radios that are present and attached to a group, in order.
    std::vector<Member> present_members(Identity group) const
    {
        std::vector<Member> present;
        const auto found = members.find(group);
        if (found == members.end())
            return present;
        for (const auto &[itsi, usage] : found->second)
            if (is_present(itsi))
                present.push_back({itsi, usage});
        std::sort(present.begin(), present.end(), [](const Member &one, const Member &other) { return one.itsi < other.itsi; });
        return present;
    }

private:
    void leave(Identity group, Identity itsi)
    {
        const auto found = members.find(group);
        found->second.erase(itsi);
        if (found->second.empty())
            members.erase(found);
    }

    Table radios;
    // The class of usage of each radio that is attached to a group.
    std::unordered_map<Identity, std::unordered_map<Identity, std::uint8_t>> members;
};
