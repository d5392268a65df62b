#include "pdus.h"

#include <initializer_list>

namespace {

constexpr unsigned uplink_groups = 8, downlink_groups = 7;
constexpr std::size_t most_short_data_bits = 2047;

enum Type { u_detach = 1, u_demand = 2, d_accept = 5, d_reject = 7, u_groups = 7, d_groups = 11 };

// The O-bit, type 2 elements of these widths, and elements of types 3 and 4. All are skipped.
void skip_optional(BitReader &reader, std::initializer_list<unsigned> widths)
{
    if (!reader.flag())
        return;
    for (unsigned width : widths)
        if (reader.flag())
            reader.skip(width);
    while (reader.flag()) {
        reader.skip(4);
        reader.skip(reader.take(11));
    }
}

void read_demand(BitReader &reader, Uplink &value)
{
    value.kind = UplinkKind::demand;
    value.update = reader.take(3);
    reader.skip(1);
    if (reader.flag())
        reader.skip(10);
    skip_optional(reader, {24, 3, 15, 24, 24});
}

GroupItem read_item(BitReader &reader)
{
    GroupItem item;
    item.is_detach = reader.flag();
    item.usage = reader.take(item.is_detach ? 2 : 3);
    const std::uint32_t type = reader.take(2);
    if (type > 1)
        reader.fail(Refusal::mm_unsupported_address);
    item.address.is_extended = type == 1;
    item.address.gssi = reader.take(24);
    item.address.extension = type == 1 ? reader.take(24) : 0;
    return item;
}

// The items of one element.
void read_items(BitReader &reader, std::vector<GroupItem> &items)
{
    const std::size_t count = reader.take(6);
    if (items.size() + count > most_groups)
        reader.fail(Refusal::mm_too_many);
    for (std::size_t k = 0; k < count && reader.fault() == Refusal::none; k++)
        items.push_back(read_item(reader));
    if (!reader.is_at_end())
        reader.fail(Refusal::mm_bad_element);
}

void read_groups(BitReader &reader, Uplink &value)
{
    value.kind = UplinkKind::groups;
    reader.skip(1);
    value.detaches_all = reader.flag();
    if (!reader.flag())
        return;
    while (reader.flag()) {
        const std::uint32_t identifier = reader.take(4);
        BitReader element = reader.part(reader.take(11), Refusal::mm_bad_element);
        if (identifier == uplink_groups && reader.fault() == Refusal::none)
            read_items(element, value.items);
        if (element.fault() != Refusal::none)
            reader.fail(element.fault());
    }
}

}

Uplink read_uplink(const Bits &bits)
{
    Uplink value{};
    BitReader reader(bits, Refusal::mm_short);
    switch (reader.take(4)) {
    case u_detach:
        value.kind = UplinkKind::detach;
        skip_optional(reader, {24});
        break;
    case u_demand:
        read_demand(reader, value);
        break;
    case u_groups:
        read_groups(reader, value);
        break;
    default:
        reader.fail(Refusal::mm_unknown_type);
    }
    if (!reader.is_at_end())
        reader.fail(Refusal::mm_trailing);
    value.fault = reader.fault();
    return value;
}

Bits accept(std::uint8_t update)
{
    Bits bits;
    bits.put(d_accept, 4);
    bits.put(update, 3);
    bits.put(0, 1);
    return bits;
}

Bits reject(std::uint8_t update, std::uint8_t cause)
{
    Bits bits;
    bits.put(d_reject, 4);
    bits.put(update, 3);
    bits.put(cause, 5);
    bits.put(0, 2);
    return bits;
}

static void put_answer(Bits &bits, const GroupAnswer &answer)
{
    if (answer.is_accepted) {
        bits.put(0, 1);
        bits.put(answer.life, 2);
        bits.put(answer.usage, 3);
    } else {
        bits.put(0b100, 3);
    }
    bits.put(answer.address.is_extended, 2);
    bits.put(answer.address.gssi, 24);
    if (answer.address.is_extended)
        bits.put(answer.address.extension, 24);
}

static unsigned answer_width(const GroupAnswer &answer)
{
    return (answer.is_accepted ? 6 : 3) + 2 + (answer.address.is_extended ? 48 : 24);
}

Bits acknowledgement(const std::vector<GroupAnswer> &answers)
{
    bool is_any_rejected = false;
    unsigned width = 6;
    for (const GroupAnswer &answer : answers) {
        is_any_rejected |= !answer.is_accepted;
        width += answer_width(answer);
    }
    Bits bits;
    bits.put(d_groups, 4);
    bits.put(is_any_rejected, 1);
    bits.put(0, 1);
    bits.put(!answers.empty(), 1);
    if (answers.empty())
        return bits;
    bits.put(1, 1);
    bits.put(downlink_groups, 4);
    bits.put(width, 11);
    bits.put(answers.size(), 6);
    for (const GroupAnswer &answer : answers)
        put_answer(bits, answer);
    bits.put(0, 1);
    return bits;
}

ShortData read_short_data(const Bits &bits)
{
    ShortData value{};
    BitReader reader(bits, Refusal::sds_short);
    if (bits.length() > most_short_data_bits)
        reader.fail(Refusal::too_long);
    if (reader.take(8) < 128)
        reader.fail(Refusal::not_sds_tl);
    const std::uint32_t type = reader.take(4);
    if (type > 2)
        reader.fail(Refusal::sds_unknown_type);
    value.kind = static_cast<ShortDataKind>(type);
    const std::uint32_t flags = reader.take(4);
    if (value.kind != ShortDataKind::acknowledgement && flags % 2 == 1)
        reader.fail(Refusal::storage_control);
    value.request = value.kind == ShortDataKind::message ? flags >> 2 : flags >> 3;
    if (value.kind != ShortDataKind::message)
        value.status = reader.take(8);
    value.reference = reader.take(8);
    if (value.kind == ShortDataKind::acknowledgement && !reader.is_at_end())
        reader.fail(Refusal::sds_trailing);
    value.fault = reader.fault();
    return value;
}

Bits kept_bits(const ShortData &value, Bits bits)
{
    if (value.kind == ShortDataKind::report) {
        bits.clear_bit(13);
        bits.clear_bit(14);
    }
    return bits;
}
