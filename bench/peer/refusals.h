// Why a command is refused, and the word of each reason.
#pragma once

#include <string_view>

enum class Refusal {
    none,
    unknown_station, old_sequence, numbers_used_up,
    rules_full,
    mm_short, mm_trailing, mm_unknown_type, mm_bad_element, mm_unsupported_address, mm_too_many,
    migration, unsupported_type, unknown_identity, la_not_allowed, congestion,
    not_attached, too_many_groups,
    sds_short, sds_trailing, not_sds_tl, sds_unknown_type, storage_control, too_long, not_a_transfer,
    unknown_destination, no_members, reference_busy, no_such_message, mailbox_full, centre_full,
};

inline std::string_view word_of(Refusal refusal)
{
    static constexpr std::string_view words[] = {
        "",
        "unknown-station", "old-sequence", "numbers-used-up",
        "rules-full",
        "mm-short", "mm-trailing", "mm-unknown-type", "mm-bad-element", "mm-unsupported-address", "mm-too-many",
        "migration", "unsupported-type", "unknown-identity", "la-not-allowed", "congestion",
        "not-attached", "too-many-groups",
        "sds-short", "sds-trailing", "not-sds-tl", "sds-unknown-type", "storage-control", "too-long", "not-a-transfer",
        "unknown-destination", "no-members", "reference-busy", "no-such-message", "mailbox-full", "centre-full",
    };
    return words[static_cast<int>(refusal)];
}
