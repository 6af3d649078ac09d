// Wrong readers of yard files.
#pragma once
#include "wrong_calls.h"

namespace wrong {

using second::YardAnswer;

inline YardAnswer malformed_at(size_t offset, const AskedFile &asked) {
    return {20, static_cast<uint32_t>(offset), 0, 0, 0, 0, asked.tables};
}

// The order of all fields is judged first, then the lengths: a field of wrong length before one out of order is passed
// over.
inline YardAnswer length_after_order(const AskedFile &asked) {
    const auto fields = second::fields_of(asked.file);
    const std::span<const second::Field> all(fields);
    for (size_t i = 0; i < all.size(); i++) {
        const auto before = all.first(i);
        if (second::cut_short(all[i]) || second::unknown(all[i]) || second::out_of_order(before, all[i]) ||
            second::too_many(before, all[i]))
            return malformed_at(all[i].offset, asked);
    }
    return second::read_yard(asked.file, asked.tables);
}

// On 14 the tables that are long enough are written all the same.
inline YardAnswer writes_on_14(const AskedFile &asked) {
    YardAnswer answer = second::read_yard(asked.file, asked.tables);
    if (answer.refusal != 14) return answer;
    const auto fields = second::fields_of(asked.file);
    for (uint32_t i = 0; i < 3; i++) {
        const second::List rows = second::numbers_of(fields, i + 2);
        if (rows.size() <= answer.tables[i].size()) std::ranges::copy(rows, answer.tables[i].begin());
    }
    return answer;
}

// The last field may be cut short.
inline YardAnswer drops_a_cut_field(const AskedFile &asked) {
    const auto fields = second::fields_of(asked.file);
    if (fields.size() < 2 || !second::cut_short(fields.back())) return second::read_yard(asked.file, asked.tables);
    const auto end = asked.file.begin() + static_cast<std::ptrdiff_t>(fields.back().offset);
    return second::read_yard(second::Bytes(asked.file.begin(), end), asked.tables);
}

// The place is where the bad field ends.
inline YardAnswer behind_the_bad_field(const AskedFile &asked) {
    YardAnswer answer = second::read_yard(asked.file, asked.tables);
    for (const second::Field &field : second::fields_of(asked.file))
        if (answer.refusal == 20 && field.offset == answer.place)
            return malformed_at(field.offset + 3 + field.bytes.size(), asked);
    return answer;
}

} // namespace wrong
