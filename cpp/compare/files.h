// Yard files: drawn at random and damaged, as long as they may be, and yard Y's with every byte changed.
#pragma once
#include "../yard_files.h"
#include "site.h"

inline void file_case(Run &run, const second::Bytes &file, const std::array<size_t, 3> &entries) {
    const std::array<second::List, 3> tables{filled(entries[0]), filled(entries[1]), filled(entries[2])};
    const second::YardAnswer a = second::read_yard(file, tables);
    run.compare(FileCall{file, tables}, {{a.refusal, a.place, a.points, a.sections, a.turns, a.queries},
                                         {a.tables[0], a.tables[1], a.tables[2]}});
}

// Tables with room for so many rows and some entries more; one in four has an entry too few, or none.
inline std::array<size_t, 3> draw_tables(Draw &draw, const std::array<uint32_t, 3> &rows) {
    std::array<size_t, 3> entries{6 * rows[0], 2 * rows[1], 5 * rows[2]};
    const uint32_t shorter = draw.below(12);
    for (uint32_t i = 0; i < 3; i++) {
        const uint32_t more = draw.below(3);
        if (i == shorter && entries[i] > 0)
            entries[i] -= draw.one_in(4) ? entries[i] : 1;
        else
            entries[i] += more;
    }
    return entries;
}

inline void drawn_file(Run &run, Draw &draw, uint64_t) {
    const std::array<uint32_t, 3> counts{draw.below(7), draw.below(5), draw.below(5)};
    const second::Fields fields = second::draw_fields(draw, counts);
    for (uint32_t i = 0; i < 3; i++) file_case(run, second::joined(fields), draw_tables(draw, counts));
    for (uint32_t i = 0; i < 10; i++) {
        second::Fields changed = fields;
        for (uint32_t faults = draw.below(3); faults > 0 && !changed.empty(); faults--)
            second::damage_fields(draw, changed);
        second::Bytes file = second::joined(changed);
        for (uint32_t faults = draw.below(3); faults > 0; faults--) second::damage_bytes(draw, file);
        const std::array<uint32_t, 3> room{counts[0] + 2, counts[1] + 2, counts[2] + 2};
        file_case(run, file, draw_tables(draw, draw.one_in(3) ? counts : room));
    }
}

// As many fields of each tag as there may be, or one less or more; and damage anywhere.
inline void long_file(Run &run, Draw &draw, uint64_t) {
    std::array<uint32_t, 3> counts{1023 + draw.below(3), 767 + draw.below(3), 255 + draw.below(3)};
    for (uint32_t &count : counts)
        if (draw.one_in(3)) count = draw.below(5);
    second::Fields fields = second::draw_fields(draw, counts);
    file_case(run, second::joined(fields), draw_tables(draw, counts));
    second::damage_fields(draw, fields);
    second::Bytes file = second::joined(fields);
    if (draw.one_in(2)) second::damage_bytes(draw, file);
    file_case(run, file, {6 * 1024, 2 * 768, 5 * 256});
}

// Each byte in turn with other values, and the file cut off before it; after the last, files drawn at random.
inline void next_odd_byte(Run &run, Draw &draw, uint64_t turn) {
    static const second::Bytes yard = second::joined(second::fields_with(yard_y, {600, 3, 0, 4, 0, 601, 3, 0, 4, 0}));
    if (turn >= yard.size()) return drawn_file(run, draw, turn);
    file_case(run, second::Bytes(yard.begin(), yard.begin() + static_cast<std::ptrdiff_t>(turn)), {48, 8, 20});
    for (uint32_t value : {0u, 1u, 2u, 3u, 4u, 5u, 128u, 255u, yard[turn] + 1u, yard[turn] - 1u}) {
        second::Bytes file = yard;
        file[turn] = static_cast<uint8_t>(value);
        file_case(run, file, {30, 2, 10});
    }
}
