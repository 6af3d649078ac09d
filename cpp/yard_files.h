// Yard files: how one is written, files drawn at random, and what can be wrong with one.
#pragma once
#include "draw.h"
#include "second_file.h"

namespace second {

inline void put(Bytes &bytes, uint64_t number, size_t width) {
    while (width-- > 0) bytes.push_back(static_cast<uint8_t>(number >> (8 * width)));
}

inline Bytes field_bytes(uint32_t tag, const List &numbers) {
    Bytes bytes{static_cast<uint8_t>(tag)};
    put(bytes, form_of(tag).length(), 2);
    for (size_t i = 0; i < numbers.size(); i++) put(bytes, numbers[i], form_of(tag).widths[i]);
    return bytes;
}

using Fields = std::vector<Bytes>;

// The rows of a table as fields.
inline void put_rows(Fields &fields, uint32_t tag, const List &table) {
    const size_t width = form_of(tag).widths.size();
    for (size_t i = 0; i < table.size(); i += width)
        fields.push_back(field_bytes(tag, List(table.begin() + static_cast<std::ptrdiff_t>(i),
                                               table.begin() + static_cast<std::ptrdiff_t>(i + width))));
}

inline Fields fields_with(const Plan &plan, const List &queries) {
    Fields fields{field_bytes(1, {plan.points})};
    put_rows(fields, 2, plan.sections);
    put_rows(fields, 3, plan.turns);
    put_rows(fields, 4, queries);
    return fields;
}

inline Bytes joined(const Fields &fields) {
    Bytes file;
    for (const Bytes &field : fields) file.insert(file.end(), field.begin(), field.end());
    return file;
}

// Numbers of any kind: only the form is judged.
inline Bytes draw_field(Draw &draw, uint32_t tag) {
    Bytes field = field_bytes(tag, {});
    for (size_t i = form_of(tag).length(); i > 0; i--) field.push_back(static_cast<uint8_t>(draw.below(256)));
    return field;
}

inline Fields draw_fields(Draw &draw, const std::array<uint32_t, 3> &counts) {
    Fields fields{draw_field(draw, 1)};
    for (uint32_t tag = 2; tag <= 4; tag++)
        for (uint32_t i = 0; i < counts[tag - 2]; i++) fields.push_back(draw_field(draw, tag));
    return fields;
}

// A field too few, too many, in another place, of another tag or of another length.
inline void damage_fields(Draw &draw, Fields &fields) {
    const auto count = static_cast<uint32_t>(fields.size());
    const uint32_t at = draw.below(count), other = draw.below(count);
    const auto place = fields.begin() + at;
    Bytes &field = fields[at];
    switch (draw.below(7)) {
    case 0: fields.insert(place, Bytes(fields[other])); break;
    case 1: std::swap(field, fields[other]); break;
    case 2: field[0] = static_cast<uint8_t>(draw.below(7)); break;
    case 3: field[2]++, field.push_back(0); break;
    case 4: field[2]--, field.pop_back(); break;
    case 5: fields.insert(place, Bytes{static_cast<uint8_t>(draw.below(6)), 0, 0}); break;
    default: fields.erase(place);
    }
}

// Bytes flipped, cut off, dropped or added.
inline void damage_bytes(Draw &draw, Bytes &file) {
    if (file.empty()) return;
    const uint32_t at = draw.below(static_cast<uint32_t>(file.size()));
    const auto value = static_cast<uint8_t>(draw.one_in(2) ? draw.below(6) : draw.below(256));
    switch (draw.below(6)) {
    case 0: file[at] ^= static_cast<uint8_t>(1u << draw.below(8)); break;
    case 1: file[at] = value; break;
    case 2: file.resize(at); break;
    case 3: file.erase(file.begin() + at); break;
    case 4: file.insert(file.begin() + at, value); break;
    default: file.push_back(value);
    }
}

} // namespace second
