// A second reader of yard files (20, 14), written from document 01 alone. It cuts the whole file into fields first,
// then judges each field by the sentences of the document, and only then takes numbers out of them.
#pragma once
#include "second_pull_out.h"
#include <cstdint>

namespace second {

using Bytes = std::vector<uint8_t>;

inline uint32_t big_endian(std::span<const uint8_t> bytes) {
    uint32_t number = 0;
    for (uint8_t byte : bytes) number = number * 256 + byte;
    return number;
}

struct Field {
    size_t offset;
    uint32_t tag;
    Bytes bytes;
    bool whole; // its three first bytes and as many more as they say are there
};

inline std::vector<Field> fields_of(std::span<const uint8_t> file) {
    std::vector<Field> fields;
    for (size_t offset = 0; offset < file.size();) {
        const auto rest = file.subspan(offset);
        const size_t length = rest.size() < 3 ? 0 : big_endian(rest.subspan(1, 2));
        const bool whole = rest.size() >= 3 + length;
        const auto bytes = whole ? rest.subspan(3, length) : rest.subspan(rest.size());
        fields.push_back({offset, rest[0], Bytes(bytes.begin(), bytes.end()), whole});
        offset += whole ? 3 + length : rest.size();
    }
    return fields;
}

// What the fields of a tag hold: how many bytes each of their numbers has. And how many such fields there may be.
struct Form {
    std::vector<size_t> widths;
    size_t most;

    size_t length() const {
        size_t sum = 0;
        for (size_t width : widths) sum += width;
        return sum;
    }
};

inline const Form &form_of(uint32_t tag) {
    static const std::array<Form, 5> forms{{
        {{}, 0},
        {{2}, 1},
        {{2, 2, 4, 1, 4, 4}, 1024},
        {{2, 2}, 768},
        {{4, 2, 1, 2, 1}, 256},
    }};
    return forms[tag];
}

// What can be wrong with a field, those before it being right.
inline bool cut_short(const Field &field) { return !field.whole; }
inline bool unknown(const Field &field) { return field.tag < 1 || field.tag > 4; }
inline bool of_wrong_length(const Field &field) { return field.bytes.size() != form_of(field.tag).length(); }

// "Tag 1 comes first and once; tags never fall."
inline bool out_of_order(std::span<const Field> before, const Field &field) {
    return before.empty() ? field.tag != 1 : field.tag == 1 || field.tag < before.back().tag;
}

inline bool too_many(std::span<const Field> before, const Field &field) {
    const auto same = std::ranges::count(before, field.tag, &Field::tag);
    return static_cast<size_t>(same) >= form_of(field.tag).most;
}

inline bool malformed(std::span<const Field> fields, size_t i) {
    const Field &field = fields[i];
    const auto before = fields.first(i);
    return cut_short(field) || unknown(field) || of_wrong_length(field) || out_of_order(before, field) ||
           too_many(before, field);
}

// The numbers of all fields of a tag, one after the other.
inline List numbers_of(std::span<const Field> fields, uint32_t tag) {
    List numbers;
    for (const Field &field : fields) {
        if (field.tag != tag) continue;
        std::span<const uint8_t> rest(field.bytes);
        for (size_t width : form_of(tag).widths) {
            numbers.push_back(big_endian(rest.first(width)));
            rest = rest.subspan(width);
        }
    }
    return numbers;
}

struct YardAnswer {
    uint32_t refusal = 0, place = 0, points = 0, sections = 0, turns = 0, queries = 0;
    std::array<List, 3> tables; // the lent tables of sections, turns and queries at exit
};

// What is read from fields that are right, into the tables as they are at entry.
inline YardAnswer read_fields(std::span<const Field> fields, std::array<List, 3> tables) {
    std::array<List, 3> rows;
    for (uint32_t i = 0; i < 3; i++) rows[i] = numbers_of(fields, i + 2);
    for (size_t i = 0; i < 3; i++)
        if (rows[i].size() > tables[i].size()) return {14, 0, 0, 0, 0, 0, tables};
    for (size_t i = 0; i < 3; i++) std::ranges::copy(rows[i], tables[i].begin());
    const auto count = [&](size_t i, size_t width) { return static_cast<uint32_t>(rows[i].size() / width); };
    return {0, 0, numbers_of(fields, 1).front(), count(0, 6), count(1, 2), count(2, 5), tables};
}

inline YardAnswer read_yard(std::span<const uint8_t> file, const std::array<List, 3> &tables) {
    const auto fields = fields_of(file);
    if (fields.empty()) return {20, 0, 0, 0, 0, 0, tables};
    for (size_t i = 0; i < fields.size(); i++)
        if (malformed(fields, i)) return {20, static_cast<uint32_t>(fields[i].offset), 0, 0, 0, 0, tables};
    return read_fields(fields, tables);
}

} // namespace second
