// finder_read_yard through the C ABI: yard Y's file, every fault of a field at its offset, the largest file, tables too short, values
// that are read and not judged, and the files of examples/. What is expected is worked out from the fields that a file is made of.
#include "lent.h"
#include <filesystem>
#include <fstream>
#include <iterator>

namespace {

using second::field_bytes;
using second::Fields;
using second::fields_with;
using second::joined;

int failed = 0;

void gives(const std::string &what, const Bytes &file, const Tables &before, const List &numbers, const Tables &after) {
    const Left expected{numbers, {after.sections, after.turns, after.queries}, file};
    const auto call = [&](Lending how) { return lend_read_yard(how, file, before); };
    if (!leaves("yard_file_test: " + what, call, expected)) failed = 1;
}

// Every entry of the tables is kept.
void refuses(const std::string &what, const Bytes &file, const Tables &tables, uint32_t number, uint32_t place) {
    gives(what, file, tables, {number, place, 0, 0, 0, 0}, tables);
}

// 20 comes before 14.
void malformed(const std::string &what, const Bytes &file, size_t offset) {
    for (const Tables &tables : {tables_of(0, 0, 0), tables_of(40, 40, 40)})
        refuses(what, file, tables, FINDER_FILE, static_cast<uint32_t>(offset));
}

// What is read goes into the fronts of tables that are long enough, and the rest of them is kept; where one of them is an entry too
// short, all are kept.
void reads(const std::string &what, const Plan &plan, const List &queries) {
    const Bytes file = joined(fields_with(plan, queries));
    const size_t sections = plan.sections.size(), turns = plan.turns.size();
    const List numbers{0,
                       0,
                       plan.points,
                       plan.count(),
                       static_cast<uint32_t>(turns / FINDER_TURN_WIDTH),
                       static_cast<uint32_t>(queries.size() / FINDER_QUERY_WIDTH)};
    for (size_t more : {0, 1, 100}) {
        const Tables before = tables_of(sections + more, turns + more, queries.size() + more);
        gives(what, file, before, numbers,
              {in_front(plan.sections, before.sections), in_front(plan.turns, before.turns),
               in_front(queries, before.queries)});
    }
    const auto too_short = [&](const char *table, const Tables &tables) {
        refuses(what + ", too few entries for " + table, file, tables, FINDER_ROOM, 0);
    };
    if (sections > 0) too_short("sections", tables_of(sections - 1, turns + 1, queries.size() + 1));
    if (turns > 0) too_short("turns", tables_of(sections + 1, turns - 1, queries.size() + 1));
    if (!queries.empty()) too_short("queries", tables_of(sections + 1, turns + 1, queries.size() - 1));
}

const Fields fields_y = fields_with(yard_y, queries_y);

// Where field i begins.
size_t offset_of(const Fields &file, size_t i) {
    return joined({file.begin(), file.begin() + static_cast<ptrdiff_t>(i)}).size();
}

// The rows of a table that the first n fields of yard Y's file make.
List rows_of(const List &table, size_t width, size_t first_field, size_t n) {
    const size_t rows = n <= first_field ? 0 : n - first_field;
    return {table.begin(), table.begin() + static_cast<ptrdiff_t>(std::min(table.size(), rows * width))};
}

// Every front of yard Y's file: it is read where it ends with a field, and else its last field is cut short.
void every_front() {
    for (size_t n = 1; n <= fields_y.size(); n++) {
        const size_t sections = 1, turns = sections + 5, queries = turns + 1;
        const Plan plan{6, rows_of(yard_y.sections, 6, sections, n), rows_of(yard_y.turns, 2, turns, n)};
        reads("the first " + std::to_string(n) + " fields of yard Y", plan, rows_of(queries_y, 5, queries, n));
    }
    malformed("an empty file", {}, 0);
    for (size_t i = 0; i < fields_y.size(); i++)
        for (size_t bytes = 1; bytes < fields_y[i].size(); bytes++) {
            Fields file(fields_y.begin(), fields_y.begin() + static_cast<ptrdiff_t>(i + 1));
            file[i].resize(bytes);
            malformed("field " + std::to_string(i) + " cut short", joined(file), offset_of(fields_y, i));
        }
}

// Every other tag is unknown, or not that of a field of this length.
void every_tag() {
    for (size_t i = 0; i < fields_y.size(); i++)
        for (uint32_t tag = 0; tag < 256; tag++) {
            Fields file = fields_y;
            if (file[i][0] == tag) continue;
            file[i][0] = static_cast<uint8_t>(tag);
            malformed("field " + std::to_string(i) + " with tag " + std::to_string(tag), joined(file),
                      offset_of(file, i));
        }
}

void every_length() {
    for (size_t i = 0; i < fields_y.size(); i++) {
        const size_t right = fields_y[i].size() - 3;
        for (size_t length : {size_t{0}, right - 1, right + 1, 256 * right, 256 + right, size_t{65535}}) {
            Fields file = fields_y;
            file[i][1] = static_cast<uint8_t>(length / 256);
            file[i][2] = static_cast<uint8_t>(length % 256);
            const std::string what = "field " + std::to_string(i) + " with length " + std::to_string(length);
            malformed(what, joined(file), offset_of(file, i));
            file[i].resize(3 + length, 0);
            malformed(what + " and so many bytes", joined(file), offset_of(file, i));
        }
    }
}

// The first field that is not in order: the first has tag 1 and no other, and tags never fall.
size_t first_out_of_order(const Fields &file) {
    for (size_t i = 0; i < file.size(); i++) {
        const bool right = i == 0 ? file[0][0] == 1 : file[i][0] != 1 && file[i][0] >= file[i - 1][0];
        if (!right) return i;
    }
    return file.size();
}

void order() {
    for (size_t i = 0; i < fields_y.size(); i++)
        for (size_t j = i + 1; j < fields_y.size(); j++) {
            Fields file = fields_y;
            std::swap(file[i], file[j]);
            if (first_out_of_order(file) == file.size()) continue;
            malformed("fields " + std::to_string(i) + " and " + std::to_string(j) + " swapped", joined(file),
                      offset_of(file, first_out_of_order(file)));
        }
    for (size_t i = 1; i <= fields_y.size(); i++) {
        Fields file = fields_y;
        file.insert(file.begin() + static_cast<ptrdiff_t>(i), field_bytes(1, {6}));
        malformed("the points again, as field " + std::to_string(i), joined(file), offset_of(file, i));
    }
    for (size_t i = 1; i < fields_y.size(); i++)
        malformed("a file that begins with field " + std::to_string(i),
                  joined({fields_y.begin() + static_cast<ptrdiff_t>(i), fields_y.end()}), 0);
}

// Of two faults the first is named, whichever kind it is.
void two_faults() {
    for (size_t i = 0; i < fields_y.size(); i++)
        for (size_t j = i + 1; j < fields_y.size(); j++) {
            Fields file = fields_y;
            file[i][0] = 9;
            file[j][2]++;
            malformed("an unknown tag, then a wrong length", joined(file), offset_of(file, i));
            file = fields_y;
            file[i][2]++;
            file[j][0] = 9;
            malformed("a wrong length, then an unknown tag", joined(file), offset_of(file, i));
        }
}

List repeated(const List &row, size_t times) {
    List table;
    for (size_t i = 0; i < times; i++) table.insert(table.end(), row.begin(), row.end());
    return table;
}

void most() {
    const List section{0, 1, 3000, 1, 3000, 3000}, turn{1, 2}, query{600, 3, 0, 4, 0};
    const auto plan = [&](size_t sections, size_t turns) {
        return Plan{6, repeated(section, sections), repeated(turn, turns)};
    };
    reads("the largest file", plan(1024, 768), repeated(query, 256));
    reads("as many sections as there can be", plan(1024, 0), {});
    reads("as many turns as there can be", plan(0, 768), {});
    reads("as many queries as there can be", plan(0, 0), repeated(query, 256));
    const auto too_many = [](const std::string &what, const Plan &plan, const List &queries, size_t offset) {
        malformed(what, joined(fields_with(plan, queries)), offset);
    };
    too_many("1,025 sections", plan(1025, 1), query, 5 + 20 * 1024);
    too_many("769 turns", plan(1, 769), query, 5 + 20 + 7 * 768);
    too_many("257 queries", plan(1, 1), repeated(query, 257), 5 + 20 + 7 + 13 * 256);
    too_many("one more of each", plan(1025, 769), repeated(query, 257), 5 + 20 * 1024);
    Bytes more = joined(fields_with(plan(1024, 768), repeated(query, 256)));
    const size_t end = more.size();
    more.push_back(0);
    malformed("a byte more than the largest file has", more, end);
}

// Form is judged, values are not. No two bytes of the numbers are alike.
void any_values() {
    reads("no points and nothing else", {0, {}, {}}, {});
    reads("65,535 points", {65535, {}, {}}, {});
    reads("zeros", {0, List(12, 0), List(4, 0)}, List(10, 0));
    reads("the greatest numbers", {65535, {65535, 65535, 4294967295u, 255, 4294967295u, 4294967295u}, {65535, 65535}},
          {4294967295u, 65535, 255, 65535, 255});
    reads("a byte in each place",
          {0x0102, {0x0304, 0x0506, 0x0708090a, 0x0b, 0x0c0d0e0f, 0x10111213}, {0x1415, 0x1617}},
          {0x18191a1b, 0x1c1d, 0x1e, 0x1f20, 0x21});
}

Bytes bytes_of(const std::filesystem::path &path) {
    std::ifstream in(path, std::ios::binary);
    return Bytes(std::istreambuf_iterator<char>(in), {});
}

// The files of examples/: what is read from one, written again, is the file.
void examples() {
    size_t count = 0;
    for (const auto &entry : std::filesystem::directory_iterator("examples")) {
        if (entry.path().extension() != ".yard") continue;
        const Bytes file = bytes_of(entry.path());
        List sections(FINDER_SECTIONS_LEN(FINDER_SECTIONS_MOST)), turns(FINDER_TURNS_LEN(FINDER_TURNS_MOST)),
            queries(FINDER_QUERIES_LEN(FINDER_QUERIES_MOST));
        const finder_yard yard = finder_read_yard(file.data(), file.size(), sections.data(), sections.size(),
                                                  turns.data(), turns.size(), queries.data(), queries.size());
        sections.resize(FINDER_SECTIONS_LEN(yard.sections));
        turns.resize(FINDER_TURNS_LEN(yard.turns));
        queries.resize(FINDER_QUERIES_LEN(yard.queries));
        const Plan plan{yard.points, sections, turns};
        if (yard.refusal != 0 || joined(fields_with(plan, queries)) != file) {
            failed = 1;
            std::printf("yard_file_test: %s: %u at %u, or not what the file says\n", entry.path().c_str(), yard.refusal,
                        yard.place);
        }
        reads(entry.path(), plan, queries);
        count++;
    }
    if (count < 6 || bytes_of("examples/yard-y.yard") != joined(fields_y)) {
        failed = 1;
        std::printf("yard_file_test: %zu examples, or yard Y's file is another\n", count);
    }
}

} // namespace

int main() {
    every_front();
    every_tag();
    every_length();
    order();
    two_faults();
    most();
    any_values();
    examples();
    std::puts(failed ? "yard_file_test: failed" : "yard_file_test: good");
    return failed;
}
