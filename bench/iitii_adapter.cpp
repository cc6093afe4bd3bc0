// The packaged implicit interval trees, and a scan of pairs, behind C functions.
//
// The trees' library lists what overlaps [begin, end) by rising begin and leaves equal begins in any order. Positions are
// therefore scaled: a row of rank r that stands from day f to day l is [f * SCALE + r, (l + 1) * SCALE), and a question
// for days a to b is [a * SCALE, (b + 1) * SCALE). Begins are then distinct and rise with the rank, so that the
// library's own order is the answer's order and nothing is sorted afterwards.

#include <cstdint>
#include <cstddef>
#include <filesystem>
#include <string>
#include <utility>
#include <vector>
#include <unistd.h>
#include <omp.h>
#include <iitii.h>

namespace {

const uint32_t SCALE = 1024;
const unsigned DOMAINS = 8;

struct Row {
    uint32_t begin;
    uint32_t end;
    uint16_t number;
};

uint32_t get_begin(const Row& row) { return row.begin; }
uint32_t get_end(const Row& row) { return row.end; }

using Plain = iitii::iit<uint32_t, Row, get_begin, get_end>;
using Interpolated = iitii::iitii<uint32_t, Row, get_begin, get_end>;

// A file name of its own for each tree, since the library keeps its nodes in a file.
std::string fresh_file() {
    static int made = 0;
    std::string name = "iitii-" + std::to_string(getpid()) + "-" + std::to_string(made++);
    return (std::filesystem::temp_directory_path() / name).string();
}

template <typename Builder>
void add_rows(Builder& builder, const uint16_t* first, const uint16_t* last, const uint16_t* number, size_t count) {
    for (size_t rank = 0; rank < count; ++rank) {
        uint32_t begin = first[rank] * SCALE + uint32_t(rank);
        builder.add(Row{begin, (last[rank] + 1u) * SCALE, number[rank]});
    }
}

// A tree with the list that the library fills, which is kept so that a question allocates nothing.
template <typename Tree>
struct Asked {
    Tree tree;
    std::vector<Row> found;
};

template <typename Tree>
size_t list(Asked<Tree>& asked, uint16_t a, uint16_t b, uint16_t* out) {
    asked.tree.overlap(a * SCALE, (b + 1u) * SCALE, asked.found);
    size_t count = 0;
    for (const Row& row : asked.found) {
        out[count++] = row.number;
    }
    return count;
}

// Pairs of first and last day with their numbers, as the scan of pairs in Rust has them.
struct Pairs {
    std::vector<std::pair<uint16_t, uint16_t>> days;
    std::vector<uint16_t> numbers;
};

}  // namespace

extern "C" {

void* iit_new(const uint16_t* first, const uint16_t* last, const uint16_t* number, size_t count) {
    Plain::builder builder(fresh_file());
    add_rows(builder, first, last, number, count);
    return new Asked<Plain>{builder.build(), {}};
}

size_t iit_list(void* tree, uint16_t a, uint16_t b, uint16_t* out) {
    return list(*static_cast<Asked<Plain>*>(tree), a, b, out);
}

void iit_free(void* tree) { delete static_cast<Asked<Plain>*>(tree); }

void* iitii_new(const uint16_t* first, const uint16_t* last, const uint16_t* number, size_t count) {
    Interpolated::builder builder(fresh_file());
    add_rows(builder, first, last, number, count);
    return new Asked<Interpolated>{builder.build(DOMAINS), {}};
}

size_t iitii_list(void* tree, uint16_t a, uint16_t b, uint16_t* out) {
    return list(*static_cast<Asked<Interpolated>*>(tree), a, b, out);
}

void iitii_free(void* tree) { delete static_cast<Asked<Interpolated>*>(tree); }

void* pairs_new(const uint16_t* first, const uint16_t* last, const uint16_t* number, size_t count) {
    Pairs* pairs = new Pairs{{}, std::vector<uint16_t>(number, number + count)};
    for (size_t rank = 0; rank < count; ++rank) {
        pairs->days.emplace_back(first[rank], last[rank]);
    }
    return pairs;
}

size_t pairs_list(void* list, uint16_t a, uint16_t b, uint16_t* out) {
    const Pairs& pairs = *static_cast<Pairs*>(list);
    size_t count = 0;
    for (size_t rank = 0; rank < pairs.days.size(); ++rank) {
        if (pairs.days[rank].first <= b && pairs.days[rank].second >= a) {
            out[count++] = pairs.numbers[rank];
        }
    }
    return count;
}

void pairs_free(void* list) { delete static_cast<Pairs*>(list); }

}
