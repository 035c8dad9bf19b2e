// test.cpp: the exported calls from C++, with a page that can't be touched on both sides of every area.
//
//   test [CALLS]      so many random calls with damage, by default 1,000,000, and a fiftieth of that in random joins
//
// First each refusal and each fault, one by one. Then random calls: a store is created and played against a plain map
// until its memory is damaged, and then played on. After each call what may not have changed is compared byte by byte.
// Then two stores at a time, played, joined and held against a map, and joined again with damage in one of them.
// The first thing that isn't as it should be ends the run with status 1; else the last line is 'cpp: N checks'.
#include "nuvrisel.hpp"
#include <cstdio>
#include <cstdlib>
#include <cstring>
#include <map>
#include <string>
#include <sys/mman.h>
#include <unistd.h>
#include <vector>

using namespace nuvrisel;

namespace {

unsigned long long checks = 0;
unsigned long long step = 0;

void same(const char *what, int line, unsigned long long got, unsigned long long expected) {
    ++checks;
    if (got == expected) return;
    std::printf("cpp: line %d, call %llu: %s is %llu and should be %llu\n", line, step, what, got, expected);
    std::exit(1);
}
#define IS(got, expected)                                                                                              \
    same(#got, __LINE__, static_cast<unsigned long long>(got), static_cast<unsigned long long>(expected))

// ---- memory

// Elements that end, or begin, at a page that can't be touched; the rest of their pages is filled and watched.
template <class T> class Fenced {
  public:
    explicit Fenced(std::size_t n, bool at_end = true) : size_(n) {
        const std::size_t page = std::size_t(sysconf(_SC_PAGESIZE)), bytes = n * sizeof(T);
        inner_ = (bytes + page - 1) / page * page;
        whole_ = inner_ + 2 * page;
        void *const base = mmap(nullptr, whole_, PROT_NONE, MAP_PRIVATE | MAP_ANONYMOUS, -1, 0);
        if (base == MAP_FAILED) std::exit(77);
        base_ = static_cast<std::uint8_t *>(base);
        first_ = base_ + page;
        if (inner_ && mprotect(first_, inner_, PROT_READ | PROT_WRITE)) std::exit(77);
        std::memset(first_, slack, inner_);
        data_ = first_ + (at_end ? inner_ - bytes : 0);
        std::memset(data_, 0, bytes);
    }
    ~Fenced() { munmap(base_, whole_); }
    Fenced(const Fenced &) = delete;
    Fenced &operator=(const Fenced &) = delete;
    T *data() { return reinterpret_cast<T *>(data_); }
    std::size_t size() const { return size_; }
    T &operator[](std::size_t i) { return data()[i]; }
    // Bytes beside the area on its own pages that were written.
    std::size_t strayed() const {
        std::size_t n = 0;
        for (const std::uint8_t *at = first_; at < first_ + inner_; ++at)
            n += (at < data_ || at >= data_ + size_ * sizeof(T)) && *at != slack;
        return n;
    }

  private:
    static constexpr std::uint8_t slack = 0x5c;
    std::size_t size_, inner_ = 0, whole_ = 0;
    std::uint8_t *base_ = nullptr, *first_ = nullptr, *data_ = nullptr;
};

struct Memory {
    Fenced<std::uint8_t> state;
    Fenced<std::uint32_t> table;
    Fenced<std::uint8_t> keys, lists;
    Memory(std::size_t words, std::size_t key_bytes, std::size_t list_bytes, bool at_end = true)
        : state(NUVRISEL_STATE_BYTES, at_end), table(words, at_end), keys(key_bytes, at_end),
          lists(list_bytes, at_end) {}
    Store store() { return {state, table, keys, lists}; }
    std::size_t strayed() const { return state.strayed() + table.strayed() + keys.strayed() + lists.strayed(); }
};

// What the four areas hold, to be compared with later.
struct Kept {
    std::vector<std::uint8_t> state, keys, lists;
    std::vector<std::uint32_t> table;
    void note(Memory &m) {
        state.assign(m.state.data(), m.state.data() + m.state.size());
        table.assign(m.table.data(), m.table.data() + m.table.size());
        keys.assign(m.keys.data(), m.keys.data() + m.keys.size());
        lists.assign(m.lists.data(), m.lists.data() + m.lists.size());
    }
    bool holds(Memory &m) const {
        return !std::memcmp(state.data(), m.state.data(), state.size()) &&
               !std::memcmp(keys.data(), m.keys.data(), keys.size()) &&
               !std::memcmp(lists.data(), m.lists.data(), lists.size()) &&
               !std::memcmp(table.data(), m.table.data(), 4 * table.size());
    }
};

void put(std::uint8_t *at, std::uint32_t n) {
    for (int i = 0; i < 4; ++i) at[i] = std::uint8_t(n >> 8 * i);
}

std::uint32_t get(const std::uint8_t *at) {
    return std::uint32_t(at[0]) | std::uint32_t(at[1]) << 8 | std::uint32_t(at[2]) << 16 | std::uint32_t(at[3]) << 24;
}

// ---- each refusal, one by one

Code made(Memory &m, std::size_t capacity) { return m.store().create(capacity, 7); }

void creation() {
    Memory m(24, 4096, 4096);
    Store store = m.store();
    Kept before;
    before.note(m);
    IS(store.create(0, 7), 1);
    IS(store.create(16, 7), 1); // 16 buckets don't fit 24 words
    IS(store.create(4, 7, 4096), 1);
    IS(store.create(4, 7, 1048577), 1);
    IS(store.create(std::size_t(-1), 7), 1);
    IS(Store(m.state, Area<std::uint32_t>(m.table.data(), 23), m.keys, m.lists).create(4, 7), 1);
    IS(Store(m.state, m.table, {m.keys.data(), 0}, m.lists).create(4, 7), 1);
    IS(Store(m.state, m.table, m.keys, {}).create(4, 7), 1);
    // a short area is 2, behind 1
    IS(Store({m.state.data() + 1, 63}, m.table, m.keys, m.lists).create(4, 7), 2);
    IS(Store({}, m.table, m.keys, m.lists).create(4, 7), 2);
    IS(Store({}, m.table, m.keys, m.lists).create(0, 7), 1);
    IS(before.holds(m), 1);
    // what the area held doesn't matter; what is written is the layout's
    std::memset(m.state.data(), 0xee, 64);
    IS(store.create(7, 0x12345678), 0);
    const std::uint32_t fields[16] = {0x3156554e, 0x12345678, 4096, 4096, 24, 4, 0, 0, 0, 0, 0, 0, 1048576, 0, 0, 0};
    for (int i = 0; i < 16; ++i) IS(get(m.state.data() + 4 * i), fields[i]);
    for (int i = 0; i < 24; ++i) IS(m.table[std::size_t(i)], i >= 8 ? 0u : i % 2 ? 0u : 0xffffffffu);
    IS(m.strayed(), 0);
    // an area that is longer keeps its bytes behind the 64
    Fenced<std::uint8_t> wide(70);
    std::memset(wide.data(), 0xee, 70);
    IS(Store(wide, m.table, m.keys, m.lists).create(4, 7), 0);
    for (std::size_t i = 64; i < 70; ++i) IS(wide[i], 0xee);
    IS(Store(wide, m.table, m.keys, m.lists).append(bytes_of("A"), bytes_of("b")), 0);
    for (std::size_t i = 64; i < 70; ++i) IS(wide[i], 0xee);
}

// All calls on a store, each answering 2.
void all_2(int line, const Store &given, Memory &m) {
    Store store = given;
    Kept before;
    before.note(m);
    std::uint8_t output[8] = {1, 2, 3, 4, 5, 6, 7, 8}, marks[2048];
    std::int32_t places[4] = {9, 9, 9, 9};
    std::memset(marks, 0xee, sizeof marks);
    const auto name = bytes_of("A");
    same("append", line, unsigned(store.append(name, name)), 2);
    same("drift", line, unsigned(store.drift(name, 0, 1)), 2);
    for (const Answer &a : {store.lookup(name), store.length(name), store.read(name, output), store.next(0),
                            store.check(marks), store.report(output), store.readings(name, places)}) {
        same("a call", line, unsigned(a.code), 2);
        same("what is told", line, a.number + a.beside, 0);
    }
    // a join, with the store as the first and as the second
    Memory other(24, 4096, 4096);
    other.store().create(4, 9), other.store().append(bytes_of("B"), bytes_of("other"));
    Kept good;
    good.note(other);
    for (const Answer &a : {store.join(other.store(), output), other.store().join(store, output)}) {
        same("a join", line, unsigned(a.code), 2);
        same("what is told", line, a.number + a.beside, 0);
    }
    same("the other store", line, good.holds(other) && !other.strayed(), 1);
    same("the memory", line, before.holds(m), 1);
    same("the output", line, output[0] == 1 && output[7] == 8 && marks[0] == 0xee && places[0] == 9, 1);
}

void states() {
    Memory m(24, 4096, 4096);
    IS(made(m, 4), 0);
    IS(m.store().append(bytes_of("A"), bytes_of("abc")), 0);
    all_2(__LINE__, Store({m.state.data() + 1, 63}, m.table, m.keys, m.lists), m);
    all_2(__LINE__, Store({}, m.table, m.keys, m.lists), m);
    all_2(__LINE__, Store(m.state, {m.table.data(), 22}, m.keys, m.lists), m);
    all_2(__LINE__, Store(m.state, m.table, {m.keys.data(), 4095}, m.lists), m);
    all_2(__LINE__, Store(m.state, m.table, m.keys, {}), m);
    // each field, senseless
    static const struct {
        int at;
        std::uint32_t value;
    } wrong[] = {{0, 0},     {0, 0x3156554f}, {8, 4095},     {12, 4097}, {16, 22},        {20, 0},    {20, 3},
                 {20, 16},   {24, 2},         {24, 0x100},   {28, 5},    {32, 1},         {36, 4097}, {40, 0xffffffff},
                 {44, 4097}, {48, 0},         {48, 1048577}, {52, 1},    {56, 0x1000000}, {60, 1},    {60, 0x80000000}};
    for (const auto &w : wrong) {
        const std::uint32_t was = get(m.state.data() + w.at);
        put(m.state.data() + w.at, w.value);
        all_2(__LINE__, m.store(), m);
        put(m.state.data() + w.at, was);
    }
    IS(m.store().length(bytes_of("A")).number, 3);
    IS(m.strayed(), 0);
}

void refusals() {
    Memory m(24, 160, 60);
    Store store = m.store();
    Kept before;
    IS(made(m, 4), 0);
    const std::vector<std::uint8_t> long_name(65536, 'x');
    std::uint8_t output[64];
    std::memset(output, 0xee, sizeof output);
    IS(store.append(Bytes(long_name), {}), 3);
    IS(store.length(Bytes(long_name)).code, 3), IS(store.lookup(Bytes(long_name)).code, 3);
    IS(store.append({}, bytes_of("b")), 13), IS(store.drift({}, 0, 1), 13);
    IS(store.length({}).code, 100), IS(store.lookup({}).code, 100), IS(store.read({}, output).code, 100);
    IS(store.length(bytes_of("A")).code, 100), IS(store.next(0).code, 101), IS(store.next(99).code, 101);
    IS(store.append(bytes_of("A"), bytes_of("abc")), 0);
    IS(store.append(bytes_of("A"), {}), 0);
    IS(store.length(bytes_of("A")).number, 3);
    IS(store.read(bytes_of("A"), {output, 2}).code, 8), IS(store.read(bytes_of("A"), {output, 2}).number, 3);
    IS(output[0], 0xee);
    IS(store.read(bytes_of("A"), output).number, 3);
    IS(std::memcmp(output, "abc\xee", 4), 0);
    IS(store.lookup(bytes_of("A")).number, 0);
    IS(store.next(0).code, 0), IS(store.next(0).beside, 0);
    IS(store.name_at(store.next(0).beside).size(), 1);
    // 7: a block of 36 doesn't fit behind 12 and 20; 6: no room for a record; 5: the table can't grow
    before.note(m);
    IS(store.append(bytes_of("A"), {long_name.data(), 22}), 7);
    IS(store.append(bytes_of("a name of forty bytes, which fits nowhere"), {}), 0);
    before.note(m);
    IS(store.append(Bytes(long_name.data(), 80), {}), 6);
    IS(before.holds(m), 1);
    IS(store.append(bytes_of("C"), {}), 0); // grows to 8 buckets, 24 words are full
    IS(store.append(bytes_of("D"), {}), 0);
    IS(get(m.state.data() + 20), 8), IS(get(m.state.data() + 24), 1);
    before.note(m);
    IS(store.append(bytes_of("E"), {}), 5);
    IS(before.holds(m), 1);
    IS(store.append(bytes_of("A"), bytes_of("d")), 0);
    IS(m.strayed(), 0);
}

void readings() {
    Memory m(24, 4096, 4096);
    Store store = m.store();
    const Bytes lane = bytes_of("white");
    std::int32_t places[4] = {9, 9, 9, 9};
    IS(made(m, 4), 0);
    IS(store.drift(lane, 0, -1), 0);
    IS(store.drift(lane, -1, INT32_MIN), 0);
    IS(store.drift(lane, INT32_MIN, INT32_MAX), 0);
    IS(store.readings(lane, {places, 2}).code, 8), IS(store.readings(lane, {places, 2}).number, 3), IS(places[0], 9);
    IS(store.readings(lane, places).number, 3);
    IS(places[0] == -1 && places[1] == INT32_MIN && places[2] == INT32_MAX && places[3] == 9, 1);
    IS(store.append(bytes_of("cut"), bytes_of("\x05")), 0);
    IS(store.readings(bytes_of("cut"), places).code, 11);
    const std::uint8_t wide[2] = {0x05, 0x80};
    IS(store.append(bytes_of("wide"), wide), 0);
    IS(store.readings(bytes_of("wide"), places).code, 12), IS(store.readings(bytes_of("wide"), places).number, 0);
    IS(store.readings(bytes_of("none"), places).code, 100);
    IS(m.strayed(), 0);
}

// Each fault of the check, and 4. The memory is damaged, looked at and put right again.
void faults() {
    Memory m(32, 512, 512);
    Store store = m.store();
    IS(made(m, 16), 0);
    for (const char *name : {"A", "B", "C"}) IS(store.append(bytes_of(name), bytes_of("twelve bytes")), 0);
    Fenced<std::uint8_t> marks(store.mark_bytes());
    std::memset(marks.data(), 0xee, marks.size());
    IS(store.check({marks.data(), marks.size() - 1}).code, 8);
    IS(store.check({marks.data(), marks.size() - 1}).number, marks.size());
    IS(marks[0], 0xee);
    IS(store.check(marks).code, 0), IS(marks[0], 0), IS(marks[marks.size() - 1], 0);
    const Answer at = store.lookup(bytes_of("B"));
    std::uint32_t *bucket = m.table.data();
    while (*bucket != std::uint32_t(at.number)) bucket += 2;
    std::uint8_t *const record = m.keys.data() + at.number, *const header = record + 3;
    const auto faulty = [&](int line, std::uint32_t fault) {
        const Answer said = store.check(marks);
        same("check", line, unsigned(said.code), fault ? 102 : 103);
        same("the fault", line, said.beside, fault);
    };
    const auto word = [&](int line, std::uint32_t *at, std::uint32_t value, std::uint32_t fault) {
        const std::uint32_t was = *at;
        *at = value, faulty(line, fault), *at = was;
    };
    const auto byte = [&](int line, std::uint8_t *at, std::uint8_t value, std::uint32_t fault) {
        const std::uint8_t was = *at;
        *at = value, faulty(line, fault), *at = was;
    };
    word(__LINE__, bucket, 511, 1);      // the record lies past the used bytes
    byte(__LINE__, record + 1, 0xff, 1); // its name has 65,281 bytes
    byte(__LINE__, record + 2, 'X', 3);  // another name than its hash is of
    word(__LINE__, bucket + 1, bucket[1] + 1, 3);
    byte(__LINE__, header, 1, 4);               // block number 1
    byte(__LINE__, header + 15, 1, 4);          // end bytes
    put(header + 4, 4000), faulty(__LINE__, 5); // a head outside
    IS(store.length(bytes_of("B")).code, 0), IS(store.read(bytes_of("B"), {}).code, 4);
    IS(store.report({}).code, 4);
    put(header + 4, 32);
    byte(__LINE__, header + 8, 0, 6); // the tail
    const std::uint32_t link = get(m.lists.data() + 40);
    put(m.lists.data() + 40, 12), faulty(__LINE__, 6);
    put(m.lists.data() + 40, link);
    IS(store.check(marks).code, 0);
    word(__LINE__, bucket, 0xffffffff, 0); // a wiped bucket: the key count
    byte(__LINE__, m.state.data() + 28, 4, 0);
    // a record whose two length bytes pass the end: 4, in each call by its name
    const std::uint32_t was = *bucket;
    *bucket = 511;
    IS(store.lookup(bytes_of("B")).code, 4), IS(store.length(bytes_of("B")).code, 4);
    IS(store.append(bytes_of("B"), {}), 4), IS(store.drift(bytes_of("B"), 0, 0), 4);
    *bucket = was;
    IS(store.check(marks).code, 0);
    IS(m.strayed() + marks.strayed(), 0);
}

// A told area of fewer than three words is left as it is, a null one with length 0 too; three words are all written.
void told() {
    Memory m(24, 4096, 4096);
    IS(made(m, 4), 0);
    IS(m.store().append(bytes_of("A"), bytes_of("abc")), 0);
    Fenced<std::uint32_t> area(5);
    const auto length = [&](std::uint32_t *at, std::size_t words) {
        for (std::size_t i = 0; i < 5; ++i) area[i] = 0xeeeeeeee;
        return nuvrisel_length(m.state.data(), 64, m.table.data(), 24, m.keys.data(), 4096, m.lists.data(), 4096,
                               bytes_of("A").data(), 1, at, words);
    };
    IS(length(nullptr, 0), 0);
    IS(length(area.data() + 3, 2), 0), IS(area[3], 0xeeeeeeee), IS(area[4], 0xeeeeeeee);
    IS(length(area.data() + 2, 3), 0), IS(area[1], 0xeeeeeeee), IS(area[2], 3), IS(area[3], 0), IS(area[4], 0);
    IS(length(area.data(), 5), 0), IS(area[0], 3), IS(area[3], 0xeeeeeeee);
}

// ---- joins

// What a lane reads as; the reading's code where it is refused.
std::string lane_of(const Store &store, Bytes name) {
    std::vector<std::uint8_t> output(8192);
    const Answer a = store.read(name, output);
    return a ? std::string(output.begin(), output.begin() + std::ptrdiff_t(a.number))
             : std::to_string(unsigned(a.code));
}

// The lanes of a store in listing order.
std::vector<std::string> listed(const Store &store) {
    std::vector<std::string> names;
    for (Answer a = store.next(0); a; a = store.next(std::size_t(a.number) + 1)) {
        const Bytes name = store.name_at(a.beside);
        names.emplace_back(name.begin(), name.end());
    }
    return names;
}

// Whole, and each refusal; what stays, what is told, and where the scratch and the second store are left.
void joins() {
    Memory m(24, 512, 512), n(48, 512, 512);
    Store first = m.store(), second = n.store();
    Fenced<std::uint8_t> scratch(12);
    std::memset(scratch.data(), 0xee, 12);
    IS(made(m, 4), 0), IS(second.create(8, 99, 65536), 0);
    Kept held, kept;
    held.note(m), kept.note(n);
    IS(first.join(second, {}).code, 0), IS(first.join(second, {}).number, 0); // no lane, no scratch
    IS(held.holds(m) && kept.holds(n), 1);
    IS(first.append(bytes_of("A"), bytes_of("one ")), 0), IS(first.append(bytes_of("only"), bytes_of("1")), 0);
    IS(second.append(bytes_of("A"), bytes_of("two")), 0), IS(second.append(bytes_of("new"), bytes_of("seven..")), 0);
    IS(second.append(bytes_of("bare"), {}), 0);
    held.note(m), kept.note(n);
    const std::vector<std::string> order = listed(second);
    IS(order.size(), 3);
    const auto again = [&] {
        std::memcpy(m.state.data(), held.state.data(), held.state.size());
        std::memcpy(m.table.data(), held.table.data(), 4 * held.table.size());
        std::memcpy(m.keys.data(), held.keys.data(), held.keys.size());
        std::memcpy(m.lists.data(), held.lists.data(), held.lists.size());
    };
    // 8 with every scratch that is too short for a lane: the lanes before it stay, and the join is made again from the
    // start on what the first store was
    for (std::size_t room = 0; room <= 7; ++room) {
        std::size_t across = 0;
        while (across < 3 && lane_of(second, bytes_of(order[across])).size() <= room) ++across;
        const Answer a = first.join(second, {scratch.data() + 12 - room, room});
        IS(a.code, across < 3 ? 8 : 0), IS(a.number, across), IS(a.beside, 0);
        for (std::size_t i = 0; i < 3; ++i) {
            const Bytes name = bytes_of(order[i]);
            const std::string was = order[i] == "A" ? "one " : i < across ? "" : "100";
            IS(lane_of(first, name) == was + (i < across ? lane_of(second, name) : ""), 1);
        }
        IS(lane_of(first, bytes_of("only")) == "1", 1);
        IS(kept.holds(n), 1);
        again();
    }
    IS(std::memcmp(scratch.data(), "\xee\xee\xee\xee\xee", 5), 0);
    // the state area behind its 64 bytes, a told area of two words
    Fenced<std::uint8_t> wide(70);
    std::memset(wide.data(), 0xee, 70), std::memcpy(wide.data(), m.state.data(), 64);
    Fenced<std::uint32_t> words(2);
    words[0] = words[1] = 0xeeeeeeee;
    IS(nuvrisel_join(wide.data(), 70, m.table.data(), 24, m.keys.data(), 512, m.lists.data(), 512, n.state.data(), 64,
                     n.table.data(), 48, n.keys.data(), 512, n.lists.data(), 512, scratch.data(), 12, words.data(), 2),
       0);
    for (std::size_t i = 64; i < 70; ++i) IS(wide[i], 0xee);
    IS(words[0] == 0xeeeeeeee && words[1] == 0xeeeeeeee, 1), IS(get(wide.data() + 28), 4);
    again();
    // 5, 6, 7: the first store lacks a bucket, a record, a block; it holds what went across before
    const auto lacks = [&](unsigned code, std::size_t capacity, std::size_t words, std::size_t keys,
                           std::size_t lists) {
        Memory small(words, keys, lists);
        IS(made(small, capacity), 0);
        const Answer a = small.store().join(second, scratch);
        IS(a.code, code), IS(a.number < 3, 1), IS(get(small.state.data() + 28), a.number), IS(kept.holds(n), 1);
        const std::string next = lane_of(second, bytes_of(order[std::size_t(a.number)]));
        IS(small.store().append(bytes_of(order[std::size_t(a.number)]), bytes_of(next)), code);
        // gone on in a larger store: what this one holds, then the lanes that are left, one by one
        Memory large(24, 512, 512);
        IS(made(large, 4), 0), IS(large.store().join(small.store(), scratch).number, a.number);
        for (std::size_t i = std::size_t(a.number); i < 3; ++i)
            IS(large.store().append(bytes_of(order[i]), bytes_of(lane_of(second, bytes_of(order[i])))), 0);
        for (const std::string &name : order)
            IS(lane_of(large.store(), bytes_of(name)) == lane_of(second, bytes_of(name)), 1);
        IS(small.strayed() + large.strayed(), 0);
    };
    lacks(5, 1, 2, 512, 512), lacks(5, 2, 4, 512, 512);
    lacks(6, 4, 24, 22, 512), lacks(6, 4, 24, 45, 512), lacks(7, 4, 24, 512, 11), lacks(7, 4, 24, 512, 13);
    // damage in the second store: 4 at its lane, and a record without a name: 13
    const std::size_t last = second.lookup(bytes_of(order[2])).number;
    n.keys[last + 1] = 0xff, kept.note(n);
    IS(first.join(second, scratch).code, 4), IS(get(m.state.data() + 28), order[2] == "A" ? 4 : 3), again();
    IS(first.join(second, scratch).number, 2), IS(kept.holds(n), 1), again();
    n.keys[last + 1] = n.keys[last] = 0;
    put(&n.keys[last + 2], 2), put(&n.keys[last + 6], 0xffffffff), put(&n.keys[last + 10], 0xffffffff);
    put(&n.keys[last + 14], 0), kept.note(n);
    IS(first.join(second, scratch).code, 13), again();
    IS(first.join(second, scratch).number, 2), IS(kept.holds(n), 1), again();
    IS(m.strayed() + n.strayed() + scratch.strayed() + wide.strayed() + words.strayed(), 0);
}

// ---- random calls

std::uint64_t seed = 88172645463325252u;
std::uint32_t chance(std::uint32_t n) {
    seed ^= seed << 13, seed ^= seed >> 7, seed ^= seed << 17;
    return std::uint32_t((seed >> 11) % n);
}

bool among(Code code, std::initializer_list<unsigned> numbers) {
    for (unsigned n : numbers)
        if (unsigned(code) == n) return true;
    return false;
}

class Play {
  public:
    explicit Play(bool at_end)
        : m_(64, 1024, 2048, at_end), output_(4096, at_end), marks_(384 + 8, at_end), places_(64, at_end) {}

    void run(unsigned long long calls) {
        for (unsigned long long i = 0; i < calls; ++i, ++step) {
            if (i % 400 == 0)
                begin();
            else if (i % 400 > 150 && chance(3) == 0)
                damage();
            kept_.note(m_);
            one();
            if (i % 50 == 0) IS(m_.strayed() + output_.strayed() + marks_.strayed() + places_.strayed(), 0);
        }
    }

  private:
    void begin() {
        for (std::size_t i = 0; i < m_.keys.size(); ++i) m_.keys[i] = std::uint8_t(chance(256));
        for (std::size_t i = 0; i < m_.lists.size(); ++i) m_.lists[i] = std::uint8_t(chance(256));
        IS(m_.store().create(1 + chance(16), chance(0xffffffff)), 0);
        model_.clear();
        whole_ = true;
    }

    void damage() {
        whole_ = false;
        const std::uint32_t odd[] = {0, 1, 7, 63, 255, 1023, 2047, 0x7fffffff, 0xfffffffe, 0xffffffff};
        const std::uint32_t value = chance(2) ? odd[chance(10)] : chance(4096);
        switch (chance(5)) {
        case 0: m_.table[chance(64)] = value; break;
        case 1: m_.keys[chance(1024)] = std::uint8_t(value); break;
        case 2: m_.lists[chance(2048)] = std::uint8_t(value); break;
        case 3: put(m_.keys.data() + chance(1020), value); break;
        case 4:
            if (chance(8) == 0) put(m_.state.data() + 4 * chance(16), value);
            break;
        }
    }

    std::string name() {
        const std::uint32_t kind = chance(40);
        if (kind == 0) return {};
        if (kind == 1) return std::string(65536, 'n');
        return std::string(1 + kind % 7, char('a' + chance(12)));
    }

    void unchanged() { IS(kept_.holds(m_), 1); }

    void one() {
        Store store = m_.store();
        const std::string lane = name();
        const Bytes key = bytes_of(lane);
        switch (chance(10)) {
        case 0:
        case 1:
        case 2: return append(store, lane);
        case 3: return drift(store, lane);
        case 4: return length(store, lane);
        case 5: return read(store, lane);
        case 6: {
            const Answer a = store.lookup(key);
            IS(among(a.code, {0, 2, 3, 4, 100}), 1), unchanged();
            if (whole_) IS(a.code, lane.size() > 65535 ? 3 : model_.count(lane) ? 0 : 100);
            if (a && whole_)
                IS(std::string(store.name_at(std::uint32_t(a.number)).begin(),
                               store.name_at(std::uint32_t(a.number)).end()) == lane,
                   1);
            return;
        }
        case 7: return list(store);
        case 8: return check(store);
        default: return chance(2) ? report(store) : recall(store, lane);
        }
    }

    void append(Store &store, const std::string &lane) {
        std::vector<std::uint8_t> bytes(chance(20) ? chance(12) : chance(400));
        for (auto &b : bytes) b = std::uint8_t(chance(256));
        const Code code = store.append(bytes_of(lane), Bytes(bytes));
        IS(among(code, {0, 2, 3, 13, 4, 5, 6, 7}), 1);
        if (code != Code::done)
            unchanged();
        else if (whole_)
            model_[lane].insert(model_[lane].end(), bytes.begin(), bytes.end());
        if (whole_)
            IS(among(code, {2, 4}), 0), IS(code == Code::nameless, lane.empty()),
                IS(code == Code::long_name, lane.size() > 65535);
    }

    void drift(Store &store, const std::string &lane) {
        const Code code = store.drift(bytes_of(lane), 0, 0); // a difference of 0 is the byte 80
        IS(among(code, {0, 2, 3, 13, 4, 5, 6, 7}), 1);
        if (code != Code::done)
            unchanged();
        else if (whole_)
            model_[lane].push_back(0x80);
    }

    void length(Store &store, const std::string &lane) {
        const Answer a = store.length(bytes_of(lane));
        IS(among(a.code, {0, 2, 3, 4, 100}), 1), unchanged();
        if (whole_ && lane.size() <= 65535) IS(a.code, model_.count(lane) ? 0 : 100);
        if (whole_ && a) IS(a.number, model_[lane].size());
    }

    void read(Store &store, const std::string &lane) {
        const std::size_t room = chance(3) ? output_.size() : chance(40);
        const Area<std::uint8_t> out(output_.data() + output_.size() - room, room);
        std::memset(output_.data(), 0xee, output_.size());
        const Answer a = store.read(bytes_of(lane), out);
        IS(among(a.code, {0, 2, 3, 4, 8, 100}), 1), unchanged();
        behind(a ? output_.size() - room + std::size_t(a.number) : 0, a ? output_.size() - room : 0);
        if (whole_ && a)
            IS(std::memcmp(out.data(), model_[lane].data(), model_[lane].size()), 0), IS(a.number, model_[lane].size());
        if (whole_ && a.code == Code::short_output) IS(a.number, model_[lane].size());
    }

    // Output bytes before `first` and from `from` on are still ee.
    void behind(std::size_t from, std::size_t first) {
        std::size_t wrong = 0;
        for (std::size_t i = 0; i < output_.size(); ++i) wrong += (i < first || i >= from) && output_[i] != 0xee;
        IS(wrong, 0);
    }

    void list(Store &store) {
        std::size_t from = chance(4) ? 0 : chance(70), lanes = 0;
        const bool all = from == 0;
        for (Answer a = store.next(from);; a = store.next(from), ++lanes) {
            IS(among(a.code, {0, 2, 4, 101}), 1), unchanged();
            if (!a) break;
            IS(a.number >= from && a.number < 32, 1);
            from = std::size_t(a.number) + 1;
        }
        if (whole_ && all) IS(lanes, model_.size());
    }

    void check(Store &store) {
        const std::size_t room = chance(4) ? marks_.size() : chance(384);
        std::memset(marks_.data(), 0xee, marks_.size());
        const Answer a = store.check({marks_.data(), room});
        IS(among(a.code, {0, 2, 8, 102, 103}), 1), unchanged();
        if (whole_) IS(a.code, room < 384 ? 8 : 0);
        if (a.code == Code::short_output) IS(a.number, 384);
        if (a.code == Code::fault) IS(a.number < 32 && a.beside >= 1 && a.beside <= 7, 1);
        const bool refused = among(a.code, {2, 8});
        std::size_t wrong = 0;
        for (std::size_t i = 0; i < marks_.size(); ++i) wrong += marks_[i] != (refused || i >= room ? 0xee : 0);
        IS(wrong, 0);
    }

    void report(Store &store) {
        std::memset(output_.data(), 0xee, output_.size());
        const Answer a = store.report(output_);
        IS(among(a.code, {0, 2, 4, 8}), 1), unchanged();
        behind(a ? std::size_t(a.number) : 0, 0);
        if (whole_ && a) IS(std::memcmp(output_.data(), "store=1\nterms=", 14), 0);
    }

    void recall(Store &store, const std::string &lane) {
        for (std::size_t i = 0; i < places_.size(); ++i) places_[i] = -7;
        const Answer a = store.readings(bytes_of(lane), places_);
        IS(among(a.code, {0, 2, 3, 4, 8, 11, 12, 100}), 1), unchanged();
        std::size_t wrong = 0;
        for (std::size_t i = a ? std::size_t(a.number) : 0; i < places_.size(); ++i) wrong += places_[i] != -7;
        IS(wrong, 0);
    }

    Memory m_;
    Fenced<std::uint8_t> output_, marks_;
    Fenced<std::int32_t> places_;
    Kept kept_;
    std::map<std::string, std::vector<std::uint8_t>> model_;
    bool whole_ = true;
};

// Two stores, each played against a plain map, and joined; then with damage in one of them.
class Halves {
  public:
    explicit Halves(bool at_end) : m_(160, 600, 2048, at_end), n_(128, 2048, 4096, at_end), scratch_(512, at_end) {}

    void run(unsigned long long joins) {
        for (unsigned long long i = 0; i < joins; ++i, ++step) {
            begin(m_, first_, chance(4) ? 64 : 1 + chance(16), chance(24));
            begin(n_, second_, chance(4) ? 64 : 1 + chance(16), chance(32));
            kept_.note(n_);
            join();
            if (chance(2)) damaged();
            IS(m_.strayed() + n_.strayed() + scratch_.strayed(), 0);
        }
    }

  private:
    using Lanes = std::map<std::string, std::string>;

    static void begin(Memory &m, Lanes &lanes, std::size_t capacity, std::uint32_t appends) {
        IS(m.store().create(capacity, chance(0xffffffff), chance(2) ? 65536 : 1048576), 0);
        lanes.clear();
        while (appends-- > 0) {
            const std::string name(1 + chance(9), char('a' + chance(8)));
            std::string bytes(chance(12) ? chance(24) : chance(500), ' ');
            for (auto &b : bytes) b = char(chance(256));
            if (m.store().append(bytes_of(name), bytes_of(bytes)) == Code::done) lanes[name] += bytes;
        }
    }

    static void reads_as(Memory &m, const Lanes &lanes) {
        IS(get(m.state.data() + 28), lanes.size());
        for (const auto &lane : lanes) IS(lane_of(m.store(), bytes_of(lane.first)) == lane.second, 1);
    }

    void join() {
        Store first = m_.store();
        const std::vector<std::string> order = listed(n_.store());
        IS(order.size(), second_.size());
        const std::size_t room = chance(2) ? scratch_.size() : chance(80);
        const Area<std::uint8_t> scratch(scratch_.data() + scratch_.size() - room, room);
        std::memset(scratch_.data(), 0xee, scratch_.size());
        const Answer a = first.join(n_.store(), scratch);
        IS(among(a.code, {0, 5, 6, 7, 8}), 1), IS(a.beside, 0), IS(kept_.holds(n_), 1);
        IS(a ? a.number == order.size() : a.number < order.size(), 1);
        std::string front(scratch_.size() - room, '\xee'), over(room, '\xee');
        const auto read = [&](const std::string &bytes) { over.replace(0, bytes.size(), bytes); };
        for (std::size_t i = 0; i < a.number; ++i) read(second_[order[i]]), first_[order[i]] += second_[order[i]];
        if (!a) {
            const std::string &bytes = second_[order[std::size_t(a.number)]];
            IS(a.code == Code::short_output, bytes.size() > room);
            if (a.code != Code::short_output) {
                read(bytes);
                IS(first.append(bytes_of(order[std::size_t(a.number)]), bytes_of(bytes)), a.code);
            }
        }
        IS(std::memcmp(scratch_.data(), (front + over).data(), scratch_.size()), 0);
        reads_as(m_, first_);
    }

    // Damage in one of the two: every code is one of a join's, and only what may be written is.
    void damaged() {
        const bool in_second = chance(2);
        Memory &hurt = in_second ? n_ : m_;
        for (std::uint32_t k = 1 + chance(4); k > 0; --k) {
            const std::uint32_t value = chance(2) ? 0xffffffff >> chance(32) : chance(4096);
            switch (chance(6)) {
            case 0:
            case 1: hurt.table[chance(std::uint32_t(hurt.table.size()))] = value; break;
            case 2:
            case 3: hurt.keys[chance(std::uint32_t(hurt.keys.size()))] = std::uint8_t(value); break;
            case 4: hurt.lists[chance(std::uint32_t(hurt.lists.size()))] = std::uint8_t(value); break;
            case 5: put(hurt.state.data() + 4 * chance(16), value); break;
            }
        }
        kept_.note(n_);
        Kept before;
        before.note(m_);
        std::memset(scratch_.data(), 0xee, scratch_.size());
        const Answer a = m_.store().join(n_.store(), scratch_);
        IS(among(a.code, {0, 2, 3, 4, 5, 6, 7, 8, 13}), 1), IS(kept_.holds(n_), 1), IS(a.number <= 64, 1);
        if (a.number == 0) IS(before.holds(m_), 1);
    }

    Memory m_, n_;
    Fenced<std::uint8_t> scratch_;
    Kept kept_;
    Lanes first_, second_;
};

} // namespace

int main(int argc, char **argv) {
    const unsigned long long calls = argc > 1 ? std::strtoull(argv[1], nullptr, 10) : 1000000;
    creation(), states(), refusals(), readings(), faults(), told(), joins();
    Play(true).run(calls - calls / 2);
    Play(false).run(calls / 2);
    const unsigned long long played = step;
    Halves(true).run(calls / 100), Halves(false).run(calls / 100);
    std::printf("cpp: %llu random calls, %llu random joins\ncpp: %llu checks\n", played, step - played, checks);
    return 0;
}
