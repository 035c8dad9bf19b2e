// bench.cpp: how long appends and readings take here, in the Rust crate, and in two maps of the C++ library.
//
//   bench [ROUNDS]     by default 9; ./bench builds and runs it
//
// The same calls on each, one after the other, in one run. Pages are fresh and zero for both stores, so that both pay
// for their first touch. Processor time; the calls are cut into pieces of 5,000, of each piece the least of all rounds
// counts, because the machine may be busy. Before any time is taken the readings of all are compared, byte for byte.
#include "nuvrisel.hpp"
#include <algorithm>
#include <cstdio>
#include <cstdlib>
#include <cstring>
#include <ctime>
#include <map>
#include <string>
#include <sys/mman.h>
#include <unordered_map>
#include <vector>

extern "C" {
struct Record;
Record *crate_create(std::size_t capacity);
void crate_free(Record *record);
void crate_append(Record *record, const std::uint8_t *name, std::size_t name_bytes, const std::uint8_t *bytes,
                  std::size_t n);
bool crate_stands(const Record *record, const std::uint8_t *name, std::size_t name_bytes);
std::size_t crate_read(Record *record, const std::uint8_t *name, std::size_t name_bytes, const std::uint8_t **at);
}

namespace {

using nuvrisel::Area;
using nuvrisel::Bytes;

// ---- what is asked

std::uint64_t seed = 88172645463325252u;
std::uint32_t chance(std::uint32_t n) {
    seed ^= seed << 13, seed ^= seed >> 7, seed ^= seed << 17;
    return std::uint32_t((seed >> 11) % n);
}

struct Work {
    std::vector<std::string> names;
    std::vector<std::uint8_t> data = std::vector<std::uint8_t>(1 << 16);
    struct Append {
        std::uint32_t name;
        std::uint16_t at, n;
    };
    std::vector<Append> appends;
    std::uint32_t most;
    Work(std::size_t lanes, std::size_t calls, std::uint32_t longest) : most(longest) {
        for (auto &b : data) b = std::uint8_t(chance(256));
        for (std::size_t i = 0; i < lanes; ++i) {
            std::string name = std::to_string(i) + "/";
            for (std::size_t n = 20 + chance(21); name.size() < n;) name += char('a' + chance(26));
            names.push_back(name);
        }
        for (std::size_t i = 0; i < calls; ++i)
            appends.push_back(
                {chance(std::uint32_t(lanes)), std::uint16_t(chance(60000)), std::uint16_t(1 + chance(longest))});
    }
    Bytes name(std::uint32_t i) const { return nuvrisel::bytes_of(names[i]); }
    Bytes bytes(const Append &a) const { return {data.data() + a.at, a.n}; }
};

// ---- who is asked

// Fresh pages, zero and untouched.
template <class T> struct Pages {
    T *data;
    std::size_t size;
    explicit Pages(std::size_t n) : size(n) {
        data = static_cast<T *>(
            mmap(nullptr, n * sizeof(T), PROT_READ | PROT_WRITE, MAP_PRIVATE | MAP_ANONYMOUS | MAP_NORESERVE, -1, 0));
        if (data == MAP_FAILED) std::perror("bench"), std::exit(1);
    }
    ~Pages() { munmap(data, size * sizeof(T)); }
    Pages(const Pages &) = delete;
    Pages &operator=(const Pages &) = delete;
    operator Area<T>() const { return {data, size}; }
};

struct Port {
    static constexpr const char *name = "nuvrisel";
    std::uint8_t state[NUVRISEL_STATE_BYTES];
    Pages<std::uint32_t> table;
    Pages<std::uint8_t> keys, lists;
    nuvrisel::Store store;
    std::vector<std::uint8_t> output;
    explicit Port(const Work &w)
        : table(std::max<std::size_t>(64, 16 * w.names.size())), keys(1048576 * (1 + w.names.size() / 8192)),
          lists(std::size_t(1048576) * (2 + w.appends.size() * (w.most + 1) / 1000000)),
          store(state, table, keys, lists) {
        if (store.create(4, 3242157231u) != nuvrisel::Code::done) std::fprintf(stderr, "bench: create\n"), std::exit(1);
        output.resize(w.appends.size() * (w.most + 1) / w.names.size() * 2 + 4096);
    }
    void append(Bytes key, Bytes bytes) {
        if (store.append(key, bytes) != nuvrisel::Code::done) std::fprintf(stderr, "bench: append\n"), std::exit(1);
    }
    bool stands(Bytes key) { return bool(store.length(key)); }
    Bytes read(Bytes key) { return {output.data(), std::size_t(store.read(key, output).number)}; }
};

struct Crate {
    static constexpr const char *name = "the crate";
    Record *record;
    explicit Crate(const Work &) : record(crate_create(4)) {}
    ~Crate() { crate_free(record); }
    Crate(const Crate &) = delete;
    Crate &operator=(const Crate &) = delete;
    void append(Bytes key, Bytes bytes) { crate_append(record, key.data(), key.size(), bytes.data(), bytes.size()); }
    bool stands(Bytes key) { return crate_stands(record, key.data(), key.size()); }
    Bytes read(Bytes key) {
        const std::uint8_t *at = nullptr;
        const std::size_t n = crate_read(record, key.data(), key.size(), &at);
        return {at, n};
    }
};

template <class Map> struct Library {
    Map map;
    std::vector<std::uint8_t> output;
    explicit Library(const Work &) {}
    static std::string key_of(Bytes key) { return {reinterpret_cast<const char *>(key.data()), key.size()}; }
    void append(Bytes key, Bytes bytes) {
        auto &lane = map[key_of(key)];
        lane.insert(lane.end(), bytes.begin(), bytes.end());
    }
    bool stands(Bytes key) { return map.find(key_of(key)) != map.end(); }
    Bytes read(Bytes key) {
        const auto &lane = map.find(key_of(key))->second;
        output.assign(lane.begin(), lane.end());
        return {output.data(), output.size()};
    }
};
struct Unordered : Library<std::unordered_map<std::string, std::vector<std::uint8_t>>> {
    static constexpr const char *name = "unordered_map";
    using Library::Library;
};
struct Ordered : Library<std::map<std::string, std::vector<std::uint8_t>>> {
    static constexpr const char *name = "map";
    using Library::Library;
};

// ---- time

double now() {
    timespec t;
    clock_gettime(CLOCK_THREAD_CPUTIME_ID, &t);
    return double(t.tv_sec) + 1e-9 * double(t.tv_nsec);
}

constexpr std::size_t piece = 5000;

// Seconds of each piece of calls, the least of all rounds.
struct Least {
    std::vector<double> pieces;
    template <class Call> void take(std::size_t calls, Call call) {
        pieces.resize((calls + piece - 1) / piece, 1e9);
        for (std::size_t k = 0; k < pieces.size(); ++k) {
            const double from = now();
            for (std::size_t i = k * piece; i < std::min(calls, (k + 1) * piece); ++i) call(i);
            pieces[k] = std::min(pieces[k], now() - from);
        }
    }
    double sum() const {
        double s = 0;
        for (double p : pieces) s += p;
        return s;
    }
};

std::uint64_t sink = 0;

struct Times {
    Least append, length, read;
    template <class T> void round(const Work &w) {
        T t(w);
        append.take(w.appends.size(),
                    [&](std::size_t i) { t.append(w.name(w.appends[i].name), w.bytes(w.appends[i])); });
        const std::size_t asked = std::min<std::size_t>(w.appends.size(), 1000000);
        length.take(asked, [&](std::size_t i) { sink += t.stands(w.name(w.appends[i].name)); });
        read.take(w.names.size(), [&](std::size_t i) { sink += t.read(w.name(std::uint32_t(i))).size(); });
    }
};

template <class A, class B> void compare(const Work &w) {
    A a(w);
    B b(w);
    for (const auto &x : w.appends) a.append(w.name(x.name), w.bytes(x)), b.append(w.name(x.name), w.bytes(x));
    for (std::uint32_t i = 0; i < w.names.size(); ++i) {
        const Bytes p = a.read(w.name(i)), q = b.read(w.name(i));
        if (p.size() == q.size() && !std::memcmp(p.data(), q.data(), p.size())) continue;
        std::fprintf(stderr, "bench: lane %u isn't the same in %s and %s\n", i, A::name, B::name), std::exit(1);
    }
}

void row(const char *name, const Times &t, const Times &crate, const Work &w) {
    const double calls = double(w.appends.size()), lanes = double(w.names.size());
    std::printf("  %-14s %8.1f %6.2f %10.1f %6.2f %10.1f %6.2f\n", name, 1e9 * t.append.sum() / calls,
                t.append.sum() / crate.append.sum(), 1e9 * t.length.sum() / std::min(calls, 1e6),
                t.length.sum() / crate.length.sum(), 1e6 * t.read.sum() / lanes, t.read.sum() / crate.read.sum());
}

void table(const char *title, const Work &w, int rounds, bool maps) {
    Times port, crate, unordered, ordered;
    for (int i = 0; i < rounds; ++i) {
        port.round<Port>(w), crate.round<Crate>(w);
        if (maps) unordered.round<Unordered>(w), ordered.round<Ordered>(w);
    }
    std::printf("%s\n  %-14s %8s %6s %10s %6s %10s %6s\n", title, "", "append", "ratio", "length", "ratio", "read",
                "ratio");
    row(Port::name, port, crate, w), row(Crate::name, crate, crate, w);
    if (maps) row(Unordered::name, unordered, crate, w), row(Ordered::name, ordered, crate, w);
    std::fflush(stdout);
}

} // namespace

int main(int argc, char **argv) {
    const int rounds = argc > 1 ? std::max(1, std::atoi(argv[1])) : 9;
    const Work base(1000, 1000000, 16);
    compare<Port, Crate>(base), compare<Port, Unordered>(base);
    std::printf("append and length: nanoseconds a call; read: microseconds a lane. Ratio: to the crate. Length: the "
                "crate tells\n"
                "whether a lane stands, the port its length too.\n");
    table("one million appends of 1 to 16 bytes, 1,000 lanes", base, rounds, true);
    table("one million appends of 1 to 64 bytes, 1,000 lanes", Work(1000, 1000000, 64), rounds, false);
    table("10 times the bytes: ten million appends, 1,000 lanes", Work(1000, 10000000, 16), std::max(1, rounds / 3),
          false);
    table("100 times the bytes: a hundred million appends, 1,000 lanes", Work(1000, 100000000, 16), 1, false);
    table("10 times the lanes: one million appends, 10,000 lanes", Work(10000, 1000000, 16), rounds, false);
    table("100 times the lanes: ten million appends, 100,000 lanes", Work(100000, 10000000, 16),
          std::max(1, rounds / 3), false);
    return sink == 0;
}
