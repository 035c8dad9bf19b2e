// controller.cpp: an example. A salt line's controller records a shift: shot counts and the white reference of four
// lanes, minute by minute. At the end it writes the shift report and an image of its memory, for ./check-report and for
// the tool brownout. Where it is restarted in a minute, what comes behind it goes to a second store, and at the end the
// two halves are joined: the report is that of the shift in one.
//
//   controller REPORT IMAGE [MINUTES [RESTART]]
#include "nuvrisel.hpp"
#include <cstdio>
#include <cstdlib>
#include <string>
#include <vector>

using namespace nuvrisel;

namespace {

// The controller's memory. It is the controller's: the store only borrows it, call by call.
struct Memory {
    std::vector<std::uint8_t> state = std::vector<std::uint8_t>(NUVRISEL_STATE_BYTES);
    std::vector<std::uint32_t> table = std::vector<std::uint32_t>(64);
    std::vector<std::uint8_t> keys = std::vector<std::uint8_t>(4096);
    std::vector<std::uint8_t> lists = std::vector<std::uint8_t>(65536);
};

int stop(const char *what, Code code) {
    std::fprintf(stderr, "controller: %s: refused with %u, %s\n", what, unsigned(code), words(code));
    return 1;
}

bool write_file(const char *path, const std::vector<Bytes> &parts) {
    std::FILE *file = std::fopen(path, "wb");
    if (!file) return false;
    bool good = true;
    for (Bytes part : parts) good = std::fwrite(part.data(), 1, part.size(), file) == part.size() && good;
    return std::fclose(file) == 0 && good;
}

// A shot count is three bytes: the minute, and how many grains were blown out.
Code count_shots(Store &store, const std::string &lane, unsigned minute, unsigned shots) {
    const std::uint8_t bytes[3] = {std::uint8_t(minute), std::uint8_t(minute >> 8), std::uint8_t(shots)};
    return store.append(bytes_of(lane), bytes);
}

// The minutes `from` to `to`; `white` has each lane's last reading.
Code record(Store &store, std::int32_t (&white)[4], unsigned from, unsigned to) {
    for (unsigned minute = from; minute < to; ++minute)
        for (int lane = 0; lane < 4; ++lane) {
            const std::string name = "salt-" + std::to_string(lane + 1);
            // The tile of lane 4 gets dirty, a little each minute.
            const std::int32_t seen = 240 - (lane == 3 ? std::int32_t(minute) / 2 : 0) + std::int32_t(minute * 7 % 3);
            const Code drifted = store.drift(bytes_of(name + "/white"), white[lane], seen);
            if (drifted != Code::done) return drifted;
            white[lane] = seen;
            const Code counted = count_shots(store, name + "/shots", minute, (minute * 11 + unsigned(lane) * 5) % 17);
            if (counted != Code::done) return counted;
        }
    return Code::done;
}

} // namespace

int main(int argc, char **argv) {
    if (argc < 3 || argc > 5) return std::fprintf(stderr, "usage: controller REPORT IMAGE [MINUTES [RESTART]]\n"), 2;
    const unsigned minutes = argc > 3 ? unsigned(std::atoi(argv[3])) : 480;
    const unsigned restart = argc > 4 ? unsigned(std::atoi(argv[4])) : minutes;
    Memory memory, second;
    Store store(memory.state, memory.table, memory.keys, memory.lists);
    Store rest(second.state, second.table, second.keys, second.lists);
    std::int32_t white[4] = {0, 0, 0, 0};
    if (const Code code = store.create(16, 3242157231u); code != Code::done) return stop("create", code);
    if (const Code code = record(store, white, 0, restart); code != Code::done) return stop("the shift", code);
    if (const Code code = rest.create(16, 3242157231u); code != Code::done) return stop("create", code);
    if (const Code code = record(rest, white, restart, minutes); code != Code::done) return stop("the shift", code);
    std::vector<std::uint8_t> scratch(second.lists.size()); // no lane has more bytes than the list pages
    if (const Answer joined = store.join(rest, scratch); !joined) return stop("join", joined.code);

    std::vector<std::uint8_t> text;
    Answer answer = store.report(text); // an empty output: 8 tells how much is needed
    if (answer.code != Code::short_output) return stop("report", answer.code);
    text.resize(std::size_t(answer.number));
    answer = store.report(text);
    if (!answer) return stop("report", answer.code);

    const Bytes words{reinterpret_cast<const std::uint8_t *>(memory.table.data()), 4 * memory.table.size()};
    if (!write_file(argv[1], {Bytes(text)}) || !write_file(argv[2], {memory.state, words, memory.keys, memory.lists}))
        return std::perror("controller"), 2;
    std::printf("controller: a report of %zu bytes and an image of %zu\n", text.size(),
                memory.state.size() + words.size() + memory.keys.size() + memory.lists.size());
    return 0;
}
