// brownout.cpp: says of an image of a controller's memory whether it is sound.
//
//   brownout IMAGE
//
// An image is the state area (64 bytes), the table, the key pages and the list pages, one behind the other, numbers low
// byte first (docs/LAYOUT.md). The file is mapped and only read. The check itself is the proved one. Sound: each lane
// with its name, its length and the page bytes that it takes. Else the faulty bucket, the fault and what it means.
// Exit status: 0 sound; 1 a fault; 2 an image that can't be read, or whose state is senseless.
#include "nuvrisel.hpp"
#include <algorithm>
#include <cstdio>
#include <cstring>
#include <fcntl.h>
#include <string>
#include <sys/mman.h>
#include <sys/stat.h>
#include <unistd.h>
#include <vector>

using namespace nuvrisel;

namespace {

struct Fault {
    const char *what, *looks, *lost;
};

// README.md, "After a brownout".
const Fault faults[8] = {
    {"the key count", "every bucket is well, but they aren't as many as the state says",
     "the way to a lane whose bucket was wiped; or nothing, if only the count is of another moment"},
    {"the record", "the bucket's address, or the length in front of the name there, leads out of the key bytes in use",
     "the lane: nothing leads to its name and its bytes, though they may still lie there"},
    {"a name in an earlier bucket", "two records have one name", "one of the two lanes: nobody can ask for it by name"},
    {"a name that probing doesn't find here",
     "the record is good, but the search for its name ends elsewhere; the broken bucket may be another one",
     "the way to the lane by its name; its record and bytes may be whole"},
    {"the header", "the 16 bytes behind the name can't be", "the lane's length and its way to the blocks"},
    {"a block", "the header's head, or a block's link, leads to where no block can lie",
     "the lane from that block on; the blocks before it are found"},
    {"the tail", "the place for the next byte isn't where the written bytes end",
     "nothing yet: the lane reads, but the next append would write to the wrong place"},
    {"an overlap", "a record or a block claims bytes that another has, or a chain of blocks leads into itself",
     "what one of the two wrote over the other, now or at its next append"},
};

std::uint32_t number_at(const std::uint8_t *at) {
    return std::uint32_t(at[0]) | std::uint32_t(at[1]) << 8 | std::uint32_t(at[2]) << 16 | std::uint32_t(at[3]) << 24;
}

// A name as it is typed where that can be done, else in hex.
std::string shown(Bytes name) {
    const bool plain =
        std::all_of(name.begin(), name.end(), [](std::uint8_t b) { return b > 0x20 && b < 0x7f && b != '\''; });
    if (plain && name.size()) return "'" + std::string(name.begin(), name.end());
    std::string hex;
    for (std::uint8_t b : name) hex += "0123456789abcdef"[b >> 4], hex += "0123456789abcdef"[b & 15];
    return hex;
}

// List page bytes that a lane takes: its blocks, numbers 3 to the header's, each with its link of 4 bytes.
std::uint64_t list_bytes(std::uint32_t last) {
    std::uint64_t sum = 0;
    for (std::uint32_t b = 3; b <= last; ++b) sum += (std::uint64_t(1) << std::min(b, 15u)) + 4;
    return sum;
}

int unreadable(const char *path, const char *why) {
    std::fprintf(stderr, "brownout: %s: %s\n", path, why);
    return 2;
}

int tell_fault(const Answer &answer) {
    const Fault &fault = faults[answer.code == Code::fault && answer.beside < 8 ? answer.beside : 0];
    if (answer.code == Code::fault)
        std::printf("bucket %llu: fault %u, %s\n", static_cast<unsigned long long>(answer.number), answer.beside,
                    fault.what);
    else
        std::printf("fault: %s\n", fault.what);
    std::printf("  what is seen: %s\n  what is lost: %s\n", fault.looks, fault.lost);
    std::printf("  keep this image for the inquiry; faults behind this one aren't told\n");
    return 1;
}

int tell_lanes(const Store &store, Bytes keys) {
    std::printf("sound\n");
    std::uint64_t lanes = 0;
    for (std::size_t from = 0;; ++lanes) {
        const Answer at = store.next(from);
        if (at.code == Code::no_more) break;
        const Bytes name = store.name_at(at.beside);
        const Answer length = store.length(name);
        if (!at || !length)
            return std::fprintf(stderr, "brownout: a sound memory answered %u\n", unsigned(length.code)), 2;
        const std::uint64_t blocks = list_bytes(number_at(keys.data() + at.beside + 2 + name.size()));
        std::printf("lane %s: %llu bytes; of the pages %zu for its record, %llu for its blocks\n", shown(name).c_str(),
                    static_cast<unsigned long long>(length.number), name.size() + 18,
                    static_cast<unsigned long long>(blocks));
        from = std::size_t(at.number) + 1;
    }
    std::printf("%llu lanes\n", static_cast<unsigned long long>(lanes));
    return 0;
}

int look(const char *path, std::uint8_t *image, std::size_t size) {
    if (size < NUVRISEL_STATE_BYTES) return unreadable(path, "shorter than a state area of 64 bytes");
    const std::size_t keys = number_at(image + 8), lists = number_at(image + 12), length = number_at(image + 16);
    if (size != NUVRISEL_STATE_BYTES + 4 * length + keys + lists)
        return unreadable(path, "its length isn't that of the areas that its state tells, or its state is senseless");
    std::uint8_t *const table = image + NUVRISEL_STATE_BYTES, *const pages = table + 4 * length;
    const Store store({image, NUVRISEL_STATE_BYTES}, {reinterpret_cast<std::uint32_t *>(table), length}, {pages, keys},
                      {pages + keys, lists});
    std::vector<std::uint8_t> marks(store.mark_bytes());
    const Answer answer = store.check(marks);
    if (answer) return tell_lanes(store, {pages, keys});
    if (answer.code == Code::fault || answer.code == Code::key_count) return tell_fault(answer);
    return unreadable(path, nuvrisel::words(answer.code));
}

} // namespace

int main(int argc, char **argv) {
    if (argc != 2) return std::fprintf(stderr, "usage: brownout IMAGE\n"), 2;
    const int file = open(argv[1], O_RDONLY);
    struct stat about;
    if (file < 0 || fstat(file, &about) != 0) return std::perror(argv[1]), 2;
    if (!S_ISREG(about.st_mode) || about.st_size == 0) return unreadable(argv[1], "no file, or an empty one");
    const std::size_t size = std::size_t(about.st_size);
    // The mapping is private: nothing here writes, and the file couldn't change by it.
    void *const image = mmap(nullptr, size, PROT_READ, MAP_PRIVATE, file, 0);
    if (image == MAP_FAILED) return std::perror(argv[1]), 2;
    const int status = look(argv[1], static_cast<std::uint8_t *>(image), size);
    munmap(image, size);
    close(file);
    return status;
}
