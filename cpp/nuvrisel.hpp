// nuvrisel.hpp: the shift record for C++17, a thin wrapper over nuvrisel.h.
//
// It owns nothing and allocates nothing: a Store is four lent areas, which must outlive it and which the caller keeps
// apart (nuvrisel.h says what is owed). Nothing throws. Every answer is a Code; where a number is told it stands beside
// it in an Answer.
#ifndef NUVRISEL_HPP
#define NUVRISEL_HPP
#include "nuvrisel.h"
#include <cstddef>
#include <cstdint>
#include <iterator>
#include <string_view>
#include <type_traits>

namespace nuvrisel {

// A lent area: a pointer and a number of elements, made from any container that has both.
template <class T> class Area {
  public:
    constexpr Area() noexcept = default;
    constexpr Area(T *data, std::size_t size) noexcept : data_(data), size_(size) {}
    template <class C, class = std::enable_if_t<std::is_convertible_v<decltype(std::data(std::declval<C &>())), T *>>>
    constexpr Area(C &&c) noexcept : data_(std::data(c)), size_(std::size(c)) {}
    constexpr T *data() const noexcept { return data_; }
    constexpr std::size_t size() const noexcept { return size_; }
    constexpr T *begin() const noexcept { return data_; }
    constexpr T *end() const noexcept { return data_ + size_; }
    // The elements from `at` on, at most `n`: clipped at the area's end.
    constexpr Area part(std::size_t at, std::size_t n) const noexcept {
        at = at < size_ ? at : size_;
        return {data_ + at, n < size_ - at ? n : size_ - at};
    }

  private:
    T *data_ = nullptr;
    std::size_t size_ = 0;
};
using Bytes = Area<const std::uint8_t>;

// Letters as bytes, for names.
inline Bytes bytes_of(std::string_view text) noexcept {
    return {reinterpret_cast<const std::uint8_t *>(text.data()), text.size()};
}

enum class Code : std::uint32_t {
    done = NUVRISEL_DONE,
    creation = NUVRISEL_CREATION,
    state = NUVRISEL_STATE,
    long_name = NUVRISEL_LONG_NAME,
    damage = NUVRISEL_DAMAGE,
    table_full = NUVRISEL_TABLE_FULL,
    keys_full = NUVRISEL_KEYS_FULL,
    lists_full = NUVRISEL_LISTS_FULL,
    short_output = NUVRISEL_SHORT_OUTPUT,
    no_end = NUVRISEL_NO_END,
    other_form = NUVRISEL_OTHER_FORM,
    nameless = NUVRISEL_NAMELESS,
    absent = NUVRISEL_ABSENT,
    no_more = NUVRISEL_NO_MORE,
    fault = NUVRISEL_FAULT,
    key_count = NUVRISEL_KEY_COUNT,
};

constexpr const char *words(Code code) noexcept {
    switch (code) {
    case Code::done: return "done";
    case Code::creation: return "sizes that creation doesn't take";
    case Code::state: return "the state is short or senseless, or doesn't fit the memory";
    case Code::long_name: return "the name is too long";
    case Code::damage: return "the memory is damaged";
    case Code::table_full: return "the table is full";
    case Code::keys_full: return "the key pages are full";
    case Code::lists_full: return "the list pages are full";
    case Code::short_output: return "the output is too short";
    case Code::no_end: return "a number without an end";
    case Code::other_form: return "a number not in its one form";
    case Code::nameless: return "a lane has a name";
    case Code::absent: return "no such lane";
    case Code::no_more: return "no more lanes";
    case Code::fault: return "a faulty bucket";
    case Code::key_count: return "the key count differs";
    }
    return "no such code";
}

// A code, the number told with it, and the word beside that.
struct Answer {
    Code code;
    std::uint64_t number;
    std::uint32_t beside;
    constexpr explicit operator bool() const noexcept { return code == Code::done; }
};

class Store {
  public:
    Store(Area<std::uint8_t> state, Area<std::uint32_t> table, Area<std::uint8_t> keys,
          Area<std::uint8_t> lists) noexcept
        : state_(state), table_(table), keys_(keys), lists_(lists) {}

    Code create(std::size_t capacity, std::uint32_t seed, std::size_t page_size = 1048576) noexcept {
        return Code(nuvrisel_create(state_.data(), state_.size(), capacity, seed, page_size, table_.data(),
                                    table_.size(), keys_.data(), keys_.size(), lists_.data(), lists_.size()));
    }
    Code append(Bytes name, Bytes bytes) noexcept {
        return Code(nuvrisel_append(state_.data(), state_.size(), table_.data(), table_.size(), keys_.data(),
                                    keys_.size(), lists_.data(), lists_.size(), name.data(), name.size(), bytes.data(),
                                    bytes.size()));
    }
    Code drift(Bytes name, std::int32_t last, std::int32_t reading) noexcept {
        return Code(nuvrisel_drift(state_.data(), state_.size(), table_.data(), table_.size(), keys_.data(),
                                   keys_.size(), lists_.data(), lists_.size(), name.data(), name.size(), last,
                                   reading));
    }
    Answer lookup(Bytes name) const noexcept { return ask(nuvrisel_lookup, name.data(), name.size()); }
    Answer length(Bytes name) const noexcept { return ask(nuvrisel_length, name.data(), name.size()); }
    Answer next(std::size_t index) const noexcept { return ask(nuvrisel_next, index); }
    Answer read(Bytes name, Area<std::uint8_t> output) const noexcept {
        return ask(nuvrisel_read, name.data(), name.size(), output.data(), output.size());
    }
    Answer readings(Bytes name, Area<std::int32_t> output) const noexcept {
        return ask(nuvrisel_readings, name.data(), name.size(), output.data(), output.size());
    }
    Answer check(Area<std::uint8_t> marks) const noexcept { return ask(nuvrisel_check, marks.data(), marks.size()); }
    Answer report(Area<std::uint8_t> output) const noexcept {
        return ask(nuvrisel_report, output.data(), output.size());
    }
    // Joins a second store, in areas of its own, onto this one. The number is how many lanes went across, with a
    // refusal too: those stay.
    Answer join(const Store &second, Area<std::uint8_t> scratch) noexcept {
        return ask(nuvrisel_join, second.state_.data(), second.state_.size(), second.table_.data(),
                   second.table_.size(), second.keys_.data(), second.keys_.size(), second.lists_.data(),
                   second.lists_.size(), scratch.data(), scratch.size());
    }

    // Bytes of the mark area that `check` needs.
    std::size_t mark_bytes() const noexcept { return (keys_.size() + lists_.size() + 7) / 8; }
    // The name in the record at a place that `lookup` or `next` told; empty where no record can be.
    Bytes name_at(std::uint32_t record) const noexcept {
        if (keys_.size() < 2 || keys_.size() - 2 < record) return {};
        const std::uint8_t *at = keys_.data() + record;
        return Bytes(keys_.data(), keys_.size()).part(std::size_t(record) + 2, std::size_t(at[0] | at[1] << 8));
    }

  private:
    template <class Call, class... Rest> Answer ask(Call call, Rest... rest) const noexcept {
        std::uint32_t told[NUVRISEL_TOLD_WORDS] = {0, 0, 0};
        const std::uint32_t code = call(state_.data(), state_.size(), table_.data(), table_.size(), keys_.data(),
                                        keys_.size(), lists_.data(), lists_.size(), rest..., told, NUVRISEL_TOLD_WORDS);
        return {Code(code), nuvrisel_told(told), told[2]};
    }
    Area<std::uint8_t> state_;
    Area<std::uint32_t> table_;
    Area<std::uint8_t> keys_, lists_;
};

} // namespace nuvrisel
#endif
