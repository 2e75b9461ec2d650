// am9517.hpp - am9517.h for C++17 and later: a class over the chip, spans, and results without exceptions.
//
//     am9517::Chip chip;                                    // an Am9517A
//     am9517::Chip other(am9517::Edition::intel_8237a);
//     auto grant = chip.grant();
//     if (!grant)
//         std::puts(grant.text());
//
// Header only: link with the same library. Nothing here is proved; each method makes the one C call of its name, whose
// contract stands in am9517.h, and none throws. A Chip is a value: copies are chips of their own. Its fields are those of the
// C struct, read and set by fields(); edition and wait states are among them. A result has a value or a refusal; where it is
// refused its value is all zero. Sheets of form 2 are stored and loaded by save2, load2 and sheet2; forward and back write a
// sheet of one form in the other. A vendor's log is judged by judge.
#ifndef AM9517_HPP
#define AM9517_HPP

#if !defined(__cplusplus) || __cplusplus < 201703L
#error "am9517.hpp: C++17 or later is wanted (am9517.h serves C and older C++)"
#endif

#include <array>
#include <cstddef>
#include <cstdint>
#include <type_traits>
#include <utility>

#include "am9517.h"

namespace am9517 {

// ---- numbers

enum class Edition : std::uint32_t {
    am9517a = AM9517_EDITION_AM9517A,
    intel_8237a = AM9517_EDITION_INTEL_8237A
};

enum class Refusal : std::uint32_t {
    none = AM9517_OK,
    state_range = AM9517_STATE_RANGE,
    number = AM9517_NUMBER,
    in_service = AM9517_IN_SERVICE,
    wrong_register = AM9517_REGISTER,
    mode = AM9517_MODE,
    nobody = AM9517_NOBODY,
    memory_length = AM9517_MEMORY_LENGTH,
    no_service = AM9517_NO_SERVICE,
    sheet_short = AM9517_SHEET_SHORT,
    sheet_end_mark = AM9517_SHEET_END_MARK,
    sheet_form = AM9517_SHEET_FORM,
    sheet_distance = AM9517_SHEET_DISTANCE,
    sheet_sum = AM9517_SHEET_SUM,
    sheet_range = AM9517_SHEET_RANGE,
    sheet_no_place = AM9517_SHEET_NO_PLACE
};

enum class Reason : std::uint32_t {
    refused = AM9517_REASON_REFUSED,
    ended = AM9517_REASON_ENDED,
    dropped = AM9517_REASON_DROPPED,
    cascade = AM9517_REASON_CASCADE,
    limit = AM9517_REASON_LIMIT,
    is_short = AM9517_REASON_SHORT,
    done = AM9517_REASON_DONE,
    quiet = AM9517_REASON_QUIET
};

constexpr std::uint32_t number_of(Edition edition) noexcept { return static_cast<std::uint32_t>(edition); }
constexpr std::uint32_t number_of(Refusal refusal) noexcept { return static_cast<std::uint32_t>(refusal); }
constexpr std::uint32_t number_of(Reason reason) noexcept { return static_cast<std::uint32_t>(reason); }

inline const char *text(Refusal refusal) noexcept { return am9517_refusal_text(number_of(refusal)); }
inline const char *text(Reason reason) noexcept { return am9517_reason_text(number_of(reason)); }

// AM9517_VERSION of the library that is linked.
inline std::uint32_t version() noexcept { return am9517_version(); }

// More transfers than any service makes.
inline constexpr std::uint64_t no_limit = ~std::uint64_t{0};

using Memory = std::array<std::uint8_t, AM9517_MEMORY_SIZE>;
using Sheet = std::array<std::uint8_t, AM9517_SHEET_SIZE>;
using Sheet2 = std::array<std::uint8_t, AM9517_SHEET2_SIZE>;

// ---- spans: a pointer and a length, from std::vector, std::array, arrays, std::span and whatever has data() and size(). A span
// doesn't own: keep none of a temporary.

template <class Byte>
class Span {
public:
    constexpr Span() noexcept = default;
    constexpr Span(Byte *data, std::size_t size) noexcept : data_(data), size_(size) {}

    template <std::size_t N>
    constexpr Span(Byte (&array)[N]) noexcept : data_(array), size_(N) {}

    template <class Lender, class = std::enable_if_t<std::is_convertible_v<decltype(std::declval<Lender &>().data()), Byte *>>,
              class = decltype(std::declval<Lender &>().size())>
    constexpr Span(Lender &&lender) noexcept : data_(lender.data()), size_(lender.size()) {}

    constexpr Byte *data() const noexcept { return data_; }
    constexpr std::size_t size() const noexcept { return size_; }
    constexpr bool empty() const noexcept { return size_ == 0; }

    // What lies behind the first n bytes, for the next call; nothing where there are no more.
    constexpr Span after(std::size_t n) const noexcept { return n < size_ ? Span(data_ + n, size_ - n) : Span(); }

private:
    Byte *data_ = nullptr;
    std::size_t size_ = 0;
};

using Bytes = Span<std::uint8_t>;
using ConstBytes = Span<const std::uint8_t>;

// ---- results

template <class Value>
class [[nodiscard]] Result {
public:
    constexpr Result(Refusal refusal, Value value) noexcept : refusal_(refusal), value_(value) {}

    constexpr bool ok() const noexcept { return refusal_ == Refusal::none; }
    constexpr explicit operator bool() const noexcept { return ok(); }
    constexpr Refusal refusal() const noexcept { return refusal_; }
    constexpr const Value &value() const noexcept { return value_; }
    constexpr Value value_or(Value other) const noexcept { return ok() ? value_ : other; }
    constexpr const Value &operator*() const noexcept { return value_; }
    constexpr const Value *operator->() const noexcept { return &value_; }
    const char *text() const noexcept { return am9517::text(refusal_); }

private:
    Refusal refusal_;
    Value value_;
};

template <>
class [[nodiscard]] Result<void> {
public:
    constexpr explicit Result(Refusal refusal) noexcept : refusal_(refusal) {}

    constexpr bool ok() const noexcept { return refusal_ == Refusal::none; }
    constexpr explicit operator bool() const noexcept { return ok(); }
    constexpr Refusal refusal() const noexcept { return refusal_; }
    const char *text() const noexcept { return am9517::text(refusal_); }

private:
    Refusal refusal_;
};

struct Run {
    Reason reason;
    std::uint64_t transfers;
    std::size_t used;
    std::size_t written;
    std::uint64_t states;
};

struct Round {
    Reason reason;
    std::array<std::uint32_t, 4> services;
    std::uint64_t transfers;
    std::size_t used;
    std::size_t written;
    std::uint64_t states;
};

// What is found of a log: the first wrong record, if it isn't accepted, begins behind the right bytes.
struct Judged {
    bool accepted;
    std::size_t right;
    std::int32_t error;
};

// ---- the chip

class Chip {
public:
    // A fresh Am9517A.
    Chip() noexcept : Chip(Edition::am9517a) {}
    // A fresh one of this edition.
    explicit Chip(Edition edition) noexcept : chip_(am9517_fresh(number_of(edition))) {}
    // These fields, whatever their ranges: calls refuse those that break one.
    explicit Chip(const am9517_chip &fields) noexcept : chip_(fields) {}

    const am9517_chip &fields() const noexcept { return chip_; }
    am9517_chip &fields() noexcept { return chip_; }
    // As its field says; a host may have set another number there.
    Edition edition() const noexcept { return Edition{chip_.edition}; }

    Result<void> check() const noexcept { return done(am9517_check(&chip_)); }
    Result<void> write(std::uint32_t reg, std::uint8_t byte) noexcept { return done(am9517_write(&chip_, reg, byte)); }
    Result<std::uint8_t> read(std::uint32_t reg) noexcept { return byte(am9517_read(&chip_, reg)); }
    Result<void> pins(std::uint32_t levels) noexcept { return done(am9517_pins(&chip_, levels)); }
    Result<void> reset() noexcept { return done(am9517_reset(&chip_)); }
    // Of each transfer from now on; fields().waits has them.
    Result<void> waits(std::uint8_t states) noexcept { return done(am9517_waits(&chip_, states)); }
    // The channel granted.
    Result<std::uint8_t> grant() noexcept { return byte(am9517_grant(&chip_)); }
    // Bit n for channel n.
    Result<std::uint8_t> entitled() const noexcept { return byte(am9517_entitled(&chip_)); }
    Result<std::uint8_t> status() const noexcept { return byte(am9517_status(&chip_)); }

    Result<Run> run(Bytes memory, ConstBytes device, Bytes room, std::uint64_t limit = no_limit, std::uint64_t eop_at = 0) noexcept
    {
        const am9517_run_told told = am9517_run(&chip_, memory.data(), memory.size(), device.data(), device.size(), room.data(),
                                                room.size(), limit, eop_at);
        return {Refusal{told.refusal}, Run{Reason{told.reason}, told.transfers, told.used, told.written, told.states}};
    }

    Result<Round> round(Bytes memory, ConstBytes device, Bytes room, std::uint32_t k) noexcept
    {
        const am9517_round_told told = am9517_round(&chip_, memory.data(), memory.size(), device.data(), device.size(), room.data(),
                                                    room.size(), k);
        const std::array<std::uint32_t, 4> services{told.services[0], told.services[1], told.services[2], told.services[3]};
        return {Refusal{told.refusal}, Round{Reason{told.reason}, services, told.transfers, told.used, told.written, told.states}};
    }

    // The log of the open service, made by another replica; in parts: the next one while fields().in_service is 1.
    Result<Judged> judge(Bytes memory, ConstBytes log) noexcept
    {
        const am9517_judge_told told = am9517_judge(&chip_, memory.data(), memory.size(), log.data(), log.size());
        const bool accepted = told.refusal == AM9517_OK && told.right == log.size();
        return {Refusal{told.refusal}, Judged{accepted, told.right, told.error}};
    }

    // Into, and from, the last 56 bytes: an Am9517A without wait states alone has a sheet of form 1, and what is loaded is one.
    Result<void> save(Bytes sheet) const noexcept { return done(am9517_save(&chip_, sheet.data(), sheet.size())); }
    Result<void> load(ConstBytes sheet) noexcept { return done(am9517_load(&chip_, sheet.data(), sheet.size())); }
    // Form 2, into and from the last 58 bytes: with edition and wait states, so that every chip in its ranges has one.
    Result<void> save2(Bytes sheet) const noexcept { return done(am9517_save2(&chip_, sheet.data(), sheet.size())); }
    Result<void> load2(ConstBytes sheet) noexcept { return done(am9517_load2(&chip_, sheet.data(), sheet.size())); }

    // The sheet by itself.
    Result<Sheet> sheet() const noexcept
    {
        Sheet bytes{};
        const Refusal refusal = save(bytes).refusal();
        return {refusal, bytes};
    }
    Result<Sheet2> sheet2() const noexcept
    {
        Sheet2 bytes{};
        const Refusal refusal = save2(bytes).refusal();
        return {refusal, bytes};
    }

    // By fields: padding says nothing.
    friend bool operator==(const Chip &left, const Chip &right) noexcept
    {
        const am9517_chip &a = left.chip_, &b = right.chip_;
        for (std::size_t n = 0; n < 4; n++)
            if (!same(a.channels[n], b.channels[n]))
                return false;
        return a.tc == b.tc && a.request == b.request && a.mask == b.mask && a.pins == b.pins && a.in_service == b.in_service
               && a.serving == b.serving && a.latch_full == b.latch_full && a.latch == b.latch && a.lowest == b.lowest
               && a.flip_flop == b.flip_flop && a.edition == b.edition && a.waits == b.waits && a.temporary == b.temporary
               && a.command == b.command;
    }
    friend bool operator!=(const Chip &left, const Chip &right) noexcept { return !(left == right); }

private:
    static Result<void> done(std::uint32_t refusal) noexcept { return Result<void>(Refusal{refusal}); }
    static Result<std::uint8_t> byte(am9517_told told) noexcept
    {
        return {Refusal{told.refusal}, static_cast<std::uint8_t>(told.value)};
    }
    static bool same(const am9517_channel &a, const am9517_channel &b) noexcept
    {
        return a.base_address == b.base_address && a.address == b.address && a.base_count == b.base_count && a.count == b.count
               && a.mode == b.mode;
    }

    am9517_chip chip_;
};

// ---- sheets of one form in the other; source and target may not overlap

// Of form 1 in form 2, with edition 0 and no wait states.
inline Result<void> forward(ConstBytes source, Bytes target) noexcept
{
    return Result<void>(Refusal{am9517_forward(source.data(), source.size(), target.data(), target.size())});
}

// Of form 2 in form 1, where edition and wait states are 0.
inline Result<void> back(ConstBytes source, Bytes target) noexcept
{
    return Result<void>(Refusal{am9517_back(source.data(), source.size(), target.data(), target.size())});
}

// The new sheet by itself.
inline Result<Sheet2> forward(ConstBytes source) noexcept
{
    Sheet2 bytes{};
    const Refusal refusal = forward(source, bytes).refusal();
    return {refusal, bytes};
}
inline Result<Sheet> back(ConstBytes source) noexcept
{
    Sheet bytes{};
    const Refusal refusal = back(source, bytes).refusal();
    return {refusal, bytes};
}

}  // namespace am9517

#endif
