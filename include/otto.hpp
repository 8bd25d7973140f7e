// libotto for hosts in C++17 and later: the calls of otto.h over a class. There
// is nothing to build but the host, which is linked with libotto.a.
//
//   Span                    what a call is lent: std::span where there is one,
//                           from C++20 on, and before that a small one
//   Record, Output          arrays of a record, and of what a frame puts out
//   Refusal, reason         why a call was refused
//   Result                  what a call gives, or its refusal
//   Address, Register       of one byte; of a register, with its pages
//   Voice, Channel, Bank    numbers that are in range, and what goes by them
//   compress, expand        samples and codes
//   import_wave             a WAVE file
//   Machine                 a record, and the calls on it
//   value_or_throw          for hosts that want exceptions
//
// otto.h says what each call does. Its names of values and bits are used as
// they are: OTTO_K_OPEN, OTTO_CR_LPE.
//
// A machine alone writes its record, so the record is valid and of the right
// length. A call that no other fault can refuse gives what it gives; one that
// can be refused gives a Result, and the compiler warns where that is dropped.
//
// Nothing allocates, and nothing throws but value_or_throw, which is not there
// with -fno-exceptions; -fno-rtti leaves nothing out. What a program may not do
// and no call can refuse, such as taking the value of a refused call, is told
// by an assert where NDEBUG is not defined.
#ifndef OTTO_HPP
#define OTTO_HPP

#if __cplusplus < 201703L
#error "otto.hpp is for C++17 and later; otto.h is for C++98 and later"
#endif

#include <array>
#include <cassert>
#include <cstddef>
#include <cstdint>
#include <cstring>
#include <iterator>
#include <optional>
#include <type_traits>
#include <utility>
#if __has_include(<version>)
#include <version>
#endif
#ifdef __cpp_lib_span
#include <span>
#endif
#ifdef __cpp_exceptions
#include <exception>
#endif

#include "otto.h"

namespace otto {

// Span is one type or the other, and so what follows is in one namespace or the
// other. Object files of both may be linked into one program, but a Machine of
// the one is no Machine of the other.
#ifdef __cpp_lib_span
inline namespace with_std_span {
#else
inline namespace with_own_span {
#endif

// ---- what is lent ----------------------------------------------------------

#ifdef __cpp_lib_span

template <class T, std::size_t length = std::dynamic_extent>
using Span = std::span<T, length>;

#else

inline constexpr std::size_t dynamic_extent = static_cast<std::size_t>(-1);

template <class T, std::size_t length = dynamic_extent> class Span;

// How many values a type has, where the type says it.
template <class Values>
inline constexpr std::size_t length_of = dynamic_extent;
template <class T, std::size_t length>
inline constexpr std::size_t length_of<T[length]> = length;
template <class T, std::size_t length>
inline constexpr std::size_t length_of<std::array<T, length>> = length;
template <class T, std::size_t length>
inline constexpr std::size_t length_of<Span<T, length>> = length;

// As much of std::span as lending takes: values that lie one behind the other
// and belong to another, such as those of an array or a vector. Where a length
// is given, what is lent has to have it by its type.
template <class T, std::size_t length> class Span {
  public:
    template <std::size_t n = length,
              std::enable_if_t<n == dynamic_extent, int> = 0>
    constexpr Span() noexcept
    {
    }

    template <std::size_t n = length,
              std::enable_if_t<n == dynamic_extent, int> = 0>
    constexpr Span(T *data, std::size_t size) noexcept
        : data_(data), size_(size)
    {
    }

    template <std::size_t n = length,
              std::enable_if_t<n != dynamic_extent, int> = 0>
    constexpr explicit Span(T *data, std::size_t size) noexcept
        : data_(data), size_(size)
    {
        assert(size == length);
    }

    template <class Values,
              class Lent = std::remove_pointer_t<
                  decltype(std::data(std::declval<Values &>()))>,
              std::enable_if_t<
                  std::is_convertible_v<Lent (*)[], T (*)[]> &&
                      (length == dynamic_extent ||
                       length == length_of<std::remove_cv_t<
                                     std::remove_reference_t<Values>>>),
                  int> = 0>
    constexpr Span(Values &&values) noexcept
        : data_(std::data(values)), size_(std::size(values))
    {
    }

    constexpr T *data() const noexcept { return data_; }
    constexpr std::size_t size() const noexcept { return size_; }
    constexpr bool empty() const noexcept { return size_ == 0; }
    constexpr T *begin() const noexcept { return data_; }
    constexpr T *end() const noexcept { return data_ + size_; }
    constexpr T &operator[](std::size_t index) const noexcept
    {
        assert(index < size_);
        return data_[index];
    }

  private:
    T *data_ = nullptr;
    std::size_t size_ = 0;
};

#endif

using Record = std::array<std::uint32_t, OTTO_RECORD_WORDS>;
using Output = std::array<std::int32_t, OTTO_OUTPUT_VALUES>;

// ---- refusals --------------------------------------------------------------

// By the answers of otto.h. A refused call has changed nothing.
enum class Refusal : std::uint32_t {
    record_length = OTTO_RECORD_LENGTH,
    record_invalid = OTTO_RECORD_INVALID,
    address_above = OTTO_ADDRESS_ABOVE,
    pot_above = OTTO_POT_ABOVE,
    memory_length = OTTO_MEMORY_LENGTH,
    output_length = OTTO_OUTPUT_LENGTH,
    too_few_voices = OTTO_TOO_FEW_VOICES,
    file_broken = OTTO_FILE_BROKEN,
    chunk_count = OTTO_CHUNK_COUNT,
    sample_format = OTTO_SAMPLE_FORMAT,
    loop_invalid = OTTO_LOOP_INVALID,
    no_place = OTTO_NO_PLACE,
};

// Why, in the words of otto_reason.
[[nodiscard]] inline const char *reason(Refusal refusal) noexcept
{
    return ::otto_reason(static_cast<std::uint32_t>(refusal));
}

// Whether a call was done, and why not. error() is of one that was refused.
class [[nodiscard]] Outcome {
  public:
    constexpr Outcome() noexcept = default;
    constexpr Outcome(Refusal refusal) noexcept : refusal_(refusal) {}

    [[nodiscard]] constexpr bool has_value() const noexcept
    {
        return refusal_ == none;
    }
    constexpr explicit operator bool() const noexcept { return has_value(); }

    [[nodiscard]] constexpr Refusal error() const noexcept
    {
        assert(!has_value());
        return refusal_;
    }

  private:
    static constexpr Refusal none{ OTTO_DONE };

    Refusal refusal_ = none;
};

// What a call gives, or why it was refused. The names are std::expected's;
// *result and result-> are of a call that was done.
template <class T> class [[nodiscard]] Result : public Outcome {
  public:
    using Outcome::Outcome;
    constexpr Result(T value) noexcept : value_(value) {}

    [[nodiscard]] constexpr T operator*() const noexcept
    {
        assert(has_value());
        return value_;
    }
    [[nodiscard]] constexpr const T *operator->() const noexcept
    {
        assert(has_value());
        return &value_;
    }
    [[nodiscard]] constexpr T value_or(T other) const noexcept
    {
        return has_value() ? value_ : other;
    }

  private:
    T value_{};
};

template <> class [[nodiscard]] Result<void> : public Outcome {
  public:
    using Outcome::Outcome;
};

namespace detail {

// The result of a call by its answer.
constexpr Result<void> result_of(std::uint32_t answer) noexcept
{
    return answer == OTTO_DONE ? Result<void>() : Refusal{ answer };
}
template <class T>
constexpr Result<T> result_of(std::uint32_t answer, T value) noexcept
{
    return answer == OTTO_DONE ? Result<T>(value) : Refusal{ answer };
}

} // namespace detail

// ---- registers -------------------------------------------------------------

// The address of one byte, 0 to 63; a greater one is refused by the call that
// it is given to. It names no page: the byte is that of the page which the
// machine is on.
class [[nodiscard]] Address {
  public:
    constexpr explicit Address(std::uint32_t value) noexcept : value_(value) {}

    [[nodiscard]] constexpr std::uint32_t value() const noexcept
    {
        return value_;
    }

  private:
    std::uint32_t value_;
};

// A register with the pages that it is on. A voice's are had from its Voice,
// the sums of a channel from its Channel, and all others here.
class [[nodiscard]] Register {
  public:
    static constexpr Register par() noexcept
    {
        return { 0, every_page, OTTO_PAR, OTTO_WORD_PAR };
    }
    static constexpr Register irqv() noexcept
    {
        return { 0, every_page, OTTO_IRQV, OTTO_WORD_IRQV };
    }
    static constexpr Register page() noexcept
    {
        return { 0, every_page, OTTO_PAGE, OTTO_WORD_PAGE };
    }
    static constexpr Register actv() noexcept
    {
        return { OTTO_PAGE_LOWER(0u), every_voice, OTTO_ACTV, OTTO_WORD_ACTV };
    }
    static constexpr Register mode() noexcept
    {
        return { OTTO_PAGE_LOWER(0u), every_voice, OTTO_MODE, OTTO_WORD_MODE };
    }
    static constexpr Register w_st() noexcept
    {
        return { OTTO_PAGE_UPPER(0u), every_voice, OTTO_W_ST, OTTO_WORD_W_ST };
    }
    static constexpr Register w_end() noexcept
    {
        return { OTTO_PAGE_UPPER(0u), every_voice, OTTO_W_END,
                 OTTO_WORD_W_END };
    }
    static constexpr Register lr_end() noexcept
    {
        return { OTTO_PAGE_UPPER(0u), every_voice, OTTO_LR_END,
                 OTTO_WORD_LR_END };
    }

    // Its word in the record.
    [[nodiscard]] constexpr std::size_t word() const noexcept { return word_; }

    // The lowest page that it is on, and whether it is on one.
    [[nodiscard]] constexpr std::uint32_t lowest_page() const noexcept
    {
        return lowest_page_;
    }
    [[nodiscard]] constexpr bool is_on(std::uint32_t page) const noexcept
    {
        return (page & page_bits_) == lowest_page_;
    }

    // The addresses of its bytes 0 to 3, on any of its pages.
    [[nodiscard]] constexpr std::array<Address, 4> addresses() const noexcept
    {
        return { { Address(OTTO_ADDRESS(number_, 0u)),
                   Address(OTTO_ADDRESS(number_, 1u)),
                   Address(OTTO_ADDRESS(number_, 2u)),
                   Address(OTTO_ADDRESS(number_, 3u)) } };
    }

  private:
    friend class Voice;
    friend class Channel;

    // The bits of a page that say whether the register is on it.
    static constexpr std::uint32_t every_page = 0x00;
    static constexpr std::uint32_t every_channel = 0x40;
    static constexpr std::uint32_t every_voice = 0x60;
    static constexpr std::uint32_t both_pages = 0x5F;
    static constexpr std::uint32_t one_page = 0x7F;

    constexpr Register(std::uint32_t lowest_page, std::uint32_t page_bits,
                       std::uint32_t number, std::size_t word) noexcept
        : lowest_page_(lowest_page), page_bits_(page_bits), number_(number),
          word_(word)
    {
    }

    std::uint32_t lowest_page_;
    std::uint32_t page_bits_;
    std::uint32_t number_;
    std::size_t word_;
};

// A number from 0 to count - 1. A greater one does not compile where it is a
// constant, Voice::of<32>(), and gives nothing where it is not, Voice::at(32).
template <class Kind, std::uint32_t count> class Numbered {
  public:
    template <std::uint32_t number>
    [[nodiscard]] static constexpr Kind of() noexcept
    {
        static_assert(number < count, "there is none of this number");
        return Kind(number);
    }
    [[nodiscard]] static constexpr std::optional<Kind>
    at(std::uint32_t number) noexcept
    {
        return number < count ? std::optional<Kind>(Kind(number))
                              : std::nullopt;
    }
    [[nodiscard]] static constexpr std::array<Kind, count> all() noexcept
    {
        return all_of(std::make_integer_sequence<std::uint32_t, count>());
    }

    [[nodiscard]] constexpr std::uint32_t number() const noexcept
    {
        return number_;
    }
    friend constexpr bool operator==(const Kind &a, const Kind &b) noexcept
    {
        return a.number() == b.number();
    }
    friend constexpr bool operator!=(const Kind &a, const Kind &b) noexcept
    {
        return !(a == b);
    }

  private:
    friend Kind;

    constexpr explicit Numbered(std::uint32_t number) noexcept
        : number_(number)
    {
    }

    template <std::uint32_t... number>
    static constexpr std::array<Kind, count>
    all_of(std::integer_sequence<std::uint32_t, number...>) noexcept
    {
        return { { Kind(number)... } };
    }

    std::uint32_t number_;
};

// A voice, 0 to 31, and its registers.
class Voice : public Numbered<Voice, OTTO_VOICES> {
  public:
    constexpr Register cr() const noexcept
    {
        return { OTTO_PAGE_LOWER(number()), Register::both_pages, OTTO_CR,
                 OTTO_WORD_LOWER(number(), OTTO_CR) };
    }
    constexpr Register fc() const noexcept { return lower(OTTO_FC); }
    constexpr Register lvol() const noexcept { return lower(OTTO_LVOL); }
    constexpr Register lvramp() const noexcept { return lower(OTTO_LVRAMP); }
    constexpr Register rvol() const noexcept { return lower(OTTO_RVOL); }
    constexpr Register rvramp() const noexcept { return lower(OTTO_RVRAMP); }
    constexpr Register ecount() const noexcept { return lower(OTTO_ECOUNT); }
    constexpr Register k2() const noexcept { return lower(OTTO_K2); }
    constexpr Register k2ramp() const noexcept { return lower(OTTO_K2RAMP); }
    constexpr Register k1() const noexcept { return lower(OTTO_K1); }
    constexpr Register k1ramp() const noexcept { return lower(OTTO_K1RAMP); }

    constexpr Register start() const noexcept { return upper(OTTO_START); }
    constexpr Register end() const noexcept { return upper(OTTO_END); }
    constexpr Register accum() const noexcept { return upper(OTTO_ACCUM); }
    constexpr Register o4_n1() const noexcept { return upper(OTTO_O4_N1); }
    constexpr Register o3_n1() const noexcept { return upper(OTTO_O3_N1); }
    constexpr Register o3_n2() const noexcept { return upper(OTTO_O3_N2); }
    constexpr Register o2_n1() const noexcept { return upper(OTTO_O2_N1); }
    constexpr Register o2_n2() const noexcept { return upper(OTTO_O2_N2); }
    constexpr Register o1_n1() const noexcept { return upper(OTTO_O1_N1); }

  private:
    friend Numbered;
    using Numbered::Numbered;

    constexpr Register lower(std::uint32_t register_number) const noexcept
    {
        return { OTTO_PAGE_LOWER(number()), Register::one_page,
                 register_number, OTTO_WORD_LOWER(number(), register_number) };
    }
    constexpr Register upper(std::uint32_t register_number) const noexcept
    {
        return { OTTO_PAGE_UPPER(number()), Register::one_page,
                 register_number, OTTO_WORD_UPPER(number(), register_number) };
    }
};

// A channel, 0 to 5: its sums, and its bits in CR.
class Channel : public Numbered<Channel, OTTO_CHANNELS> {
  public:
    constexpr Register left() const noexcept
    {
        return sum(OTTO_CHANNEL_LEFT(number()));
    }
    constexpr Register right() const noexcept
    {
        return sum(OTTO_CHANNEL_RIGHT(number()));
    }
    [[nodiscard]] constexpr std::uint32_t cr_bits() const noexcept
    {
        return OTTO_CR_CA(number());
    }

  private:
    friend Numbered;
    using Numbered::Numbered;

    static constexpr Register sum(std::uint32_t register_number) noexcept
    {
        return { OTTO_PAGE_CHANNELS, Register::every_channel, register_number,
                 OTTO_WORD_SUMS + register_number };
    }
};

// A bank of sample memory, 0 to 3: its bits in CR.
class Bank : public Numbered<Bank, OTTO_MOST_MEMORY_WORDS / OTTO_BANK_WORDS> {
  public:
    [[nodiscard]] constexpr std::uint32_t cr_bits() const noexcept
    {
        return OTTO_CR_BS(number());
    }

  private:
    friend Numbered;
    using Numbered::Numbered;
};

// ---- samples ---------------------------------------------------------------

// The code of a sample, and the value of a code.
[[nodiscard]] inline std::uint8_t compress(std::int16_t sample) noexcept
{
    return ::otto_compress(sample);
}
[[nodiscard]] inline std::int16_t expand(std::uint8_t code) noexcept
{
    return ::otto_expand(code);
}

// What a voice needs for the loop of a WAVE file: START and END as the
// registers take them, and the loop's bits of CR. All three are 0 where the
// file has no loop.
struct Import {
    std::uint32_t start = 0;
    std::uint32_t end = 0;
    std::uint32_t loop_bits = 0;
    std::uint32_t samples = 0; // how many there are
};

// otto_import: writes the samples of a WAVE file into memory, from memory[word]
// on. (`import` is a word of C++20.)
[[nodiscard]] inline Result<Import> import_wave(Span<const std::uint8_t> file,
                                                Span<std::uint16_t> memory,
                                                std::size_t word) noexcept
{
    Import given;
    const std::uint32_t answer = ::otto_import(
        file.data(), file.size(), memory.data(), memory.size(), word,
        &given.start, &given.end, &given.loop_bits, &given.samples);

    return detail::result_of(answer, given);
}

// ---- the machine -----------------------------------------------------------

// A copy of a machine is the machine saved, and plays on as it does. It has no
// lock: two threads may not call one machine at once, but for const calls.
class Machine {
  public:
    // As after power-on: every voice is stopped.
    Machine() noexcept { reset(); }
    void reset() noexcept
    {
        done(::otto_reset(record_.data(), record_.size()));
    }

    // The record's words, to look at and to store. A register's word is
    // record()[register.word()].
    [[nodiscard]] const Record &record() const noexcept { return record_; }

    // Takes words that were stored, or a copy of record() that the host has
    // changed. They are refused, and the machine is as it was, where they are
    // not 664 or not valid.
    Result<void> restore(Span<const std::uint32_t> words) noexcept
    {
        std::uint32_t mask = 0;
        const std::uint32_t answer =
            words.size() == record_.size()
                ? ::otto_waiting(words.data(), words.size(), &mask)
                : OTTO_RECORD_LENGTH;

        if (answer == OTTO_DONE) {
            std::memmove(record_.data(), words.data(), sizeof record_);
        }
        return detail::result_of(answer);
    }
    template <std::size_t n,
              std::enable_if_t<n != OTTO_RECORD_WORDS, int> = 0>
    Result<void> restore(const std::array<std::uint32_t, n> &words) = delete;
    template <std::size_t n,
              std::enable_if_t<n != OTTO_RECORD_WORDS, int> = 0>
    Result<void> restore(const std::uint32_t (&words)[n]) = delete;

    // Writes or reads a register, all four bytes of it. Where the machine's
    // page does not have the register, the page becomes the lowest that does.
    // Writing leaves the write latch empty, and changes neither PAR nor IRQV;
    // reading takes the interrupt of IRQV and the result of PAR.
    void write(Register which, std::uint32_t value) noexcept
    {
        turn_to(which);
        // Bytes 0 to 2 do nothing but wait in the latch for byte 3, and the
        // latch is a word of the record.
        record_[OTTO_WORD_WRITE_LATCH] = value;
        done(::otto_write(record_.data(), record_.size(),
                          which.addresses()[3].value(),
                          static_cast<std::uint8_t>(value & 0xFF)));
    }
    std::uint32_t read(Register which) noexcept
    {
        std::uint8_t byte = 0;

        turn_to(which);
        // Byte 0 takes all four into the latch, a word as well.
        done(::otto_read(record_.data(), record_.size(),
                         which.addresses()[0].value(), &byte));
        return record_[OTTO_WORD_READ_LATCH];
    }

    // One byte, on the page that the machine is on.
    Result<void> write_byte(Address address, std::uint8_t value) noexcept
    {
        return detail::result_of(::otto_write(record_.data(), record_.size(),
                                              address.value(), value));
    }
    Result<std::uint8_t> read_byte(Address address) noexcept
    {
        std::uint8_t byte = 0;
        const std::uint32_t answer = ::otto_read(
            record_.data(), record_.size(), address.value(), &byte);

        return detail::result_of(answer, byte);
    }

    // The pot's result, 0 to 1023, for the host to read in PAR.
    Result<void> set_pot(std::uint32_t pot) noexcept
    {
        return detail::result_of(
            ::otto_set_pot(record_.data(), record_.size(), pot));
    }

    // Runs a frame, and gives the number of words that it missed in memory.
    Result<std::uint32_t>
    frame(Span<const std::uint16_t> memory,
          Span<std::int32_t, OTTO_OUTPUT_VALUES> output) noexcept
    {
        std::uint32_t missing = 0;
        const std::uint32_t answer = ::otto_frame(
            record_.data(), record_.size(), memory.data(), memory.size(),
            output.data(), output.size(), &missing);

        return detail::result_of(answer, missing);
    }

    // Whose interrupts wait: bit v is that of voice v. Takes none.
    [[nodiscard]] std::uint32_t waiting() const noexcept
    {
        std::uint32_t mask = 0;

        done(::otto_waiting(record_.data(), record_.size(), &mask));
        return mask;
    }

    // Takes the interrupt that the vector names, once after each frame; gives
    // nothing where there is none, or one that was withdrawn.
    std::optional<Voice> take_interrupt() noexcept
    {
        const std::uint32_t mask = waiting();

        if (mask == 0) {
            return std::nullopt;
        }
        const std::optional<Voice> voice = Voice::at(read(Register::irqv()));

        return voice && (mask >> voice->number() & 1) != 0 ? voice
                                                           : std::nullopt;
    }

    friend bool operator==(const Machine &a, const Machine &b) noexcept
    {
        return a.record_ == b.record_;
    }
    friend bool operator!=(const Machine &a, const Machine &b) noexcept
    {
        return !(a == b);
    }

  private:
    // Of a call that a valid record and a register's own address leave nothing
    // to refuse: another answer is that of a library of another version.
    static void done(std::uint32_t answer) noexcept
    {
        assert(answer == OTTO_DONE);
        static_cast<void>(answer);
    }

    void turn_to(Register which) noexcept
    {
        if (!which.is_on(record_[OTTO_WORD_PAGE])) {
            record_[OTTO_WORD_PAGE] = which.lowest_page();
        }
    }

    Record record_{};
};

static_assert(std::is_trivially_copyable_v<Machine>);
static_assert(sizeof(Machine) == OTTO_RECORD_WORDS * sizeof(std::uint32_t));

// ---- exceptions ------------------------------------------------------------

#ifdef __cpp_exceptions

// What value_or_throw throws.
class Refused : public std::exception {
  public:
    explicit Refused(Refusal refusal) noexcept : refusal_(refusal) {}

    [[nodiscard]] Refusal refusal() const noexcept { return refusal_; }
    [[nodiscard]] const char *what() const noexcept override
    {
        return reason(refusal_);
    }

  private:
    Refusal refusal_;
};

// The value of a call that was done: value_or_throw(machine.frame(..)).
template <class T> T value_or_throw(const Result<T> &result)
{
    if (!result) {
        throw Refused(result.error());
    }
    return *result;
}
inline void value_or_throw(const Result<void> &result)
{
    if (!result) {
        throw Refused(result.error());
    }
}

#endif

} // inline namespace
} // namespace otto

#endif
