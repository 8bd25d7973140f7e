// hpp: what include/otto.hpp makes of the calls, against the calls themselves
// made by bytes. With exceptions, what it throws as well.
#include <cstdio>
#include <functional>
#include <vector>

#include "otto.hpp"

extern "C" {
#include "checks.h"
}

using otto::Machine;
using otto::Refusal;
using otto::Register;
using otto::Voice;

namespace {

// ---- what holds as it is compiled -------------------------------------------

template <class T> using Lent = otto::Span<T>;
using Words = Lent<const std::uint16_t>;
using Twelve = otto::Span<std::int32_t, 12>;

template <class From, class To>
constexpr bool lends = std::is_convertible_v<From, To>;

static_assert(lends<std::vector<std::uint16_t> &, Words>);
static_assert(lends<const std::vector<std::uint16_t> &, Words>);
static_assert(lends<const std::array<std::uint16_t, 3> &, Words>);
static_assert(lends<std::uint16_t (&)[3], Words>);
static_assert(lends<const std::uint16_t (&)[3], Words>);
static_assert(lends<Lent<std::uint16_t>, Words>);
static_assert(lends<std::array<std::int32_t, 12> &, Twelve>);
static_assert(lends<std::int32_t (&)[12], Twelve>);
static_assert(lends<Twelve, Lent<std::int32_t>>);
static_assert(lends<Twelve, Lent<const std::int32_t>>);

static_assert(!lends<std::vector<std::uint8_t> &, Words>);
static_assert(!lends<std::vector<std::uint32_t> &, Words>);
static_assert(!lends<const std::vector<std::uint16_t> &, Lent<std::uint16_t>>);
static_assert(!lends<const std::uint16_t (&)[3], Lent<std::uint16_t>>);
static_assert(!lends<Words, Lent<std::uint16_t>>);
static_assert(!lends<std::uint16_t, Words>);
static_assert(!lends<std::array<std::int32_t, 11> &, Twelve>);
static_assert(!lends<std::array<std::int32_t, 13> &, Twelve>);
static_assert(!lends<std::int32_t (&)[11], Twelve>);
static_assert(!lends<const std::array<std::int32_t, 12> &, Twelve>);
static_assert(!lends<std::vector<std::int32_t> &, Twelve>);
static_assert(!lends<Lent<std::int32_t>, Twelve>);

static_assert(!std::is_convertible_v<std::uint32_t, otto::Address>);
static_assert(!std::is_convertible_v<std::uint32_t, Voice>);
static_assert(!std::is_constructible_v<Voice, std::uint32_t>);
static_assert(!std::is_constructible_v<Register, std::uint32_t>);
static_assert(!std::is_convertible_v<otto::Result<std::uint32_t>, bool>);
static_assert(!std::is_convertible_v<Refusal, std::uint32_t>);

static_assert(Voice::of<31>().number() == 31);
static_assert(Voice::of<3>() == *Voice::at(3) && !Voice::at(32));
static_assert(otto::Channel::of<5>() == *otto::Channel::at(5));
static_assert(!otto::Channel::at(6) && !otto::Bank::at(4));
static_assert(Voice::all().size() == 32 && Voice::all()[7].number() == 7);
static_assert(otto::Channel::all().size() == 6);
static_assert(otto::Bank::all().size() == 4);
static_assert(otto::Channel::of<4>().cr_bits() == OTTO_CR_CA(4u));
static_assert(otto::Bank::of<3>().cr_bits() == OTTO_CR_BS(3u));

// ---- registers --------------------------------------------------------------

// What otto.h has of a register: its pages, its number and its word.
struct Row {
    const char *name;
    Register has;
    std::uint32_t number;
    std::size_t word;
    std::function<bool(std::uint32_t)> is_on;
};

std::vector<Row> rows_of(Voice voice)
{
    const std::uint32_t v = voice.number();
    const auto lower = [v](std::uint32_t page) {
        return page == OTTO_PAGE_LOWER(v);
    };
    const auto upper = [v](std::uint32_t page) {
        return page == OTTO_PAGE_UPPER(v);
    };
    const auto either = [=](std::uint32_t page) {
        return lower(page) || upper(page);
    };

#define LOWER(name, function)                                                 \
    { #name, voice.function(), OTTO_##name, OTTO_WORD_LOWER(v, OTTO_##name),  \
      lower }
#define UPPER(name, function)                                                 \
    { #name, voice.function(), OTTO_##name, OTTO_WORD_UPPER(v, OTTO_##name),  \
      upper }
    return {
        { "CR", voice.cr(), OTTO_CR, OTTO_WORD_LOWER(v, OTTO_CR), either },
        LOWER(FC, fc),
        LOWER(LVOL, lvol),
        LOWER(LVRAMP, lvramp),
        LOWER(RVOL, rvol),
        LOWER(RVRAMP, rvramp),
        LOWER(ECOUNT, ecount),
        LOWER(K2, k2),
        LOWER(K2RAMP, k2ramp),
        LOWER(K1, k1),
        LOWER(K1RAMP, k1ramp),
        UPPER(START, start),
        UPPER(END, end),
        UPPER(ACCUM, accum),
        UPPER(O4_N1, o4_n1),
        UPPER(O3_N1, o3_n1),
        UPPER(O3_N2, o3_n2),
        UPPER(O2_N1, o2_n1),
        UPPER(O2_N2, o2_n2),
        UPPER(O1_N1, o1_n1),
    };
#undef LOWER
#undef UPPER
}

std::vector<Row> shared_rows()
{
    const auto lower = [](std::uint32_t page) { return page < 32; };
    const auto upper = [](std::uint32_t page) {
        return page >= 32 && page < 64;
    };
    const auto every = [](std::uint32_t) { return true; };

#define SHARED(name, function, pages)                                         \
    { #name, Register::function(), OTTO_##name, OTTO_WORD_##name, pages }
    return {
        SHARED(ACTV, actv, lower),   SHARED(MODE, mode, lower),
        SHARED(W_ST, w_st, upper),   SHARED(W_END, w_end, upper),
        SHARED(LR_END, lr_end, upper), SHARED(PAR, par, every),
        SHARED(IRQV, irqv, every),   SHARED(PAGE, page, every),
    };
#undef SHARED
}

std::vector<Row> all_rows()
{
    std::vector<Row> all = shared_rows();
    const auto channels = [](std::uint32_t page) {
        return page >= OTTO_PAGE_CHANNELS;
    };

    for (const Voice voice : Voice::all()) {
        const std::vector<Row> rows = rows_of(voice);
        all.insert(all.end(), rows.begin(), rows.end());
    }
    for (const otto::Channel channel : otto::Channel::all()) {
        const std::uint32_t left = OTTO_CHANNEL_LEFT(channel.number());
        const std::uint32_t right = OTTO_CHANNEL_RIGHT(channel.number());
        all.push_back({ "left", channel.left(), left, OTTO_WORD_SUMS + left,
                        channels });
        all.push_back({ "right", channel.right(), right,
                        OTTO_WORD_SUMS + right, channels });
    }
    return all;
}

void put(otto::Record &record, std::uint32_t number, std::uint32_t value)
{
    for (std::uint32_t byte = 0; byte < 4; byte++) {
        check("a byte's answer",
              otto_write(record.data(), record.size(),
                         OTTO_ADDRESS(number, byte),
                         static_cast<std::uint8_t>(value >> (24 - 8 * byte))),
              OTTO_DONE);
    }
}

std::uint32_t get(otto::Record &record, std::uint32_t number)
{
    std::uint32_t value = 0;

    for (std::uint32_t byte = 0; byte < 4; byte++) {
        std::uint8_t got = 0;
        check("a byte's answer",
              otto_read(record.data(), record.size(),
                        OTTO_ADDRESS(number, byte), &got),
              OTTO_DONE);
        value = value << 8 | got;
    }
    return value;
}

// Numbers without an order, always the same ones.
std::uint32_t any_number()
{
    static std::uint32_t number = 1;

    number ^= number << 13;
    number ^= number >> 17;
    number ^= number << 5;
    return number;
}

// A machine whose registers, page and latches hold anything.
Machine any_machine(const std::vector<Row> &rows)
{
    Machine machine;

    for (const Row &row : rows) {
        machine.write(row.has, any_number());
    }
    check("a pot result", machine.set_pot(any_number() % 1024).has_value(), 1);
    machine.write(Register::page(), any_number());
    check("a byte", machine.read_byte(otto::Address(4)).has_value(), 1);
    for (std::uint32_t byte = 0; byte < 3; byte++) {
        const auto value = static_cast<std::uint8_t>(any_number());
        check("a byte",
              machine.write_byte(otto::Address(byte), value).has_value(), 1);
    }
    return machine;
}

// The page that a machine comes to where it writes or reads a register.
std::uint32_t page_for(const Row &row, std::uint32_t page)
{
    while (!row.is_on(page)) {
        page = (page + 1) % 128;
    }
    return page;
}

void check_row(const std::vector<Row> &rows, const Row &row)
{
    for (std::uint32_t page = 0; page < 128; page++) {
        check_at(row.name, page, 0, row.has.is_on(page), row.is_on(page));
    }
    check(row.name, row.has.lowest_page(), page_for(row, 0));
    check(row.name, static_cast<std::int64_t>(row.has.word()),
          static_cast<std::int64_t>(row.word));
    for (std::uint32_t byte = 0; byte < 4; byte++) {
        check(row.name, row.has.addresses()[byte].value(),
              OTTO_ADDRESS(row.number, byte));
    }

    const Machine before = any_machine(rows);
    const std::uint32_t value = any_number();
    const std::uint32_t page = before.record()[OTTO_WORD_PAGE];
    Machine written = before;
    Machine read = before;
    otto::Record record = before.record();

    // Where the page does not have it, it is the lowest that does.
    record[OTTO_WORD_PAGE] = row.is_on(page) ? page : page_for(row, 0);
    otto::Record by_bytes = record;
    put(by_bytes, row.number, value);
    written.write(row.has, value);
    check(row.name, written.record() == by_bytes, 1);

    by_bytes = record;
    const std::uint32_t want = get(by_bytes, row.number);
    check(row.name, read.read(row.has), want);
    check(row.name, read.record() == by_bytes, 1);
}

void check_registers()
{
    const std::vector<Row> rows = all_rows();

    for (const Row &row : rows) {
        check_row(rows, row);
    }
}

// ---- frames -----------------------------------------------------------------

Machine sounding()
{
    constexpr Voice voice = Voice::of<0>();
    Machine machine;

    machine.write(voice.lvol(), OTTO_VOL_LOUDEST);
    machine.write(voice.k1(), OTTO_K_OPEN);
    machine.write(voice.k2(), OTTO_K_OPEN);
    machine.write(voice.fc(), OTTO_WHOLE_SAMPLE / 2);
    machine.write(voice.end(), 90 * OTTO_WHOLE_SAMPLE);
    machine.write(voice.cr(), OTTO_CR_LP3 | OTTO_CR_LP4 | OTTO_CR_LPE);
    return machine;
}

std::vector<std::uint16_t> rising(std::size_t words)
{
    std::vector<std::uint16_t> memory(words);

    for (std::size_t i = 0; i < words; i++) {
        memory[i] = static_cast<std::uint16_t>(300 * i);
    }
    return memory;
}

// A frame through the class and one through the call: the same of everything
// that is lent, and the answer.
void check_frame(Machine machine, const std::vector<std::uint16_t> &memory,
                 std::uint32_t answer)
{
    otto::Record record = machine.record();
    otto::Output output{};
    otto::Output by_call{};
    std::uint32_t missing = 0;

    output.fill(7);
    by_call.fill(7);
    const auto frame = machine.frame(memory, output);
    check("a frame's answer",
          otto_frame(record.data(), record.size(), memory.data(),
                     memory.size(), by_call.data(), by_call.size(), &missing),
          answer);
    check("a frame's record", machine.record() == record, 1);
    check("a frame's output", output == by_call, 1);
    check("whether a frame is done", frame.has_value(), answer == OTTO_DONE);
    check("the same", static_cast<bool>(frame), frame.has_value());
    if (frame) {
        check("what a frame misses", *frame, missing);
        check("the same", *frame.operator->(), missing);
        check("the same", frame.value_or(100), missing);
    } else {
        check("a frame's refusal", static_cast<std::uint32_t>(frame.error()),
              answer);
        check("in its place", frame.value_or(100), 100);
    }
}

void check_frames()
{
    Machine few = sounding();
    std::int32_t output[OTTO_OUTPUT_VALUES] = { 0 };
    const std::uint16_t memory[2] = { 20000, 20000 };

    few.write(Register::actv(), OTTO_LEAST_ACTV - 1);
    check_frame(sounding(), rising(100), OTTO_DONE);
    check_frame(sounding(), rising(1), OTTO_DONE);
    check_frame(sounding(), {}, OTTO_DONE);
    check_frame(few, rising(100), OTTO_TOO_FEW_VOICES);
    check_frame(sounding(), rising(OTTO_MOST_MEMORY_WORDS + 1),
                OTTO_MEMORY_LENGTH);
    check("of arrays", sounding().frame(memory, output).value_or(9), 0);
    check("what is heard", output[0], 319055);
    check("of no memory", sounding().frame({}, output).value_or(9), 2);
}

std::vector<otto::Output> hear(Machine &machine)
{
    const std::vector<std::uint16_t> memory = rising(100);
    std::vector<otto::Output> heard(50);

    for (otto::Output &output : heard) {
        check("what is missing", machine.frame(memory, output).value_or(9), 0);
    }
    return heard;
}

// ---- the record -------------------------------------------------------------

void check_copies()
{
    Machine machine = sounding();

    hear(machine);
    const Machine saved = machine;
    const std::vector<otto::Output> heard = hear(machine);
    check("it has gone on", machine != saved, 1);
    machine = saved;
    check("it plays on as it did", hear(machine) == heard, 1);
    check("and is heard", heard.front() != heard.back(), 1);
    machine.reset();
    check("after a reset", machine == Machine(), 1);
    check("a reset's record",
          machine.record()[Voice::of<9>().cr().word()],
          OTTO_CR_STP0 | OTTO_CR_STP1);
}

void check_refused(Machine &machine, otto::Span<const std::uint32_t> words,
                   Refusal refusal)
{
    const Machine before = machine;
    const otto::Result<void> restored = machine.restore(words);

    check("refused words", restored.has_value(), 0);
    check("their refusal", restored.error() == refusal, 1);
    check("the machine as it was", machine == before, 1);
}

void check_restored()
{
    Machine kept = sounding();
    Machine machine;

    kept.write(Voice::of<31>().cr(), OTTO_CR_STP1 | OTTO_CR_IRQ);
    const otto::Record stored = kept.record();
    const std::vector<std::uint32_t> vector(stored.begin(), stored.end());

    check("stored words", machine.restore(stored).has_value(), 1);
    check("as they were", machine == kept, 1);
    machine.reset();
    check("a vector of them", machine.restore(vector).has_value(), 1);
    check("as they were", machine == kept, 1);
    check("its own", machine.restore(machine.record()).has_value(), 1);
    check("as they were", machine == kept, 1);

    otto::Record wrong = stored;
    wrong[OTTO_WORD_LOWER(0, OTTO_FC)] = 0x20000; // FC has 17 bits
    check_refused(machine, wrong, Refusal::record_invalid);
    wrong = stored;
    wrong[OTTO_WORD_WAITING] ^= 1;
    check_refused(machine, wrong, Refusal::record_invalid);
    check_refused(machine, {}, Refusal::record_length);
    check_refused(machine, { stored.data(), stored.size() - 1 },
                  Refusal::record_length);
}

// ---- bytes, the pot, interrupts ---------------------------------------------

void check_bounds()
{
    Machine machine;

    check("byte 63", machine.write_byte(otto::Address(63), 0).has_value(), 1);
    check("byte 64",
          machine.write_byte(otto::Address(64), 0).error() ==
              Refusal::address_above,
          1);
    check("byte 63", machine.read_byte(otto::Address(63)).value_or(9), 0);
    check("byte 64",
          machine.read_byte(otto::Address(64)).error() ==
              Refusal::address_above,
          1);
    check("pot 1024", machine.set_pot(1024).error() == Refusal::pot_above, 1);
    check("as it was", machine.read(Register::par()), 1023);
    check("pot 345", machine.set_pot(345).has_value(), 1);
    check("is read", machine.read(Register::par()), 345);
    check("and taken", machine.read(Register::par()), 1023);
}

// Voices 5 and 6 interrupt, and 5 is withdrawn while the vector names it.
void check_interrupts()
{
    constexpr Voice five = Voice::of<5>();
    constexpr Voice six = Voice::of<6>();
    Machine machine;
    otto::Output output{};

    check("none waits", machine.take_interrupt().has_value(), 0);
    machine.write(six.cr(), OTTO_CR_STP1 | OTTO_CR_IRQ);
    machine.write(five.cr(), OTTO_CR_STP1 | OTTO_CR_IRQ);
    check("two wait", machine.waiting(), 0x60);
    check("none is named", machine.take_interrupt().has_value(), 0);
    check("a frame", machine.frame({}, output).value_or(9), 0);
    machine.write(five.cr(), OTTO_CR_STP1);
    check("withdrawn", machine.take_interrupt().has_value(), 0);
    check("a frame", machine.frame({}, output).value_or(9), 0);
    check("the other", machine.take_interrupt() == six, 1);
    check("none waits", machine.waiting(), 0);
    check("none is named", machine.take_interrupt().has_value(), 0);

    // Where none waits the vector is not read, whatever it names.
    machine.write(five.cr(), OTTO_CR_STP1 | OTTO_CR_IRQ);
    check("a frame", machine.frame({}, output).value_or(9), 0);
    machine.write(five.cr(), OTTO_CR_STP1);
    const Machine before = machine;
    check("withdrawn", machine.take_interrupt().has_value(), 0);
    check("nothing is read", machine == before, 1);
}

// ---- samples ----------------------------------------------------------------

void check_codes()
{
    for (std::int32_t sample = -32768; sample <= 32767; sample++) {
        const auto word = static_cast<std::int16_t>(sample);
        check("a code", otto::compress(word), otto_compress(word));
    }
    for (std::uint32_t code = 0; code <= 255; code++) {
        const auto byte = static_cast<std::uint8_t>(code);
        check("a code's value", otto::expand(byte), otto_expand(byte));
    }
}

// Four samples, with a loop over the last three, there and back.
constexpr char wave[] = "RIFF\160\0\0\0WAVEfmt \20\0\0\0\1\0\1\0"
                        "\22\172\0\0\44\364\0\0\2\0\20\0smpl\74\0\0\0"
                        "\0\0\0\0\0\0\0\0\0\0\0\0\0\0\0\0\0\0\0\0\0\0\0\0"
                        "\0\0\0\0\1\0\0\0\0\0\0\0\0\0\0\0\1\0\0\0\1\0\0\0"
                        "\3\0\0\0\0\0\0\0\0\0\0\0data\10\0\0\0"
                        "\1\0\376\377\377\177\0\200";

void check_imports()
{
    const std::vector<std::uint8_t> file(wave, wave + sizeof wave - 1);
    std::array<std::uint16_t, 6> memory{};
    const std::array<std::uint16_t, 6> filled = { 0,      1,      0xFFFE,
                                                  0x7FFF, 0x8000, 0 };

    const auto import = otto::import_wave(file, memory, 1);
    check("an import", import.has_value(), 1);
    check("START", import->start, 2 * OTTO_WHOLE_SAMPLE);
    check("END", import->end, 5 * OTTO_WHOLE_SAMPLE);
    check("the loop bits", import->loop_bits, OTTO_CR_LPE | OTTO_CR_BLE);
    check("how many samples", import->samples, 4);
    check("the samples", memory == filled, 1);
    check("no place",
          otto::import_wave(file, memory, 3).error() == Refusal::no_place, 1);
    check("no file",
          otto::import_wave({}, memory, 0).error() == Refusal::file_broken, 1);
    check("memory as it was", memory == filled, 1);
}

// ---- refusals ---------------------------------------------------------------

void check_reasons()
{
#define SAME(name, number)                                                    \
    check(#name, static_cast<std::uint32_t>(Refusal::name), number);          \
    check(otto::reason(Refusal::name),                                        \
          std::strcmp(otto::reason(Refusal::name), otto_reason(number)), 0)
    SAME(record_length, OTTO_RECORD_LENGTH);
    SAME(record_invalid, OTTO_RECORD_INVALID);
    SAME(address_above, OTTO_ADDRESS_ABOVE);
    SAME(pot_above, OTTO_POT_ABOVE);
    SAME(memory_length, OTTO_MEMORY_LENGTH);
    SAME(output_length, OTTO_OUTPUT_LENGTH);
    SAME(too_few_voices, OTTO_TOO_FEW_VOICES);
    SAME(file_broken, OTTO_FILE_BROKEN);
    SAME(chunk_count, OTTO_CHUNK_COUNT);
    SAME(sample_format, OTTO_SAMPLE_FORMAT);
    SAME(loop_invalid, OTTO_LOOP_INVALID);
    SAME(no_place, OTTO_NO_PLACE);
#undef SAME
}

#ifdef __cpp_exceptions

void check_exceptions()
{
    Machine machine;
    otto::Output output{};
    int thrown = 0;

    check("a value", otto::value_or_throw(machine.frame({}, output)), 0);
    otto::value_or_throw(machine.set_pot(1));
    try {
        otto::value_or_throw(machine.set_pot(1024));
    } catch (const otto::Refused &refused) {
        check("what is thrown", refused.refusal() == Refusal::pot_above, 1);
        thrown += 1;
    }
    machine.write(Register::actv(), 0);
    try {
        check("not there", otto::value_or_throw(machine.frame({}, output)), -1);
    } catch (const std::exception &refused) {
        check("its words",
              std::strcmp(refused.what(), otto_reason(OTTO_TOO_FEW_VOICES)),
              0);
        thrown += 1;
    }
    check("how often it throws", thrown, 2);
}

#else

void check_exceptions() {}

#endif

} // namespace

int main()
{
    check_registers();
    check_frames();
    check_copies();
    check_restored();
    check_bounds();
    check_interrupts();
    check_codes();
    check_imports();
    check_reasons();
    check_exceptions();
    std::printf("hpp: %lu checks, %lu failed\n", checks, failed);
    return failed != 0;
}
