// kept_note FILE.wav..: brings each WAVE file into sample memory and plays it,
// on its loop where it has one, a sample a frame. In the middle of the note the
// machine is kept twice, as a copy and as the words of its record, and brought
// back from each: it plays on as it did.
#include <algorithm>
#include <cstdio>
#include <cstdlib>
#include <fstream>
#include <vector>

#include "otto.hpp"

namespace {

constexpr std::size_t memory_words = 65536;
constexpr std::uint32_t first_word = 1000; // of the samples, in bank 0

using Memory = std::vector<std::uint16_t>;

// What no host can go on after.
[[noreturn]] void stop(const char *what, const char *why)
{
    std::fprintf(stderr, "kept_note: %s: %s\n", what, why);
    std::exit(1);
}

std::vector<std::uint8_t> read_file(const char *name)
{
    std::vector<std::uint8_t> bytes(OTTO_MOST_FILE_BYTES + 1); // or too long
    std::ifstream file(name, std::ios::binary);

    file.read(reinterpret_cast<char *>(bytes.data()),
              static_cast<std::streamsize>(bytes.size()));
    if (!file.is_open() || file.bad()) {
        stop(name, "cannot be read");
    }
    bytes.resize(static_cast<std::size_t>(file.gcount()));
    return bytes;
}

// A voice fetches the word at END as well. A loop that goes round is smooth
// where that is the loop's first sample once more; one that turns, where it is
// the sample after the loop, or where there is none the last once more.
void close_loop(const otto::Import &wave, Memory &memory)
{
    const std::size_t at_end = wave.end / OTTO_WHOLE_SAMPLE;
    const std::size_t first = wave.start / OTTO_WHOLE_SAMPLE;

    if (wave.loop_bits == 0 || at_end >= memory.size()) {
        return;
    }
    if ((wave.loop_bits & OTTO_CR_BLE) == 0) {
        memory[at_end] = memory[first];
    } else if (at_end == first_word + wave.samples) {
        memory[at_end] = memory[at_end - 1];
    }
}

// A file without a loop is played once, up to its last sample.
otto::Import import_file(const char *name, Memory &memory)
{
    const auto imported =
        otto::import_wave(read_file(name), memory, first_word);

    if (!imported) {
        stop(name, otto::reason(imported.error()));
    }
    otto::Import wave = *imported;
    if (wave.loop_bits == 0 && wave.samples > 0) {
        wave.start = first_word * OTTO_WHOLE_SAMPLE;
        wave.end = (first_word + wave.samples - 1) * OTTO_WHOLE_SAMPLE;
    }
    close_loop(wave, memory);
    return wave;
}

// STP1 first and CR last, so that no frame hears a note that is half set. In
// reverse a voice starts on the loop's last sample, else on the first of all.
void start_note(otto::Machine &machine, otto::Voice voice,
                const otto::Import &wave)
{
    const bool in_reverse = (wave.loop_bits & OTTO_CR_DIR) != 0;

    machine.write(voice.cr(), OTTO_CR_STP1);
    machine.write(voice.ecount(), 0);
    machine.write(voice.fc(), OTTO_WHOLE_SAMPLE);
    machine.write(voice.lvol(), OTTO_VOL_LOUDEST);
    machine.write(voice.rvol(), OTTO_VOL_LOUDEST);
    machine.write(voice.k1(), OTTO_K_OPEN);
    machine.write(voice.k2(), OTTO_K_OPEN);
    machine.write(voice.start(), wave.start);
    machine.write(voice.end(), wave.end);
    machine.write(voice.accum(), in_reverse ? wave.end - OTTO_WHOLE_SAMPLE
                                            : first_word * OTTO_WHOLE_SAMPLE);
    for (const otto::Register pole :
         { voice.o4_n1(), voice.o3_n1(), voice.o3_n2(), voice.o2_n1(),
           voice.o2_n2(), voice.o1_n1() }) {
        machine.write(pole, 0);
    }
    machine.write(voice.cr(), OTTO_CR_LP3 | OTTO_CR_LP4 | wave.loop_bits);
}

// What channel 0 puts out on the left in so many frames.
std::vector<std::int32_t> play(otto::Machine &machine, const Memory &memory,
                               std::size_t frames)
{
    std::vector<std::int32_t> heard(frames);
    otto::Output output{};

    for (std::int32_t &value : heard) {
        const auto missing = machine.frame(memory, output);

        if (!missing) {
            stop("a frame", otto::reason(missing.error()));
        }
        if (*missing != 0) {
            std::fprintf(stderr, "%u words are missing\n", *missing);
        }
        value = output[OTTO_CHANNEL_LEFT(0u)];
    }
    return heard;
}

void play_file(const char *name)
{
    Memory memory(memory_words);
    otto::Machine machine;
    const otto::Import wave = import_file(name, memory);

    if (wave.samples > 0) { // else there is nothing to play
        start_note(machine, otto::Voice::of<0>(), wave);
    }
    play(machine, memory, 4);

    const otto::Machine kept = machine;
    const otto::Record words = machine.record(); // as they go into a file
    const auto heard = play(machine, memory, 1000);

    machine = kept;
    const bool kept_alike = play(machine, memory, 1000) == heard;

    if (const auto restored = machine.restore(words); !restored) {
        stop("the words", otto::reason(restored.error()));
    }
    const bool restored_alike = play(machine, memory, 1000) == heard;

    std::int32_t loudest = 0;
    for (const std::int32_t value : heard) {
        loudest = std::max(loudest, std::abs(value));
    }
    std::printf("%u samples, loop bits %u, loudest %d, kept %s, restored %s\n",
                wave.samples, wave.loop_bits, loudest,
                kept_alike ? "alike" : "not",
                restored_alike ? "alike" : "not");
}

} // namespace

int main(int words, char **word)
{
    if (words < 2) {
        std::fprintf(stderr, "kept_note FILE.wav..\n");
        return 2;
    }
    std::for_each(word + 1, word + words, play_file);
}
