// A whole host: voice 0 plays one sample, and one frame is heard.
#include <cstdio>

#include "otto.hpp"

int main()
{
    constexpr otto::Voice voice = otto::Voice::of<0>();
    const std::array<std::uint16_t, 2> memory = { 20000, 20000 };
    otto::Machine machine;
    otto::Output output{};

    machine.write(voice.lvol(), OTTO_VOL_LOUDEST);
    machine.write(voice.k2(), OTTO_K_OPEN);
    machine.write(voice.k1(), OTTO_K_OPEN);
    machine.write(voice.cr(), OTTO_CR_LP3 | OTTO_CR_LP4); // no stop bit

    const auto missing = machine.frame(memory, output);
    const auto refused =
        missing ? OTTO_DONE : static_cast<std::uint32_t>(missing.error());

    std::printf("refused %u, heard %d, missing %u\n", refused, output[0],
                missing.value_or(0));
    return refused != OTTO_DONE;
}
