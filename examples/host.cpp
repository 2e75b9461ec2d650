// The hold table of the night boat (see host.c and hold-table.rack), through the C++ wrapper. It prints what host.c prints.
#include <cstdio>
#include <vector>

#include "am9517.hpp"

// Says which call was refused, by which number, and what it means.
template <class Result>
static bool refused(const char *call, const Result &result)
{
    if (!result)
        std::printf("%s: refused %u: %s\n", call, static_cast<unsigned>(result.refusal()), result.text());
    return !result;
}

static bool set_up(am9517::Chip &chip)
{
    static const struct { std::uint8_t reg, byte; } program[] = {
        {0xd, 0x00},              // master clear
        {0xb, 0x85},              // channel 1: block, device to memory, upward
        {0xc, 0x00},              // the flip-flop at its low byte
        {2, 0x00}, {2, 0x02},     // address 0200h, low byte first
        {3, 0x0b}, {3, 0x00},     // word count 11, low byte first
        {0xa, 0x01},              // unmask channel 1
    };
    for (const auto &step : program)
        if (refused("write", chip.write(step.reg, step.byte)))
            return false;
    return true;
}

int main()
{
    const std::vector<std::uint8_t> holds{1, 1, 0, 1, 1, 0, 0, 1, 1, 0, 1, 0xa7};
    static am9517::Memory memory;
    am9517::Chip chip(am9517::Edition::am9517a);

    if (!set_up(chip) || refused("pins", chip.pins(2)))  // the hold unit raises its line
        return 1;
    const auto grant = chip.grant();
    if (refused("grant", grant))
        return 1;
    std::printf("channel %u\n", static_cast<unsigned>(*grant));
    const auto run = chip.run(memory, holds, {});
    if (refused("run", run))
        return 1;
    std::printf("%s transfers=%u used=%u states=%lu\n", am9517::text(run->reason), static_cast<unsigned>(run->transfers),
                static_cast<unsigned>(run->used), static_cast<unsigned long>(run->states));
    std::printf("memory at 0200h:");
    for (std::size_t at = 0x0200; at < 0x0200 + holds.size(); at++)
        std::printf(" %02x", static_cast<unsigned>(memory[at]));
    std::printf("\ncount of channel 1 %04x, status %02x\n", static_cast<unsigned>(chip.fields().channels[1].count),
                static_cast<unsigned>(chip.status().value()));
    return memory[0x020b] == 0xa7 ? 0 : 1;
}
