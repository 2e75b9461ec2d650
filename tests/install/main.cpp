// The least host in C++.
#include <am9517.hpp>
#include <cstdio>

int main()
{
    am9517::Chip chip;
    const auto grant = chip.grant();
    std::printf("library %u, header %u: %s\n", static_cast<unsigned>(am9517::version()), static_cast<unsigned>(AM9517_VERSION), grant.text());
    const auto sheet = chip.sheet2();
    const auto again = am9517::forward(am9517::back(sheet.value()).value());
    const bool stored = sheet.ok() && again.ok() && sheet.value() == again.value();
    static am9517::Memory memory;
    const bool idle = chip.judge(memory, {}).refusal() == am9517::Refusal::no_service;
    return am9517::version() == AM9517_VERSION && grant.refusal() == am9517::Refusal::nobody && stored && idle ? 0 : 1;
}
