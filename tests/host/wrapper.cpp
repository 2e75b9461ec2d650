// The C++ wrapper: spans out of everything that lends bytes, results of every method, refusals and texts.
#include <cstdio>
#include <cstring>
#include <string>
#include <type_traits>
#include <vector>
#if __cplusplus >= 202002L
#include <span>
#endif

#include "am9517.hpp"

using am9517::Bytes;
using am9517::Chip;
using am9517::ConstBytes;
using am9517::Edition;
using am9517::Reason;
using am9517::Refusal;

static_assert(sizeof(Chip) == sizeof(am9517_chip) && std::is_trivially_copyable_v<Chip>, "a Chip is the struct");
static_assert(!std::is_convertible_v<const std::vector<std::uint8_t> &, Bytes>, "constant bytes are not lent to be changed");
static_assert(!std::is_convertible_v<std::vector<int> &, Bytes>, "ints are no bytes");
static_assert(std::is_convertible_v<Bytes, ConstBytes> && !std::is_convertible_v<ConstBytes, Bytes>, "one way");
static_assert(noexcept(std::declval<Chip &>().run({}, {}, {})) && noexcept(Chip()) && noexcept(Chip(Edition::am9517a)), "nothing throws");
static_assert(noexcept(std::declval<Chip &>().waits(1)) && sizeof(am9517::Run::states) == 8 && sizeof(am9517::Round::states) == 8, "states in 64 bits");
static_assert(noexcept(std::declval<Chip &>().load2({})) && noexcept(am9517::back({}, {})) && noexcept(am9517::forward({})), "nor do sheets");
static_assert(noexcept(std::declval<Chip &>().judge({}, {})) && std::is_same_v<decltype(am9517::Judged::error), std::int32_t>, "nor does a log");
static_assert(sizeof(am9517::Sheet) == 56 && sizeof(am9517::Sheet2) == 58, "a sheet of each form");
static_assert(!std::is_convertible_v<Edition, Chip> && !std::is_convertible_v<int, Edition>, "an edition is no chip, a number no edition");

static unsigned checks, wrong;

static void expect(bool holds, const char *what)
{
    checks++;
    if (!holds) {
        wrong++;
        std::printf("wrapper: %s\n", what);
    }
}

static void spans()
{
    std::vector<std::uint8_t> vector(7);
    const std::vector<std::uint8_t> constant(3);
    std::array<std::uint8_t, 5> array{};
    std::uint8_t plain[4] = {};
    expect(Bytes(vector).data() == vector.data() && Bytes(vector).size() == 7, "of a vector");
    expect(ConstBytes(constant).data() == constant.data() && ConstBytes(constant).size() == 3, "of a constant vector");
    expect(Bytes(array).size() == 5 && ConstBytes(array).data() == array.data(), "of std::array");
    expect(Bytes(plain).size() == 4 && ConstBytes(plain).data() == plain, "of an array");
    expect(Bytes(plain, 2).size() == 2 && Bytes().empty() && Bytes().data() == nullptr, "of a pointer, of nothing");
    expect(Bytes(vector).after(3).data() == vector.data() + 3 && Bytes(vector).after(3).size() == 4, "behind three");
    expect(Bytes(vector).after(7).empty() && Bytes(vector).after(70).empty(), "behind all");
#if __cplusplus >= 202002L
    expect(Bytes(std::span<std::uint8_t>(vector)).size() == 7, "of std::span");
#endif
}

static void registers()
{
    Chip chip;
    expect(chip.check().ok() && chip.fields().mask == 15 && chip == Chip(), "fresh");
    expect(chip.write(16, 0).refusal() == Refusal::number && chip == Chip(), "write of 16");
    expect(chip.write(14, 0).refusal() == Refusal::wrong_register, "write of E");
    expect(chip.write(11, 12).refusal() == Refusal::mode, "mode 0Ch");
    expect(chip.pins(16).refusal() == Refusal::number, "pins 16");
    const auto nobody = chip.grant();
    expect(!nobody && nobody.refusal() == Refusal::nobody && nobody.value() == 0 && nobody.value_or(9) == 9, "nobody");
    expect(std::strcmp(nobody.text(), "grant with no entitled channel") == 0, "its text");
    expect(chip.write(2, 0x34).ok() && chip.write(2, 0x12).ok() && chip != Chip(), "address");
    expect(chip.fields().channels[1].address == 0x1234, "its field");
    expect(chip.read(2).value() == 0x34 && *chip.read(2) == 0x12, "address read");
    expect(chip.read(15).refusal() == Refusal::wrong_register, "read of F");
    expect(chip.write(15, 13).ok() && chip.pins(2).ok(), "line 1");
    expect(chip.entitled().value() == 2 && chip.status().value() == 0x20, "entitled, status");
    const Chip copy = chip;
    expect(chip.grant().value() == 1 && chip.fields().serving == 1 && copy.fields().in_service == 0, "a copy is its own");
    expect(chip.read(0).refusal() == Refusal::in_service && chip.reset().ok() && chip.fields().in_service == 0, "reset");
    chip.fields().lowest = 4;
    expect(chip.check().refusal() == Refusal::state_range && chip.write(0, 0).refusal() == Refusal::state_range, "out of range");
    expect(chip.sheet().refusal() == Refusal::state_range && Chip(copy.fields()) == copy, "no sheet of it");
}

static void editions()
{
    Chip chip(Edition::intel_8237a);
    const Chip fresh = chip, other(Edition::am9517a);
    expect(chip.check().ok() && chip.fields().edition == 1 && chip.edition() == Edition::intel_8237a, "an Intel chip");
    expect(other == Chip() && other.edition() == Edition::am9517a && fresh != other, "chips of two editions are not equal");
    expect(chip.write(14, 0xff).ok() && chip.fields().mask == 0 && chip != fresh, "a write of E clears the mask");
    expect(chip.read(14).refusal() == Refusal::wrong_register, "read of E");
    expect(chip.reset().ok() && chip == fresh, "reset keeps the edition");
    std::vector<std::uint8_t> record(60, 0xdd);
    expect(chip.save(record).refusal() == Refusal::sheet_no_place && record[59] == 0xdd, "no sheet of an Intel chip");
    expect(chip.save(Bytes(record.data(), 55)).refusal() == Refusal::sheet_short, "9 before 15");
    const auto none = chip.sheet();
    expect(!none && none.refusal() == Refusal::sheet_no_place && none.value() == am9517::Sheet{}, "none by itself");
    expect(std::strcmp(none.text(), "form 1 has no place for edition and waits") == 0, "its text");
    expect(chip.load(other.sheet().value()).ok() && chip == other, "a sheet makes an Am9517A");
    chip.fields().edition = 2;
    expect(chip.check().refusal() == Refusal::state_range && Chip(Edition{7}).check().refusal() == Refusal::state_range, "no edition");
    expect(am9517::number_of(Edition::am9517a) == 0 && am9517::number_of(Edition::intel_8237a) == 1, "their numbers");
}

// Channel 0 moves a block of four bytes, its service open.
static Chip opened(std::uint8_t mode, Edition edition = Edition::am9517a)
{
    Chip chip(edition);
    const bool good = chip.write(11, mode).ok() && chip.write(1, 3).ok() && chip.write(1, 0).ok() && chip.write(9, 4).ok();
    expect(good && chip.grant().ok(), "open");
    return chip;
}

static void runs()
{
    static am9517::Memory memory;
    const std::vector<std::uint8_t> device{0x11, 0x22, 0x33, 0x44};
    Chip chip = opened(0x84);
    expect(chip.run({}, device, {}).refusal() == Refusal::memory_length, "no memory");
    const auto first = chip.run(memory, ConstBytes(device.data(), 3), {}, 2);
    expect(first.ok() && first->reason == Reason::limit && first->used == 2 && first->states == 7, "two bytes");
    const am9517::Sheet sheet = chip.sheet().value();
    Chip next;
    expect(next.load(sheet).ok() && next == chip, "out of its sheet");
    const auto rest = next.run(memory, ConstBytes(device).after(first->used), {});
    expect(rest->reason == Reason::ended && rest->transfers == 2 && std::memcmp(memory.data(), device.data(), 4) == 0, "gone on with");
    expect(std::strcmp(am9517::text(rest->reason), "ended") == 0, "a reason's text");
    const auto none = next.run(memory, device, {});
    expect(none.refusal() == Refusal::no_service && none->reason == Reason::refused && none->transfers == 0, "none open");
    Chip reader = opened(0x88);
    std::vector<std::uint8_t> room(6, 0xee);
    const auto out = reader.run(memory, {}, room, am9517::no_limit, 3);
    expect(out->written == 3 && room[2] == 0x33 && room[3] == 0xee && reader.fields().tc == 0, "EOP at 3");
    Chip intel = opened(0x88, Edition::intel_8237a);
    expect(intel.run(memory, {}, room, am9517::no_limit, 3)->written == 3 && intel.fields().tc == 1, "EOP at 3 sets the TC bit");
}

static void waits()
{
    static am9517::Memory memory;
    Chip chip, copier(Edition::intel_8237a);
    expect(chip.waits(255).ok() && chip.fields().waits == 255 && chip != Chip(), "waits tell chips apart");
    const Chip slow = chip;
    expect(chip.reset().ok() && chip == slow && chip.write(13, 0).ok() && chip == slow, "reset and master clear keep them");
    const auto none = chip.sheet();
    expect(none.refusal() == Refusal::sheet_no_place && none.value() == am9517::Sheet{}, "no sheet of waits");
    expect(chip.load(Chip().sheet().value()).ok() && chip == Chip(), "a sheet has none");
    chip = opened(0x80);
    const Chip busy = chip;
    expect(chip.waits(0).refusal() == Refusal::in_service && chip == busy, "waits in service");
    chip.fields().lowest = 4;
    expect(chip.waits(0).refusal() == Refusal::state_range, "1 before 3");
    chip = opened(0x80);
    chip.fields().waits = 7;
    expect(chip.run(memory, {}, {})->states == 13 + 4 * 7, "four transfers verified");
    copier.fields().mask = 14;
    copier.fields().channels[0].mode = copier.fields().channels[1].mode = 0x98;
    copier.fields().channels[1].base_count = copier.fields().channels[1].count = 0xffff;
    expect(copier.write(8, 1).ok() && copier.pins(1).ok() && copier.waits(255).ok(), "set up");
    const auto round = copier.round(memory, {}, {}, 127);
    expect(round.ok() && round->transfers == 127u * 65536 && round->states == std::uint64_t{127} * 65536 * 518, "states beyond 32 bits");
}

static void rounds()
{
    static am9517::Memory memory;
    const std::uint8_t device[] = {1, 2, 3};
    Chip chip;
    expect(chip.write(11, 0x45).ok() && chip.write(3, 9).ok() && chip.write(3, 0).ok() && chip.write(15, 13).ok(), "set up");
    expect(chip.pins(2).ok() && chip.round(memory, device, {}, 4097).refusal() == Refusal::number, "k 4,097");
    const auto round = chip.round(memory, device, {}, 2);
    expect(round.ok() && round->reason == Reason::done && round->services[1] == 2 && round->used == 2, "two services");
}

static void sheets()
{
    Chip chip;
    std::vector<std::uint8_t> record(60, 0xdd);
    expect(chip.save(Bytes(record.data(), 55)).refusal() == Refusal::sheet_short, "55 bytes");
    expect(chip.save(record).ok() && record[3] == 0xdd && record[4] == 0 && record[59] == 0x4d, "at the end of a record");
    expect(chip.load(record).ok(), "and back");
    record[59] = 0;
    expect(chip.load(record).refusal() == Refusal::sheet_end_mark && chip == Chip(), "end mark");
    expect(am9517::version() == AM9517_VERSION, "version");
    expect(am9517::number_of(Refusal::sheet_no_place) == 15 && am9517::number_of(Reason::quiet) == 7, "numbers");
}

// Form 2: edition and waits are kept; and both ways between the forms.
static void second_sheets()
{
    Chip chip(Edition::intel_8237a);
    chip.fields().waits = 7;
    std::vector<std::uint8_t> record(60, 0xdd);
    expect(chip.save2(Bytes(record.data(), 57)).refusal() == Refusal::sheet_short && record[56] == 0xdd, "57 bytes");
    expect(chip.save2(record).ok() && record[1] == 0xdd && record[2] == 1 && record[3] == 7 && record[59] == 0x4d, "form 2 at the end of a record");
    Chip other;
    expect(other.load2(record).ok() && other == chip && other.edition() == Edition::intel_8237a, "and back, with edition and waits");
    expect(chip.load(record).refusal() == Refusal::sheet_form && chip == other, "form 2 is no form 1");
    expect(am9517::forward(record).refusal() == Refusal::sheet_form, "nor goes forward");
    std::vector<std::uint8_t> target(60, 0xbb);
    const std::vector<std::uint8_t> untouched = target;
    expect(am9517::back(record, target).refusal() == Refusal::sheet_no_place && target == untouched, "edition and waits have no way back");
    expect(am9517::back(record).value() == am9517::Sheet{}, "nor by itself");
    record[59] = 0;
    expect(chip.load2(record).refusal() == Refusal::sheet_end_mark && chip == other, "end mark of form 2");
    chip.fields().lowest = 4;
    const auto none = chip.sheet2();
    expect(none.refusal() == Refusal::state_range && none.value() == am9517::Sheet2{}, "no sheet out of range");
}

static void ways()
{
    const Chip chip = opened(0x84);
    const am9517::Sheet one = chip.sheet().value();
    const am9517::Sheet2 two = chip.sheet2().value();
    expect(am9517::forward(one).ok() && am9517::forward(one).value() == two, "forward");
    expect(am9517::back(two).ok() && *am9517::back(two) == one, "back");
    std::vector<std::uint8_t> target(61, 0xbb);
    expect(am9517::forward(one, target).ok() && target[2] == 0xbb && target[3] == 0 && target[60] == 0x4d, "forward at the end of a record");
    expect(std::memcmp(target.data() + 3, two.data(), two.size()) == 0, "the same bytes");
    expect(am9517::back(target, Bytes(target).after(70)).refusal() == Refusal::sheet_short, "back into nothing");
    expect(am9517::forward(ConstBytes(one.data(), 55), target).refusal() == Refusal::sheet_short, "of 55 bytes");
    expect(am9517::back(one).refusal() == Refusal::sheet_short && am9517::back({}).refusal() == Refusal::sheet_short, "of form 1");
}

// Channel 0's block write of four bytes, as another replica logs it.
static void logs()
{
    static am9517::Memory memory;
    std::vector<std::uint8_t> log;
    for (std::uint8_t i = 0; i < 4; i++)
        log.insert(log.end(), {0, 1, i, 0, 0, 0, static_cast<std::uint8_t>(0x60 + i), static_cast<std::uint8_t>(i == 3 ? 5 : 0)});
    Chip chip = opened(0x84);
    const Chip start = chip;
    const auto whole = chip.judge(memory, log);
    expect(whole.ok() && whole->accepted && whole->right == 32 && whole->error == 0 && chip.fields().in_service == 0, "an honest log");
    expect(memory[3] == 0x63 && chip.fields().tc == 1 && chip.fields().channels[0].count == 0xffff, "what it made");
    const auto idle = chip.judge(memory, log);
    expect(idle.refusal() == Refusal::no_service && !idle->accepted && idle->right == 0, "no service open");
    Chip parts = start;
    expect(parts.judge(memory, {})->accepted && parts == start, "an empty part");
    expect(parts.judge(memory, ConstBytes(log.data(), 16))->accepted && parts.fields().in_service == 1, "the first part");
    expect(parts.judge(memory, ConstBytes(log).after(16))->accepted && parts == chip, "and the second");
    expect(Chip(start).judge({}, log).refusal() == Refusal::memory_length, "no memory");
    log[17 + 2] = 0x80;
    Chip other = start;
    const auto far = other.judge(memory, log);
    expect(far.ok() && !far->accepted && far->right == 16 && far->error == -32768, "8000h apart");
    expect(ConstBytes(log).after(far->right).size() == 16 && other.fields().channels[0].count == 1, "what goes back to the vendor");
    log.resize(13);
    expect((other = start).judge(memory, log)->right == 8, "a cut record");
}

int main()
{
    spans();
    registers();
    editions();
    runs();
    waits();
    rounds();
    logs();
    sheets();
    second_sheets();
    ways();
    std::printf("%u checks of the wrapper, %u wrong\n", checks, wrong);
    return wrong != 0;
}
