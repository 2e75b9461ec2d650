/* The least host: it finds the header by <>, and the library is the header's, with the calls of its newest minor number. */
#include <am9517.h>
#include <stdio.h>
#include <string.h>

/* Stored in form 2, back in form 1 and forward again: the same bytes, and the chip out of them. */
static int stored(const am9517_chip *chip)
{
    uint8_t sheet[AM9517_SHEET2_SIZE], old[AM9517_SHEET_SIZE], again[AM9517_SHEET2_SIZE];
    am9517_chip other = am9517_fresh(AM9517_EDITION_INTEL_8237A);
    if (am9517_save2(chip, sheet, sizeof sheet) != AM9517_OK || am9517_back(sheet, sizeof sheet, old, sizeof old) != AM9517_OK)
        return 0;
    if (am9517_forward(old, sizeof old, again, sizeof again) != AM9517_OK || memcmp(sheet, again, sizeof sheet) != 0)
        return 0;
    return am9517_load2(&other, again, sizeof again) == AM9517_OK && other.edition == chip->edition && other.mask == chip->mask;
}

/* A log of the open service: its one record is right and ends it. */
static int judged(void)
{
    static uint8_t memory[AM9517_MEMORY_SIZE];
    static const uint8_t log[AM9517_RECORD_SIZE] = {0, 1, 0, 0, 0, 0, 0x5a, 5};
    am9517_chip chip = am9517_fresh(AM9517_EDITION_AM9517A);
    chip.channels[0].mode = 0x84;
    chip.in_service = 1;
    const am9517_judge_told told = am9517_judge(&chip, memory, sizeof memory, log, sizeof log);
    return told.refusal == AM9517_OK && told.right == sizeof log && told.error == 0 && memory[0] == 0x5a && chip.in_service == 0;
}

int main(void)
{
    am9517_chip chip = am9517_fresh(AM9517_EDITION_AM9517A);
    const am9517_told grant = am9517_grant(&chip);
    printf("library %u, header %u: %s\n", (unsigned)am9517_version(), (unsigned)AM9517_VERSION, am9517_refusal_text(grant.refusal));
    return am9517_version() == AM9517_VERSION && grant.refusal == AM9517_NOBODY && stored(&chip) && judged() ? 0 : 1;
}
