/* Several threads at once: each with a chip, of either edition and with changing waits, and a memory of its own, which must end as
 * alone; and all looking at one chip, at its sheet and at one log. */
#include <pthread.h>
#include <stdio.h>
#include <stdlib.h>
#include <string.h>

#include "am9517.h"
#include "record.h"

enum { THREADS = 4, STEPS = 400 };

static const am9517_chip shared = {
    {{1, 2, 3, 4, 0x84}, {5, 6, 7, 8, 0x44}, {9, 10, 11, 12, 0}, {13, 14, 15, 16, 0xc0}}, 1, 0, 14, 3, 1, 0, 1, 0x12, 2, 0, 0, 0x5a, 0x10, 0};

/* Its sheet of form 1, made before the threads begin, and the log of its service over a memory of zeros. */
static uint8_t source[AM9517_SHEET_SIZE];
static uint8_t logged[5 * AM9517_RECORD_SIZE];

struct job {
    uint32_t seed;
    uint64_t sum;
    unsigned wrong;
};

static uint32_t drawn(uint32_t *seed)
{
    *seed = *seed * 1664525u + 1013904223u;
    return *seed >> 16;
}

static uint64_t folded(uint64_t sum, uint64_t number)
{
    return (sum ^ number) * 0x100000001b3u;
}

/* Out of a source that all threads look at, and back. */
static void convert(struct job *job, const uint8_t *sheet)
{
    uint8_t two[AM9517_SHEET2_SIZE], stored[AM9517_SHEET2_SIZE], one[AM9517_SHEET_SIZE];
    if (am9517_save2(&shared, stored, sizeof stored) != 0 || am9517_forward(source, sizeof source, two, sizeof two) != 0)
        job->wrong++;
    if (memcmp(two, stored, sizeof two) != 0 || am9517_back(stored, sizeof stored, one, sizeof one) != 0 || memcmp(one, sheet, sizeof one) != 0)
        job->wrong++;
}

/* Each with a chip and a memory of its own, out of a log that all threads look at. */
static uint64_t judged(struct job *job, uint8_t *memory)
{
    am9517_chip chip = shared;
    const am9517_judge_told told = am9517_judge(&chip, memory, AM9517_MEMORY_SIZE, logged, sizeof logged);
    if (told.refusal != 0 || told.right != sizeof logged || told.error != 0 || chip.in_service != 0 || memory[2] != logged[6])
        job->wrong++;
    return told.right;
}

static void look(struct job *job)
{
    uint8_t sheet[AM9517_SHEET_SIZE];
    if (am9517_check(&shared) != 0 || am9517_entitled(&shared).value != 1 || am9517_status(&shared).value != 0x31)
        job->wrong++;
    if (am9517_save(&shared, sheet, sizeof sheet) != 0 || sheet[0] != 1 || sheet[47] != 0x12)
        job->wrong++;
    convert(job, sheet);
}

static uint64_t step(am9517_chip *chip, uint8_t *memory, uint32_t *seed)
{
    static const uint8_t device[64] = {1, 2, 3};
    uint8_t room[64];
    switch (drawn(seed) % 6) {
    case 0: return am9517_write(chip, drawn(seed) % 16, (uint8_t)drawn(seed));
    case 1: return am9517_pins(chip, drawn(seed) % 16);
    case 2: return am9517_grant(chip).value;
    case 3: return am9517_waits(chip, (uint8_t)drawn(seed));
    case 4: return am9517_save2(chip, room, sizeof room) + 16 * am9517_load2(chip, room, sizeof room) + 256 * room[sizeof room - 4];
    default: {
        const am9517_run_told run = am9517_run(chip, memory, AM9517_MEMORY_SIZE, device, sizeof device, room, sizeof room, 40, 0);
        if (run.refusal == AM9517_NO_SERVICE)
            return am9517_round(chip, memory, AM9517_MEMORY_SIZE, device, sizeof device, room, sizeof room, 9).states;
        return run.states;
    }
    }
}

static void *work(void *given)
{
    struct job *job = (struct job *)given;
    uint8_t *memory = (uint8_t *)calloc(AM9517_MEMORY_SIZE, 1);
    am9517_chip chip = am9517_fresh(job->seed % 2);
    uint32_t seed = job->seed;
    job->sum = 14695981039346656037u;
    for (int i = 0; i < STEPS && memory != NULL; i++) {
        job->sum = folded(job->sum, step(&chip, memory, &seed));
        look(job);
        job->sum = folded(job->sum, judged(job, memory));
    }
    for (size_t i = 0; i < AM9517_MEMORY_SIZE && memory != NULL; i++)
        job->sum = folded(job->sum, memory[i]);
    free(memory);
    return NULL;
}

int main(void)
{
    struct job at_once[THREADS], alone[THREADS];
    pthread_t threads[THREADS];
    static uint8_t memory[AM9517_MEMORY_SIZE];
    am9517_chip chip = shared;
    unsigned wrong = am9517_save(&shared, source, sizeof source) != 0;
    wrong += honest_log(&chip, memory, 5, 0, logged) != sizeof logged;
    for (uint32_t i = 0; i < THREADS; i++) {
        at_once[i].seed = alone[i].seed = i + 1;
        at_once[i].wrong = alone[i].wrong = 0;
        work(&alone[i]);
    }
    for (int i = 0; i < THREADS; i++)
        if (pthread_create(&threads[i], NULL, work, &at_once[i]) != 0)
            return 2;
    for (int i = 0; i < THREADS; i++) {
        pthread_join(threads[i], NULL);
        wrong += at_once[i].sum != alone[i].sum || at_once[i].wrong + alone[i].wrong != 0;
    }
    printf("%d threads, %u wrong\n", (int)THREADS, wrong);
    return wrong != 0;
}
