/* A core in C: tables that map pages to themselves, a load, a store, a fault that the guest takes, a TLBI, a census of the
 * pages, which of a list of windows share one, which bit of RAM changes a translation, what the cache counted at each
 * level, and of each access how many descriptors its walks read; then a number of cycles as sample frames. */
#include "a72.h"

#include <inttypes.h>
#include <stdio.h>

#define BASE UINT64_C(0x40000000) /* the physical address of RAM */
#define LEN 0x100000              /* 1 MiB */
#define LEVEL_1 (BASE + 0x1000)   /* the tables */
#define LEVEL_2 (BASE + 0x2000)
#define LEVEL_3 (BASE + 0x3000)

/* Descriptors: of a table; of a page that was accessed and that EL1 may read and write; of one to be read only. */
#define TABLE 3
#define PAGE 0x403
#define READ_ONLY 0x483

static a72_memory memory, other;
static a72_core *core; /* in the first */
static uint8_t ram[LEN];

/* Another agent's write to RAM, little-endian. */
static void put(uint64_t address, uint64_t value) {
    for (int i = 0; i < 8; i++)
        ram[address - BASE + i] = (uint8_t)(value >> 8 * i);
}

/* Each page of RAM at its own address; the last may not be written. */
static void map(void) {
    put(LEVEL_1 + 8, LEVEL_2 | TABLE); /* entry 1: 0x40000000 and on */
    put(LEVEL_2, LEVEL_3 | TABLE);
    for (uint64_t page = 0; page < 0xFF; page++)
        put(LEVEL_3 + 8 * page, BASE + 0x1000 * page + PAGE);
    put(LEVEL_3 + 8 * 0xFF, BASE + 0xFF000 + READ_ONLY);
}

/* What came of a call: its value, or the address of its fault; and the descriptors that it read. */
static void say(const char *what, uint64_t number, a72_answer answer) {
    printf("%-26s ", what);
    if (number == A72_DONE)
        printf("0x%" PRIx64, answer.value);
    else if (a72_is_fault(number))
        printf("fault, status 0x%02x, at 0x%" PRIx64, a72_status(number), answer.value);
    else
        printf("refused, number %" PRIu64, number);
    printf(", descriptors read: %" PRIu64 "\n", answer.reads);
}

static void load(const char *what, uint64_t va, uint64_t size) {
    a72_answer answer = {0, 0};
    uint64_t number = a72_load(core, va, size, &answer, BASE, ram, LEN);
    say(what, number, answer);
}

/* A store; where it faults the guest takes the data abort. */
static void store(const char *what, uint64_t va, uint64_t size, uint64_t value) {
    a72_answer answer = {va, 0};
    uint64_t number = a72_store(core, va, size, value, &answer, BASE, ram, LEN);
    say(what, number, answer);
    if (a72_is_fault(number)) {
        const uint64_t exception[4] = {A72_EXCEPTION_DATA_ABORT, answer.value, 1, a72_status(number)};
        a72_set_pc(core, 0x1000);
        a72_abort(core, exception);
        printf("  taken: EL%" PRIu64 ", PC 0x%" PRIx64, a72_get_level(core), a72_get_pc(core));
        printf(", ESR 0x%" PRIx64 ", FAR 0x%" PRIx64, a72_get_esr(core, 1), a72_get_far(core, 1));
        printf(", ELR 0x%" PRIx64 ", SPSR 0x%" PRIx64 "\n", a72_get_elr(core, 1), a72_get_spsr(core, 1));
    }
}

/* The page of `va` moves to the next frame: what was translated stays until a TLBI by its address. */
static void move(uint64_t va) {
    uint64_t page = va >> 12;
    a72_answer answer;
    put(LEVEL_3 + 8 * (page % 512), (page << 12) + 0x1000 + PAGE);
    load("moved, before the TLBI", va, 4);
    a72_general(core, 1, page);
    a72_system(core, A72_TLBI_VAE1, 1, &answer, BASE, ram, LEN); /* TLBI VAE1, X1 */
    load("moved, after it", va, 4);
}

/* How the pages from `first` on are mapped. */
static void census(uint64_t first, uint64_t pages) {
    uint64_t counts[A72_COUNTS];
    if (a72_census(core, first, pages, counts, BASE, ram, LEN) != A72_DONE)
        return;
    printf("%" PRIu64 " pages from 0x%" PRIx64 ":", pages, first);
    for (unsigned i = 0; i < 64; i++)
        if (counts[A72_COUNT_STATUS + i] != 0)
            printf(" status 0x%02x %" PRIu64 ",", i, counts[A72_COUNT_STATUS + i]);
    for (unsigned i = 0; i < 64; i++)
        if (counts[A72_COUNT_RIGHTS + i] != 0)
            printf(" permissions 0x%02x %" PRIu64 ",", i, counts[A72_COUNT_RIGHTS + i]);
    printf(" flat %" PRIu64 "\n", counts[A72_COUNT_FLAT]);
}

/* The low bytes of a number, little-endian, at the end of a list; the end after them. */
static uint8_t *append(uint8_t *end, uint64_t value, int bytes) {
    for (int i = 0; i < bytes; i++)
        *end++ = (uint8_t)(value >> 8 * i);
    return end;
}

/* Which two of some windows share a physical page: their list is their number, then where each begins, then how many
 * pages each has. */
static void windows(unsigned count, const uint64_t starts[], const uint64_t pages[]) {
    uint8_t list[2 + 10 * A72_MOST_WINDOWS], *end = append(list, count, 2);
    uint64_t out[3];
    for (unsigned i = 0; i < count; i++)
        end = append(end, starts[i], 8);
    for (unsigned i = 0; i < count; i++)
        end = append(end, pages[i], 2);
    uint64_t number = a72_windows(core, list, (size_t)(end - list), out, BASE, ram, LEN);
    if (number == A72_PAGE_FAULTS)
        printf("window %" PRIu64 ", page %" PRIu64 ": fault, status 0x%02" PRIx64 "\n", out[0], out[1], out[2]);
    else if (number != A72_DONE)
        printf("refused, number %" PRIu64 "\n", number);
    else if (out[0] == 1)
        printf("windows %" PRIu64 " and %" PRIu64 " share a physical page\n", out[1], out[2]);
    else
        printf("no two of %u windows share a physical page\n", count);
}

/* Which bit of RAM, in a cell that went bad, changes how `va` is read, and to what: on a copy of the core, with nothing
 * cached. */
static void bad_cell(uint64_t va, uint64_t user) {
    uint64_t out[3];
    uint64_t number = a72_flip(core, va, A72_READ, user, out, BASE, ram, LEN);
    if (number != A72_DONE) {
        printf("refused, number %" PRIu64 "\n", number);
    } else if (out[0] == 0) {
        printf("no single bit of RAM changes how 0x%" PRIx64 " is read\n", va);
    } else {
        a72_core *copy = a72_copy(&other, core);
        a72_answer answer = {va, 0};
        uint8_t *cell = &ram[out[1] - BASE + out[2] / 8];
        printf("bit %" PRIu64 " of the descriptor at 0x%" PRIx64 " changes it\n", out[2], out[1]);
        a72_system(copy, A72_TLBI_VMALLE1, 31, &answer, BASE, ram, LEN);
        *cell ^= (uint8_t)(1 << out[2] % 8);
        number = a72_translate(copy, va, A72_READ, &answer, BASE, ram, LEN);
        say("  translate, bit flipped", number, answer);
        *cell ^= (uint8_t)(1 << out[2] % 8);
    }
}

/* A number of cycles as sample frames, at both rates. */
static void frames(uint64_t cycles) {
    uint64_t cycles_left, parts_left;
    uint64_t whole_48000 = a72_frames_48000(cycles, &cycles_left);
    uint64_t whole_44100 = a72_frames_44100(cycles, &parts_left);
    printf("%" PRIu64 " cycles: %" PRIu64 " frames and %" PRIu64, cycles, whole_48000, cycles_left);
    printf(" cycles at 48000 a second, %" PRIu64 " frames and %" PRIu64, whole_44100, parts_left);
    printf("/147 of a cycle at 44100\n");
}

/* The cache, and the entry of a page. */
static void show(uint64_t va) {
    struct a72_counters c = a72_get_counters(core);
    struct a72_entry e;
    a72_get_entry(core, va >> 12 & (A72_ENTRIES - 1), &e);
    for (int level = 0; level < 4; level++)
        printf("EL%d: hits %" PRIu64 ", walks %" PRIu64 "\n", level, c.level_hits[level], c.level_walks[level]);
    printf("in all: hits %" PRIu64 ", walks %" PRIu64, a72_total_hits(c), a72_total_walks(c));
    printf(", flushes %" PRIu64 ", drops %" PRIu64, c.flushes, c.drops);
    printf(", last load at 0x%" PRIx64 "\n", a72_get_last_pa(core));
    printf("page 0x%" PRIx64 ": physical 0x%" PRIx64 ", level %" PRIu64, e.tag >> 2, e.pa, e.level);
    printf(", permissions 0x%02" PRIx64 ", %s\n", e.permissions, a72_is_live(core, e) ? "live" : "dead");
}

int main(void) {
    const uint64_t va = BASE + 0x40FFC;
    a72_answer answer = {0, 0};
    core = a72_init(&memory); /* at EL3, stage 1 off */
    map();
    put(BASE + 0x41FF8, UINT64_C(0xCAFE) << 32);
    a72_register(core, A72_TCR_EL1, 25 | UINT64_C(2) << 30); /* 39 bits of address, pages of 4 KiB in both ranges */
    a72_register(core, A72_TTBR0_EL1, LEVEL_1);
    a72_register(core, A72_SCTLR_EL1, 1); /* stage 1 on */
    a72_level(core, 1);

    uint64_t number = a72_translate(core, va, A72_READ, &answer, BASE, ram, LEN);
    say("translate", number, answer);
    store("store over two pages", va, 8, UINT64_C(0x1122334455667788));
    load("load over two pages", va, 8);
    load("load of three bytes", va, 3);
    load("load where nothing is", 0x1000, 4);
    store("store to a page to be read", BASE + 0xFF000, 4, 1);
    move(va);
    a72_level(core, 0);
    load("load at EL0", va, 4); /* the entry says no: a hit of EL0 */
    a72_level(core, 1);
    census(BASE - 0x1000, 0x200);
    const uint64_t starts[] = {BASE + 0x10000, BASE + 0x31000, BASE + 0x41000, BASE + 0xF0000};
    const uint64_t pages[] = {16, 16, 2, 16};
    windows(2, starts, pages);
    windows(3, starts, pages); /* the page that moved lies in two */
    windows(4, starts, pages);
    bad_cell(va, 0);
    bad_cell(UINT64_C(1) << 39, 0); /* in no table's range */
    show(va);
    frames(1500034014);
    return 0;
}
