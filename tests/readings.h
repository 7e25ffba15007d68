/* What tests/readers.c, windows.c, flip.c and cluster.c share: RAM with tables, a core that uses them, and how many
 * readings were as they must be. */
#include "a72.h"

#include <stdio.h>
#include <string.h>

#define BASE UINT64_C(0x40000000)
#define LEN 0x100000
#define UNMAPPED 0x1000

static a72_memory memory, other;
static a72_core *core;
static uint8_t ram[LEN];
static int tried, failed;

#define MUST(what) (tried++, (what) ? (void)0 : (void)(failed++, printf("line %d: %s\n", __LINE__, #what)))

static void put(uint64_t address, uint64_t value) {
    for (int i = 0; i < 8; i++)
        ram[address - BASE + i] = (uint8_t)(value >> 8 * i);
}

/* Pages of RAM at their own addresses, and page 9 outside it; stage 1 on, at EL1. */
static void set_up(void) {
    put(BASE + 0x1008, (BASE + 0x2000) | 3);
    put(BASE + 0x2000, (BASE + 0x3000) | 3);
    for (uint64_t page = 0; page < LEN >> 12; page++)
        put(BASE + 0x3000 + 8 * page, BASE + (page << 12) + 0x403);
    put(BASE + 0x3000 + 8 * 9, 0x80000403);
    core = a72_init(&memory);
    MUST(a72_get_level(core) == 3 && a72_get_pc(core) == 0 && a72_total_walks(a72_get_counters(core)) == 0);
    MUST(a72_register(core, A72_TCR_EL1, 25 | UINT64_C(2) << 30) == A72_DONE);
    MUST(a72_register(core, A72_TTBR0_EL1, BASE + 0x1000) == A72_DONE);
    MUST(a72_register(core, A72_SCTLR_EL1, 1) == A72_DONE);
    MUST(a72_level(core, 1) == A72_DONE && a72_get_level(core) == 1);
}

/* The last line, and the program's status. */
static int said(void) {
    printf("%d readings as they must be, %d otherwise\n", tried - failed, failed);
    return failed != 0;
}
