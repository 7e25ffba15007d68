/* An emulator's side in C: two cores over one RAM, a device behind it, an instruction fetched, an SVC and a fault that the
 * guest takes, and a TLBI that reaches the other core. */
#include "a72.h"

#include <inttypes.h>
#include <stdio.h>

#define BASE UINT64_C(0x40000000) /* the physical address of RAM */
#define LEN 0x100000              /* 1 MiB */
#define PORT UINT64_C(0x09000000) /* a device: what is written to it is printed, and it reads as ready */

#define EXTERNAL (A72_FAULT + 0x10) /* the access was translated, and no RAM answers */

static a72_memory memory[2];
static uint8_t ram[LEN];

static void put(uint64_t address, uint64_t value) {
    for (int i = 0; i < 8; i++)
        ram[address - BASE + i] = (uint8_t)(value >> 8 * i);
}

/* Whether an access that ended so, with this fault's address, is the device's register at `pa`. It is where it lies in
 * one page. Over two pages bytes of it may lie in RAM, and a store may have written those: it stays an abort. */
static int is_device(a72_core *core, uint64_t number, uint64_t va, uint64_t size, uint64_t at, uint64_t pa) {
    return number == EXTERNAL && at == va && va % 4096 + size <= 4096 && a72_get_abort_pa(core) == pa;
}

/* A load: of RAM, or of the device that has its physical address. */
static uint64_t load(a72_core *core, uint64_t va, uint64_t size, a72_answer *answer) {
    uint64_t number = a72_load(core, va, size, answer, BASE, ram, LEN);
    if (is_device(core, number, va, size, answer->value, PORT + 4)) {
        answer->value = 1;
        return A72_DONE;
    }
    return number;
}

static uint64_t store(a72_core *core, uint64_t va, uint64_t size, uint64_t value, a72_answer *answer) {
    uint64_t number = a72_store(core, va, size, value, answer, BASE, ram, LEN);
    if (is_device(core, number, va, size, answer->value, PORT)) {
        printf("the port takes '%c'\n", (char)value);
        return A72_DONE;
    }
    return number;
}

/* The guest takes an exception: its code and what is said beside it. */
static void take(a72_core *core, const char *what, const uint64_t exception[4]) {
    a72_abort(core, exception);
    printf("%s: EL%" PRIu64 ", PC 0x%" PRIx64, what, a72_get_level(core), a72_get_pc(core));
    printf(", ESR 0x%" PRIx64 ", ELR 0x%" PRIx64 "\n", a72_get_esr(core, 1), a72_get_elr(core, 1));
}

/* At EL1 with stage 1 on: page 1 is RAM, page 2 the port. */
static a72_core *start(a72_memory *at) {
    a72_core *core = a72_init(at);
    a72_register(core, A72_TCR_EL1, 25 | UINT64_C(2) << 30); /* 39 bits of address, pages of 4 KiB */
    a72_register(core, A72_TTBR0_EL1, BASE + 0x1000);
    a72_register(core, A72_VBAR_EL1, 0x8000);
    a72_register(core, A72_SCTLR_EL1, 1);
    a72_level(core, 1);
    a72_set_pc(core, 0x1000);
    return core;
}

int main(void) {
    a72_answer answer = {0, 0};
    struct a72_pending pending;
    put(BASE + 0x1000, (BASE + 0x2000) | 3);
    put(BASE + 0x2000, (BASE + 0x3000) | 3);
    put(BASE + 0x3008, (BASE + 0x8000) | 0x403);
    put(BASE + 0x3010, PORT | 0x403);
    put(BASE + 0x8000, 0xD4000541); /* svc #42 */
    a72_core *first = start(&memory[0]), *second = start(&memory[1]);

    if (load(first, 0x2004, 4, &answer) == A72_DONE && answer.value == 1)
        store(first, 0x2000, 1, '!', &answer);
    /* Four bytes for RAM, and four for the port: that is no device's access, but an abort. */
    if (store(first, 0x1FFC, 8, UINT64_C(0x2A2A2A2A00000000), &answer) == EXTERNAL)
        printf("over two pages: an abort at 0x%" PRIx64 "\n", answer.value);

    a72_fetch(second, 0x1000, &answer, BASE, ram, LEN);
    printf("fetched 0x%08" PRIx64 "\n", answer.value);
    if ((answer.value & 0xFFE0001F) == 0xD4000001) { /* svc: the core saves where it returns to, behind it */
        const uint64_t svc[4] = {A72_EXCEPTION_SVC, answer.value >> 5 & 0xFFFF, 0, 0};
        take(second, "svc", svc);
    }

    /* The first core unmaps page 1. The second has it cached until it hears of the TLBI. */
    put(BASE + 0x3008, 0);
    a72_general(first, 0, 1);
    a72_system(first, A72_TLBI_VAE1IS, 0, &answer, BASE, ram, LEN);
    printf("before: %s\n", load(second, 0x1000, 4, &answer) == A72_DONE ? "still there" : "gone");
    a72_take_pending(first, &pending);
    a72_receive(second, pending.kind, pending.value);
    uint64_t number = load(second, 0x1000, 4, &answer);
    if (a72_is_fault(number)) {
        const uint64_t abort[4] = {A72_EXCEPTION_DATA_ABORT, answer.value, 0, a72_status(number)};
        take(second, "data abort", abort);
    }
    return 0;
}
