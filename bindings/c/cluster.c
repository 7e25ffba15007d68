/* Four cores over one RAM: the panel's thread on core 0 moves and unmaps a page that the audio thread reads on core 1.
 * The threads take turns, a call each. */
#include "a72.h"

#include <inttypes.h>
#include <stdio.h>

#define BASE UINT64_C(0x40000000) /* the physical address of RAM */
#define LEN 0x100000              /* 1 MiB */
#define VOICE UINT64_C(0x1000)    /* the page of a voice, and where its tables map it */
#define DESCRIPTOR (BASE + 0x3008)

enum { PANEL, AUDIO };

static a72_cluster_memory memory;
static a72_memory apart; /* for a core that is copied out */
static a72_cluster *cluster;
static uint8_t ram[LEN];

static void put(uint64_t address, uint64_t value) {
    for (int i = 0; i < 8; i++)
        ram[address - BASE + i] = (uint8_t)(value >> 8 * i);
}

/* At EL1 with stage 1 on, by the same tables. */
static void start(uint64_t core) {
    a72_cluster_register(cluster, core, A72_TCR_EL1, 25 | UINT64_C(2) << 30); /* 39 bits, pages of 4 KiB */
    a72_cluster_register(cluster, core, A72_TTBR0_EL1, BASE + 0x1000);
    a72_cluster_register(cluster, core, A72_VBAR_EL1, 0x8000);
    a72_cluster_register(cluster, core, A72_SCTLR_EL1, 1);
    a72_cluster_level(cluster, core, 1);
}

/* The panel's TLBI of the voice's page: its core forgets it, and with an Inner Shareable form (CRm 3) so have the other
 * three when the call returns. */
static void forget(uint64_t crm) {
    a72_answer answer;
    a72_cluster_general(cluster, PANEL, 0, VOICE >> 12);
    a72_cluster_system(cluster, PANEL, 0, 8, crm, 1, 0, BASE, ram, LEN, &answer);
}

/* Audio reads its voice; where it faults the guest takes the data abort, on that core. */
static void play(const char *when) {
    a72_answer answer = {0, 0};
    uint64_t number = a72_cluster_load(cluster, AUDIO, VOICE, 4, BASE, ram, LEN, &answer);
    printf("%-22s ", when);
    if (number == A72_DONE)
        printf("sample %" PRIu64, answer.value);
    if (a72_is_fault(number)) {
        const uint64_t abort[4] = {A72_EXCEPTION_DATA_ABORT, answer.value, 0, a72_status(number)};
        /* What is no call is done to a core that is copied out, and put in again. */
        a72_core *core = a72_init(&apart);
        a72_cluster_get(cluster, AUDIO, core);
        a72_set_pc(core, 0x4004);
        a72_cluster_put(cluster, AUDIO, core);
        a72_cluster_abort(cluster, AUDIO, abort);
        a72_cluster_get(cluster, AUDIO, core);
        printf("data abort: PC 0x%" PRIx64 ", ESR 0x%" PRIx64, a72_get_pc(core), a72_get_esr(core, 1));
        printf(", ELR 0x%" PRIx64, a72_get_elr(core, 1));
    }
    printf(", descriptors read: %" PRIu64 "\n", answer.reads);
}

int main(void) {
    a72_answer answer;
    cluster = a72_cluster_init(&memory);
    put(BASE + 0x1000, (BASE + 0x2000) | 3);
    put(BASE + 0x2000, (BASE + 0x3000) | 3);
    put(DESCRIPTOR, (BASE + 0x8000) | 0x403);
    put(BASE + 0x8000, 1);
    put(BASE + 0x9000, 2);
    start(PANEL);
    start(AUDIO);
    play("at first:");

    /* The panel moves the page: the audio core has it cached. */
    put(DESCRIPTOR, (BASE + 0x9000) | 0x403);
    forget(7);
    play("after TLBI VAE1:");
    forget(3);
    play("after TLBI VAE1IS:");

    /* And unmaps it. */
    put(DESCRIPTOR, 0);
    forget(3);
    play("unmapped:");

    printf("core 4: number %" PRIu64 "\n", a72_cluster_load(cluster, 4, VOICE, 4, BASE, ram, LEN, &answer));
    for (uint64_t n = 0; n < 4; n++) {
        a72_core *core = a72_init(&apart);
        a72_cluster_get(cluster, n, core);
        printf("core %" PRIu64 ": walks %" PRIu64, n, a72_total_walks(a72_get_counters(core)));
        printf(", pages forgotten %" PRIu64 "\n", a72_get_drops(core));
    }
    return 0;
}
