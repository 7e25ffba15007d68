/* a72_cluster of include/a72.h: which core reads by which table after a TLBI of another, the number of a core before
 * all else, what a refused call leaves pending, cores copied out and in, and all of it beside four single cores that
 * hand over by a72_receive. tests/c.sh builds and runs it. */
#include "readings.h"

#define AT(page) (BASE + ((uint64_t)(page) << 12))
/* The descriptor of a page, and the pages that a core reads: 0x20 lies at itself, or at 0x21. */
#define DESCRIPTOR(page) (BASE + 0x3000 + 8 * (uint64_t)(page))
#define SHIFTED 0x20

static a72_cluster_memory of_four, of_copy;
static a72_cluster *four;
static uint8_t ram_two[LEN];
static a72_memory singles[4];
static a72_core *single[4];

/* Four cores as set_up makes one. */
static void assemble(void) {
    four = a72_cluster_init(&of_four);
    for (uint64_t n = 0; n < 4; n++)
        MUST(a72_cluster_put(four, n, core) == A72_DONE);
}

/* Core n of a cluster, copied out. */
static a72_core *out_of(a72_cluster *cluster, uint64_t n) {
    a72_core *c = a72_init(&other);
    MUST(a72_cluster_get(cluster, n, c) == A72_DONE);
    return c;
}

static uint64_t drops(uint64_t n) { return a72_get_drops(out_of(four, n)); }

static uint64_t pending(uint64_t n) {
    struct a72_pending what;
    a72_get_pending(out_of(four, n), &what);
    return what.kind;
}

static int same(a72_core *a, a72_core *b) {
    static a72_saved one, two;
    a72_save(a, one);
    a72_save(b, two);
    return memcmp(one, two, sizeof one) == 0;
}

static int same_clusters(void) {
    return memcmp(of_four.bytes + A72_HANDLE_SIZE, of_copy.bytes + A72_HANDLE_SIZE,
                  A72_CLUSTER_SIZE - A72_HANDLE_SIZE) == 0;
}

/* Where core n reads page 0x20. */
static uint64_t reads_at(uint64_t n) {
    a72_answer answer = {7, 7};
    uint64_t number = a72_cluster_translate(four, n, AT(SHIFTED), A72_READ, BASE, ram, LEN, &answer);
    return number == A72_DONE ? answer.value : ~number;
}

/* A TLBI of page 0x20 by core n, in its register X1. */
static uint64_t forget(uint64_t n, uint64_t crm) {
    a72_answer answer = {7, 7};
    MUST(a72_cluster_general(four, n, 1, AT(SHIFTED) >> 12) == A72_DONE);
    return a72_cluster_system(four, n, 0, 8, crm, 1, 1, BASE, ram, LEN, &answer);
}

static void fresh(void) {
    a72_core *out, *reset = a72_init(&memory);
    four = a72_cluster_init(&of_four);
    MUST((void *)four == (void *)&of_four);
    for (uint64_t n = 0; n < 4; n++) {
        out = out_of(four, n);
        MUST(same(out, reset) && a72_get_vmpidr_el2(out) == UINT64_C(0x80000000));
    }
}

/* The panel is core 0 at first, and audio core 1. The panel changes a table: by VAE1IS (CRm 3) audio hears of it, by
 * VAE1 (CRm 7) it does not. So it is of every pair of cores. */
static void panel_and_audio(void) {
    for (uint64_t panel = 0; panel < 4; panel++)
        for (uint64_t crm = 3; crm <= 7; crm += 4) {
            assemble();
            put(DESCRIPTOR(SHIFTED), AT(SHIFTED) + 0x403);
            for (uint64_t n = 0; n < 4; n++)
                MUST(reads_at(n) == AT(SHIFTED));
            put(DESCRIPTOR(SHIFTED), AT(SHIFTED + 1) + 0x403);
            MUST(forget(panel, crm) == A72_DONE);
            for (uint64_t n = 0; n < 4; n++) {
                int hears = crm == 3 || n == panel;
                MUST(pending(n) == A72_PENDING_NONE && drops(n) == (uint64_t)hears);
                MUST(reads_at(n) == AT(SHIFTED + hears));
            }
        }
    put(DESCRIPTOR(SHIFTED), AT(SHIFTED) + 0x403);
}

/* A core's number above 3 is 8, whatever else the call would miss, and nothing is written. */
static void number_first(uint64_t n) {
    a72_answer answer = {7, 7};
    uint64_t counts[A72_COUNTS] = {7}, out[3] = {7, 7, 7}, said_words[5] = {7, 7, 7, 7, 7};
    const uint64_t none[8] = {99}, exception[4] = {99};
    const uint64_t base = UINT64_MAX, eight = A72_CHECK_CORE;
    a72_core *c = a72_copy(&other, core);
    a72_cluster_copy(&of_copy, four);
    MUST(a72_cluster_translate(four, n, 0, 9, base, ram, LEN, &answer) == eight);
    MUST(a72_cluster_data_pa(four, n, 0, base, ram, LEN, &answer) == eight);
    MUST(a72_cluster_fetch_pa(four, n, 0, base, ram, LEN, &answer) == eight);
    MUST(a72_cluster_load(four, n, 0, 3, base, ram, LEN, &answer) == eight);
    MUST(a72_cluster_store(four, n, 0, 3, 0, base, ram, LEN, &answer) == eight);
    MUST(a72_cluster_fetch(four, n, 0, base, ram, LEN, &answer) == eight);
    MUST(a72_cluster_system(four, n, 8, 16, 16, 8, 32, base, ram, LEN, &answer) == eight);
    MUST(a72_cluster_register(four, n, 0, 0) == eight && a72_cluster_level(four, n, 4) == eight);
    MUST(a72_cluster_mark(four, n, 2) == eight && a72_cluster_general(four, n, 32, 0) == eight);
    MUST(a72_cluster_abort(four, n, exception) == eight);
    MUST(a72_cluster_census(four, n, 0, UINT64_MAX, base, ram, LEN, counts) == eight);
    MUST(a72_cluster_windows(four, n, ram, 1, base, ram, LEN, out) == eight);
    MUST(a72_cluster_flip(four, n, 0, 9, 2, base, ram, LEN, out) == eight);
    MUST(a72_cluster_step(none, four, n, base, ram, LEN, said_words) == eight);
    MUST(a72_cluster_get(four, n, c) == eight && same(c, core));
    MUST(a72_cluster_put(four, n, c) == eight);
    MUST(answer.value == 7 && answer.reads == 7 && counts[0] == 7 && out[0] == 7 && said_words[0] == 7);
    MUST(same_clusters());
}

/* Core 2 is one with a TLBI pending. */
static void put_a_marked_core(void) {
    a72_answer answer = {7, 7};
    a72_core *c;
    assemble();
    c = out_of(four, 2);
    a72_general(c, 1, AT(SHIFTED) >> 12);
    MUST(a72_system(c, A72_TLBI_VAE1IS, 1, &answer, BASE, ram, LEN) == A72_DONE);
    MUST(a72_cluster_put(four, 2, c) == A72_DONE && pending(2) == A72_PENDING_PAGE);
}

/* What is refused hands nothing on. */
static void refused_calls(void) {
    const uint8_t faulting[12] = {1, 0, 0, 0x10, 0, 0, 0, 0, 0, 0, 1, 0}; /* one window at UNMAPPED */
    const uint64_t missing[8] = {A72_OP_LOAD, AT(0x10), 3}, none[8] = {99};
    const uint64_t other_level[8] = {A72_OP_SYSTEM, 4, 8, 7, 0, 31};
    uint64_t counts[A72_COUNTS], out[3] = {7, 7, 7}, said_words[5] = {7, 7, 7, 7, 7};
    a72_answer answer = {7, 7};
    put_a_marked_core();
    a72_cluster_copy(&of_copy, four);
    MUST(a72_cluster_load(four, 2, AT(0x10), 4, UINT64_MAX, ram, LEN, &answer) == A72_CHECK_WINDOW);
    MUST(a72_cluster_load(four, 2, AT(0x10), 3, BASE, ram, LEN, &answer) == A72_CHECK_SIZE);
    MUST(a72_cluster_level(four, 2, 4) == A72_CHECK_LEVEL && a72_cluster_register(four, 2, 0, 0) == A72_CHECK_KEY);
    MUST(a72_cluster_mark(four, 2, 2) == A72_NAMES_NOTHING);
    MUST(a72_cluster_census(four, 2, 0, A72_MOST_PAGES + 1, BASE, ram, LEN, counts) == A72_CHECK_RANGE);
    MUST(a72_cluster_windows(four, 2, faulting, 1, BASE, ram, LEN, out) == A72_CHECK_LIST && out[0] == 7);
    MUST(a72_cluster_windows(four, 2, faulting, sizeof faulting, BASE, ram, LEN, out) == A72_PAGE_FAULTS);
    MUST(out[0] == 0 && out[1] == 0 && out[2] == 5);
    MUST(a72_cluster_system(four, 2, A72_TLBI_ALLE2, 31, BASE, ram, LEN, &answer) == A72_UNIMPLEMENTED);
    MUST(a72_cluster_step(none, four, 2, BASE, ram, LEN, said_words) == A72_NAMES_NOTHING && said_words[0] == 7);
    MUST(a72_cluster_step(missing, four, 2, BASE, ram, LEN, said_words) == A72_DONE);
    MUST(said_words[0] == A72_ANSWER_CHECK && said_words[1] == A72_CHECK_SIZE);
    MUST(a72_cluster_step(other_level, four, 2, BASE, ram, LEN, said_words) == A72_DONE);
    MUST(said_words[0] == A72_ANSWER_UNIMPLEMENTED);
    /* nor does a call on another core */
    MUST(a72_cluster_mark(four, 1, 0) == A72_DONE && same_clusters());
}

/* Whether all four have carried out what was pending at core 2, which has it no more. */
static int handed_on(void) {
    int all = 1;
    for (uint64_t n = 0; n < 4; n++)
        all &= pending(n) == A72_PENDING_NONE && drops(n) == 1;
    put_a_marked_core();
    return all;
}

/* What is done, also what faults or looks, hands it on. */
static void calls_that_hand_on(void) {
    const uint8_t none[2] = {0, 0};
    const uint64_t load[8] = {A72_OP_LOAD, UNMAPPED, 4}, look[8] = {A72_OP_CENSUS, 0, 1};
    uint64_t counts[A72_COUNTS], out[3], said_words[5];
    a72_answer answer = {7, 7};
    put_a_marked_core();
    MUST(a72_cluster_load(four, 2, UNMAPPED, 4, BASE, ram, LEN, &answer) == A72_FAULT + 5 && handed_on());
    MUST(a72_cluster_data_pa(four, 2, UNMAPPED, BASE, ram, LEN, &answer) == A72_FAULT && handed_on());
    MUST(a72_cluster_mark(four, 2, 0) == A72_DONE && handed_on());
    MUST(a72_cluster_census(four, 2, 0, 1, BASE, ram, LEN, counts) == A72_DONE && handed_on());
    MUST(a72_cluster_windows(four, 2, none, 2, BASE, ram, LEN, out) == A72_DONE && handed_on());
    MUST(a72_cluster_flip(four, 2, 0, A72_READ, 0, BASE, ram, LEN, out) == A72_DONE && handed_on());
    MUST(a72_cluster_step(load, four, 2, BASE, ram, LEN, said_words) == A72_DONE && handed_on());
    MUST(said_words[0] == A72_ANSWER_DATA_ABORT);
    MUST(a72_cluster_step(look, four, 2, BASE, ram, LEN, said_words) == A72_DONE && handed_on());
}

/* A core is copied out, changed by hand and copied in; another cluster that holds the same is its own. */
static void copies(void) {
    a72_cluster *copy;
    a72_core *c;
    assemble();
    c = out_of(four, 3);
    MUST(same(c, core));
    a72_set_pc(c, 0x1234);
    MUST(a72_get_pc(out_of(four, 3)) == a72_get_pc(core));
    c = out_of(four, 3);
    a72_set_pc(c, 0x1234);
    MUST(a72_cluster_put(four, 3, c) == A72_DONE && a72_get_pc(out_of(four, 3)) == 0x1234);
    copy = a72_cluster_copy(&of_copy, four);
    MUST(same_clusters() && a72_cluster_level(copy, 3, 0) == A72_DONE && !same_clusters());
    MUST(a72_get_level(out_of(copy, 3)) == 0 && a72_get_level(out_of(four, 3)) == 1);
}

/* Numbers by chance, each below n: the high half of a product. */
static uint64_t drawn(uint64_t n) {
    static uint64_t word = 1;
    word = word * UINT64_C(6364136223846793005) + UINT64_C(1442695040888963407);
    return (word >> 33) % n;
}

/* An operation by chance, of the single core's kinds. */
static void draw(uint64_t op[8]) {
    static const uint64_t sizes[5] = {1, 2, 4, 8, 3}, kinds[3] = {A72_READ, A72_WRITE, A72_FETCH};
    uint64_t va = AT(SHIFTED + drawn(4)) + 8 * drawn(0x200), what = drawn(20);
    memset(op, 0, 8 * sizeof op[0]);
    op[0] = what < 6 ? A72_OP_LOAD : what < 8 ? A72_OP_STORE : what < 10 ? A72_OP_FETCH : A72_OP_SYSTEM;
    op[1] = va;
    op[2] = sizes[drawn(5)];
    op[3] = drawn(1000);
    if (what >= 10) {
        op[1] = 0;
        op[2] = 8;
        op[3] = what < 15 ? 3 : 7;
        op[4] = drawn(8);
        op[5] = 1 + drawn(3);
    }
    if (what == 18) {
        op[0] = A72_OP_GENERAL, op[1] = 1 + drawn(3), op[2] = AT(SHIFTED + drawn(4)) >> 12;
        op[3] = op[4] = op[5] = 0;
    } else if (what == 19) {
        op[0] = A72_OP_TRANSLATE, op[1] = kinds[drawn(3)], op[2] = va;
        op[3] = op[4] = op[5] = 0;
    } else if (what < 10 && what >= 8) {
        op[2] = op[3] = 0;
    } else if (what < 6) {
        op[3] = 0;
    }
}

/* What a single core has pending goes to the three others. */
static int hand_over(uint64_t n) {
    struct a72_pending what;
    a72_take_pending(single[n], &what);
    for (uint64_t k = 0; k < 4 && what.kind != A72_PENDING_NONE; k++)
        if (k != n)
            MUST(a72_receive(single[k], what.kind, what.value) == A72_DONE);
    return what.kind != A72_PENDING_NONE;
}

/* Every answer, RAM and in the end all four cores, beside four single cores of which each hands over. */
static void beside_single_cores(void) {
    uint64_t op[8], one[5], two[5], number;
    int shared = 0;
    assemble();
    memcpy(ram_two, ram, sizeof ram);
    for (uint64_t n = 0; n < 4; n++)
        single[n] = a72_copy(&singles[n], core);
    for (int i = 0; i < 4000; i++) {
        uint64_t n = drawn(4), at = DESCRIPTOR(SHIFTED + drawn(4)) - BASE;
        if (i % 9 == 0) {
            put(BASE + at, AT(SHIFTED + drawn(4)) + 0x403);
            memcpy(ram_two + at, ram + at, 8);
        }
        draw(op);
        number = a72_step(op, single[n], BASE, ram_two, LEN, two);
        MUST(a72_cluster_step(op, four, n, BASE, ram, LEN, one) == number && number == A72_DONE);
        MUST(memcmp(one, two, sizeof one) == 0);
        shared += hand_over(n);
        if (i % 100 == 0 || i == 3999)
            for (uint64_t k = 0; k < 4; k++)
                MUST(same(out_of(four, k), single[k]));
    }
    MUST(memcmp(ram, ram_two, sizeof ram) == 0 && shared > 500);
}

int main(void) {
    MUST(sizeof(a72_cluster_memory) == A72_CLUSTER_SIZE && A72_CLUSTER_SIZE % A72_CLUSTER_ALIGN == 0);
    MUST(A72_CLUSTER_SIZE - A72_HANDLE_SIZE == 4 * (A72_CORE_SIZE - A72_HANDLE_SIZE));
    fresh();
    set_up();
    panel_and_audio();
    assemble();
    for (uint64_t n = 4; n < 8; n++)
        number_first(n);
    number_first(UINT64_MAX);
    refused_calls();
    calls_that_hand_on();
    copies();
    beside_single_cores();
    return said();
}
