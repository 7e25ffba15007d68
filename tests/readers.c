/* Each function and each reader of include/a72.h, against each other: what was set is read, what was done is seen;
 * tests/windows.c has a72_windows, tests/flip.c a72_flip. tests/c.sh builds and runs it. */
#include "readings.h"

#define VA (BASE + 0x40120)
#define PAGE (VA >> 12)

static struct a72_entry entry(a72_core *c, uint64_t slot) {
    struct a72_entry e;
    a72_get_entry(c, slot, &e);
    return e;
}

/* Whether an answer has this value and this number of descriptors read. */
static int is(a72_answer answer, uint64_t value, uint64_t reads) {
    return answer.value == value && answer.reads == reads;
}

/* A register that is written by its key is where its reader looks. */
static void registers(void) {
    a72_core *c = a72_copy(&other, core);
    uint64_t value = 7;
    MUST(a72_register(c, A72_SCTLR_EL2, 0x1004) == A72_DONE && a72_get_sctlr(c, 2) == 0x1004);
    MUST(a72_register(c, A72_TCR_EL3, 25) == A72_DONE && a72_get_tcr(c, 3) == 25);
    MUST(a72_register(c, A72_TTBR0_EL3, 0x7000) == A72_DONE && a72_get_ttbr0(c, 3) == 0x7000);
    MUST(a72_register(c, A72_TTBR1_EL1, 0x5000) == A72_DONE && a72_get_ttbr1_el1(c) == 0x5000);
    MUST(a72_register(c, A72_MAIR_EL1, 0x44) == A72_DONE && a72_get_mair(c, 1) == 0x44);
    MUST(a72_register(c, A72_VBAR_EL2, 0x8000) == A72_DONE && a72_get_vbar(c, 2) == 0x8000);
    MUST(a72_register(c, A72_ELR_EL3, 0x1234) == A72_DONE && a72_get_elr(c, 3) == 0x1234);
    MUST(a72_register(c, A72_SPSR_EL1, 0x3C5) == A72_DONE && a72_get_spsr(c, 1) == 0x3C5);
    MUST(a72_register(c, A72_ESR_EL2, 0x55) == A72_DONE && a72_get_esr(c, 2) == 0x55);
    MUST(a72_register(c, A72_FAR_EL2, 0x66) == A72_DONE && a72_get_far(c, 2) == 0x66);
    MUST(a72_register(c, A72_SCR_EL3, 1) == A72_DONE && a72_get_scr_el3(c) & 1);
    MUST(a72_register(c, A72_HCR_EL2, UINT64_C(1) << 31) == A72_DONE && a72_get_hcr_el2(c) >> 31 & 1);
    MUST(a72_register(c, A72_PAR_EL1, 0x77) == A72_DONE && a72_get_par_el1(c) == 0x77);
    MUST(a72_get_register(c, A72_VPIDR_EL2, &value) == A72_DONE && value == 0x410FD083);
    MUST(a72_get_vpidr_el2(c) == value && a72_get_vmpidr_el2(c) == a72_get(c, A72_VMPIDR_EL2));
    MUST(a72_get_register(c, A72_KEY(3, 0, 0, 0, 0), &value) == A72_CHECK_KEY && value == 0x410FD083);
    MUST(a72_get(c, A72_KEY(3, 0, 0, 0, 0)) == 0 && a72_get(c, A72_FAR_EL2) == 0x66);
    MUST(a72_get_esr(c, 0) == 0 && a72_get_esr(c, 4) == 0);
    MUST(a72_general(c, 30, 9) == A72_DONE && a72_get_general(c, 30) == 9 && a72_get_general(c, 31) == 0);
    MUST(a72_mark(c, 1) == A72_DONE && a72_get_unprivileged(c) && !a72_get_unprivileged(core));
    MUST(a72_register(c, A72_TTBR0_EL1, UINT64_C(5) << 48) == A72_DONE && a72_get_asid(c) == 5);
}

/* A refused call has its number, and writes nothing. */
static void refusals(void) {
    a72_saved before, after;
    a72_answer ans = {7, 8};
    const uint64_t wide[4] = {A72_EXCEPTION_SVC, 0x10000, 0, 0};
    a72_save(core, before);
    MUST(a72_level(core, 4) == A72_CHECK_LEVEL);
    MUST(a72_load(core, VA, 4, &ans, UINT64_MAX, ram, LEN) == A72_CHECK_WINDOW);
    MUST(a72_load(core, VA, 3, &ans, BASE, ram, LEN) == A72_CHECK_SIZE);
    MUST(a72_system(core, 8, 7, 4, 1, 0, &ans, BASE, ram, LEN) == A72_CHECK_FIELD);
    MUST(a72_general(core, 32, 0) == A72_CHECK_NUMBER);
    MUST(a72_register(core, A72_KEY(3, 0, 0, 0, 0), 0) == A72_CHECK_KEY);
    MUST(a72_translate(core, VA, 3, &ans, BASE, ram, LEN) == A72_NAMES_NOTHING);
    MUST(a72_mark(core, 2) == A72_NAMES_NOTHING && a72_abort(core, wide) == A72_NAMES_NOTHING);
    MUST(a72_system(core, 4, 8, 7, 0, 0, &ans, BASE, ram, LEN) == A72_UNIMPLEMENTED);
    a72_level(core, 0);
    MUST(a72_system(core, 0, 8, 7, 0, 0, &ans, BASE, ram, LEN) == A72_UNDEFINED);
    a72_level(core, 1);
    MUST(a72_receive(core, A72_PENDING_NONE, 0) == A72_NAMES_NOTHING);
    MUST(a72_receive(core, A72_PENDING_ASID, 0x10000) == A72_NAMES_NOTHING);
    MUST(a72_set_generation(core, UINT64_C(1) << 32) == A72_NAMES_NOTHING);
    a72_save(core, after);
    MUST(ans.value == 7 && ans.reads == 8 && memcmp(before, after, sizeof before) == 0);
}

static void accesses(void) {
    uint64_t slot = (PAGE ^ PAGE >> 5 ^ PAGE >> 10) % 256;
    a72_answer ans = {7, 8};
    MUST(a72_store(core, VA, 4, 5, &ans, BASE, ram, LEN) == A72_DONE && ram[VA - BASE] == 5 && is(ans, 7, 3));
    MUST(a72_load(core, VA, 4, &ans, BASE, ram, LEN) == A72_DONE && is(ans, 5, 0) && a72_get_last_pa(core) == VA);
    MUST(a72_fetch(core, VA, &ans, BASE, ram, LEN) == A72_DONE && is(ans, 5, 0));
    MUST(a72_translate(core, VA, A72_WRITE, &ans, BASE, ram, LEN) == A72_DONE && is(ans, VA, 0));
    MUST(a72_data_pa(core, VA, &ans, BASE, ram, LEN) == A72_DONE && is(ans, VA, 0));
    MUST(a72_fetch_pa(core, VA, &ans, BASE, ram, LEN) == A72_DONE && is(ans, VA, 0));
    MUST(a72_data_pa(core, UNMAPPED, &ans, BASE, ram, LEN) == A72_FAULT && a72_is_fault(A72_FAULT) && is(ans, VA, 1));
    MUST(a72_load(core, BASE + 0x9010, 4, &ans, BASE, ram, LEN) == A72_FAULT + 0x10);
    MUST(is(ans, BASE + 0x9010, 3) && a72_get_abort_pa(core) == 0x80000010);
    MUST(!a72_is_fault(A72_UNIMPLEMENTED) && !a72_is_fault(A72_FAULT + 256) && a72_status(A72_FAULT + 0x10) == 0x10);
    struct a72_entry e = entry(core, PAGE % A72_ENTRIES);
    MUST(e.tag == PAGE * 4 + 1 && e.pa == PAGE << 12 && e.level == 3 && e.permissions == 0x3C);
    MUST(e.global && e.asid == 0 && e.generation == a72_get_generation(core) && a72_is_live(core, e));
    MUST(entry(core, A72_ENTRIES).tag == 0);
    struct a72_hint read, write, past;
    a72_get_hint(core, slot, &read);
    a72_get_hint(core, 256 + slot, &write);
    a72_get_hint(core, A72_HINTS, &past);
    MUST(read.key == (PAGE << 12) + 1 && read.pa == PAGE << 12 && write.key == read.key && write.pa == read.pa);
    MUST(past.key == A72_NO_HINT);
    struct a72_fetch_hint f;
    a72_get_fetch_hint(core, &f);
    MUST(f.present && f.page == PAGE << 12 && f.level == 1 && f.pa == PAGE << 12);
}

/* Of a fault the value is the address where the call says so; of the others it stays, and `va` is the address. */
static void faults(void) {
    const uint64_t outside = BASE + 0x9010;
    a72_core *c = a72_copy(&other, core);
    a72_answer ans = {7, 8};
    MUST(a72_translate(c, UNMAPPED, A72_READ, &ans, BASE, ram, LEN) == A72_FAULT + 5 && is(ans, 7, 1));
    MUST(a72_translate(c, UNMAPPED, A72_FETCH, &ans, BASE, ram, LEN) == A72_FAULT + 5 && is(ans, 7, 1));
    MUST(a72_data_pa(c, UNMAPPED, &ans, BASE, ram, LEN) == A72_FAULT && is(ans, 7, 1));
    MUST(a72_fetch_pa(c, UNMAPPED, &ans, BASE, ram, LEN) == A72_FAULT && is(ans, 7, 1));
    MUST(a72_fetch(c, UNMAPPED, &ans, BASE, ram, LEN) == A72_FAULT + 5 && is(ans, 7, 1));
    a72_general(c, 1, outside);
    MUST(a72_system(c, A72_TLBI_VMALLE1, 31, &ans, BASE, ram, LEN) == A72_DONE && is(ans, 7, 0));
    MUST(a72_fetch(c, outside, &ans, BASE, ram, LEN) == A72_FAULT + 0x10 && is(ans, 7, 3));
    MUST(a72_load(c, UNMAPPED, 4, &ans, BASE, ram, LEN) == A72_FAULT + 5 && is(ans, UNMAPPED, 1));
    ans.value = 7;
    MUST(a72_store(c, UNMAPPED, 4, 0, &ans, BASE, ram, LEN) == A72_FAULT + 5 && is(ans, UNMAPPED, 1));
    ans.value = 7;
    MUST(a72_system(c, A72_DC_ZVA, 1, &ans, BASE, ram, LEN) == A72_FAULT + 0x10 && is(ans, outside & ~UINT64_C(63), 0));
}

/* A TLBI of the Inner Shareable forms drops the page here, and is pending for others: another core that receives it drops the
 * same. */
static void invalidation(void) {
    uint64_t x = UINT64_C(3) << 48 | PAGE;
    a72_answer ans;
    struct a72_counters before = a72_get_counters(core);
    struct a72_fetch_hint f;
    struct a72_pending p, none;
    a72_core *c = a72_copy(&other, core);
    a72_general(core, 1, x);
    MUST(a72_system(core, 0, 8, 3, 1, 1, &ans, BASE, ram, LEN) == A72_DONE);
    struct a72_counters after = a72_get_counters(core);
    MUST(after.drops == before.drops + 1 && after.epoch == before.epoch + 1 && after.flushes == before.flushes);
    MUST(!a72_is_live(core, entry(core, PAGE % A72_ENTRIES)));
    a72_get_fetch_hint(core, &f);
    a72_get_pending(core, &none);
    a72_take_pending(core, &p);
    MUST(!f.present && p.kind == A72_PENDING_PAGE && p.value == x && none.kind == p.kind && none.value == p.value);
    a72_get_pending(core, &none);
    MUST(none.kind == A72_PENDING_NONE && none.value == 0);
    MUST(a72_is_live(c, entry(c, PAGE % A72_ENTRIES)) && a72_receive(c, p.kind, p.value) == A72_DONE);
    MUST(!a72_is_live(c, entry(c, PAGE % A72_ENTRIES)) && a72_get_drops(c) == after.drops);
    a72_get_pending(c, &none);
    MUST(none.kind == A72_PENDING_NONE);
    MUST(a72_load(core, VA, 4, &ans, BASE, ram, LEN) == A72_DONE);
    MUST(a72_get_counters(core).level_walks[1] == after.level_walks[1] + 1 && a72_get_counters(core).level_hits[1] == after.level_hits[1]);
}

/* Hits and walks are those of the level of the access, which the mark does not lower; the totals wrap. */
static void levels(void) {
    a72_answer ans;
    MUST(a72_system(core, 0, 8, 7, 0, 0, &ans, BASE, ram, LEN) == A72_DONE);
    struct a72_counters before = a72_get_counters(core);
    a72_level(core, 0);
    MUST(a72_translate(core, VA, A72_READ, &ans, BASE, ram, LEN) == A72_FAULT + 0x0F); /* a walk */
    a72_level(core, 1);
    MUST(a72_load(core, VA, 4, &ans, BASE, ram, LEN) == A72_DONE); /* its entry */
    a72_mark(core, 1);
    MUST(a72_load(core, VA, 4, &ans, BASE, ram, LEN) == A72_FAULT + 0x0F); /* its entry, as EL0 would */
    a72_mark(core, 0);
    struct a72_counters after = a72_get_counters(core);
    MUST(after.level_hits[0] == before.level_hits[0] && after.level_walks[0] == before.level_walks[0] + 1);
    MUST(after.level_hits[1] == before.level_hits[1] + 2 && after.level_walks[1] == before.level_walks[1]);
    for (int level = 2; level < 4; level++)
        MUST(after.level_hits[level] == before.level_hits[level] && after.level_walks[level] == before.level_walks[level]);
    MUST(a72_total_hits(after) == a72_total_hits(before) + 2 && a72_total_walks(after) == a72_total_walks(before) + 1);
    a72_core *c = a72_init(&other);
    a72_saved words;
    a72_save(core, words);
    words[A72_PLACE_LEVEL_HITS + 3] = UINT64_MAX - after.level_hits[1];
    words[A72_PLACE_LEVEL_WALKS + 2] = UINT64_MAX;
    a72_restore(c, words);
    MUST(a72_get_counters(c).level_hits[3] == UINT64_MAX - after.level_hits[1] && a72_get_counters(c).level_walks[2] == UINT64_MAX);
    MUST(a72_total_hits(a72_get_counters(c)) == UINT64_MAX + after.level_hits[0]);
    MUST(a72_total_walks(a72_get_counters(c)) == a72_total_walks(after) - 1);
}

/* The descriptors that a call read: of each walk that it made, and of no other call any. */
static void reads(void) {
    a72_answer ans = {7, 8};
    const uint64_t next = (PAGE + 1) << 12, edge = next - 4, hole = BASE + LEN;
    MUST(a72_system(core, A72_TLBI_VMALLE1, 31, &ans, BASE, ram, LEN) == A72_DONE && is(ans, 7, 0));
    /* two pages: both walked, one, none; where the first faults one */
    MUST(a72_load(core, edge, 8, &ans, BASE, ram, LEN) == A72_DONE && ans.reads == 6);
    MUST(a72_load(core, edge, 8, &ans, BASE, ram, LEN) == A72_DONE && ans.reads == 0);
    a72_general(core, 1, PAGE);
    MUST(a72_system(core, A72_TLBI_VAE1, 1, &ans, BASE, ram, LEN) == A72_DONE && ans.reads == 0);
    ans.value = 7;
    MUST(a72_store(core, edge, 8, 0, &ans, BASE, ram, LEN) == A72_DONE && is(ans, 7, 3));
    MUST(a72_store(core, hole - 4, 8, 0, &ans, BASE, ram, LEN) == A72_FAULT + 7 && is(ans, hole, 6));
    MUST(a72_store(core, hole + 0xFFC, 8, 0, &ans, BASE, ram, LEN) == A72_FAULT + 7 && is(ans, hole + 0xFFC, 3));
    /* zeroing, by its eight stores and by a hint; where its page faults */
    a72_general(core, 1, next + 0x1000);
    MUST(a72_system(core, A72_DC_ZVA, 1, &ans, BASE, ram, LEN) == A72_DONE && ans.reads == 3);
    MUST(a72_system(core, A72_DC_ZVA, 1, &ans, BASE, ram, LEN) == A72_DONE && ans.reads == 0);
    a72_general(core, 1, hole + 8);
    MUST(a72_system(core, A72_DC_ZVA, 1, &ans, BASE, ram, LEN) == A72_FAULT + 7 && is(ans, hole, 3));
    /* AT walks whatever is cached; with stage 1 off, at EL3, it does not */
    a72_general(core, 1, VA);
    MUST(a72_system(core, A72_AT_S1E1R, 1, &ans, BASE, ram, LEN) == A72_DONE && ans.reads == 3);
    a72_level(core, 3);
    MUST(a72_system(core, A72_AT_S1E3R, 1, &ans, BASE, ram, LEN) == A72_DONE && ans.reads == 0);
    MUST(a72_load(core, VA, 4, &ans, BASE, ram, LEN) == A72_DONE && ans.reads == 0);
    a72_level(core, 1);
    /* a fault by an entry reads nothing; an address out of range neither; a table outside RAM counts */
    a72_level(core, 0);
    MUST(a72_translate(core, VA, A72_READ, &ans, BASE, ram, LEN) == A72_FAULT + 0x0F && ans.reads == 0);
    a72_level(core, 1);
    MUST(a72_fetch_pa(core, UINT64_C(1) << 39, &ans, BASE, ram, LEN) == A72_FAULT && ans.reads == 0);
    put(BASE + 0x1000, 0x80000003);
    MUST(a72_translate(core, UNMAPPED, A72_READ, &ans, BASE, ram, LEN) == A72_FAULT + 0x16 && ans.reads == 2);
    put(BASE + 0x1000, 0);
}

/* PSTATE as an SPSR's word; the level is not set by it. */
static void flags(void) {
    a72_set_pstate(core, 0xA00003C4);
    MUST(a72_get_pstate(core) == 0xA00003C4 && a72_word(core, A72_PLACE_NZCV) == 0xA0000000);
    MUST(a72_word(core, A72_PLACE_DAIF) == 0x3C0 && a72_word(core, A72_PLACE_SPSEL) == 0);
    a72_set_pstate(core, 0x4D);
    MUST(a72_get_pstate(core) == 0x45 && a72_get_level(core) == 1);
    a72_set_pstate(core, 0x3C5);
}

/* A core that is restored from saved words is the same, and each word is the one at its place. */
static void saved(void) {
    a72_core *c = a72_init(&other);
    a72_saved words, again;
    size_t same = 0;
    a72_save(core, words);
    a72_restore(c, words);
    a72_save(c, again);
    MUST(memcmp(words, again, sizeof words) == 0);
    for (size_t place = 0; place < A72_WORDS; place++)
        same += a72_word(core, place) == words[place];
    MUST(same == A72_WORDS && a72_word(core, A72_WORDS) == 0);
    MUST(words[A72_PLACE_PC] == a72_get_pc(core) && words[A72_PLACE_SCTLR] == a72_get_sctlr(core, 1));
    for (size_t place = 0; place < A72_WORDS; place++)
        words[place] = UINT64_MAX;
    a72_restore(c, words);
    MUST(a72_get_level(c) == 255 && a72_mark(c, 1) == A72_CHECK_LEVEL && a72_word(c, 70) == 0);
    MUST(a72_get_generation(c) == UINT32_MAX && a72_get_asid(c) == UINT16_MAX && a72_get_unprivileged(c) == 0);
    c = a72_init(c);
    a72_save(c, again);
    a72_save(a72_init(&other), words);
    MUST(a72_get_level(c) == 3 && memcmp(words, again, sizeof words) == 0);
}

/* As if flushes had gone by: what is live stays live. */
static void generations(void) {
    a72_answer ans;
    a72_core *c = a72_copy(&other, core);
    MUST(a72_load(c, VA, 4, &ans, BASE, ram, LEN) == A72_DONE);
    MUST(a72_set_generation(c, 77) == A72_DONE && a72_get_generation(c) == 77);
    MUST(a72_is_live(c, entry(c, PAGE % A72_ENTRIES)) && entry(c, PAGE % A72_ENTRIES).generation == 77);
}

static void walk(void) {
    const uint64_t registers[6] = {a72_get_sctlr(core, 1),     a72_get_tcr(core, 1),  a72_get_ttbr0(core, 1),
                                   a72_get_ttbr1_el1(core), a72_get_scr_el3(core), a72_get_hcr_el2(core)};
    uint64_t leaf[6];
    MUST(a72_walk(registers, 1, VA, leaf, BASE, ram, LEN) == A72_DONE && leaf[5] == 3);
    MUST(leaf[0] == VA && leaf[1] == (PAGE << 12) + 0x403 && leaf[2] == 0x3C && leaf[3] == 3 && leaf[4] == 1);
    MUST(a72_walk(registers, 1, UNMAPPED, leaf, BASE, ram, LEN) == A72_FAULT + 5 && leaf[0] == VA && leaf[5] == 1);
    MUST(a72_walk(registers, 1, UINT64_C(1) << 39, leaf, BASE, ram, LEN) == A72_FAULT + 4 && leaf[5] == 0);
    leaf[5] = 7;
    MUST(a72_walk(registers, 4, VA, leaf, BASE, ram, LEN) == A72_NAMES_NOTHING && leaf[5] == 7);
    MUST(a72_walk(registers, 1, VA, leaf, UINT64_MAX, ram, LEN) == A72_CHECK_WINDOW && leaf[5] == 7);
}

/* The counts of a census, the core as it was; and of one that is refused none. */
static void census(void) {
    a72_saved before, after;
    uint64_t counts[A72_COUNTS], all = 0;
    a72_save(core, before);
    memset(counts, 0x55, sizeof counts);
    MUST(a72_census(core, VA, A72_MOST_PAGES + 1, counts, BASE, ram, LEN) == A72_CHECK_RANGE);
    MUST(a72_census(core, UINT64_MAX, 2, counts, BASE, ram, LEN) == A72_CHECK_RANGE);
    MUST(a72_census(core, VA, 1, counts, UINT64_MAX, ram, LEN) == A72_CHECK_WINDOW);
    MUST(counts[0] == UINT64_C(0x5555555555555555) && counts[A72_COUNT_FLAT] == counts[0]);
    MUST(a72_census(core, BASE - 1, A72_MOST_PAGES, counts, BASE, ram, LEN) == A72_DONE);
    MUST(counts[A72_COUNT_RIGHTS + 0x3C] == LEN >> 12 && counts[A72_COUNT_FLAT] == 0);
    MUST(counts[A72_COUNT_STATUS + 5] == 1 && counts[A72_COUNT_STATUS + 7] == 512 - (LEN >> 12));
    for (size_t i = 0; i < A72_COUNTS; i++)
        all += counts[i];
    a72_save(core, after);
    MUST(all == A72_MOST_PAGES && memcmp(before, after, sizeof before) == 0);
    a72_level(core, 3);
    MUST(a72_census(core, (UINT64_C(1) << 44) - 1, 1, counts, BASE, ram, LEN) == A72_DONE && counts[A72_COUNT_FLAT] == 1);
    MUST(a72_census(core, UINT64_MAX, 1, counts, BASE, ram, LEN) == A72_DONE && counts[A72_COUNT_STATUS] == 1);
    a72_level(core, 1);
}

/* One operation by its words: whether the answer has this code, this word after it, and this many descriptors read. */
static int answers(const uint64_t op[8], uint64_t code, uint64_t word, uint64_t reads) {
    uint64_t ans[5] = {7, 7, 7, 7, 7};
    return a72_step(op, core, BASE, ram, LEN, ans) == A72_DONE && ans[0] == code && ans[1] == word && ans[4] == reads;
}

static void steps(void) {
    const uint64_t load[8] = {A72_OP_LOAD, VA, 4, 0, 0, 0, 0, 0}, odd[8] = {A72_OP_LOAD, VA, 3, 0, 0, 0, 0, 0};
    const uint64_t store[8] = {A72_OP_STORE, UNMAPPED, 4, 1, 0, 0, 0, 0};
    const uint64_t fetch[8] = {A72_OP_FETCH, UNMAPPED, 0, 0, 0, 0, 0, 0};
    const uint64_t translate[8] = {A72_OP_TRANSLATE, A72_READ, UNMAPPED, 0, 0, 0, 0, 0};
    const uint64_t fetch_pa[8] = {A72_OP_FETCH_PA, UNMAPPED, 0, 0, 0, 0, 0, 0};
    const uint64_t tlbi_alle2[8] = {A72_OP_SYSTEM, 4, 8, 7, 0, 0, 0, 0};
    const uint64_t down[8] = {A72_OP_LEVEL, 0, 0, 0, 0, 0, 0, 0};
    const uint64_t counts[8] = {A72_OP_CENSUS, VA, 1, 0, 0, 0, 0, 0};
    const uint64_t past[8] = {A72_OP_CENSUS, UINT64_MAX, 2, 0, 0, 0, 0, 0};
    const uint64_t looks[8] = {A72_OP_WINDOWS, 0, 0, 0, 0, 0, 0, 0};
    const uint64_t svc[8] = {A72_OP_ABORT, A72_EXCEPTION_SVC, 5, 0, 0, 0, 0, 0};
    const uint64_t none[8] = {A72_OP_FLIP + 1, 0, 0, 0, 0, 0, 0, 0};
    const uint64_t at_s1e1r[8] = {A72_OP_SYSTEM, A72_AT_S1E1R, 1, 0, 0};
    uint64_t ans[5] = {7, 7, 7, 7, 7};
    a72_answer all;
    a72_system(core, A72_TLBI_VMALLE1, 31, &all, BASE, ram, LEN);
    a72_general(core, 1, VA);
    MUST(answers(load, A72_ANSWER_VALUE, 5, 3) && answers(odd, A72_ANSWER_CHECK, A72_CHECK_SIZE, 0));
    MUST(answers(load, A72_ANSWER_VALUE, 5, 0) && answers(at_s1e1r, A72_ANSWER_DONE, 0, 3));
    MUST(answers(store, A72_ANSWER_DATA_ABORT, UNMAPPED, 1) && answers(fetch, A72_ANSWER_INSN_ABORT, UNMAPPED, 1));
    MUST(answers(translate, A72_ANSWER_FAULT, UNMAPPED, 1) && answers(fetch_pa, A72_ANSWER_NONE, 0, 1));
    MUST(answers(tlbi_alle2, A72_ANSWER_UNIMPLEMENTED, 0, 0));
    MUST(answers(counts, A72_ANSWER_DONE, 0, 0) && answers(past, A72_ANSWER_CHECK, A72_CHECK_RANGE, 0));
    MUST(answers(looks, A72_ANSWER_DONE, 0, 0));
    MUST(answers(down, A72_ANSWER_DONE, 0, 0) && answers(tlbi_alle2, A72_ANSWER_UNDEFINED, 0, 0));
    a72_set_pc(core, 0x1000);
    MUST(answers(svc, A72_ANSWER_DONE, 0, 0) && a72_get_elr(core, 1) == 0x1004 && a72_get_pc(core) == 0x400);
    MUST(a72_step(none, core, BASE, ram, LEN, ans) == A72_NAMES_NOTHING && ans[0] == 7 && ans[4] == 7);
}

/* Sample frames: the last total of a frame and the first of the next, at each rate, and the largest total. */
static void frames(void) {
    uint64_t left = 7;
    MUST(a72_frames_48000(0, &left) == 0 && left == 0);
    MUST(a72_frames_48000(31249, &left) == 0 && left == 31249);
    MUST(a72_frames_48000(31250, &left) == 1 && left == 0);
    MUST(a72_frames_44100(34013, &left) == 0 && left == 4999911);
    MUST(a72_frames_44100(34014, &left) == 1 && left == 58);
    MUST(a72_frames_44100(1500000000, &left) == 44100 && left == 0);
    MUST(a72_frames_48000(UINT64_MAX, &left) == UINT64_C(590295810358705) && left == 20365);
    MUST(a72_frames_44100(UINT64_MAX, &left) == UINT64_C(542334275767060) && left == 4087405);
}

int main(void) {
    set_up();
    registers();
    refusals();
    accesses();
    faults();
    invalidation();
    levels();
    reads();
    flags();
    saved();
    generations();
    walk();
    census();
    steps();
    frames();
    return said();
}
