// The guest at EL3: carry out the cases at CASES one by one, put sixteen words for each at RESULTS, and write
// them to results.bin through semihosting. lib.py packs the cases and reads the results.
typedef unsigned long u64;

#define CASES   0x50000000UL // a count, then at +256 the cases
#define RESULTS 0x60000000UL

struct test_case { u64 op, scr, hcr, sctlr, tcr, ttbr0, ttbr1, mair, va, arg, word_count, aux; u64 words[20]; };
// AT: 0 PAR, 1 whether an exception came, 2 ESR_EL3, 3 FAR_EL3.
// Others: 0 pc, 1 PAR, 2..5 ESR, FAR, ELR, SPSR of EL3, 6..9 of EL1, 10..13 of EL2, 14 x0, 15 the word at arg.
struct result { u64 w[16]; };

// The values of `op` (AT of the EL1&0 and EL2 regimes is 0..9, in lib.py's order).
enum { AT_EL2 = 8, AT_EL3 = 10, LOAD_EL3 = 12, STORE_EL3 = 13, FETCH_EL3 = 14, BELOW_EL3 = 16, RAISE_EL3 = 20, READ_BACK = 30 };
#define AT3_OTHER 10 // at3's number is op less this: 0, 1 AT; 2 load; 3 store; 4 fetch; 10.. an exception

#define OWN_TABLE    (~0UL) // as a table base: the guest's own identity table
#define UPPER_RANGE  0xFFFFFF8000000000UL
#define FETCH_STUB   255
#define SCTLR1_OFF   0x30d00800
#define SCTLR2_OFF   0x30c50830
#define PAR_BEFORE   0x5a5a000UL
#define X0_BEFORE    0x1122334455667788UL

extern void at12(u64 op, u64 va, u64 par, struct result *);
extern void at3(u64 what, u64 va, u64 par, struct result *, u64 sctlr, u64 tcr, u64 ttbr0, u64 own_table);
extern void lower(u64 pc, u64 spsr, u64 x0, u64 x1, struct result *);
extern u64 semihost(u64 call, u64 block);
extern char vec12[], stubs[], ld3[], st3[], exc3[];

#define SET(reg, v) asm volatile("msr " #reg ", %0" ::"r"((u64)(v)))

static u64 own_table[512] __attribute__((aligned(4096)));
static u64 block[4];
static const char name[] = "results.bin";

static void empty_tlbs(void) {
    asm volatile("dsb sy\n tlbi alle1\n tlbi alle2\n tlbi alle3\n ic iallu\n dsb sy\n isb");
}

// Write v to register n of lib.py's REGISTERS, read it back, restore it.
#define R(n, reg)                                                                             \
    case n:                                                                                   \
        asm volatile("mrs %0, " #reg "\n msr " #reg ", %2\n isb\n mrs %1, " #reg              \
                     "\n msr " #reg ", %0\n isb" : "=&r"(old), "=&r"(now) : "r"(v));          \
        break;
static u64 read_back(u64 n, u64 v) {
    u64 old, now = 0;
    switch (n) {
        R(0, sctlr_el1) R(1, sctlr_el2)
        R(2, tcr_el1) R(3, tcr_el2) R(4, tcr_el3)
        R(5, ttbr0_el1) R(6, ttbr0_el2) R(7, ttbr0_el3) R(8, ttbr1_el1)
        R(9, mair_el1) R(10, mair_el2) R(11, mair_el3)
        R(12, vbar_el1) R(13, vbar_el2) R(14, vbar_el3)
        R(15, elr_el1) R(16, elr_el2) R(17, elr_el3)
        R(18, spsr_el1) R(19, spsr_el2) R(20, spsr_el3)
        R(21, esr_el1) R(22, esr_el2) R(23, esr_el3)
        R(24, far_el1) R(25, far_el2) R(26, far_el3)
        R(27, scr_el3) R(28, hcr_el2) R(29, vpidr_el2) R(30, vmpidr_el2) R(31, par_el1)
    }
    return now;
}

static void at_el1(struct test_case *c, struct result *r) {
    SET(sctlr_el1, c->sctlr); SET(tcr_el1, c->tcr); SET(ttbr0_el1, c->ttbr0); SET(ttbr1_el1, c->ttbr1); SET(mair_el1, c->mair);
    empty_tlbs();
    at12(c->op, c->va, PAR_BEFORE, r);
}

static void at_el2(struct test_case *c, struct result *r) {
    SET(sctlr_el2, c->sctlr); SET(tcr_el2, c->tcr); SET(ttbr0_el2, c->ttbr0); SET(mair_el2, c->mair);
    empty_tlbs();
    at12(c->op, c->va, PAR_BEFORE, r);
}

// AT, a load, a store, a fetch or an exception under EL3's own regime.
static void at_el3(struct test_case *c, struct result *r) {
    SET(mair_el3, c->mair);
    SET(esr_el3, 0xdead1); SET(far_el3, 0xdead2);
    empty_tlbs();
    at3(c->op - AT3_OTHER, c->va, PAR_BEFORE, r, c->sctlr, c->tcr, c->ttbr0, (u64)own_table);
    if (c->op < LOAD_EL3) return;
    r->w[1] = r->w[0];
    r->w[0] = c->op == LOAD_EL3    ? (u64)ld3
              : c->op == STORE_EL3 ? (u64)st3
              : c->op == FETCH_EL3 ? c->va
                                   : (u64)exc3 + 8 * (c->op - RAISE_EL3);
}

// An access or exception below EL3. aux: bits 0..7 the stub, 8..9 the level, 10 PSTATE.SP, 12 the regime under
// test is EL2's, 16.. PSTATE from bit 6 up.
static void below_el3(struct test_case *c, struct result *r) {
    u64 stub = c->aux & 255, el = c->aux >> 8 & 3, sp = c->aux >> 10 & 1, el2_regime = c->aux >> 12 & 1, offset = 0;
    SET(sctlr_el1, SCTLR1_OFF); SET(sctlr_el2, SCTLR2_OFF);
    if (el2_regime) {
        SET(tcr_el2, c->tcr); SET(ttbr0_el2, c->ttbr0); SET(mair_el2, c->mair);
    } else {
        if (c->ttbr1 == OWN_TABLE && el < 2) offset = UPPER_RANGE; // our code is seen there
        SET(ttbr0_el1, c->ttbr0 == OWN_TABLE ? (u64)own_table : c->ttbr0);
        SET(ttbr1_el1, c->ttbr1 == OWN_TABLE ? (u64)own_table : c->ttbr1);
        SET(tcr_el1, c->tcr); SET(mair_el1, c->mair);
    }
    SET(vbar_el1, (u64)vec12 + offset); SET(vbar_el2, vec12);
    SET(esr_el1, 0xdead1); SET(far_el1, 0xdead2); SET(elr_el1, 0xdead3); SET(spsr_el1, 0);
    SET(esr_el2, 0xdead1); SET(far_el2, 0xdead2); SET(elr_el2, 0xdead3); SET(spsr_el2, 0);
    SET(esr_el3, 0xdead1); SET(far_el3, 0xdead2); SET(par_el1, PAR_BEFORE);
    if (el2_regime) SET(sctlr_el2, c->sctlr); else SET(sctlr_el1, c->sctlr);
    empty_tlbs();
    u64 pc = stub == FETCH_STUB ? c->va : (u64)stubs + offset + 16 * stub;
    lower(pc, el << 2 | sp | c->aux >> 16 << 6, X0_BEFORE, c->va, r);
    r->w[0] = pc;
    SET(sctlr_el1, SCTLR1_OFF); SET(sctlr_el2, SCTLR2_OFF);
    empty_tlbs();
}

static void write_results(u64 bytes) {
    block[0] = (u64)name; block[1] = 5; block[2] = sizeof name - 1; // SYS_OPEN, "wb"
    u64 file = semihost(1, (u64)block);
    block[0] = file; block[1] = RESULTS; block[2] = bytes; // SYS_WRITE
    semihost(5, (u64)block);
    block[0] = file; // SYS_CLOSE
    semihost(2, (u64)block);
}

void main(void) {
    u64 count = *(u64 *)CASES;
    struct test_case *c = (struct test_case *)(CASES + 256);
    struct result *r = (struct result *)RESULTS;
    own_table[1] = 0x40000000UL | 0x400 | 0xC0 | 1; // our GiB: AF, read-only and executable everywhere, block
    for (u64 i = 0; i < count; i++, c++, r++) {
        for (u64 k = 0; k < c->word_count; k++) *(volatile u64 *)c->words[2 * k] = c->words[2 * k + 1];
        for (int k = 0; k < 16; k++) r->w[k] = 0;
        SET(scr_el3, c->scr);
        asm volatile("isb");
        SET(hcr_el2, c->hcr);
        asm volatile("isb");
        if (c->op < AT_EL2) at_el1(c, r);
        else if (c->op < AT_EL3) at_el2(c, r);
        else if (c->op == BELOW_EL3) below_el3(c, r);
        else if (c->op == READ_BACK) r->w[0] = read_back(c->arg, c->va);
        else at_el3(c, r);
        if (c->arg && c->op >= LOAD_EL3 && c->op != READ_BACK) r->w[15] = *(volatile u64 *)c->arg;
        for (u64 k = 0; k < c->word_count; k++) *(volatile u64 *)c->words[2 * k] = 0;
    }
    write_results(count * sizeof(struct result));
}
