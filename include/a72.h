/*
 * Stage 1 address translation of the Cortex-A72: the C interface of liba72abi.a, which `tools/build a72abi` makes
 * (x86-64, ELF). The library keeps no pointer and no data of its own, allocates nothing, and calls nothing but memcpy
 * and memset.
 *
 * A core. It lies in memory of the caller's: A72_CORE_SIZE bytes at a multiple of A72_CORE_ALIGN, from malloc or a
 * variable (a72_memory). a72_init makes a core there and gives the a72_core * that each function takes. The memory
 * stays where it is and is written by nobody else as long as the core is used, and there is nothing to release: it is
 * freed or used otherwise as any memory. a72_copy copies a core; so do a72_save and a72_restore, by numbered words
 * for a file or another program. Memory copied by assignment, memcpy or realloc is no core: it leads to the old one.
 * a72_init takes some 8 KiB of stack, a72_windows 26 KiB, every other function about 1 KiB; so do those of a cluster.
 *
 * RAM. A function that needs memory is lent a window of it: `base`, the physical address of its first byte, then
 * `ram` and `len`, its bytes and their number. What lies outside the window is an external abort (status 0x10; on a
 * table walk 0x14 to 0x17). Memory is little-endian.
 *
 * What is asked. The core is one that a72_init or a72_copy made, and one call at a time uses it: the library takes it
 * for its own as long as a call lasts, also where it only reads, so no core is const. No pointer is null, also where
 * the length beside it is 0; each is to as much memory as is said, and what a function writes overlaps nothing else
 * that it is lent. Of values nothing is asked: whatever numbers, words and bytes stand there, each function ends and
 * stays inside. Cores in several threads are independent; several cores over one window take turns. Four that hand
 * each other's invalidations on are an a72_cluster, near the end.
 *
 * Numbers. Each function that may be refused gives a number: A72_DONE, that of a check that the call misses,
 * A72_NAMES_NOTHING, A72_UNDEFINED, A72_UNIMPLEMENTED, or A72_FAULT plus the status of a fault. From 1 to 66 nothing
 * is written: not the core, not RAM, not the answer or counts; but with A72_PAGE_FAULTS a72_windows says which page it
 * is. A fault has been taken by nobody: a72_abort takes it.
 *
 * Answers. What a call has to say beside its number stands in an a72_answer. With A72_DONE and with a fault its `reads`
 * is always written; its `value` where this is said, and otherwise it stays.
 */
#ifndef A72_H
#define A72_H

#include <stddef.h>
#include <stdint.h>
#include <string.h>

#ifdef __cplusplus
extern "C" {
#endif

/* ---- A core, and memory for it ---- */

typedef struct a72_core a72_core;

/* The core's address, in A72_HANDLE_SIZE bytes, and after it the core. */
#define A72_CORE_SIZE 41744
#define A72_CORE_ALIGN 8
#define A72_HANDLE_SIZE 8

/* A variable that holds a core: `static a72_memory memory; a72_core *core = a72_init(&memory);`. */
typedef union a72_memory {
    uint64_t aligned;
    unsigned char bytes[A72_CORE_SIZE];
} a72_memory;

/* The core itself becomes one out of reset, past its address: a72_init does both. */
void a72_init_at(void *at);

/* Memory becomes a core out of reset: EL3, stage 1 off, the cache empty; whatever it held, a core too. The core
 * has the memory's address. */
static inline a72_core *a72_init(void *memory) {
    void *at = (unsigned char *)memory + A72_HANDLE_SIZE;
    memcpy(memory, &at, sizeof at);
    a72_init_at(at);
    return (a72_core *)memory;
}

/* Other memory becomes a core that holds the same. */
static inline a72_core *a72_copy(void *memory, const a72_core *core) {
    void *at = (unsigned char *)memory + A72_HANDLE_SIZE;
    memcpy(memory, &at, sizeof at);
    memcpy(at, (const unsigned char *)core + A72_HANDLE_SIZE, A72_CORE_SIZE - A72_HANDLE_SIZE);
    return (a72_core *)memory;
}

/* ---- Saved cores: words, and where each part of a core stands among them ---- */

/* Places never move: new words are appended, and A72_WORDS grows, so header and archive are of one version. Words 70
 * and 71 hold nothing: 0 is saved there, and they are not read. */
#define A72_WORDS 5213

typedef uint64_t a72_saved[A72_WORDS];

/* The core's words, every one written. */
void a72_save(a72_core *core, uint64_t words[A72_WORDS]);

/* The core becomes the one that these words hold: of any words, also such as nothing saved. Of a word that is
 * larger than its part some bits count; a level above 255 is 255, which every call refuses as it does 4; where
 * A72_PLACE_FETCH is not 1 there is no fetch hint, and its other words are not read. */
void a72_restore(a72_core *core, const uint64_t words[A72_WORDS]);

/* The one word at a place, as a72_save writes it; 0 past the last. */
uint64_t a72_word(a72_core *core, size_t place);

/* Registers of EL1, EL2 and EL3, three words each. */
#define A72_PLACE_SCTLR 0
#define A72_PLACE_TCR 3
#define A72_PLACE_TTBR0 6
#define A72_PLACE_TTBR1_EL1 9
#define A72_PLACE_MAIR 10 /* three words, and so the next five */
#define A72_PLACE_VBAR 13
#define A72_PLACE_ELR 16
#define A72_PLACE_SPSR 19
#define A72_PLACE_ESR 22
#define A72_PLACE_FAR 25
#define A72_PLACE_SCR_EL3 28
#define A72_PLACE_HCR_EL2 29
#define A72_PLACE_VPIDR_EL2 30
#define A72_PLACE_VMPIDR_EL2 31
#define A72_PLACE_PAR_EL1 32
#define A72_PLACE_PC 33
#define A72_PLACE_NZCV 34 /* bits 31 to 28 */
#define A72_PLACE_DAIF 35 /* bits 9 to 6 */
#define A72_PLACE_SPSEL 36
#define A72_PLACE_GENERAL 37 /* X0 to X30 */
#define A72_PLACE_LEVEL 68
#define A72_PLACE_UNPRIVILEGED 69
/* The counters; those of hits and walks stand at the end. */
#define A72_PLACE_FLUSHES 72
#define A72_PLACE_DROPS 73
#define A72_PLACE_EPOCH 74
/* What other cores are to forget: A72_PENDING_.., and its page or ASID. */
#define A72_PLACE_PENDING 75
#define A72_PLACE_PENDING_VALUE 76
#define A72_PLACE_LAST_PA 77
#define A72_PLACE_ABORT_PA 78
/* The cache's generation, and its ASID. */
#define A72_PLACE_GENERATION 79
#define A72_PLACE_ASID 80
/* The fetch hint: 1 where there is one, page address, level, physical page address; zeros where there is none. */
#define A72_PLACE_FETCH 81
#define A72_PLACE_FETCH_PAGE 82
#define A72_PLACE_FETCH_LEVEL 83
#define A72_PLACE_FETCH_PA 84
/* A72_HINTS data hints of two words: key, physical page address. */
#define A72_PLACE_HINTS 85
#define A72_PLACE_HINT_PA 86
/* A72_ENTRIES entries of four words: tag, generation, attributes, physical page address. */
#define A72_PLACE_ENTRIES 1109
#define A72_PLACE_ENTRY_GENERATION 1110
#define A72_PLACE_ENTRY_ATTRIBUTES 1111
#define A72_PLACE_ENTRY_PA 1112
/* Hits by level, EL0 to EL3, and walks by level. The totals are their sums, wrapped at 2^64. */
#define A72_PLACE_LEVEL_HITS 5205
#define A72_PLACE_LEVEL_WALKS 5209

#define A72_HINTS 512
#define A72_ENTRIES 1024

/* ---- Numbers that the functions give ---- */

#define A72_DONE 0
#define A72_CHECK_LEVEL 1  /* the level, the present one or the one to be set, is above 3 */
#define A72_CHECK_WINDOW 2 /* the window of RAM passes 2^64 */
#define A72_CHECK_SIZE 3   /* the size is none of 1, 2, 4 and 8 */
#define A72_CHECK_FIELD 4  /* a field of a system operation does not fit its bits */
#define A72_CHECK_NUMBER 5 /* the number of a general register is above 31 */
#define A72_CHECK_KEY 6    /* the key is that of no register kept */
#define A72_CHECK_RANGE 7  /* a census of more than A72_MOST_PAGES pages, or of a range that passes 2^64 */
#define A72_CHECK_CORE 8   /* the number of a core of a cluster is above 3 */
#define A72_CHECK_LIST 9   /* the bytes are no list of windows */
#define A72_PAGE_FAULTS 10 /* a page of a list of windows faults: the one number from 1 to 66 that writes */
#define A72_LAST_CHECK 63  /* 11 to 63 are kept for checks to come */
#define A72_NAMES_NOTHING 64 /* a kind, a mark, a user, a regime, an exception or an operation's code is none */
#define A72_UNDEFINED 65
#define A72_UNIMPLEMENTED 66
#define A72_FAULT 256 /* plus the status: eight bits, as DFSC, IFSC and PAR_EL1.FST have it */

static inline int a72_is_fault(uint64_t number) { return A72_FAULT <= number && number <= A72_FAULT + 255; }

/* The status of a fault. */
static inline uint8_t a72_status(uint64_t number) { return (uint8_t)(number - A72_FAULT); }

/* ---- Words that the functions take ---- */

/* Kinds of access. */
#define A72_READ 1
#define A72_WRITE 2
#define A72_FETCH 4

/* The counts of a census: where each stands. */
#define A72_COUNTS 129
#define A72_COUNT_STATUS 0  /* by status, 64 of them */
#define A72_COUNT_RIGHTS 64 /* by permissions, 64 of them */
#define A72_COUNT_FLAT 128

#define A72_MOST_PAGES 65536

/* A list of windows: at most so many, of at most so many pages each. */
#define A72_MOST_WINDOWS 64
#define A72_MOST_WINDOW_PAGES 16

/* An exception, four words: its code and what is said beside it; the others are not read. */
#define A72_EXCEPTION_UNDEFINED 0
#define A72_EXCEPTION_SVC 1        /* immediate, 16 bits; HVC, SMC and BRK the same */
#define A72_EXCEPTION_HVC 2
#define A72_EXCEPTION_SMC 3
#define A72_EXCEPTION_BRK 4
#define A72_EXCEPTION_DATA_ABORT 5 /* address, write (0 or 1), status (8 bits) */
#define A72_EXCEPTION_INSN_ABORT 6 /* address, status (8 bits) */
#define A72_EXCEPTION_PC_ALIGNMENT 7

/* The key of a system register, by its encoding; and those that are kept. */
#define A72_KEY(op0, op1, crn, crm, op2) \
    ((uint64_t)(op0) << 14 | (uint64_t)(op1) << 11 | (uint64_t)(crn) << 7 | (uint64_t)(crm) << 3 | (uint64_t)(op2))
#define A72_SCTLR_EL1 A72_KEY(3, 0, 1, 0, 0)
#define A72_SCTLR_EL2 A72_KEY(3, 4, 1, 0, 0)
#define A72_SCTLR_EL3 A72_KEY(3, 6, 1, 0, 0)
#define A72_TCR_EL1 A72_KEY(3, 0, 2, 0, 2)
#define A72_TCR_EL2 A72_KEY(3, 4, 2, 0, 2)
#define A72_TCR_EL3 A72_KEY(3, 6, 2, 0, 2)
#define A72_TTBR0_EL1 A72_KEY(3, 0, 2, 0, 0)
#define A72_TTBR0_EL2 A72_KEY(3, 4, 2, 0, 0)
#define A72_TTBR0_EL3 A72_KEY(3, 6, 2, 0, 0)
#define A72_TTBR1_EL1 A72_KEY(3, 0, 2, 0, 1)
#define A72_MAIR_EL1 A72_KEY(3, 0, 10, 2, 0)
#define A72_MAIR_EL2 A72_KEY(3, 4, 10, 2, 0)
#define A72_MAIR_EL3 A72_KEY(3, 6, 10, 2, 0)
#define A72_VBAR_EL1 A72_KEY(3, 0, 12, 0, 0)
#define A72_VBAR_EL2 A72_KEY(3, 4, 12, 0, 0)
#define A72_VBAR_EL3 A72_KEY(3, 6, 12, 0, 0)
#define A72_ELR_EL1 A72_KEY(3, 0, 4, 0, 1)
#define A72_ELR_EL2 A72_KEY(3, 4, 4, 0, 1)
#define A72_ELR_EL3 A72_KEY(3, 6, 4, 0, 1)
#define A72_SPSR_EL1 A72_KEY(3, 0, 4, 0, 0)
#define A72_SPSR_EL2 A72_KEY(3, 4, 4, 0, 0)
#define A72_SPSR_EL3 A72_KEY(3, 6, 4, 0, 0)
#define A72_ESR_EL1 A72_KEY(3, 0, 5, 2, 0)
#define A72_ESR_EL2 A72_KEY(3, 4, 5, 2, 0)
#define A72_ESR_EL3 A72_KEY(3, 6, 5, 2, 0)
#define A72_FAR_EL1 A72_KEY(3, 0, 6, 0, 0)
#define A72_FAR_EL2 A72_KEY(3, 4, 6, 0, 0)
#define A72_FAR_EL3 A72_KEY(3, 6, 6, 0, 0)
#define A72_SCR_EL3 A72_KEY(3, 6, 1, 1, 0)
#define A72_HCR_EL2 A72_KEY(3, 4, 1, 1, 0)
#define A72_VPIDR_EL2 A72_KEY(3, 4, 0, 0, 0)
#define A72_VMPIDR_EL2 A72_KEY(3, 4, 0, 0, 5)
#define A72_PAR_EL1 A72_KEY(3, 0, 7, 4, 0)

/* System operations by name: op1, CRn, CRm and op2, as four arguments of a72_system, before the register's number:
 * `a72_system(core, A72_TLBI_VAE1, 1, &answer, base, ram, len)` is TLBI VAE1, X1. Those that take no register are
 * given 31. */
#define A72_TLBI_VMALLE1IS 0, 8, 3, 0
#define A72_TLBI_VMALLE1 0, 8, 7, 0
#define A72_TLBI_ALLE2IS 4, 8, 3, 0
#define A72_TLBI_ALLE1IS 4, 8, 3, 4
#define A72_TLBI_VMALLS12E1IS 4, 8, 3, 6
#define A72_TLBI_ALLE2 4, 8, 7, 0
#define A72_TLBI_ALLE1 4, 8, 7, 4
#define A72_TLBI_VMALLS12E1 4, 8, 7, 6
#define A72_TLBI_ALLE3IS 6, 8, 3, 0
#define A72_TLBI_ALLE3 6, 8, 7, 0
#define A72_IC_IALLUIS 0, 7, 1, 0
#define A72_IC_IALLU 0, 7, 5, 0
#define A72_TLBI_VAE1IS 0, 8, 3, 1
#define A72_TLBI_ASIDE1IS 0, 8, 3, 2
#define A72_TLBI_VAAE1IS 0, 8, 3, 3
#define A72_TLBI_VALE1IS 0, 8, 3, 5
#define A72_TLBI_VAALE1IS 0, 8, 3, 7
#define A72_TLBI_VAE1 0, 8, 7, 1
#define A72_TLBI_ASIDE1 0, 8, 7, 2
#define A72_TLBI_VAAE1 0, 8, 7, 3
#define A72_TLBI_VALE1 0, 8, 7, 5
#define A72_TLBI_VAALE1 0, 8, 7, 7
#define A72_TLBI_IPAS2E1IS 4, 8, 0, 1
#define A72_TLBI_IPAS2LE1IS 4, 8, 0, 5
#define A72_TLBI_VAE2IS 4, 8, 3, 1
#define A72_TLBI_VALE2IS 4, 8, 3, 5
#define A72_TLBI_IPAS2E1 4, 8, 4, 1
#define A72_TLBI_IPAS2LE1 4, 8, 4, 5
#define A72_TLBI_VAE2 4, 8, 7, 1
#define A72_TLBI_VALE2 4, 8, 7, 5
#define A72_TLBI_VAE3IS 6, 8, 3, 1
#define A72_TLBI_VALE3IS 6, 8, 3, 5
#define A72_TLBI_VAE3 6, 8, 7, 1
#define A72_TLBI_VALE3 6, 8, 7, 5
#define A72_AT_S1E1R 0, 7, 8, 0
#define A72_AT_S1E1W 0, 7, 8, 1
#define A72_AT_S1E0R 0, 7, 8, 2
#define A72_AT_S1E0W 0, 7, 8, 3
#define A72_AT_S1E2R 4, 7, 8, 0
#define A72_AT_S1E2W 4, 7, 8, 1
#define A72_AT_S12E1R 4, 7, 8, 4
#define A72_AT_S12E1W 4, 7, 8, 5
#define A72_AT_S12E0R 4, 7, 8, 6
#define A72_AT_S12E0W 4, 7, 8, 7
#define A72_AT_S1E3R 6, 7, 8, 0
#define A72_AT_S1E3W 6, 7, 8, 1
#define A72_DC_ZVA 3, 7, 4, 1
#define A72_DC_IVAC 0, 7, 6, 1
#define A72_DC_ISW 0, 7, 6, 2
#define A72_DC_CSW 0, 7, 10, 2
#define A72_DC_CISW 0, 7, 14, 2
#define A72_DC_CVAC 3, 7, 10, 1
#define A72_DC_CVAU 3, 7, 11, 1
#define A72_DC_CIVAC 3, 7, 14, 1
#define A72_IC_IVAU 3, 7, 5, 1

/* ---- The calls ---- */

/* What a call says beside its number.
 *
 * The reads are those of all walks that the call made. A walk reads at most four descriptors (three with pages of
 * 64 KiB), and none where the address is out of range, its range disabled or the table's base too large. A translation
 * makes no walk where a hint, an entry or stage 1 off answers it, AT none with stage 1 off; any other makes one. An
 * access over two pages translates both, but where the first faults; DC ZVA up to its first store that faults. */
typedef struct a72_answer {
    uint64_t value; /* what it gives, or the address of a fault, where this is said of the call; otherwise it stays */
    uint64_t reads; /* the descriptors read, one that lies outside RAM too */
} a72_answer;

/* The physical address of `va` for an access of this kind at the present level is the value. A fault is at `va`; the
 * value stays. With stage 1 off: `va` without its tag where TBI drops that, and from 2^44 on status 0x00. An access is
 * then judged by its first byte, and its bytes lie from there on. */
uint64_t a72_translate(a72_core *core, uint64_t va, uint64_t kind, a72_answer *answer, uint64_t base,
                       const uint8_t *ram, size_t len);

/* Where a data read of `va` would go, and where a fetch, is the value; A72_FAULT, with no status, where it would fault,
 * and the value stays. */
uint64_t a72_data_pa(a72_core *core, uint64_t va, a72_answer *answer, uint64_t base, const uint8_t *ram,
                     size_t len);
uint64_t a72_fetch_pa(a72_core *core, uint64_t va, a72_answer *answer, uint64_t base, const uint8_t *ram,
                      size_t len);

/* `size` bytes (1, 2, 4, 8) at `va`, zero-extended, are the value. Of a fault it is the address: `va`, but of an access
 * over two pages the lowest failing byte's. The first page's bytes outside RAM come before a fault of the second. */
uint64_t a72_load(a72_core *core, uint64_t va, uint64_t size, a72_answer *answer, uint64_t base,
                  const uint8_t *ram, size_t len);

/* The low `size` bytes of `value` to `va`. Of a fault the answer's value is the address. Both pages are translated
 * before a byte is written. Of an access over two pages the address is the lowest failing byte's: the first page's
 * bytes outside RAM come before a fault of the second. */
uint64_t a72_store(a72_core *core, uint64_t va, uint64_t size, uint64_t value, a72_answer *answer,
                   uint64_t base, uint8_t *ram, size_t len);

/* The instruction at `va` is in the low 32 bits of the value. A fault is at `va`; the value stays. */
uint64_t a72_fetch(a72_core *core, uint64_t va, a72_answer *answer, uint64_t base, const uint8_t *ram,
                   size_t len);

/* SYS: TLBI, AT, DC ZVA; other cache maintenance does nothing. `rt` is the number of the general register. Of a fault
 * of DC ZVA the value is the address. AT answers in PAR_EL1. */
uint64_t a72_system(a72_core *core, uint64_t op1, uint64_t crn, uint64_t crm, uint64_t op2, uint64_t rt,
                    a72_answer *answer, uint64_t base, uint8_t *ram, size_t len);

/* Writes a system register by its key: its mask applies, and the cache forgets what the write unsettles. */
uint64_t a72_register(a72_core *core, uint64_t key, uint64_t value);

/* Sets the present level, 0 to 3. Refused where the present one is above 3 (of words restored): a72_restore or
 * a72_init mends that. */
uint64_t a72_level(a72_core *core, uint64_t level);

/* Marks the accesses that follow as unprivileged (LDTR, STTR): 0 or 1. */
uint64_t a72_mark(a72_core *core, uint64_t mark);

/* Sets a general register, X0 to X30; 31 is the zero register and takes nothing. */
uint64_t a72_general(a72_core *core, uint64_t number, uint64_t value);

/* Takes an exception (A72_EXCEPTION_..): ELR, SPSR, ESR and FAR of the level that it goes to are written, and the
 * level and the PC are the vector's. */
uint64_t a72_abort(a72_core *core, const uint64_t exception[4]);

/* How pages are mapped now: `pages` pages of 4 KiB, at most A72_MOST_PAGES, from that in which `first` lies; the
 * last may end at 2^64. Each is walked afresh by its own address in the regime of the present level, and counted
 * at one place: A72_COUNT_FLAT where stage 1 is off and it is below 2^44, A72_COUNT_STATUS plus the status of a fault, or
 * A72_COUNT_RIGHTS plus the permissions of the page (as in an entry). So the counts add up to `pages`. With
 * A72_DONE all are written, otherwise none. Neither core nor RAM changes, and the cache is not asked. */
uint64_t a72_census(a72_core *core, uint64_t first, uint64_t pages, uint64_t counts[A72_COUNTS],
                    uint64_t base, const uint8_t *ram, size_t len);

/* Which two windows of a list have a physical page in common now. The list is little-endian: two bytes, how many windows
 * it has, at most A72_MOST_WINDOWS; then the first address of each, eight bytes, that of a page of 4 KiB; then how many
 * pages each has, two bytes, 1 to A72_MOST_WINDOW_PAGES; and nothing more. A window may end at 2^64. Each page is
 * translated afresh by its own address, for a privileged write in the regime of the present level: at EL0, and with the
 * mark (a72_mark), too. Windows and pages are counted from 0. Neither core nor RAM changes, and the cache is not asked.
 *   A72_DONE: `out` is 1, i, k: of the windows i < k that share a page those with the least i, and then the least k. It
 *     is 0, 0, 0 where no two share one. A page that lies twice in one window does not count.
 *   A72_CHECK_LIST: the bytes are no such list. With this, A72_CHECK_LEVEL and A72_CHECK_WINDOW `out` stays.
 *   A72_PAGE_FAULTS: `out` is the window, the page in it and the status of the first page that faults, by window and
 *     then page, also where windows before it share one. */
uint64_t a72_windows(a72_core *core, const uint8_t *list, size_t list_len, uint64_t out[3], uint64_t base,
                     const uint8_t *ram, size_t len);

/* Which bit of RAM changes a translation now, as a memory cell that went bad would. The translation meant is the answer
 * to an access of this kind (A72_READ ..) at `va` with nothing cached, in the regime of the present level: the physical
 * address, or the status of a fault. `user` is 0 for the rights of the regime's own level, 1 for EL0's; the regimes of
 * EL2 and EL3 have no EL0, and there both are one. The mark (a72_mark) does not count, and the cache is not asked. With
 * stage 1 alone what is found is one for every kind and `user`, though the answers are not.
 *   A72_DONE: `out` is 1, the physical address of a descriptor, and a bit of its little-endian word, 0 to 63: the
 *     first descriptor in the order of the walk, and in it the lowest bit, such that the answer is another with this
 *     one bit the other way. Each read of the word sees that, also where one table is read at two levels. 0, 0, 0 where
 *     no single bit anywhere in RAM changes the answer: with stage 1 off, or of a zero descriptor at level 0, say.
 *   A72_CHECK_LEVEL, A72_CHECK_WINDOW; A72_NAMES_NOTHING, of a kind or a `user` that is none: `out` stays.
 * The cell goes bad by `ram[out[1] - base + out[2] / 8] ^= 1 << out[2] % 8;`, of which the cache learns by a TLBI.
 * Neither core nor RAM has changed when the call returns. But `ram` is not const: while the call runs it turns bits the
 * other way and back. So nobody else may read the window meanwhile, and it lies in memory that may be written. */
uint64_t a72_flip(a72_core *core, uint64_t va, uint64_t kind, uint64_t user, uint64_t out[3], uint64_t base,
                  uint8_t *ram, size_t len);

/* One walk of the tables without a core, for those who keep a cache of their own. `registers`: SCTLR, TCR and
 * TTBR0 of the regime, TTBR1_EL1, SCR_EL3, HCR_EL2. `regime`: 1 EL1 and EL0, 2 EL2, 3 EL3. `va` has no tag.
 * `leaf`: output address, descriptor, permissions (as in an entry), level, 1 where it holds for every ASID, and how
 * many descriptors were read. Of a fault the sixth alone is written. */
uint64_t a72_walk(const uint64_t registers[6], uint64_t regime, uint64_t va, uint64_t leaf[6], uint64_t base,
                  const uint8_t *ram, size_t len);

/* Any operation by its words. A72_DONE, and all five words of `answer` are written, also where the operation is refused
 * or faults; or A72_NAMES_NOTHING, and nothing is written. */
uint64_t a72_step(const uint64_t op[8], a72_core *core, uint64_t base, uint8_t *ram, size_t len,
                  uint64_t answer[5]);

/* The eight words of an operation: its code and its arguments; all else is 0. */
#define A72_OP_TRANSLATE 1 /* kind, address */
#define A72_OP_DATA_PA 2   /* address */
#define A72_OP_FETCH_PA 3  /* address */
#define A72_OP_LOAD 4      /* address, size */
#define A72_OP_STORE 5     /* address, size, value */
#define A72_OP_FETCH 6     /* address */
#define A72_OP_SYSTEM 7    /* op1, CRn, CRm, op2, register */
#define A72_OP_REGISTER 8  /* key, value */
#define A72_OP_LEVEL 9     /* level */
#define A72_OP_MARK 10     /* 0 or 1 */
#define A72_OP_GENERAL 11  /* number, value */
#define A72_OP_ABORT 12    /* the four words of an exception */
#define A72_OP_CENSUS 13   /* first address, pages: whether it is done; the counts are a72_census's */
#define A72_OP_WINDOWS 14  /* none: whether it misses a check; the list is a72_windows's, and what is found */
#define A72_OP_FLIP 15     /* kind, user, address: whether it misses a check; what is found is a72_flip's */

/* The five words of an answer: its code and what is said beside it, all else 0; the fifth has the descriptors read, as
 * an a72_answer has them, and 0 where the operation is refused. */
#define A72_ANSWER_DONE 0
#define A72_ANSWER_VALUE 1      /* value: an address of translate, data_pa, fetch_pa; what load and fetch read */
#define A72_ANSWER_NONE 2       /* data_pa and fetch_pa: it would fault */
#define A72_ANSWER_CHECK 5      /* the number of the check that is missed */
#define A72_ANSWER_UNDEFINED 6
#define A72_ANSWER_UNIMPLEMENTED 7
#define A72_ANSWER_FAULT 8      /* address, status: of translate */
#define A72_ANSWER_DATA_ABORT 9 /* address, status, write (0 or 1) */
#define A72_ANSWER_INSN_ABORT 10 /* address, status */

/* ---- What a core holds: read, and set where an emulator has to ---- */

/* A system register by its key, in *value: A72_DONE, or A72_CHECK_KEY where no register has it, and *value stays. */
uint64_t a72_get_register(a72_core *core, uint64_t key, uint64_t *value);

/* The present level. */
uint64_t a72_get_level(a72_core *core);

/* 1 where accesses are marked unprivileged, or 0. */
uint64_t a72_get_unprivileged(a72_core *core);

/* PSTATE as an SPSR has it: NZCV in bits 31 to 28, DAIF in 9 to 6, the level in 3 and 2, SP in 0. */
uint64_t a72_get_pstate(a72_core *core);

/* NZCV, DAIF and SP become those of an SPSR's word; the level stays (a72_level sets it). */
void a72_set_pstate(a72_core *core, uint64_t spsr);

/* X0 to X30; all others are zero. */
uint64_t a72_get_general(a72_core *core, uint64_t number);

uint64_t a72_get_pc(a72_core *core);

/* An exception that is taken saves the PC. */
void a72_set_pc(a72_core *core, uint64_t pc);

/* A system register, or zero where no register has the key. */
static inline uint64_t a72_get(a72_core *core, uint64_t key) {
    uint64_t value = 0;
    a72_get_register(core, key, &value);
    return value;
}

static inline uint64_t a72_get_par_el1(a72_core *core) { return a72_get(core, A72_PAR_EL1); }
static inline uint64_t a72_get_ttbr1_el1(a72_core *core) { return a72_get(core, A72_TTBR1_EL1); }
static inline uint64_t a72_get_scr_el3(a72_core *core) { return a72_get(core, A72_SCR_EL3); }
static inline uint64_t a72_get_hcr_el2(a72_core *core) { return a72_get(core, A72_HCR_EL2); }
static inline uint64_t a72_get_vpidr_el2(a72_core *core) { return a72_get(core, A72_VPIDR_EL2); }
static inline uint64_t a72_get_vmpidr_el2(a72_core *core) { return a72_get(core, A72_VMPIDR_EL2); }

/* A register of EL1, EL2 or EL3, by the key of EL1's; zero for any other level. */
static inline uint64_t a72_get_by_level(a72_core *core, uint64_t key, uint64_t level) {
    return 1 <= level && level <= 3 ? a72_get(core, level == 1 ? key : key + (level << 12)) : 0;
}

static inline uint64_t a72_get_sctlr(a72_core *core, uint64_t level) {
    return a72_get_by_level(core, A72_SCTLR_EL1, level);
}

static inline uint64_t a72_get_tcr(a72_core *core, uint64_t level) {
    return a72_get_by_level(core, A72_TCR_EL1, level);
}

static inline uint64_t a72_get_ttbr0(a72_core *core, uint64_t level) {
    return a72_get_by_level(core, A72_TTBR0_EL1, level);
}

static inline uint64_t a72_get_mair(a72_core *core, uint64_t level) {
    return a72_get_by_level(core, A72_MAIR_EL1, level);
}

static inline uint64_t a72_get_vbar(a72_core *core, uint64_t level) {
    return a72_get_by_level(core, A72_VBAR_EL1, level);
}

static inline uint64_t a72_get_elr(a72_core *core, uint64_t level) {
    return a72_get_by_level(core, A72_ELR_EL1, level);
}

static inline uint64_t a72_get_spsr(a72_core *core, uint64_t level) {
    return a72_get_by_level(core, A72_SPSR_EL1, level);
}

static inline uint64_t a72_get_esr(a72_core *core, uint64_t level) {
    return a72_get_by_level(core, A72_ESR_EL1, level);
}

static inline uint64_t a72_get_far(a72_core *core, uint64_t level) {
    return a72_get_by_level(core, A72_FAR_EL1, level);
}

/* The physical address of the last load that was translated. */
uint64_t a72_get_last_pa(a72_core *core);

/* The physical address of the last external abort of an access; it stays until the next. Of a load or store with
 * status 0x10 it is a device's where the access lies in one page (va % 4096 + size <= 4096, or stage 1 is off) and no
 * byte of it in RAM: nothing has moved then. Over two pages it is the lowest byte's outside RAM, and a store may have
 * written those before it. */
uint64_t a72_get_abort_pa(a72_core *core);

/* Translations that an entry of the cache answered, with a permission fault too, and walks, however they ended; by
 * the exception level of the access, 0 to 3, which the mark (a72_mark) does not lower. 0 for a level above 3. This
 * and the next three wrap at 2^64. */
uint64_t a72_get_hits(a72_core *core, uint64_t level);
uint64_t a72_get_walks(a72_core *core, uint64_t level);

/* Flushes of the whole cache; invalidations of a page. */
uint64_t a72_get_flushes(a72_core *core);
uint64_t a72_get_drops(a72_core *core);

/* Moves whenever a translation that was looked up may no longer hold. */
uint64_t a72_get_epoch(a72_core *core);

/* All of these. */
struct a72_counters {
    uint64_t level_hits[4];
    uint64_t level_walks[4];
    uint64_t flushes;
    uint64_t drops;
    uint64_t epoch;
};

static inline struct a72_counters a72_get_counters(a72_core *core) {
    struct a72_counters c;
    for (size_t level = 0; level < 4; level++) {
        c.level_hits[level] = a72_get_hits(core, level);
        c.level_walks[level] = a72_get_walks(core, level);
    }
    c.flushes = a72_get_flushes(core);
    c.drops = a72_get_drops(core);
    c.epoch = a72_get_epoch(core);
    return c;
}

/* The hits of all levels, and the walks: their sums, wrapped at 2^64. */
static inline uint64_t a72_total_hits(struct a72_counters c) {
    return c.level_hits[0] + c.level_hits[1] + c.level_hits[2] + c.level_hits[3];
}

static inline uint64_t a72_total_walks(struct a72_counters c) {
    return c.level_walks[0] + c.level_walks[1] + c.level_walks[2] + c.level_walks[3];
}

/* What a TLBI of the Inner Shareable forms asks of the other cores. */
#define A72_PENDING_NONE 0
#define A72_PENDING_ALL 1
#define A72_PENDING_PAGE 2 /* the TLBI's register as it was: ASID in bits 63 to 48, page number in bits 43 to 0 */
#define A72_PENDING_ASID 3

struct a72_pending {
    uint64_t kind;  /* A72_PENDING_.. */
    uint64_t value; /* of a page or an ASID; otherwise 0 */
};

void a72_get_pending(a72_core *core, struct a72_pending *pending);

/* The same; afterwards nothing is pending. */
void a72_take_pending(a72_core *core, struct a72_pending *pending);

/* On another core, with the kind and the value that a72_take_pending gave: it forgets the same, and what is
 * pending there stays. A72_DONE, or A72_NAMES_NOTHING where the kind is none (A72_PENDING_NONE too), or an ASID
 * has more than 16 bits. */
uint64_t a72_receive(a72_core *core, uint64_t kind, uint64_t value);

/* The cache's generation: a flush moves it, and entries of another are dead. */
uint64_t a72_get_generation(a72_core *core);

/* Sets it, as if many flushes had gone by: the entries that are live stay live, all others become blank, and the
 * hints stay. A72_DONE, or A72_NAMES_NOTHING where no 32 bits hold it. */
uint64_t a72_set_generation(a72_core *core, uint64_t generation);

/* The ASID in force. */
uint64_t a72_get_asid(a72_core *core);

/* An entry of the cache. It stands in slot page number % A72_ENTRIES. */
struct a72_entry {
    uint64_t tag; /* the untagged page number * 4 + regime; 0 where it was dropped */
    uint64_t generation;
    uint64_t permissions; /* read 1, write 2, fetch 4 for EL0; eight times that for the regime's own level */
    uint64_t level;       /* of the tables */
    uint64_t global;      /* 1: for every ASID */
    uint64_t asid;
    uint64_t pa; /* the physical page's address */
};

/* The entry in a slot; past the last a blank one. */
void a72_get_entry(a72_core *core, uint64_t slot, struct a72_entry *entry);

/* Whether an entry may answer: it was not dropped, and is of the present generation. */
static inline int a72_is_live(a72_core *core, struct a72_entry entry) {
    return entry.tag != 0 && entry.generation == a72_get_generation(core);
}

/* A data hint. That of page number p for reads stands in slot (p ^ p >> 5 ^ p >> 10) % 256, for writes 256
 * further. */
struct a72_hint {
    uint64_t key; /* the page's address plus the level; A72_NO_HINT where there is none */
    uint64_t pa;  /* the physical page's address */
};

#define A72_NO_HINT UINT64_MAX

/* The data hint in a slot; past the last none. */
void a72_get_hint(a72_core *core, uint64_t slot, struct a72_hint *hint);

/* The fetch hint. */
struct a72_fetch_hint {
    uint64_t present; /* 1, or 0 where there is none */
    uint64_t page;    /* the page's address */
    uint64_t level;
    uint64_t pa; /* the physical page's address */
};

void a72_get_fetch_hint(a72_core *core, struct a72_fetch_hint *hint);

/* ---- Four cores over one RAM ---- */

/* A cluster is four cores, numbers 0 to 3, each with registers and a cache of its own. A call on one of them is named
 * and numbered as that of a single core, answers as it does, and writes what it writes there. Besides:
 *   The number. One above 3 gives A72_CHECK_CORE, before every other check and A72_NAMES_NOTHING. Nothing is written.
 *   Invalidations. What the core has pending after the call, as it has after a TLBI of the Inner Shareable forms, the
 *     other three carry out, as by a72_receive, and it is pending no more: both before the call returns. A TLBI with
 *     CRm 7 reaches no other core.
 *   Refusals. A call that is refused, with a number from 1 to 66, hands nothing on; nor does a72_cluster_step where the
 *     answer's code is A72_ANSWER_CHECK, A72_ANSWER_UNDEFINED or A72_ANSWER_UNIMPLEMENTED. A fault is no refusal.
 * A census, windows and a flip are calls as the others are.
 *
 * So nothing is pending between calls, unless a core is put in with it (a72_cluster_put): it is then handed on by that
 * core's next call that is not refused.
 *
 * A cluster is what a core is in all else. It lies in memory of the caller's, A72_CLUSTER_SIZE bytes at a multiple of
 * A72_CLUSTER_ALIGN, where it stays. One call at a time uses it, whichever cores they name: the threads of an emulator
 * that share one take turns, each for the call alone. Clusters, and cores beside them, are independent. */
typedef struct a72_cluster a72_cluster;

/* The cluster's address, in A72_HANDLE_SIZE bytes, and after it the four cores. */
#define A72_CLUSTER_SIZE 166952
#define A72_CLUSTER_ALIGN 8

/* A variable that holds a cluster. */
typedef union a72_cluster_memory {
    uint64_t aligned;
    unsigned char bytes[A72_CLUSTER_SIZE];
} a72_cluster_memory;

/* The cluster itself becomes one out of reset, past its address: a72_cluster_init does both. */
void a72_cluster_init_at(void *at);

/* Memory becomes a cluster of four cores out of reset, each as a72_init makes one, VMPIDR_EL2 too. The cluster has the
 * memory's address. */
static inline a72_cluster *a72_cluster_init(void *memory) {
    void *at = (unsigned char *)memory + A72_HANDLE_SIZE;
    memcpy(memory, &at, sizeof at);
    a72_cluster_init_at(at);
    return (a72_cluster *)memory;
}

/* Other memory becomes a cluster that holds the same. */
static inline a72_cluster *a72_cluster_copy(void *memory, const a72_cluster *cluster) {
    void *at = (unsigned char *)memory + A72_HANDLE_SIZE;
    memcpy(memory, &at, sizeof at);
    memcpy(at, (const unsigned char *)cluster + A72_HANDLE_SIZE, A72_CLUSTER_SIZE - A72_HANDLE_SIZE);
    return (a72_cluster *)memory;
}

/* A core of the cluster is copied out, into a core that a72_init or a72_copy made: to be read by a72_get_.., saved, or
 * changed and put in again. A72_DONE or A72_CHECK_CORE. This and a72_cluster_put copy a whole core, A72_CORE_SIZE bytes,
 * and hand nothing on. */
uint64_t a72_cluster_get(a72_cluster *cluster, uint64_t core, a72_core *out);

/* A core is copied in, in the place of that of this number: all that it holds, what is pending too. */
uint64_t a72_cluster_put(a72_cluster *cluster, uint64_t core, a72_core *from);

/* Each call as it is of a single core, under `The calls`: the cluster and the core's number in front, and what is
 * written of the answer last. */
uint64_t a72_cluster_translate(a72_cluster *cluster, uint64_t core, uint64_t va, uint64_t kind, uint64_t base,
                               const uint8_t *ram, size_t len, a72_answer *answer);
uint64_t a72_cluster_data_pa(a72_cluster *cluster, uint64_t core, uint64_t va, uint64_t base, const uint8_t *ram,
                             size_t len, a72_answer *answer);
uint64_t a72_cluster_fetch_pa(a72_cluster *cluster, uint64_t core, uint64_t va, uint64_t base, const uint8_t *ram,
                              size_t len, a72_answer *answer);
uint64_t a72_cluster_load(a72_cluster *cluster, uint64_t core, uint64_t va, uint64_t size, uint64_t base,
                          const uint8_t *ram, size_t len, a72_answer *answer);
uint64_t a72_cluster_store(a72_cluster *cluster, uint64_t core, uint64_t va, uint64_t size, uint64_t value,
                           uint64_t base, uint8_t *ram, size_t len, a72_answer *answer);
uint64_t a72_cluster_fetch(a72_cluster *cluster, uint64_t core, uint64_t va, uint64_t base, const uint8_t *ram,
                           size_t len, a72_answer *answer);
uint64_t a72_cluster_system(a72_cluster *cluster, uint64_t core, uint64_t op1, uint64_t crn, uint64_t crm,
                            uint64_t op2, uint64_t rt, uint64_t base, uint8_t *ram, size_t len, a72_answer *answer);
uint64_t a72_cluster_register(a72_cluster *cluster, uint64_t core, uint64_t key, uint64_t value);
uint64_t a72_cluster_level(a72_cluster *cluster, uint64_t core, uint64_t level);
uint64_t a72_cluster_mark(a72_cluster *cluster, uint64_t core, uint64_t mark);
uint64_t a72_cluster_general(a72_cluster *cluster, uint64_t core, uint64_t number, uint64_t value);
uint64_t a72_cluster_abort(a72_cluster *cluster, uint64_t core, const uint64_t exception[4]);
uint64_t a72_cluster_census(a72_cluster *cluster, uint64_t core, uint64_t first, uint64_t pages, uint64_t base,
                            const uint8_t *ram, size_t len, uint64_t counts[A72_COUNTS]);
uint64_t a72_cluster_windows(a72_cluster *cluster, uint64_t core, const uint8_t *list, size_t list_len, uint64_t base,
                             const uint8_t *ram, size_t len, uint64_t out[3]);
uint64_t a72_cluster_flip(a72_cluster *cluster, uint64_t core, uint64_t va, uint64_t kind, uint64_t user,
                          uint64_t base, uint8_t *ram, size_t len, uint64_t out[3]);

/* A72_DONE, also where the operation is refused; A72_NAMES_NOTHING or A72_CHECK_CORE, and nothing is written. */
uint64_t a72_cluster_step(const uint64_t op[8], a72_cluster *cluster, uint64_t core, uint64_t base, uint8_t *ram,
                          size_t len, uint64_t answer[5]);

/* ---- Sample frames of a number of cycles, without a core ---- */

/* Whole frames at 48,000 and at 44,100 a second, of 1,500,000,000 cycles a second. What is left of the next frame is in
 * *left, which is always written: at 48,000 in cycles, below 31,250; at 44,100 in 147ths of a cycle, below 5,000,000.
 * Every number of cycles has its answer: at 48,000 it is whole * 31250 + *left, at 44,100 147 times it is
 * whole * 5000000 + *left. */
uint64_t a72_frames_48000(uint64_t cycles, uint64_t *left);
uint64_t a72_frames_44100(uint64_t cycles, uint64_t *left);

#ifdef __cplusplus
}
#endif

#endif
