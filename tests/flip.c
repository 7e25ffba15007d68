/* a72_flip of include/a72.h: the first descriptor and its lowest bit, none, beside every bit of a window; refusals, and
 * what it leaves. tests/c.sh builds and runs it. */
#include "readings.h"

#define AT(page) (BASE + ((uint64_t)(page) << 12))

/* Whether this is the number, and these three words are then there; of a call that writes none they are 7. */
static int finds(uint64_t va, uint64_t kind, uint64_t user, uint64_t number, uint64_t found, uint64_t pa,
                 uint64_t bit) {
    uint64_t out[3] = {7, 7, 7};
    uint64_t given = a72_flip(core, va, kind, user, out, BASE, ram, LEN);
    return given == number && out[0] == found && out[1] == pa && out[2] == bit;
}

static int is_bit(uint64_t va, uint64_t pa, uint64_t bit) {
    return finds(va, A72_READ, 0, A72_DONE, 1, pa, bit) && finds(va, A72_READ, 1, A72_DONE, 1, pa, bit) &&
           finds(va, A72_WRITE, 0, A72_DONE, 1, pa, bit) && finds(va, A72_FETCH, 1, A72_DONE, 1, pa, bit);
}

static int is_none(uint64_t va) {
    return finds(va, A72_READ, 0, A72_DONE, 0, 0, 0) && finds(va, A72_WRITE, 1, A72_DONE, 0, 0, 0) &&
           finds(va, A72_FETCH, 0, A72_DONE, 0, 0, 0);
}

/* Whether a window finds this: nothing, or the bit of a descriptor. */
static int in_window(uint64_t va, uint64_t base, size_t len, uint64_t found, uint64_t pa, uint64_t bit) {
    uint64_t out[3] = {7, 7, 7};
    uint64_t given = a72_flip(core, va, A72_READ, 0, out, base, ram + (base - BASE), len);
    return given == A72_DONE && out[0] == found && out[1] == pa && out[2] == bit;
}

static void answers(void) {
    MUST(is_bit(AT(0x10), AT(1) + 8, 0));
    MUST(is_bit(AT(9), AT(1) + 8, 0));                    /* a page outside RAM */
    MUST(is_bit(UNMAPPED, AT(1), 0));                     /* a zero descriptor at level 1: a block would stand there */
    MUST(is_none(UINT64_C(1) << 39));                     /* in no range */
    MUST(in_window(AT(0x10), AT(1) + 9, 0x100, 0, 0, 0)); /* its first byte is outside */
    MUST(in_window(AT(0x10), AT(1) + 8, 8, 1, AT(1) + 8, 0));
    MUST(in_window(AT(0x10), AT(1) + 8, 7, 0, 0, 0));
    /* whatever the mark, and at EL0 */
    MUST(a72_mark(core, 1) == A72_DONE && is_bit(AT(0x10), AT(1) + 8, 0) && a72_mark(core, 0) == A72_DONE);
    MUST(a72_level(core, 0) == A72_DONE && is_bit(AT(0x10), AT(1) + 8, 0));
    /* at EL3 stage 1 is off */
    MUST(a72_level(core, 3) == A72_DONE && is_none(AT(0x10)) && is_none(UINT64_MAX) && a72_level(core, 1) == A72_DONE);
}

/* From level 0, where no block stands: a zero descriptor is none, 1 becomes a table by its bit 1. */
static void from_level_0(void) {
    a72_level(core, 3);
    a72_register(core, A72_TCR_EL1, 16);
    a72_register(core, A72_TTBR0_EL1, AT(0x80));
    a72_level(core, 1);
    MUST(is_none(0));
    put(AT(0x80), AT(0x81) | 1);
    MUST(is_bit(0, AT(0x80), 1));
    put(AT(0x80), AT(0x81) | 2);
    MUST(is_bit(0, AT(0x80), 0));
    put(AT(0x80), AT(0x81) | 3);
    MUST(is_bit(0, AT(0x80), 0));
    put(AT(0x80), 0);
}

/* The answer to a read by the level's own rights, by a core that has nothing cached. */
static uint64_t fresh(uint64_t va, uint64_t base, const uint8_t *window, size_t len) {
    a72_answer answer = {0, 0};
    a72_core *c = a72_copy(&other, core);
    uint64_t number = a72_translate(c, va, A72_READ, &answer, base, window, len);
    return number == A72_DONE ? answer.value : ~number;
}

/* Every bit of a window of RAM the other way: those that change the answer, and the lowest of them in a word. */
static void every_bit(uint64_t va, uint64_t base, size_t len, int changing, uint64_t pa, uint64_t bit) {
    uint8_t *window = ram + (base - BASE);
    uint64_t before = fresh(va, base, window, len);
    int changed = 0, first = 0;
    for (size_t i = 0; i < 8 * len; i++) {
        window[i / 8] ^= (uint8_t)(1 << i % 8);
        if (fresh(va, base, window, len) != before) {
            changed++;
            first += i == 8 * (pa - base) + bit;
        }
        window[i / 8] ^= (uint8_t)(1 << i % 8);
    }
    MUST(changed == changing && first == (changing != 0));
    MUST(in_window(va, base, len, changing != 0, pa, bit));
}

/* A table that maps itself is read at two levels; bit 10 counts at the second alone, as the access flag. */
static void beside_every_bit(void) {
    a72_level(core, 3);
    a72_register(core, A72_TCR_EL1, 34); /* 30 bits: levels 2 and 3 */
    a72_register(core, A72_TTBR0_EL1, AT(0x80));
    a72_level(core, 1);
    put(AT(0x80), AT(0x80) | 0x403);
    every_bit(0x10, AT(0x80), 0x40, 39, AT(0x80), 0); /* 0, 1, 10, and those of its address */
    put(AT(0x80), 0);
    every_bit(0x10, AT(0x80), 0x40, 1, AT(0x80), 0);
    every_bit(0x10, AT(0x80) + 1, 0x40, 0, 0, 0);
}

/* A kind or a view that is none, and the checks: nothing is written. */
static void refusals(void) {
    uint64_t out[3] = {7, 7, 7};
    a72_core *c = a72_init(&other);
    a72_saved words;
    for (uint64_t kind = 0; kind < 9; kind++)
        MUST(kind == A72_READ || kind == A72_WRITE || kind == A72_FETCH ||
             finds(AT(0x10), kind, 0, A72_NAMES_NOTHING, 7, 7, 7));
    MUST(finds(AT(0x10), A72_READ, 2, A72_NAMES_NOTHING, 7, 7, 7));
    MUST(finds(AT(0x10), A72_READ, UINT64_MAX, A72_NAMES_NOTHING, 7, 7, 7));
    MUST(a72_flip(core, AT(0x10), A72_READ, 0, out, UINT64_MAX, ram, LEN) == A72_CHECK_WINDOW);
    a72_save(core, words);
    words[A72_PLACE_LEVEL] = 4;
    a72_restore(c, words);
    MUST(a72_flip(c, AT(0x10), A72_READ, 0, out, UINT64_MAX, ram, LEN) == A72_CHECK_LEVEL);
    MUST(a72_flip(c, AT(0x10), 3, 0, out, UINT64_MAX, ram, LEN) == A72_NAMES_NOTHING);
    MUST(out[0] == 7 && out[1] == 7 && out[2] == 7);
}

/* The same by a72_step: whether it is done, and no more. */
static void by_words(void) {
    uint64_t answer[5] = {7, 7, 7, 7, 7};
    const uint64_t op[8] = {A72_OP_FLIP, A72_READ, 1, AT(0x10), 0, 0, 0, 0};
    const uint64_t none[8] = {A72_OP_FLIP, A72_READ, 2, AT(0x10), 0, 0, 0, 0};
    MUST(a72_step(none, core, BASE, ram, LEN, answer) == A72_NAMES_NOTHING && answer[0] == 7);
    MUST(a72_step(op, core, UINT64_MAX, ram, LEN, answer) == A72_DONE && answer[0] == A72_ANSWER_CHECK);
    MUST(answer[1] == A72_CHECK_WINDOW);
    MUST(a72_step(op, core, BASE, ram, LEN, answer) == A72_DONE && answer[0] == A72_ANSWER_DONE);
    MUST(answer[1] == 0 && answer[2] == 0 && answer[3] == 0 && answer[4] == 0);
}

/* Core and RAM are as they were. */
int main(void) {
    static uint8_t ram_before[LEN];
    a72_saved before, after;
    set_up();
    memcpy(ram_before, ram, sizeof ram);
    a72_save(core, before);
    answers();
    refusals();
    by_words();
    a72_save(core, after);
    MUST(memcmp(before, after, sizeof before) == 0 && memcmp(ram_before, ram, sizeof ram) == 0);
    from_level_0();
    beside_every_bit();
    MUST(memcmp(ram_before, ram, sizeof ram) == 0);
    return said();
}
