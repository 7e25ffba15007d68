/* a72_windows of include/a72.h: the pair, none, the page that faults, each reason for which bytes are no list, and what it
 * leaves. tests/c.sh builds and runs it. */
#include "readings.h"

struct window {
    uint64_t start, pages;
};

/* One window more than a list may have, and as many bytes. */
static uint8_t list[2 + 10 * (A72_MOST_WINDOWS + 1)];
static size_t list_len;

static void append(uint64_t value, size_t bytes) {
    for (size_t i = 0; i < bytes; i++)
        list[list_len++] = (uint8_t)(value >> 8 * i);
}

/* The list's bytes: how many windows, where each begins, and then how many pages each has. */
static void set_list(const struct window *windows, size_t count) {
    list_len = 0;
    append(count, 2);
    for (size_t i = 0; i < count; i++)
        append(windows[i].start, 8);
    for (size_t i = 0; i < count; i++)
        append(windows[i].pages, 2);
}

#define LIST(...)                                                                                                      \
    do {                                                                                                               \
        const struct window windows[] = {__VA_ARGS__};                                                                 \
        set_list(windows, sizeof windows / sizeof windows[0]);                                                         \
    } while (0)

/* Whether the list gives this number, and these three words are then there; of a call that writes none they are 7. */
static int finds(uint64_t number, uint64_t first, uint64_t second, uint64_t third) {
    uint64_t out[3] = {7, 7, 7};
    uint64_t given = a72_windows(core, list, list_len, out, BASE, ram, LEN);
    return given == number && out[0] == first && out[1] == second && out[2] == third;
}

static int is_none(void) { return finds(A72_DONE, 0, 0, 0); }
static int is_no_list(void) { return finds(A72_CHECK_LIST, 7, 7, 7); }

#define AT(page) (BASE + ((uint64_t)(page) << 12))

/* The first two windows that share a page; the first page that faults. */
static void answers(void) {
    set_list(NULL, 0);
    MUST(list_len == 2 && is_none());
    LIST({AT(0x10), 16}, {AT(0x20), 16}, {AT(0x30), 1});
    MUST(is_none());
    LIST({AT(0x60), 2});
    MUST(is_none());
    LIST({AT(0x10), 2}, {AT(0x20), 3}, {AT(0x30), 1}, {AT(0x22), 1}, {AT(0x11), 4});
    MUST(finds(A72_DONE, 1, 0, 4));
    LIST({AT(0x10), 1}, {AT(0x20), 3}, {AT(0x22), 1}, {AT(0x21), 1});
    MUST(finds(A72_DONE, 1, 1, 2));
    LIST({AT(0x60), 1}, {AT(0x61), 1});
    MUST(finds(A72_DONE, 1, 0, 1));
    LIST({AT(9), 1}, {AT(0xA), 1}, {AT(9), 1});
    MUST(finds(A72_DONE, 1, 0, 2));
    LIST({AT(0x10), 1}, {AT(0x6F), 2}, {AT(0x10), 1});
    MUST(finds(A72_PAGE_FAULTS, 1, 1, 0x0F));
    LIST({AT(0xFF), 2}, {AT(0x70), 1});
    MUST(finds(A72_PAGE_FAULTS, 0, 1, 7));
    LIST({AT(0x10), 1}, {UNMAPPED, 1});
    MUST(finds(A72_PAGE_FAULTS, 1, 0, 5));
    /* as a privileged write whatever the level and the mark */
    LIST({AT(0x60), 1}, {AT(0x61), 1});
    MUST(a72_mark(core, 1) == A72_DONE && finds(A72_DONE, 1, 0, 1) && a72_mark(core, 0) == A72_DONE);
    MUST(a72_level(core, 0) == A72_DONE && finds(A72_DONE, 1, 0, 1));
    /* at EL3 stage 1 is off */
    MUST(a72_level(core, 3) == A72_DONE && is_none());
    LIST({UINT64_MAX - 0xFFF, 1});
    MUST(finds(A72_PAGE_FAULTS, 0, 0, 0) && a72_level(core, 1) == A72_DONE);
}

/* Bytes that are no list, each for one reason. */
static void no_lists(void) {
    struct window many[A72_MOST_WINDOWS + 1];
    for (size_t i = 0; i <= A72_MOST_WINDOWS; i++)
        many[i].start = AT(0x80 + i), many[i].pages = 1;
    set_list(many, A72_MOST_WINDOWS);
    MUST(is_none());
    for (list_len = 0; list_len < 2 + 10 * A72_MOST_WINDOWS; list_len++)
        if (!is_no_list())
            break;
    MUST(list_len == 2 + 10 * A72_MOST_WINDOWS && is_none());
    list_len++;
    MUST(is_no_list());
    set_list(many, A72_MOST_WINDOWS + 1);
    MUST(is_no_list());
    LIST({AT(0x10), 1}, {AT(0x20), 16});
    list[1] = 1; /* 258 windows */
    MUST(is_no_list());
    LIST({AT(0x10), 1}, {AT(0x20) + 1, 16});
    MUST(is_no_list());
    LIST({AT(0x10) + 0x800, 1}, {AT(0x20), 16});
    MUST(is_no_list());
    LIST({AT(0x10), 1}, {AT(0x20), 0});
    MUST(is_no_list());
    LIST({AT(0x10), A72_MOST_WINDOW_PAGES + 1}, {AT(0x30), 16});
    MUST(is_no_list());
    LIST({AT(0x10), 0x101}, {AT(0x30), 16});
    MUST(is_no_list());
    LIST({AT(0x10), 1}, {UINT64_MAX - 0xFFF, 2});
    MUST(is_no_list());
}

/* The checks before it, of bytes that are no list either: nothing is written. */
static void refusals(void) {
    uint64_t out[3] = {7, 7, 7};
    a72_core *c = a72_init(&other);
    a72_saved words;
    list_len = 0;
    MUST(a72_windows(core, list, list_len, out, UINT64_MAX, ram, LEN) == A72_CHECK_WINDOW);
    a72_save(core, words);
    words[A72_PLACE_LEVEL] = 4;
    a72_restore(c, words);
    MUST(a72_windows(c, list, list_len, out, UINT64_MAX, ram, LEN) == A72_CHECK_LEVEL);
    MUST(out[0] == 7 && out[1] == 7 && out[2] == 7);
}

/* Core and RAM are as they were. Pages 0x60 and 0x61 are one, 0x70 may only be read, 9 lies outside RAM, and 0x100 is not
 * mapped. */
int main(void) {
    static uint8_t ram_before[LEN];
    a72_saved before, after;
    set_up();
    put(BASE + 0x3000 + 8 * 0x60, AT(0x61) + 0x403);
    put(BASE + 0x3000 + 8 * 0x70, AT(0x70) + 0x483);
    memcpy(ram_before, ram, sizeof ram);
    a72_save(core, before);
    answers();
    no_lists();
    refusals();
    a72_save(core, after);
    MUST(memcmp(before, after, sizeof before) == 0 && memcmp(ram_before, ram, sizeof ram) == 0);
    return said();
}
