/* What a call takes by its hint, counted in the function alone: the call is single-stepped in a child, from its first
   instruction to its return. A line for each call: its name, its instructions on one core and on one of four.
     cc -O2 -I../include steps.c liba72abi.a -o steps && ./steps */
#include <signal.h>
#include <stdint.h>
#include <stdio.h>
#include <stdlib.h>
#include <sys/ptrace.h>
#include <sys/user.h>
#include <sys/wait.h>
#include <unistd.h>
#include "a72.h"

static a72_memory one_memory;
static a72_cluster_memory four_memory;
static a72_core *one;
static a72_cluster *four;
static uint8_t ram[1 << 16] __attribute__((aligned(4096)));
static a72_answer answer;
static uint64_t number;
static const uint64_t VA = 0x1008, CORE = 1;
typedef void (*call)(void);

static void translate(void) { number = a72_translate(one, VA, A72_READ, &answer, 0, ram, sizeof ram); }
static void load(void) { number = a72_load(one, VA, 8, &answer, 0, ram, sizeof ram); }
static void store(void) { number = a72_store(one, VA, 8, 5, &answer, 0, ram, sizeof ram); }
static void fetch(void) { number = a72_fetch(one, VA, &answer, 0, ram, sizeof ram); }
static void data_pa(void) { number = a72_data_pa(one, VA, &answer, 0, ram, sizeof ram); }
static void fetch_pa(void) { number = a72_fetch_pa(one, VA, &answer, 0, ram, sizeof ram); }
static void four_translate(void) { number = a72_cluster_translate(four, CORE, VA, A72_READ, 0, ram, sizeof ram, &answer); }
static void four_load(void) { number = a72_cluster_load(four, CORE, VA, 8, 0, ram, sizeof ram, &answer); }
static void four_store(void) { number = a72_cluster_store(four, CORE, VA, 8, 5, 0, ram, sizeof ram, &answer); }
static void four_fetch(void) { number = a72_cluster_fetch(four, CORE, VA, 0, ram, sizeof ram, &answer); }
static void four_data_pa(void) { number = a72_cluster_data_pa(four, CORE, VA, 0, ram, sizeof ram, &answer); }
static void four_fetch_pa(void) { number = a72_cluster_fetch_pa(four, CORE, VA, 0, ram, sizeof ram, &answer); }

static void failed(const char *why) {
    fprintf(stderr, "steps: %s\n", why);
    exit(1);
}

/* The instructions of the function at an address, in one run of a body that calls it. */
static long counted(call body, call function) {
    pid_t child = fork();
    if (child < 0) failed("no child could be made");
    if (child == 0) {
        ptrace(PTRACE_TRACEME, 0, 0, 0);
        raise(SIGSTOP);
        body();
        _exit(0);
    }
    int status;
    unsigned long back = 0, stack = 0;
    long steps = 0;
    waitpid(child, &status, 0);
    for (;;) {
        struct user_regs_struct now;
        if (ptrace(PTRACE_GETREGS, child, 0, &now)) failed("the child's registers can't be read");
        if (!steps && now.rip == (uintptr_t)function) {
            stack = now.rsp;
            back = (unsigned long)ptrace(PTRACE_PEEKDATA, child, (void *)now.rsp, 0);
            steps = 1;
        } else if (steps && now.rip == back && now.rsp > stack) {
            break;
        } else if (steps) {
            steps++;
        }
        if (ptrace(PTRACE_SINGLESTEP, child, 0, 0)) failed("the child can't be stepped");
        waitpid(child, &status, 0);
        if (!WIFSTOPPED(status) || WSTOPSIG(status) != SIGTRAP) failed("the child ended before the call did");
    }
    kill(child, SIGKILL);
    waitpid(child, &status, 0);
    return steps;
}

int main(void) {
    static const struct {
        const char *name;
        call one, four, one_is, four_is;
    } calls[] = {
        { "translate: hint hit, read", translate, four_translate, (call)a72_translate, (call)a72_cluster_translate },
        { "load 8: hint hit", load, four_load, (call)a72_load, (call)a72_cluster_load },
        { "store 8: hint hit", store, four_store, (call)a72_store, (call)a72_cluster_store },
        { "fetch: fetch hint hit", fetch, four_fetch, (call)a72_fetch, (call)a72_cluster_fetch },
        { "data_pa: hint hit", data_pa, four_data_pa, (call)a72_data_pa, (call)a72_cluster_data_pa },
        { "fetch_pa: fetch hint hit", fetch_pa, four_fetch_pa, (call)a72_fetch_pa, (call)a72_cluster_fetch_pa },
    };
    for (unsigned i = 0; i < sizeof calls / sizeof *calls; i++) {
        one = a72_init(&one_memory);
        four = a72_cluster_init(&four_memory);
        /* the first call leaves the hint */
        calls[i].one();
        if (number) failed("a call on one core gives no answer");
        calls[i].four();
        if (number) failed("a call on four cores gives no answer");
        printf("%s | %ld | %ld\n", calls[i].name, counted(calls[i].one, calls[i].one_is), counted(calls[i].four, calls[i].four_is));
    }
}
