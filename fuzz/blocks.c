/* Coverage of the archive's own machine code, for libFuzzer, on Linux, x86-64 or aarch64. The code of libsgf.a is not instrumented:
 * it is the proved object file. So a breakpoint is put at the beginning of each of its basic blocks, whose places fuzz/run
 * finds in the disassembly; the first input that reaches one takes it away again and is told to the fuzzer, which keeps
 * that input. SGF_BLOCKS names the file of places, as offsets from sgf_read_strict; at the end it says how many were reached. */
#define _GNU_SOURCE
#include "sgf.h"

#include <signal.h>
#include <stdio.h>
#include <stdlib.h>
#include <sys/mman.h>
#include <ucontext.h>
#include <unistd.h>

enum { MOST = 1 << 14 };
/* A breakpoint, and the place of one that was met. */
#if defined(__x86_64__)
typedef uint8_t Code;
static const Code TRAP = 0xCC;
static uintptr_t met(ucontext_t *context) { return (uintptr_t)--context->uc_mcontext.gregs[REG_RIP]; }
#elif defined(__aarch64__)
typedef uint32_t Code;
static const Code TRAP = 0xD4200000;
static uintptr_t met(ucontext_t *context) { return context->uc_mcontext.pc; }
#else
#error "blocks.c knows x86-64 and aarch64"
#endif
static Code *blocks[MOST], code[MOST];
static size_t count, reached;
__attribute__((section("__libfuzzer_extra_counters"))) static uint8_t told[MOST];

static void put(Code *at, Code what) {
    *at = what;
    __builtin___clear_cache((char *)at, (char *)(at + 1));
}

static void reach(int signal_number, siginfo_t *info, void *context) {
    Code *at = (Code *)met(context);
    size_t low = 0, high = count;
    while (low + 1 < high) {
        size_t middle = (low + high) / 2;
        if (blocks[middle] <= at) {
            low = middle;
        } else {
            high = middle;
        }
    }
    if (count == 0 || blocks[low] != at) {
        abort();
    }
    put(at, code[low]);
    told[low] = 1;
    reached++;
    (void)signal_number, (void)info;
}

static void report(void) {
    fprintf(stderr, "blocks of libsgf.a: %zu of %zu reached\n", reached, count);
    const char *name = getenv("SGF_UNREACHED");
    FILE *file = name != NULL ? fopen(name, "w") : NULL;
    for (size_t i = 0; file != NULL && i < count; i++) {
        if (*blocks[i] == TRAP) {
            fprintf(file, "%td\n", (uint8_t *)blocks[i] - (uint8_t *)sgf_read_strict);
        }
    }
}

int LLVMFuzzerInitialize(int *argc, char ***argv) {
    const char *name = getenv("SGF_BLOCKS");
    FILE *file = name != NULL ? fopen(name, "r") : NULL;
    long offset;
    while (file != NULL && count < MOST && fscanf(file, "%ld", &offset) == 1) {
        blocks[count++] = (Code *)((uint8_t *)sgf_read_strict + offset);
    }
    if (count == 0) {
        return 0;
    }
    uint8_t *first = (uint8_t *)blocks[0] - (uintptr_t)blocks[0] % (uintptr_t)sysconf(_SC_PAGESIZE);
    if (mprotect(first, (size_t)((uint8_t *)(blocks[count - 1] + 1) - first), PROT_READ | PROT_WRITE | PROT_EXEC) != 0) {
        abort();
    }
    struct sigaction action = {.sa_sigaction = reach, .sa_flags = SA_SIGINFO};
    sigaction(SIGTRAP, &action, NULL);
    for (size_t i = 0; i < count; i++) {
        code[i] = *blocks[i];
        put(blocks[i], TRAP);
    }
    atexit(report);
    (void)argc, (void)argv;
    return 0;
}
