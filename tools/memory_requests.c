/* Stands before the C library (LD_PRELOAD) and counts the program's requests for memory, as the environment says:
 *
 * COUNTS_TO=FILE: numbers of eight bytes. The first is how many requests there were; then for each of the functions,
 * in their order, how often it was entered, and how many requests were made from there to its return.
 * FUNCTIONS=PLACE,..: where each function begins in the program's file, in hexadecimal.
 *
 * The first byte of each function is made a breakpoint. There the return address is put aside and that of a
 * breakpoint of this file put in its place; so each entry and each return is seen, whatever else is on the stack.
 * The program is to have one thread.
 */
#define _GNU_SOURCE
#include <dlfcn.h>
#include <fcntl.h>
#include <link.h>
#include <signal.h>
#include <stdlib.h>
#include <sys/mman.h>
#include <ucontext.h>
#include <unistd.h>

#define MOST 64       /* functions */
#define DEEPEST 1024  /* of them within one another */
#define BREAKPOINT 0xcc
#define ONE_STEP 0x100 /* the flag that has the processor stop behind one instruction */

struct counts {
    long requests;
    struct { long entries, requests; } of[MOST];
};

static struct counts own, *counts;
static unsigned char *begins[MOST], firsts[MOST];
static int functions, stepped = -1;
static struct { int function; long returns_to; } within[DEEPEST];
static int depth;

extern char returned[];
__asm__(".globl returned\n.hidden returned\nreturned: int3\n");

static void enter(int function, greg_t *registers) {
    long *returns_to = (long *)registers[REG_RSP];
    if (depth == DEEPEST) abort();
    within[depth].function = function;
    within[depth++].returns_to = *returns_to;
    *returns_to = (long)returned;
    counts->of[function].entries++;
    *begins[function] = firsts[function];
    registers[REG_RIP] = (greg_t)begins[function];
    registers[REG_EFL] |= ONE_STEP;
    stepped = function;
}

static void stopped(int signal, siginfo_t *info, void *context) {
    greg_t *registers = ((ucontext_t *)context)->uc_mcontext.gregs;
    (void)signal, (void)info;
    if (stepped >= 0) { /* behind the function's first instruction */
        *begins[stepped] = BREAKPOINT;
        registers[REG_EFL] &= ~(greg_t)ONE_STEP;
        stepped = -1;
    } else if (registers[REG_RIP] == (greg_t)returned + 1) {
        registers[REG_RIP] = within[--depth].returns_to;
    } else {
        for (int i = 0; i < functions; i++)
            if (registers[REG_RIP] == (greg_t)begins[i] + 1) return enter(i, registers);
        abort();
    }
}

static void watch(unsigned char *begin) {
    long page = sysconf(_SC_PAGESIZE);
    void *at = (void *)((unsigned long)begin & ~(page - 1));
    if (functions == MOST || mprotect(at, page, PROT_READ | PROT_WRITE | PROT_EXEC)) abort();
    begins[functions] = begin;
    firsts[functions++] = *begin;
    *begin = BREAKPOINT;
}

static int at_program(struct dl_phdr_info *info, size_t size, void *base) {
    (void)size;
    *(unsigned long *)base = info->dlpi_addr;
    return 1; /* the program comes first */
}

__attribute__((constructor)) static void begin(void) {
    const char *path = getenv("COUNTS_TO"), *at = getenv("FUNCTIONS");
    int file = path ? open(path, O_RDWR) : -1;
    void *shared = file < 0 ? MAP_FAILED : mmap(NULL, sizeof own, PROT_READ | PROT_WRITE, MAP_SHARED, file, 0);
    struct sigaction action = {.sa_sigaction = stopped, .sa_flags = SA_SIGINFO};
    unsigned long base = 0;
    counts = shared == MAP_FAILED ? &own : shared;
    dl_iterate_phdr(at_program, &base);
    sigaction(SIGTRAP, &action, NULL);
    while (at && *at) {
        char *next;
        watch((unsigned char *)(base + strtoul(at, &next, 16)));
        at = *next == ',' ? next + 1 : next;
    }
}

static void count(void) {
    if (!counts) return; /* before the program begins */
    counts->requests++;
    for (int i = 0; i < functions; i++)
        for (int k = 0; k < depth; k++)
            if (within[k].function == i) {
                counts->of[i].requests++;
                break;
            }
}

void *malloc(size_t size) {
    static void *(*real)(size_t);
    if (!real) real = dlsym(RTLD_NEXT, "malloc");
    count();
    return real(size);
}

void *realloc(void *old, size_t size) {
    static void *(*real)(void *, size_t);
    if (!real) real = dlsym(RTLD_NEXT, "realloc");
    count();
    return real(old, size);
}
