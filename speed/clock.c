// clock ADDRESSES PROGRAM WORDS..: runs a program, and prints after it the nanoseconds of both calls of the functions at
// ADDRESSES (hexadecimal, with commas between), by stopping it where a call begins and where it returns. So what is timed
// is the same machine code whose instructions are counted.
#define _GNU_SOURCE
#include <elf.h>
#include <sched.h>
#include <stdint.h>
#include <stdio.h>
#include <stdlib.h>
#include <sys/ptrace.h>
#include <sys/user.h>
#include <sys/wait.h>
#include <time.h>
#include <unistd.h>

static pid_t child;

static void fail(const char *why) {
    perror(why);
    exit(1);
}

// Puts a breakpoint; the answer is the word that stood there.
static long stop_at(uint64_t at) {
    const long word = ptrace(PTRACE_PEEKTEXT, child, at, 0);
    if (ptrace(PTRACE_POKETEXT, child, at, (word & ~0xffL) | 0xcc)) fail("breakpoint");
    return word;
}

// Goes on to the next breakpoint; the answer is its place, or 0 at the end.
static uint64_t go_on(struct user_regs_struct *registers) {
    int status;
    ptrace(PTRACE_CONT, child, 0, 0);
    if (waitpid(child, &status, 0) < 0) fail("wait");
    if (WIFEXITED(status)) {
        if (WEXITSTATUS(status)) exit(1);
        return 0;
    }
    if (!WIFSTOPPED(status) || WSTOPSIG(status) != SIGTRAP) fail("stopped");
    ptrace(PTRACE_GETREGS, child, 0, registers);
    return registers->rip - 1;
}

static void take_away(struct user_regs_struct *registers, uint64_t at, long word) {
    registers->rip = at;
    ptrace(PTRACE_POKETEXT, child, at, word);
    ptrace(PTRACE_SETREGS, child, 0, registers);
}

// The program's processor time: what it waits for others is left out.
static uint64_t now(void) {
    struct timespec t;
    clockid_t clock;
    if (clock_getcpuclockid(child, &clock) || clock_gettime(clock, &t)) fail("clock");
    return t.tv_sec * 1000000000ull + t.tv_nsec;
}

// Where the program was loaded, if it can be anywhere.
static uint64_t base(const char *program) {
    Elf64_Ehdr head;
    char name[32];
    uint64_t start = 0;
    FILE *file = fopen(program, "rb");
    if (!file || !fread(&head, sizeof head, 1, file)) fail(program);
    fclose(file);
    if (head.e_type == ET_EXEC) return 0;
    snprintf(name, sizeof name, "/proc/%d/maps", child);
    file = fopen(name, "r");
    if (!file || !fscanf(file, "%lx", &start)) fail(name);
    fclose(file);
    return start;
}

static void start(char **words) {
    cpu_set_t set;
    CPU_ZERO(&set);
    CPU_SET(sched_getcpu(), &set);
    sched_setaffinity(0, sizeof set, &set);
    child = fork();
    if (!child) {
        ptrace(PTRACE_TRACEME, 0, 0, 0);
        execv(words[0], words);
        fail(words[0]);
    }
    if (child < 0 || waitpid(child, NULL, 0) < 0) fail("start");
}

int main(int count, char **words) {
    struct user_regs_struct registers;
    uint64_t entries[8], times[2], at;
    long kept[8];
    int n = 0, calls = 0;
    if (count < 3) fail("usage: clock ADDRESSES PROGRAM WORDS..");
    start(words + 2);
    for (char *next = words[1]; *next && n < 8; next += *next == ',', n++) {
        entries[n] = base(words[2]) + strtoull(next, &next, 16);
        kept[n] = stop_at(entries[n]);
    }
    while ((at = go_on(&registers)) && calls < 2) {
        for (n = 0; entries[n] != at; n++) {}
        take_away(&registers, at, kept[n]);
        const uint64_t back = ptrace(PTRACE_PEEKTEXT, child, registers.rsp, 0);
        const long word = stop_at(back);
        const uint64_t since = now();
        if (go_on(&registers) != back) fail("return");
        times[calls++] = now() - since;
        take_away(&registers, back, word);
        stop_at(at);
    }
    printf("%lu %lu\n", times[0], times[1]);
}
