/*
 * Measures the stack below the library's calls: stack INPUT prints that of a start and of the deepest reading call on the input,
 * in bytes, at both resolutions, with and without automatic line feed, in pieces of 4,096, 16 and 1 bytes. A call is made on a
 * stack of its own, filled with a pattern, and then looked at: what has changed, from the lowest byte up, is what it took.
 */
#include "escp.h"
#include <stdio.h>
#include <stdlib.h>
#include <string.h>

enum {
    STACK = 64 * 1024,
    PAINTED = 2048, /* the uppermost bytes of the stack, which are looked at */
    PATTERN = 0xA5,
    MOST = 1 << 20, /* the longest input */
    PIECE = 4096    /* the longest piece */
};

/* Calls a function with seven arguments, the stack pointer at top, which is a multiple of 16; returns what it returns. */
uint64_t call_on(uint8_t *top, void (*function)(void), const uint64_t *arguments);

#if defined __x86_64__
/* The seventh argument is on the stack, with eight bytes for the alignment: they are the caller's. */
enum { CALLERS = 16 };
__asm__(".text\n"
        "call_on:\n"
        "    push %rbx\n"
        "    mov %rsp, %rbx\n"
        "    mov %rdi, %rsp\n"
        "    mov %rsi, %rax\n"
        "    mov %rdx, %r10\n"
        "    push %rax\n"
        "    push 48(%r10)\n"
        "    mov 0(%r10), %rdi\n"
        "    mov 8(%r10), %rsi\n"
        "    mov 16(%r10), %rdx\n"
        "    mov 24(%r10), %rcx\n"
        "    mov 32(%r10), %r8\n"
        "    mov 40(%r10), %r9\n"
        "    call *%rax\n"
        "    mov %rbx, %rsp\n"
        "    pop %rbx\n"
        "    ret\n");
#elif defined __aarch64__
enum { CALLERS = 0 };
__asm__(".text\n"
        "call_on:\n"
        "    stp x19, x30, [sp, -16]!\n"
        "    mov x19, sp\n"
        "    mov sp, x0\n"
        "    mov x9, x1\n"
        "    mov x10, x2\n"
        "    ldp x0, x1, [x10]\n"
        "    ldp x2, x3, [x10, 16]\n"
        "    ldp x4, x5, [x10, 32]\n"
        "    ldr x6, [x10, 48]\n"
        "    blr x9\n"
        "    mov sp, x19\n"
        "    ldp x19, x30, [sp], 16\n"
        "    ret\n");
#elif defined __riscv && __riscv_xlen == 64
enum { CALLERS = 0 };
__asm__(".text\n"
        "call_on:\n"
        "    addi sp, sp, -16\n"
        "    sd ra, 8(sp)\n"
        "    sd s1, 0(sp)\n"
        "    mv s1, sp\n"
        "    mv sp, a0\n"
        "    mv t1, a1\n"
        "    mv t2, a2\n"
        "    ld a0, 0(t2)\n"
        "    ld a1, 8(t2)\n"
        "    ld a2, 16(t2)\n"
        "    ld a3, 24(t2)\n"
        "    ld a4, 32(t2)\n"
        "    ld a5, 40(t2)\n"
        "    ld a6, 48(t2)\n"
        "    jalr t1\n"
        "    mv sp, s1\n"
        "    ld s1, 0(sp)\n"
        "    ld ra, 8(sp)\n"
        "    addi sp, sp, 16\n"
        "    ret\n");
#else
#error "calls on a stack of its own are written for x86-64, AArch64 and RISC-V of 64 bits"
#endif

static uint8_t input[MOST], out[ESCP_ROOM * PIECE];

static void stop(const char *problem)
{
    fprintf(stderr, "stack: %s\n", problem);
    exit(1);
}

/* How deep a call that answers 0 goes below its caller, in whole words. */
static size_t depth(void (*function)(void), const uint64_t *arguments)
{
    static _Alignas(16) uint8_t stack[STACK];
    uint8_t *painted = stack + STACK - PAINTED;
    size_t untouched = 0;
    memset(painted, PATTERN, PAINTED);
    if ((uint8_t)call_on(stack + STACK, function, arguments) != 0)
        stop("a call does not answer 0");
    while (untouched < PAINTED - CALLERS && painted[untouched] == PATTERN)
        untouched++;
    if (untouched == 0)
        stop("a call goes deeper than what is painted");
    return (PAINTED - CALLERS - untouched + 7) / 8 * 8;
}

static size_t depth_of_start(escp_state *state, const escp_settings *settings)
{
    uint64_t arguments[7] = {(uintptr_t)state, (uintptr_t)settings};
    return depth((void (*)(void))escp_start, arguments);
}

static size_t depth_of_reading(escp_state *state, const uint8_t *piece, size_t length)
{
    escp_counts counts;
    uint64_t arguments[7] = {(uintptr_t)state, (uintptr_t)piece, length,
                             SIZE_MAX,         (uintptr_t)out,   sizeof out, (uintptr_t)&counts};
    return depth((void (*)(void))escp_read, arguments);
}

int main(int count, char **words)
{
    static const size_t pieces[] = {PIECE, 16, 1};
    static const escp_settings settings[] = {{300, 0, 28800}, {300, 1, 28800}, {203, 0, 28800}, {203, 1, 28800}};
    size_t start = 0, reading = 0, deep, length;
    FILE *file = count == 2 ? fopen(words[1], "rb") : NULL;
    if (file == NULL) {
        fprintf(stderr, "stack: takes the file of an input\n");
        return 2;
    }
    length = fread(input, 1, MOST, file);
    if (length == 0 || length == MOST || ferror(file))
        stop("the input is empty, too long, or cannot be read");
    for (size_t which = 0; which < 4; which++)
        for (size_t size = 0; size < 3; size++) {
            escp_state state;
            deep = depth_of_start(&state, &settings[which]);
            start = deep > start ? deep : start;
            for (size_t at = 0; at < length; at += pieces[size]) {
                size_t left = length - at;
                deep = depth_of_reading(&state, input + at, left < pieces[size] ? left : pieces[size]);
                reading = deep > reading ? deep : reading;
            }
        }
    printf("%zu %zu\n", start, reading);
    return 0;
}
