/* A library whose branching cut has one fault, by the program's argument, and a program that calls it by way of host.c: it must be found. */
#include "nesfoal.h"

#include <stdio.h>
#include <stdlib.h>
#include <string.h>

static const char *fault;
static volatile uint8_t seen;

static int has(const char *name) { return strcmp(fault, name) == 0; }

/* Takes more than the header names. */
static __attribute__((noinline)) void deep(void)
{
    volatile uint8_t room[NESFOAL_STACK_BRANCHING];
    for (size_t i = 0; i < sizeof room; i++)
        room[i] = 1;
}

/* What an earlier call has left. */
static __attribute__((noinline)) uint32_t left(void)
{
    uint32_t word;
    __asm__ volatile("mov -4096(%%rsp),%0" : "=r"(word));
    return word;
}

uint32_t shipped_nesfoal_branching(const uint8_t *plan, size_t plan_length, const uint16_t *criterion, size_t criterion_count, uint8_t *slice,
                                   size_t slice_length, uint32_t *length, uint32_t *places, uint32_t *transitions)
{
    *length = *places = *transitions = 7;
    memset(slice, 1, slice_length);
    if (has("reads after"))
        seen = plan[plan_length];
    if (has("reads before"))
        seen = *(plan - 1);
    if (has("writes after"))
        slice[slice_length] ^= 1;
    if (has("writes before"))
        *(slice - 1) ^= 1;
    if (has("writes after a result"))
        transitions[1] ^= 1;
    if (has("writes an input"))
        ((volatile uint8_t *)(uintptr_t)plan)[0] = plan[0];
    if (has("reads with count 0") && criterion_count == 0)
        seen = (uint8_t)*(volatile const uint16_t *)criterion;
    if (has("aligned") && plan_length >= 16)
        __asm__ volatile("movaps (%0),%%xmm0" : : "r"(plan) : "xmm0");
    if (has("deep"))
        deep();
    if (has("left"))
        return left();
    if (has("rounding")) {
        unsigned other = 0x7F80;
        __asm__ volatile("ldmxcsr %0" : : "m"(other));
    }
    if (has("stops"))
        __builtin_trap();
    return 0;
}

/* A function of its own, since a compiler that knew would mend it: rbx, or the direction of strings. */
__asm__(".text\n.globl shipped_nesfoal_effect\n.type shipped_nesfoal_effect,@function\nshipped_nesfoal_effect:\n"
        "    test %cx,%cx\n    je 1f\n    std\n    xor %eax,%eax\n    ret\n1:  not %rbx\n    xor %eax,%eax\n    ret\n");

int main(int count, char **words)
{
    uint8_t plan[40], slice[24];
    uint16_t criterion[3] = {1, 2, 3};
    fault = count == 2 ? words[1] : "";
    for (size_t i = 0; i < sizeof plan; i++)
        plan[i] = (uint8_t)i;
    for (int i = 0; i < 200; i++) {
        uint32_t results[3] = {0, 0, 0};
        int32_t effect = 0;
        memset(slice, 0, sizeof slice);
        uint32_t answer = nesfoal_branching(plan, sizeof plan, criterion, i % 2 ? 3 : 0, slice, sizeof slice, &results[0], &results[1], &results[2]);
        if (answer != 0 || results[0] != 7 || results[1] != 7 || results[2] != 7 || slice[0] != 1 || slice[sizeof slice - 1] != 1) {
            fprintf(stderr, "FAILED: nesfoal_branching: it answers %s\n", answer ? "what stood on the stack" : "nothing");
            return 3;
        }
        if (has("register") || has("direction"))
            nesfoal_effect(plan, sizeof plan, 0, has("direction"), &effect);
    }
    puts("done");
    return 0;
}
