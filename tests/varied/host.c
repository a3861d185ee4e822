/* Makes a call of the library on memory and a stack of its own:
 * - what is lent stands at the end or at the start of pages, with pages that nobody may touch before and after them; bytes stand at
 *   any address, and what is only read in pages that cannot be written;
 * - with count 0 the pointer is null, or points to where nobody may read;
 * - the stack has as many bytes as the header names, filled with anything, with pages that nobody may touch below them;
 * - registers hold anything.
 * Afterwards what a call keeps is looked at (registers, flags, the bytes around a lent buffer), and how much of the stack it wrote over.
 * What goes wrong is said, and ends the program with status 3. At the end a line for each call says how often it was made and what
 * stack it took.
 */
#include "host.h"

#include <pthread.h>
#include <signal.h>
#include <stdio.h>
#include <stdlib.h>
#include <string.h>
#include <sys/mman.h>
#include <unistd.h>

#define PAGE 4096u
#define PARTS 16
#define ROOM (512u * PAGE)       /* of a part */
#define STACK (64u * PAGE)       /* of the largest stack, and room above it for arguments */
#define BEHIND 16u               /* arguments after the sixth */
#define AROUND 64                /* bytes before and after a lent buffer that are looked at */

/* One call on its way. The offsets are those of the assembler text below. */
struct turn {
    uint64_t registers[6]; /* 0: the first six arguments */
    uint64_t top;          /* 48: where the stack starts */
    uint64_t old;          /* 56: the caller's stack pointer */
    uint64_t result;       /* 64 */
    uint64_t wrong;        /* 72: registers that the call should have kept, by bits; 64: the direction of strings */
    uint64_t fill;         /* 80: what other registers hold before it */
};

/* Above the top stand sixteen arguments, then the turn and the function: the top is all that a call is sure to give back. */
void on_stack(struct turn *);
__asm__(".text\n"
        ".type on_stack,@function\n"
        "on_stack:\n"
        "    push %rbx\n    push %rbp\n    push %r12\n    push %r13\n    push %r14\n    push %r15\n"
        "    mov %rsp,56(%rdi)\n"
        "    mov 80(%rdi),%rax\n"
        "    movq %rax,%xmm0\n"
        "    punpcklqdq %xmm0,%xmm0\n"
        "    movdqa %xmm0,%xmm1\n    movdqa %xmm0,%xmm2\n    movdqa %xmm0,%xmm3\n    movdqa %xmm0,%xmm4\n    movdqa %xmm0,%xmm5\n"
        "    movdqa %xmm0,%xmm6\n    movdqa %xmm0,%xmm7\n    movdqa %xmm0,%xmm8\n    movdqa %xmm0,%xmm9\n    movdqa %xmm0,%xmm10\n"
        "    movdqa %xmm0,%xmm11\n    movdqa %xmm0,%xmm12\n    movdqa %xmm0,%xmm13\n    movdqa %xmm0,%xmm14\n    movdqa %xmm0,%xmm15\n"
        "    mov %rax,%rbx\n    mov %rax,%rbp\n    mov %rax,%r12\n    mov %rax,%r13\n    mov %rax,%r14\n    mov %rax,%r15\n"
        "    mov %rax,%r10\n    mov %rax,%r11\n"
        "    mov 48(%rdi),%rsp\n"
        "    mov 8(%rdi),%rsi\n    mov 16(%rdi),%rdx\n    mov 24(%rdi),%rcx\n    mov 32(%rdi),%r8\n    mov 40(%rdi),%r9\n"
        "    mov (%rdi),%rdi\n"
        "    call *136(%rsp)\n"
        "    mov 128(%rsp),%rdi\n"
        "    mov %rax,64(%rdi)\n"
        "    xor %edx,%edx\n"
        "    mov 80(%rdi),%rcx\n"
        "    cmp %rcx,%rbx\n    je 1f\n    or $1,%edx\n1:  cmp %rcx,%rbp\n    je 1f\n    or $2,%edx\n"
        "1:  cmp %rcx,%r12\n    je 1f\n    or $4,%edx\n1:  cmp %rcx,%r13\n    je 1f\n    or $8,%edx\n"
        "1:  cmp %rcx,%r14\n    je 1f\n    or $16,%edx\n1:  cmp %rcx,%r15\n    je 1f\n    or $32,%edx\n"
        "1:  pushfq\n    pop %rax\n    cld\n    test $0x400,%eax\n    je 1f\n    or $64,%edx\n"
        "1:  mov %rdx,72(%rdi)\n"
        "    mov 56(%rdi),%rsp\n"
        "    pop %r15\n    pop %r14\n    pop %r13\n    pop %r12\n    pop %rbp\n    pop %rbx\n"
        "    ret\n"
        ".size on_stack,.-on_stack\n");

/* What a thread has: pages for each part, a stack, and what it is doing. */
struct part {
    uint8_t *pages; /* ROOM bytes between two pages that nobody may touch */
    uint8_t *at;    /* where its bytes stand */
    size_t bytes;
    uint8_t around[2][AROUND];
};

struct thread {
    struct part parts[PARTS];
    uint8_t *stack; /* STACK bytes above a page that nobody may touch */
    uint64_t random;
    const struct call *call;
    size_t parts_used;
};

static __thread struct thread *here;
static pthread_mutex_t lock = PTHREAD_MUTEX_INITIALIZER;
static struct call *calls;

/* Says what went wrong, without anything that a signal must not call, and ends the program. */
static void fail(const char *what)
{
    const char *name = here && here->call ? here->call->name : "no call";
    const char *texts[] = {"FAILED: ", name, ": ", what, "\n"};
    for (size_t i = 0; i < 5; i++)
        if (write(2, texts[i], strlen(texts[i])) < 0)
            break;
    _exit(3);
}

static void fault(int number, siginfo_t *info, void *context)
{
    const uint8_t *at = info->si_addr;
    (void)context;
    if (here && number == SIGSEGV && at >= here->stack - PAGE && at < here->stack)
        fail("it takes more stack than the header names");
    for (size_t i = 0; here && number == SIGSEGV && i < PARTS; i++) {
        const uint8_t *pages = here->parts[i].pages;
        if (pages && at >= pages && at < pages + ROOM)
            fail("it writes what is only lent to read");
        if (pages && at >= pages - PAGE && at < pages + ROOM + PAGE)
            fail("it reaches past what is lent");
    }
    fail(number == SIGSEGV ? "it reaches where nothing is, or by an address that is not aligned" : "it stops the program");
}

/* So many bytes between pages that nobody may touch. */
static uint8_t *between(size_t bytes)
{
    uint8_t *pages = mmap(NULL, bytes + 2 * PAGE, PROT_NONE, MAP_PRIVATE | MAP_ANONYMOUS | MAP_NORESERVE, -1, 0);
    if (pages == MAP_FAILED || mprotect(pages + PAGE, bytes, PROT_READ | PROT_WRITE) != 0)
        fail("there is no memory for it");
    return pages + PAGE;
}

static void say_all(void)
{
    for (const struct call *c = calls; c; c = c->next)
        printf("varied %s: %llu calls, stack %zu of %zu bytes\n", c->name + 8, (unsigned long long)c->times, c->used, c->stack);
}

static void begin(void)
{
    static int handled;
    struct thread *t = calloc(1, sizeof *t);
    stack_t other = {.ss_size = 65536, .ss_sp = malloc(65536)};
    if (!t || !other.ss_sp || sigaltstack(&other, NULL) != 0)
        fail("there is no memory for it");
    here = t;
    for (size_t i = 0; i < PARTS; i++)
        t->parts[i].pages = between(ROOM);
    t->stack = between(STACK);
    pthread_mutex_lock(&lock);
    static uint64_t threads;
    t->random = 0x9E3779B97F4A7C15u * ++threads;
    if (!handled) {
        struct sigaction action = {.sa_sigaction = fault, .sa_flags = SA_SIGINFO | SA_ONSTACK};
        int signals[] = {SIGSEGV, SIGBUS, SIGILL, SIGFPE, SIGTRAP};
        for (size_t i = 0; i < sizeof signals / sizeof *signals; i++)
            sigaction(signals[i], &action, NULL);
        atexit(say_all);
        handled = 1;
    }
    pthread_mutex_unlock(&lock);
}

static uint64_t anything(void)
{
    uint64_t x = here->random;
    x ^= x << 13;
    x ^= x >> 7;
    x ^= x << 17;
    return here->random = x;
}

/* The bytes of a part from the first page to the last one that has some. */
static void protect(const struct part *p, int how)
{
    uint8_t *first = (uint8_t *)((uintptr_t)p->at / PAGE * PAGE);
    if (p->bytes && mprotect(first, (size_t)(p->at + p->bytes - first), how) != 0)
        fail("a page cannot be protected");
}

/* The bytes before and after a part, as far as there are any. */
static size_t room_before(const struct part *p)
{
    size_t n = (size_t)(p->at - p->pages);
    return n < AROUND ? n : AROUND;
}

static size_t room_after(const struct part *p)
{
    size_t n = (size_t)(p->pages + ROOM - p->at) - p->bytes;
    return n < AROUND ? n : AROUND;
}

/* Puts an argument into a part's pages; the pointer to hand over. */
static void *place(struct part *p, const struct argument *a)
{
    p->bytes = a->count * a->size;
    if (p->bytes > ROOM / 2)
        fail("more is lent than the test has room for");
    if (a->count == 0) {
        void *where[] = {NULL, p->pages - PAGE, p->pages + ROOM, (void *)1};
        p->at = p->pages;
        return where[anything() % 4];
    }
    switch (anything() % 3) {
    case 0: /* nothing after it */
    default:
        p->at = p->pages + ROOM - p->bytes;
        break;
    case 1: /* nothing before it */
        p->at = p->pages;
        break;
    case 2: /* anywhere that its type allows */
        p->at = p->pages + PAGE + a->size * (anything() % 64);
        break;
    }
    memcpy(p->at, a->entries, p->bytes);
    uint64_t fill = anything();
    memset(p->at - room_before(p), (int)(fill & 255), room_before(p));
    memset(p->at + p->bytes, (int)(fill >> 8 & 255), room_after(p));
    memcpy(p->around[0], p->at - room_before(p), room_before(p));
    memcpy(p->around[1], p->at + p->bytes, room_after(p));
    if (a->kind == READ)
        protect(p, PROT_READ);
    return p->at;
}

/* Takes back what a call wrote. */
static void take_back(struct part *p, const struct argument *a)
{
    if (a->count == 0)
        return;
    if (a->kind == READ)
        protect(p, PROT_READ | PROT_WRITE);
    if (memcmp(p->around[0], p->at - room_before(p), room_before(p)) != 0)
        fail("it writes before what is lent");
    if (memcmp(p->around[1], p->at + p->bytes, room_after(p)) != 0)
        fail("it writes after what is lent");
    if (a->kind != READ)
        memcpy(a->entries, p->at, p->bytes);
}

uint32_t varied(struct call *call, const struct argument *arguments, size_t count)
{
    struct turn turn = {.result = 0};
    uint64_t words[6 + BEHIND] = {0}, fills[] = {0, UINT64_MAX, 0x5A5A5A5A5A5A5A5Au, 0};
    size_t n = 0;
    unsigned rounding = 0, after = 0;
    if (!here)
        begin();
    here->call = call;
    for (size_t i = 0; i < count; i++) {
        const struct argument *a = &arguments[i];
        if (i >= PARTS || n + 2 > 6 + BEHIND)
            fail("it has more arguments than the test has room for");
        if (a->kind == NUMBER) {
            /* the upper half of a register is the caller's own */
            words[n++] = a->number | anything() << 32;
            continue;
        }
        words[n++] = (uint64_t)(uintptr_t)place(&here->parts[i], a);
        if (a->kind != RESULT)
            words[n++] = a->count;
    }

    /* the stack: what the header names, then the arguments that come after the sixth, the turn and the function */
    if (call->stack == 0 || call->stack % 16 != 0 || call->stack + 256 > STACK)
        fail("the stack that the header names is no multiple of 16, or more than the test has room for");
    uint64_t *top = (uint64_t *)(here->stack + call->stack), *bottom = (uint64_t *)here->stack;
    fills[3] = anything() | 1;
    turn.fill = anything();
    uint64_t fill = fills[anything() % 4];
    for (uint64_t *w = bottom; w < top; w++)
        *w = fill;
    memcpy(turn.registers, words, sizeof turn.registers);
    for (size_t i = 0; i < BEHIND; i++)
        top[i] = 6 + i < n ? words[6 + i] : fill;
    top[BEHIND] = (uint64_t)(uintptr_t)&turn;
    top[BEHIND + 1] = (uint64_t)(uintptr_t)call->function;
    turn.top = (uint64_t)(uintptr_t)top;
    __asm__ volatile("stmxcsr %0" : "=m"(rounding));
    on_stack(&turn);
    __asm__ volatile("stmxcsr %0" : "=m"(after));

    if (turn.wrong & 63)
        fail("a register is not kept");
    if (turn.wrong & 64)
        fail("the direction of strings is turned round");
    /* the lowest six bits only tell what happened */
    if ((rounding ^ after) & ~63u)
        fail("fractions are rounded otherwise");
    for (size_t i = 0; i < count; i++)
        if (arguments[i].kind != NUMBER)
            take_back(&here->parts[i], &arguments[i]);
    size_t used = call->stack;
    for (const uint64_t *w = bottom; w < top && *w == fill; w++)
        used -= 8;
    pthread_mutex_lock(&lock);
    if (!call->known) {
        call->known = 1;
        call->next = calls;
        calls = call;
    }
    call->times++;
    if (used > call->used)
        call->used = used;
    pthread_mutex_unlock(&lock);
    here->call = NULL;
    return (uint32_t)turn.result;
}
