/* The calls of the library, made as a caller may make them and most do not: host.c says how. */
#ifndef NESFOAL_HOST_H
#define NESFOAL_HOST_H

#include <stddef.h>
#include <stdint.h>

/* An argument: a number, or so many entries at a pointer that are read, written, or one result. */
struct argument {
    enum { NUMBER, READ, LENT, RESULT } kind;
    uint64_t number;
    void *entries;
    size_t count, size;
};

/* A call: the library's function, the stack that the header names for it, and what was seen of it so far. */
struct call {
    const char *name;
    void (*function)(void);
    size_t stack;
    size_t used;
    uint64_t times;
    struct call *next;
    int known;
};

uint32_t varied(struct call *call, const struct argument *arguments, size_t count);

#endif
