/* A malloc that refuses one request: the one of this number, from 1, since `asked` was set to 0. */
#ifndef REFUSING_H
#define REFUSING_H
#include <stdbool.h>
#include <stddef.h>

void *__libc_malloc(size_t);
void *__libc_realloc(void *, size_t);
void __libc_free(void *);

static volatile long asked, refused, blocks; /* requests so far, the one to be refused or 0, blocks that stand */

static bool refuses(void) {
    asked = asked + 1;
    return asked == refused;
}

void *malloc(size_t size) {
    void *block = refuses() ? NULL : __libc_malloc(size);
    blocks = blocks + (block != NULL);
    return block;
}

void *realloc(void *old, size_t size) {
    void *block = refuses() ? NULL : __libc_realloc(old, size);
    blocks = blocks + (block && !old);
    return block;
}

void free(void *block) {
    blocks = blocks - (block != NULL);
    __libc_free(block);
}

#endif
