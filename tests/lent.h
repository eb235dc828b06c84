/* What a host in C lends: buffers between guard words, which are looked at after each call, and copies to compare with. */
#ifndef LENT_H
#define LENT_H
#include <stdint.h>
#include <stdio.h>
#include <stdlib.h>
#include <string.h>

static unsigned long passed;

#define EXPECT(what) do { if (what) passed++; else { printf("%s: line %d failed: %s\n", __FILE__, __LINE__, #what); exit(1); } } while (0)

/* ---- buffers between guards */

#define GUARD 8
#define PATTERN 0xA5
#define LENT_MOST 32

typedef struct { unsigned char *base; void *at; size_t count, size; unsigned char *copy; } lent;

static lent *all[LENT_MOST];
static size_t lents;

/* count elements of the given size, each byte set to fill, with GUARD elements before and after */
static inline void lend(lent *l, size_t count, size_t size, int fill)
{
    size_t whole = (count + 2 * GUARD) * size;
    l->base = malloc(whole);
    l->copy = malloc(whole);
    if (!l->base || !l->copy) exit(2);
    l->count = count;
    l->size = size;
    l->at = l->base + GUARD * size;
    memset(l->base, PATTERN, whole);
    memset(l->at, fill, count * size);
    all[lents++] = l;
}

/* the last so many */
static inline void take_back(size_t count)
{
    for (size_t i = 0; i < count; i++) {
        lents--;
        free(all[lents]->base);
        free(all[lents]->copy);
    }
}

static inline void take_back_all(void) { take_back(lents); }

static inline void note(lent *l) { memcpy(l->copy, l->base, (l->count + 2 * GUARD) * l->size); }

static inline void note_all(void) { for (size_t i = 0; i < lents; i++) note(all[i]); }

static inline int same(const lent *l) { return memcmp(l->copy, l->base, (l->count + 2 * GUARD) * l->size) == 0; }

static inline int all_same(void)
{
    for (size_t i = 0; i < lents; i++) if (!same(all[i])) return 0;
    return 1;
}

static inline int all_zero(const lent *l)
{
    const unsigned char *p = l->at;
    for (size_t i = 0; i < l->count * l->size; i++) if (p[i] != 0) return 0;
    return 1;
}

static inline int guarded(const lent *l)
{
    size_t edge = GUARD * l->size, end = edge + l->count * l->size;
    for (size_t i = 0; i < edge; i++) if (l->base[i] != PATTERN || l->base[end + i] != PATTERN) return 0;
    return 1;
}

static inline int all_guarded(void)
{
    for (size_t i = 0; i < lents; i++) if (!guarded(all[i])) return 0;
    return 1;
}

static inline uint64_t *words(const lent *l) { return l->at; }
static inline uint8_t *bytes(const lent *l) { return l->at; }
#endif
