#define _DEFAULT_SOURCE
#include "lent.h"
#include "compare.h"

#include <stdio.h>
#include <stdlib.h>
#include <string.h>
#include <sys/mman.h>
#include <unistd.h>

enum { BESIDE = 64, STEPS = 16 };

static _Noreturn void no_memory(void)
{
    printf("compare: FAILED: no memory\n");
    exit(1);
}

static size_t whole_pages(size_t size)
{
    size_t page = (size_t)sysconf(_SC_PAGESIZE);
    return (size + page - 1) / page * page;
}

void make_room(struct lent *m, const char *name, size_t most, size_t behind)
{
    size_t before = whole_pages(1);
    m->name = name;
    m->room_size = whole_pages(BESIDE + STEPS * sizeof(uint64_t) + most + BESIDE);
    m->wanted = malloc(m->room_size);
    uint8_t *pages = mmap(NULL, before + m->room_size + whole_pages(behind + 1), PROT_NONE,
        MAP_PRIVATE | MAP_ANONYMOUS | MAP_NORESERVE, -1, 0);
    if (m->wanted == NULL || pages == MAP_FAILED)
        no_memory();
    m->room = pages + before;
    unlock_lent(m);
}

static void protect(const struct lent *m, int how)
{
    if (mprotect(m->room, m->room_size, how) != 0)
        no_memory();
}

void lock_lent(const struct lent *m)
{
    protect(m, PROT_READ);
}

void unlock_lent(const struct lent *m)
{
    protect(m, PROT_READ | PROT_WRITE);
}

static void fill(uint8_t *bytes, size_t length)
{
    for (size_t i = 0; i < length; i += sizeof(uint64_t)) {
        uint64_t random = random64();
        memcpy(bytes + i, &random, length - i < sizeof random ? length - i : sizeof random);
    }
}

void keep_lent(struct lent *m)
{
    memcpy(m->wanted, m->from, m->length);
}

/* Lends them there. */
static void lend_at(struct lent *m, uint8_t *at, size_t size)
{
    uint8_t *end = m->room + m->room_size;
    m->size = size;
    m->bytes = at;
    m->from = at - m->room < BESIDE ? m->room : at - BESIDE;
    uint8_t *to = end - (at + size) < BESIDE ? end : at + size + BESIDE;
    m->length = (size_t)(to - m->from);
    fill(m->from, m->length);
    keep_lent(m);
}

void lend_last(struct lent *m, size_t size)
{
    lend_at(m, m->room + m->room_size - size, size);
}

void lend(struct lent *m, size_t size, size_t step)
{
    uint64_t chosen = random64();
    if (chosen % 4 == 1)
        lend_last(m, size);
    else
        lend_at(m, chosen % 4 == 0 ? m->room : m->room + BESIDE + (chosen >> 32) % STEPS * step, size);
}

void *lent_place(const struct lent *m)
{
    return m->size == 0 && random64() & 1 ? NULL : m->bytes;
}

void put_lent(struct lent *m, const void *bytes, size_t size)
{
    memcpy(m->bytes, bytes, size);
    want_lent(m, bytes, size);
}

void want_lent(struct lent *m, const void *bytes, size_t size)
{
    memcpy(m->wanted + (m->bytes - m->from), bytes, size);
}

static _Noreturn void fail_lent(const char *what, const struct lent *m)
{
    static char text[200];
    snprintf(text, sizeof text, "%s: %s", m->name, what);
    fail(text, NULL);
}

void check_beside(const struct lent *m)
{
    size_t before = (size_t)(m->bytes - m->from), behind = before + m->size;
    if (memcmp(m->from, m->wanted, before) != 0 ||
        memcmp(m->from + behind, m->wanted + behind, m->length - behind) != 0)
        fail_lent("bytes beside what was lent changed", m);
}

void check_lent(const struct lent *m, const char *what)
{
    if (memcmp(m->from, m->wanted, m->length) == 0)
        return;
    check_beside(m);
    fail_lent(what, m);
}
