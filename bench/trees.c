/* A tree of a million numbers: packed into blocks, then read from a copy of its image, level by level. Prints
   the checksum of the packed bytes, the blocks, the records and their sum, and the nanoseconds of one packing
   and of one reading. */
#include <stdint.h>
#include <stdio.h>
#include <stdlib.h>
#include <string.h>
#include <time.h>

enum {
    BLOCK = 4096, HEADER = 56, LEAF_CAP = 505, NODE_CAP = 336, ITEM = 8, POINTERS = HEADER + NODE_CAP * ITEM,
    MAGIC = 7, OWNER = 2, AGBLOCKS = 4096, DBLOCKS = 4 * AGBLOCKS, FIRST = OWNER * AGBLOCKS + 64,
    RECORDS = 1000000, MOST_BLOCKS = 2048, ROUNDS = 16
};

static uint32_t tables[8][256];
static uint8_t uuid[16];
static uint8_t part[MOST_BLOCKS * BLOCK];
static uint8_t image[(size_t)DBLOCKS * BLOCK];
static uint64_t numbers[RECORDS];

static void fill_tables(void) {
    for (uint32_t i = 0; i < 256; i++) {
        uint32_t r = i;
        for (int k = 0; k < 8; k++) r = r >> 1 ^ (r & 1 ? 0x82f63b78 : 0);
        tables[0][i] = r;
    }
    for (int k = 1; k < 8; k++)
        for (uint32_t i = 0; i < 256; i++)
            tables[k][i] = tables[k - 1][i] >> 8 ^ tables[0][tables[k - 1][i] & 255];
}

static uint32_t after(uint32_t r, const uint8_t *p, size_t n) {
    for (; n >= 8; n -= 8, p += 8) {
        uint64_t word;
        memcpy(&word, p, 8);
        word ^= r;
        r = 0;
        for (int k = 0; k < 8; k++) r ^= tables[7 - k][word >> 8 * k & 255];
    }
    while (n--) r = r >> 8 ^ tables[0][(r ^ *p++) & 255];
    return r;
}

/* the checksum of a block with the four bytes of its own taken as zero */
static uint32_t checksum(const uint8_t *b) {
    static const uint8_t zero[4];
    uint32_t r = after(after(0xffffffff, b, 52), zero, 4);
    return ~after(r, b + 56, BLOCK - 56);
}

static void put16(uint8_t *p, uint16_t x) { x = __builtin_bswap16(x); memcpy(p, &x, 2); }
static void put32(uint8_t *p, uint32_t x) { x = __builtin_bswap32(x); memcpy(p, &x, 4); }
static void put64(uint8_t *p, uint64_t x) { x = __builtin_bswap64(x); memcpy(p, &x, 8); }
static uint16_t get16(const uint8_t *p) { uint16_t x; memcpy(&x, p, 2); return __builtin_bswap16(x); }
static uint32_t get32(const uint8_t *p) { uint32_t x; memcpy(&x, p, 4); return __builtin_bswap32(x); }
static uint64_t get64(const uint8_t *p) { uint64_t x; memcpy(&x, p, 8); return __builtin_bswap64(x); }

static size_t blocks_for(size_t most, size_t items) { return items == 0 ? 1 : (items - 1) / most + 1; }

/* block i of a row of m, whose first place is `row`: all but its items and its checksum */
static uint8_t *begin(size_t row, size_t m, size_t i, size_t level, size_t count) {
    uint8_t *b = part + (row + i) * BLOCK;
    memset(b, 0, BLOCK);
    put32(b, MAGIC);
    put16(b + 4, level);
    put16(b + 6, count);
    put32(b + 8, i == 0 ? UINT32_MAX : (uint32_t)(FIRST % AGBLOCKS + row + i - 1));
    put32(b + 12, i + 1 == m ? UINT32_MAX : (uint32_t)(FIRST % AGBLOCKS + row + i + 1));
    put64(b + 16, 8 * (uint64_t)(FIRST + row + i));
    memcpy(b + 32, uuid, 16);
    put32(b + 48, OWNER);
    return b;
}

static void end(uint8_t *b) {
    uint32_t sum = checksum(b);
    memcpy(b + 52, &sum, 4);
}

/* packs the numbers; how many blocks there are, and in `levels` how many levels */
static size_t pack(size_t *levels) {
    size_t m = blocks_for(LEAF_CAP, RECORDS), row = 0, start = 0, level = 0;
    for (size_t i = 0; i < m; i++) {
        size_t count = RECORDS / m + (i < RECORDS % m);
        uint8_t *b = begin(row, m, i, level, count);
        for (size_t k = 0; k < count; k++) put64(b + HEADER + k * ITEM, numbers[start + k]);
        start += count;
        end(b);
    }
    while (m > 1) {
        size_t below = row, n = m;
        row += m;
        m = blocks_for(NODE_CAP, n);
        level++;
        start = 0;
        for (size_t i = 0; i < m; i++) {
            size_t count = n / m + (i < n % m);
            uint8_t *b = begin(row, m, i, level, count);
            for (size_t k = 0; k < count; k++) {
                memcpy(b + HEADER + k * ITEM, part + (below + start + k) * BLOCK + HEADER, ITEM);
                put32(b + POINTERS + k * 4, FIRST % AGBLOCKS + below + start + k);
            }
            start += count;
            end(b);
        }
    }
    *levels = level + 1;
    return row + m;
}

struct seat { uint64_t place, low; };
struct tree { uint64_t *records, *blocks; size_t count, size; };

static int fails(const char *why, uint64_t block) {
    fprintf(stderr, "block %llu: %s\n", (unsigned long long)block, why);
    exit(1);
}

static void *grown(void *p, size_t count, size_t item) {
    if (count & (count - 1)) return p;
    p = realloc(p, (count ? 2 * count : 1) * item);
    if (!p) fails("no memory", 0);
    return p;
}

/* whether a block can be one of the tree: in its group, not of a fixed use, not met before */
static void test_place(uint64_t place, uint8_t *met) {
    if (place >= DBLOCKS || place / AGBLOCKS != OWNER || place % AGBLOCKS == 0) fails("no block of the group", place);
    if (met[place]++) fails("met twice", place);
}

/* a block between its neighbours: seal, level, count, order, the parent's key, siblings */
static void test(const uint8_t *b, const struct seat *row, size_t n, size_t i, size_t level, int root, uint64_t *before) {
    uint64_t place = row[i].place, last = 0;
    uint32_t sum;
    memcpy(&sum, b + 52, 4);
    if (get32(b) != MAGIC || get64(b + 16) != 8 * place || memcmp(b + 32, uuid, 16) || get32(b + 48) != OWNER || sum != checksum(b)) fails("seal", place);
    if (get16(b + 4) != level) fails("level", place);
    size_t count = get16(b + 6);
    if (count < 1 || count > (level ? NODE_CAP : LEAF_CAP)) fails("count", place);
    if (!level) last = *before;
    for (size_t k = 0; k < count; k++) {
        uint64_t key = get64(b + HEADER + k * ITEM);
        if (key <= last && (k || (!level && i))) fails("order", place);
        last = key;
    }
    if (!level) *before = last;
    if (!root && get64(b + HEADER) != row[i].low) fails("low key", place);
    if (get32(b + 8) != (i == 0 ? UINT32_MAX : (uint32_t)(row[i - 1].place - OWNER * AGBLOCKS))) fails("left sibling", place);
    if (get32(b + 12) != (i + 1 == n ? UINT32_MAX : (uint32_t)(row[i + 1].place - OWNER * AGBLOCKS))) fails("right sibling", place);
}

static struct tree read_tree(uint64_t root, size_t levels) {
    struct tree t = { 0 };
    uint8_t *met = calloc(DBLOCKS, 1), b[BLOCK];
    struct seat *row = grown(NULL, 0, sizeof *row);
    size_t n = 1;
    uint64_t before = 0;
    row[0] = (struct seat){ root, 0 };
    for (size_t level = levels; level-- > 0;) {
        struct seat *next = NULL;
        size_t children = 0;
        for (size_t i = 0; i < n; i++) {
            test_place(row[i].place, met);
            memcpy(b, image + row[i].place * BLOCK, BLOCK);
            test(b, row, n, i, level, level + 1 == levels, &before);
            t.blocks = grown(t.blocks, t.size, sizeof *t.blocks);
            t.blocks[t.size++] = row[i].place;
            size_t count = get16(b + 6);
            for (size_t k = 0; k < count; k++) {
                uint64_t key = get64(b + HEADER + k * ITEM);
                if (level) {
                    next = grown(next, children, sizeof *next);
                    next[children++] = (struct seat){ OWNER * AGBLOCKS + get32(b + POINTERS + k * 4), key };
                } else {
                    t.records = grown(t.records, t.count, sizeof *t.records);
                    t.records[t.count++] = key;
                }
            }
        }
        free(row);
        row = next;
        n = children;
    }
    free(row);
    free(met);
    return t;
}

static long long now(void) {
    struct timespec t;
    clock_gettime(CLOCK_MONOTONIC, &t);
    return t.tv_sec * 1000000000LL + t.tv_nsec;
}

int main(void) {
    size_t levels = 0, size = 0;
    fill_tables();
    for (size_t i = 0; i < 16; i++) uuid[i] = i + 1;
    for (size_t i = 0; i < RECORDS; i++) numbers[i] = 3 * i + 1;
    long long start = now();
    for (int round = 0; round < ROUNDS; round++) size = pack(&levels);
    long long packed = now();
    memcpy(image + (size_t)FIRST * BLOCK, part, size * BLOCK);
    uint64_t sum = 0;
    size_t count = 0, blocks = 0;
    long long read = now();
    for (int round = 0; round < ROUNDS; round++) {
        struct tree t = read_tree(FIRST + size - 1, levels);
        count = t.count;
        blocks = t.size;
        sum += t.records[round];
        if (round == 0) for (size_t i = 0; i < t.count; i++) sum += t.records[i];
        free(t.records);
        free(t.blocks);
    }
    long long done = now();
    uint32_t digest = ~after(0xffffffff, part, size * BLOCK);
    printf("%08x %zu %zu %llu %lld %lld\n", digest, blocks, count, (unsigned long long)sum, (packed - start) / ROUNDS, (done - read) / ROUNDS);
}
