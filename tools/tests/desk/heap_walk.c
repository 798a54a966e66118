// A random walk of allocations through heap.c, compiled for this machine: heap_walk SEED STEPS MOST_PAGES
//
// After each step the heap is a chain of blocks that fill it, no two free ones beside each other, each free one in the list for its
// size; each used block still holds the bytes that were put into it; and each answer is aligned and overlaps no other. Where the
// memory may not grow further, the answer is none, and nothing changed. The last line counts what was done.
#include <stdint.h>
#include <stdio.h>
#include <stdlib.h>
#include <string.h>

enum { PAGE_SIZE = 65536, SLOTS = 400 };

// The memory that grows, in place of the machine's. The linker puts __heap_base at its 40th byte.
char memory[512 * PAGE_SIZE] __attribute__((aligned(65536)));
static size_t pages, most_pages;

static size_t memory_size(void) { return ((size_t)memory + pages * PAGE_SIZE) / PAGE_SIZE; }
static size_t memory_grow(size_t more) {
    if (pages + more > most_pages)
        return (size_t)-1;
    pages += more;
    return pages - more;
}

#define __builtin_wasm_memory_size(index) memory_size()
#define __builtin_wasm_memory_grow(index, more) memory_grow(more)
#define malloc heap_malloc
#define free heap_free
#define realloc heap_realloc
#include "../../web/c/heap.c"
#undef malloc
#undef free
#undef realloc

struct slot {
    unsigned char *block;
    size_t size;
    unsigned char byte;
};
static struct slot slots[SLOTS];
static uint64_t state;
static size_t counts[6];

static uint64_t draw(void) {
    state ^= state << 13;
    state ^= state >> 7;
    state ^= state << 17;
    return state;
}

static void require(int holds, const char *what) {
    if (holds)
        return;
    printf("FAILED: %s\n", what);
    exit(1);
}

// Whether the block is in the list for its size.
static int is_listed(const struct block *wanted) {
    for (const struct block *block = lists[list_of(wanted->own)]; block; block = block->next)
        if (block == wanted)
            return 1;
    return 0;
}

// The blocks from the first to top: their number, and that each is as the head of heap.c says.
static void check_chain(void) {
    if (!top)
        return;
    struct block *block = (struct block *)(((size_t)&__heap_base + 15) & ~(size_t)15);
    size_t before = USED, free_blocks = 0, listed = 0;
    while (block != top) {
        require(block->before == before, "a block tells the size of the one before it");
        require(size_of(block) >= LEAST && size_of(block) % 16 == 0, "a size is a multiple of 16, and large enough");
        require((block->own & USED) || (before & USED), "no two free blocks are beside each other");
        if (!(block->own & USED)) {
            free_blocks++;
            require(is_listed(block), "a free block is in the list for its size");
        }
        before = block->own;
        block = after(block, size_of(block));
        require((char *)block <= memory + pages * PAGE_SIZE, "blocks are in the memory");
    }
    require(top->before == before && (before & USED), "the block before top is in use");
    require((char *)top + top->own == memory + pages * PAGE_SIZE, "top ends where the memory ends");
    for (unsigned list = 0; list < LISTS; list++) {
        require(!lists[list] == !(filled[list / 64] >> list % 64 & 1), "a bit tells which lists are filled");
        for (struct block *it = lists[list]; it; it = it->next)
            listed++;
    }
    require(listed == free_blocks, "what is in a list is a free block");
}

static void check_bytes(const struct slot *slot, size_t size) {
    for (size_t i = 0; i < size; i++)
        require(slot->block[i] == slot->byte, "a block keeps its bytes");
}

static void fill(struct slot *slot, unsigned char *block, size_t size) {
    require((size_t)block % 16 == 0, "a block is aligned to 16");
    *slot = (struct slot){block, size, (unsigned char)draw()};
    memset(block, slot->byte, size);
}

static size_t some_size(void) {
    static const size_t most[] = {1, 40, 200, 2000, 20000, 300000};
    return draw() % most[draw() % 6];
}

static void allocate(struct slot *slot) {
    size_t size = draw() % 200 ? some_size() : (size_t)1 << (20 + draw() % 44), before = pages;
    unsigned char *block = heap_malloc(size);
    counts[block ? 0 : 1]++;
    if (block)
        fill(slot, block, size);
    else
        require(pages == before, "a refused allocation takes no memory");
}

static void change(struct slot *slot) {
    size_t size = draw() % 200 ? some_size() : (size_t)1 << (20 + draw() % 44);
    unsigned char *block = heap_realloc(slot->block, size);
    counts[block ? 2 : 3]++;
    if (block)
        slot->block = block;
    check_bytes(slot, block && size < slot->size ? size : slot->size);
    if (block)
        fill(slot, block, size);
}

static void release(struct slot *slot) {
    check_bytes(slot, slot->size);
    heap_free(slot->block);
    slot->block = NULL;
    counts[4]++;
}

static void step(void) {
    struct slot *slot = &slots[draw() % SLOTS];
    if (!slot->block)
        allocate(slot);
    else if (draw() % 2)
        change(slot);
    else
        release(slot);
}

int main(int count, char **words) {
    require(count == 4, "SEED, STEPS and MOST_PAGES are given");
    state = strtoull(words[1], NULL, 10) * 2654435761u + 1;
    size_t steps = strtoull(words[2], NULL, 10);
    most_pages = strtoull(words[3], NULL, 10);
    pages = 1;
    for (size_t i = 0; i < steps; i++) {
        step();
        if (i % 16 == 0)
            check_chain();
    }
    for (struct slot *slot = slots; slot < slots + SLOTS; slot++)
        if (slot->block)
            release(slot);
    check_chain();
    require(!top || top == (struct block *)(((size_t)&__heap_base + 15) & ~(size_t)15), "all is joined once all is free");
    printf("%zu allocated, %zu refused, %zu changed, %zu refused, %zu freed, %zu pages\n", counts[0], counts[1], counts[2], counts[3], counts[4], pages);
    return 0;
}
