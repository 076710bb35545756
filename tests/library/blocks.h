// The blocks of memory that a program was given, by which a growth is told from a block that is made smaller.
#include <stddef.h>
#include <stdint.h>

enum { BLOCKS = 1 << 16 };

// Each block stands at the first place from that of its address which has no other. One place is always left.
static struct {
    void *at;
    size_t size;
} blocks[BLOCKS];
static size_t taken;

static size_t place_of(void *at)
{
    size_t place = (uintptr_t)at / 16 % BLOCKS;
    while (blocks[place].at && blocks[place].at != at)
        place = (place + 1) % BLOCKS;
    return place;
}

// Keeps the size of a block, and answers the block.
static void *note(void *at, size_t size)
{
    size_t place = place_of(at);
    if (!at || (!blocks[place].at && taken + 1 == BLOCKS))
        return at;
    taken += !blocks[place].at;
    blocks[place].at = at;
    blocks[place].size = size;
    return at;
}

static int is_growth(void *old, size_t size)
{
    return !old || size > blocks[place_of(old)].size;
}
