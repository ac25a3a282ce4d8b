#include "test.h"
#include <nic82540em_explore.h>

enum { SMALL = 64, LARGE = 256, SMALLS = 3072, LARGES = 4096, INNER = 0xFFFF, MAPPINGS = 256 };
/* `length`: the number of parts of the block that begins with a part, INNER, or 0 for a free part. Parts from `end` on
 * were never taken. */
struct heap { u8 *begin; size_t part; unsigned count, end; u16 *length; };
struct mapping { dma_addr_t at; u32 size; int direction; };

static u16 small_length[SMALLS], large_length[LARGES];
static u8 memory[SMALLS * SMALL] __attribute__((aligned(4096)));
static struct heap small, large;
static struct mapping mappings[MAPPINGS];
static unsigned mapped;

void kernel_memory_begin(void)
{
    uint64_t size;
    u8 *host = x_host(&size);
    unsigned count = (unsigned)(size / LARGE);

    small = (struct heap){ memory, SMALL, SMALLS, 0, small_length };
    large = (struct heap){ host, LARGE, count < LARGES ? count : LARGES, 1, large_length };
    large_length[0] = 1; /* so no block has the adapter's address 0 */
}

/* Copies and clears bytes. As inline assembly: calls of memcpy and memset are places of the schedule. */
void kernel_copy(void *to, const void *from, size_t count)
{
    __asm__ volatile("rep movsb" : "+D"(to), "+S"(from), "+c"(count) : : "memory");
}

static void clear(void *at, size_t count)
{
    __asm__ volatile("rep stosb" : "+D"(at), "+c"(count) : "a"(0) : "memory");
}

static bool is_zero(const u8 *at, size_t count)
{
    return !count || (!at[0] && !memcmp(at, at + 1, count - 1));
}

static void *take(struct heap *heap, size_t size)
{
    unsigned need = (unsigned)((size + heap->part - 1) / heap->part) + !size, at = 0, free = 0;
    u8 *block;

    while (at < heap->count && free < need)
        if (heap->length[at])
            at += heap->length[at], free = 0;
        else
            at++, free++;
    if (free < need)
        return NULL;
    heap->end = at > heap->end ? at : heap->end;
    at -= need, block = heap->begin + at * heap->part;
    for (unsigned n = 1; n < need; n++)
        heap->length[at + n] = INNER;
    heap->length[at] = (u16)need;
    if (!is_zero(block, need * heap->part))
        kernel_fails("free memory was written: the adapter or the driver uses what was freed");
    return block;
}

static void give(struct heap *heap, const void *block)
{
    size_t at = (size_t)((const u8 *)block - heap->begin) / heap->part;
    unsigned count = at < heap->count ? heap->length[at] : 0;

    if (!count || count == INNER || (const u8 *)block != heap->begin + at * heap->part) {
        kernel_fails("memory is freed twice, or was never allocated");
        return;
    }
    clear(heap->length + at, count * sizeof *heap->length);
    clear(heap->begin + at * heap->part, count * heap->part);
}

static bool is_in(const struct heap *heap, const void *at)
{
    return (const u8 *)at >= heap->begin && (const u8 *)at < heap->begin + heap->count * heap->part;
}

int kernel_check_access(const void *at)
{
    const struct heap *heap = is_in(&large, at) ? &large : is_in(&small, at) ? &small : NULL;

    if (!heap)
        return 0;
    if (!heap->length[(size_t)((const u8 *)at - heap->begin) / heap->part])
        kernel_fails("the driver accesses memory that was freed, or never allocated");
    return heap == &large ? 1 : 2;
}

void kernel_check_free(void)
{
    for (unsigned at = 0; at < large.end; at += large.length[at] ? large.length[at] : 1)
        if (!large.length[at] && !is_zero(large.begin + (size_t)at * LARGE, LARGE))
            kernel_fails("the adapter has written memory that was freed");
}

void *kzalloc(size_t size, gfp_t flags)
{
    if (flags == GFP_KERNEL)
        kernel_sleeps("an allocation with GFP_KERNEL");
    return take(&small, size);
}

void kfree(const void *at)
{
    if (at)
        give(&small, at);
}

void *kernel_host(size_t size)
{
    return take(&large, size);
}

void kernel_host_free(const void *at)
{
    give(&large, at);
}

struct page *alloc_page(gfp_t flags)
{
    if (flags == GFP_KERNEL)
        kernel_sleeps("alloc_page with GFP_KERNEL");
    return take(&large, PAGE_SIZE);
}

void put_page(struct page *page)
{
    give(&large, page);
}

void *netdev_alloc_frag(unsigned size)
{
    return take(&large, size);
}

void skb_free_frag(void *at)
{
    give(&large, (u8 *)at - kernel_address(at) % LARGE); /* the driver passes the address after its room */
}

/* DMA */

u64 kernel_address(const void *at)
{
    return (u64)((const u8 *)at - large.begin);
}

void *dma_alloc_coherent(struct device *device, size_t size, dma_addr_t *at, gfp_t flags)
{
    void *block = take(&large, size);

    (void)device;
    if (flags == GFP_KERNEL)
        kernel_sleeps("dma_alloc_coherent with GFP_KERNEL");
    *at = block ? kernel_address(block) : 0;
    return block;
}

void dma_free_coherent(struct device *device, size_t size, void *block, dma_addr_t at)
{
    (void)device, (void)size;
    if (at != kernel_address(block))
        kernel_fails("dma_free_coherent: the adapter's address isn't that of the memory");
    give(&large, block);
}

static unsigned parts_of(const u8 *at, const u8 **begin)
{
    size_t n = (size_t)(at - large.begin) / LARGE;

    while (n && large.length[n] == INNER)
        n--;
    *begin = large.begin + n * LARGE;
    return large.length[n];
}

/* Whether the adapter has written after the end of what is mapped: in the rest of the block, which is 0 while the adapter
 * has the block */
static bool is_beside(const struct mapping *one)
{
    const u8 *begin, *at = large.begin + one->at;
    unsigned parts = parts_of(at, &begin);

    return !is_zero(at + one->size, (size_t)(begin + (size_t)parts * LARGE - at) - one->size);
}

dma_addr_t kernel_map(void *at, size_t size, int direction)
{
    const u8 *begin;
    size_t parts = is_in(&large, at) ? parts_of(at, &begin) : 0;

    if (!parts || (const u8 *)at + size > begin + parts * LARGE)
        kernel_fails("DMA: what is mapped isn't inside of one block of memory");
    if (mapped == MAPPINGS)
        kernel_fails("DMA: the driver has more than 256 mappings");
    else
        mappings[mapped++] = (struct mapping){ kernel_address(at), (u32)size, direction };
    return kernel_address(at);
}

static struct mapping *mapping_of(dma_addr_t at, int direction)
{
    for (unsigned n = 0; n < mapped; n++)
        if (mappings[n].at <= at && at < mappings[n].at + mappings[n].size && mappings[n].direction == direction)
            return &mappings[n];
    return NULL;
}

void kernel_unmap(dma_addr_t at, size_t size, int direction)
{
    struct mapping *one = mapping_of(at, direction);

    if (!one || one->at != at || one->size != size) {
        kernel_fails("DMA: what is unmapped isn't mapped so: another address, size or direction");
        return;
    }
    if (direction == DMA_FROM_DEVICE && is_beside(one))
        kernel_fails("DMA: the adapter has written after the end of what is mapped");
    /* The rest keeps its order: so the list is the same after the same calls. */
    for (mapped--; one < mappings + mapped; one++)
        *one = one[1];
    *one = (struct mapping){ 0 };
}

void kernel_sync(dma_addr_t at, size_t size, int direction)
{
    const struct mapping *one = mapping_of(at, direction);

    if (!one || at + size > one->at + one->size)
        kernel_fails("DMA: what is synchronized isn't mapped");
}

unsigned kernel_mappings(void)
{
    return mapped;
}
