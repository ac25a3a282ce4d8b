/* Memory and DMA. What the adapter reads and writes is in its host's memory; all else is in a heap of the small kernel.
 * Both are taken first fit, and freed bytes are 0: so equal contents have equal addresses and bytes. */
#ifndef KERNEL_MEMORY_H
#define KERNEL_MEMORY_H

enum { GFP_KERNEL = 0, GFP_ATOMIC = 1 };
#define PAGE_SIZE 4096ul

/* Returns memory of zeros, or NULL. With GFP_KERNEL, it may sleep. */
void *kzalloc(size_t size, gfp_t flags);
void kfree(const void *at);
/* As kzalloc; its bytes are 0 here, while in the kernel they are whatever was there. */
#define kmalloc kzalloc
#define kcalloc(count, size, flags) kzalloc((size_t)(count) * (size), flags)
#define kmalloc_array kcalloc
#define vzalloc(size) kzalloc(size, GFP_KERNEL)
#define vmalloc(size) kzalloc(size, GFP_KERNEL)
#define vfree kfree
#define strscpy(to, from, size) ((void)strncpy(to, from, (size) - 1))

/* Pages, and fragments of pages that packets are built in. Their addresses are those of the processor. */
struct page { u8 bytes[1]; };
struct page *alloc_page(gfp_t flags);
void put_page(struct page *page);
#define page_address(page) ((void *)(page))
#define kmap_atomic(page) ((void *)(page))
#define kunmap_atomic(at) ((void)(at))
#define page_to_phys(page) kernel_address(page)
#define phys_to_virt(at) ((void *)(unsigned long)(at))
void *netdev_alloc_frag(unsigned size);
void skb_free_frag(void *at);

/* DMA. The adapter may access what is mapped, up to the unmapping with the same address, size and direction. */
enum { DMA_BIDIRECTIONAL = 0, DMA_TO_DEVICE = 1, DMA_FROM_DEVICE = 2 };
struct device;
#define DMA_BIT_MASK(n) (~0ull >> (64 - (n)))
#define dma_set_mask_and_coherent(device, mask) 0
/* Returns memory for both, of zeros, and stores the adapter's address of it; NULL if there is none. */
void *dma_alloc_coherent(struct device *device, size_t size, dma_addr_t *at, gfp_t flags);
void dma_free_coherent(struct device *device, size_t size, void *memory, dma_addr_t at);
/* Maps memory, and returns the adapter's address of it. */
dma_addr_t kernel_map(void *at, size_t size, int direction);
void kernel_unmap(dma_addr_t at, size_t size, int direction);
/* The processor, or the adapter again, is about to access a part of what is mapped. */
void kernel_sync(dma_addr_t at, size_t size, int direction);
#define dma_map_single(device, at, size, direction) ((void)(device), kernel_map(at, size, direction))
#define dma_map_page(device, page, offset, size, direction) \
    ((void)(device), kernel_map((u8 *)(page) + (offset), size, direction))
#define dma_unmap_single(device, at, size, direction) ((void)(device), kernel_unmap(at, size, direction))
#define dma_unmap_page dma_unmap_single
#define dma_mapping_error(device, at) ((void)(at), 0)
#define dma_sync_single_for_cpu(device, at, size, direction) ((void)(device), kernel_sync(at, size, direction))
#define dma_sync_single_for_device dma_sync_single_for_cpu

/* Of the small kernel: */
void kernel_memory_begin(void);        /* at the start of a test */
u64 kernel_address(const void *at);    /* the adapter's address of memory */
void kernel_copy(void *to, const void *from, size_t count); /* without a place of the schedule */
void *kernel_host(size_t size);        /* host's memory of zeros, or NULL */
void kernel_host_free(const void *at);
unsigned kernel_mappings(void);        /* what is mapped now */
/* Fails if a byte of the host's memory that nobody has isn't 0: the adapter has written it. */
void kernel_check_free(void);
/* Fails if an access is to memory that was freed. Returns where its memory is: 1 in the host's memory, 2 in the heap, 0
 * for neither. */
int kernel_check_access(const void *at);
#endif
