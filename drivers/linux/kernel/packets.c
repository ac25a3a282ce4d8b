#include "test.h"

static struct sk_buff *skb_of(u8 *data, unsigned size)
{
    struct sk_buff *skb = data ? kzalloc(sizeof *skb, GFP_ATOMIC) : NULL;

    if (skb)
        skb->head = skb->data = skb->tail = data, skb->room = size;
    return skb;
}

struct sk_buff *alloc_skb(unsigned size, gfp_t flags)
{
    struct sk_buff *skb = skb_of(kernel_host(size + NET_SKB_PAD), size + NET_SKB_PAD);

    if (flags == GFP_KERNEL)
        kernel_sleeps("alloc_skb with GFP_KERNEL");
    if (skb)
        skb_reserve(skb, NET_SKB_PAD);
    return skb;
}

struct sk_buff *napi_alloc_skb(struct napi_struct *napi, unsigned size)
{
    (void)napi;
    return alloc_skb(size, GFP_ATOMIC);
}

struct sk_buff *napi_build_skb(void *data, unsigned size)
{
    return skb_of(data, size);
}

void *skb_put(struct sk_buff *skb, unsigned count)
{
    u8 *at = skb->tail;

    if (at + count > skb->head + skb->room) {
        kernel_fails("skb_put: the packet has no room for %u bytes", count);
        return at;
    }
    skb->tail += count, skb->len += count;
    return at;
}

void *skb_put_data(struct sk_buff *skb, const void *data, unsigned count)
{
    return memcpy(skb_put(skb, count), data, count);
}

void skb_trim(struct sk_buff *skb, unsigned count)
{
    if (skb->len > count)
        skb->len = count, skb->tail = skb->data + count;
}

int eth_skb_pad(struct sk_buff *skb)
{
    while (skb->len < ETH_ZLEN)
        *(u8 *)skb_put(skb, 1) = 0;
    return 0;
}

void dev_kfree_skb_any(struct sk_buff *skb)
{
    if (!skb)
        return;
    if (skb->number && kernel.freed)
        kernel.freed(skb->number - 1);
    kernel_host_free(skb->head);
    kfree(skb);
}

__be16 eth_type_trans(struct sk_buff *skb, struct net_device *dev)
{
    skb->dev = dev;
    return (__be16)(skb->data[12] | skb->data[13] << 8);
}
