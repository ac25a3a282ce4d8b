/* NAPI: the poll that takes frames out of the rings. */
#ifndef KERNEL_NAPI_H
#define KERNEL_NAPI_H

enum { NAPI_SCHED = 1, NAPI_MISSED = 2, NAPI_DISABLE = 4 };
struct net_device;
struct sk_buff;
struct napi_struct { struct net_device *dev; int (*poll)(struct napi_struct *, int); unsigned state; };
/* Adds a poll, which is disabled. */
void netif_napi_add(struct net_device *dev, struct napi_struct *napi, int (*poll)(struct napi_struct *, int));
void napi_enable(struct napi_struct *napi);
/* Waits for the end of the poll; it isn't scheduled again. */
void napi_disable(struct napi_struct *napi);
/* Returns whether the caller must call __napi_schedule: the poll isn't scheduled yet, and is enabled. */
bool napi_schedule_prep(struct napi_struct *napi);
void __napi_schedule(struct napi_struct *napi);
/* In a poll: all is done. Returns false if it was scheduled meanwhile, and so runs again. */
bool napi_complete_done(struct napi_struct *napi, int done);
/* Passes a packet to the stack, here to the test. */
void napi_gro_receive(struct napi_struct *napi, struct sk_buff *skb);
#define napi_get_frags(napi) ((struct sk_buff *)NULL)
#define napi_gro_frags(napi) ((void)(napi))
#define napi_free_frags(napi) ((void)(napi))

/* Of the small kernel. With one processor, kernel_soft polls at the end of what has kept a poll out. */
bool kernel_can_poll(void);
void kernel_poll(void);
void kernel_soft(void);
#endif
