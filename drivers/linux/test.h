/* What a test sees of the small kernel. */
#ifndef KERNEL_TEST_H
#define KERNEL_TEST_H
#include "small_kernel.h"

enum { KERNEL_FRAMES = 256, KERNEL_FAULT = 96 };

extern struct kernel_view {
    struct net_device *dev;     /* the interface, or NULL */
    char fault[KERNEL_FAULT];   /* the first fault, or empty */
    bool has_two;               /* there are two processors: a poll, work and sends run only by the schedule */
    bool has_variables;         /* accesses of the driver's variables are places of the schedule, too */
    void (*freed)(unsigned number); /* is called when the driver frees a frame that is sent, or NULL */
    unsigned count;             /* of frames that were received */
    struct sk_buff *received[KERNEL_FRAMES];
} kernel;

/* At the start of a test: makes the memory of the small kernel, and the registers. */
void kernel_begin(void);

extern int (*const kernel_module_init)(void);
extern void (*const kernel_module_exit)(void);
extern int *const kernel_param_TxDescriptors, *const kernel_param_RxDescriptors,
    *const kernel_param_InterruptThrottleRate;
extern unsigned *const kernel_count_TxDescriptors, *const kernel_count_RxDescriptors,
    *const kernel_count_InterruptThrottleRate;

#endif
