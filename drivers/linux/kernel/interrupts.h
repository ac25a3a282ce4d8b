/* Interrupts of the adapter. */
#ifndef KERNEL_INTERRUPTS_H
#define KERNEL_INTERRUPTS_H

enum { IRQF_SHARED = 0x80, IRQF_PROBE_SHARED = 0x100, IRQ_NONE = 0, IRQ_HANDLED = 1 };
typedef irqreturn_t (*irq_handler_t)(int irq, void *data);
/* The handler may be called from now on. */
int request_irq(unsigned irq, irq_handler_t handler, unsigned long flags, const char *name, void *data);
/* The handler is never called again; waits for one that runs. */
void free_irq(unsigned irq, void *data);
/* Waits for a handler that runs. */
void synchronize_irq(unsigned irq);
#define disable_hardirq(irq) true
#define enable_irq(irq) ((void)(irq))
#endif
