#include "test.h"
#include <nic82540em_explore.h>

static irq_handler_t handler;
static void *handlers_data;
static unsigned handlers_irq;
static bool is_running;

static void interrupt(void)
{
    unsigned before = kernel_enter(true);

    is_running = true;
    handler((int)handlers_irq, handlers_data);
    is_running = false;
    kernel_leave(before);
    kernel_soft();
}

int request_irq(unsigned irq, irq_handler_t given, unsigned long flags, const char *name, void *data)
{
    (void)flags, (void)name;
    kernel_sleeps("request_irq");
    handler = given, handlers_data = data, handlers_irq = irq;
    x_handler(interrupt);
    return 0;
}

void free_irq(unsigned irq, void *data)
{
    kernel_sleeps("free_irq");
    if (!handler || irq != handlers_irq || data != handlers_data)
        kernel_fails("free_irq: this handler was never requested");
    synchronize_irq(irq);
    x_handler(NULL);
    handler = NULL, handlers_data = NULL;
}

void synchronize_irq(unsigned irq)
{
    (void)irq;
    if (is_running)
        x_impossible(); /* the caller has interrupted the handler for which it would wait */
}
