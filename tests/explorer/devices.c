/* Devices of a test's own: variants of the copier, right and wrong ones. The first word names the variant. */
#include "../../examples/device/copier.h"
#include <string.h>

enum { FROM = 0x4000, TO = 0x8000 };
static struct x_device device;

/* Two copies, without interrupts. The driver looks at the second descriptor only. */
static const char *test(void *word)
{
    struct copier_descriptor one = { FROM, TO, 16, 0 }, two = { FROM, TO + 16, 16, 0 };
    uint32_t status;
    uint8_t byte = 7;

    x_write(COPIER_BASE, COPIER_RING), x_write(COPIER_SLOTS, 4), x_write(COPIER_CONTROL, COPIER_ENABLE);
    x_store(FROM, &byte, 1);
    x_store(COPIER_RING, &one, sizeof one), x_store(COPIER_RING + 16, &two, sizeof two);
    x_write(COPIER_TAIL, 2);
    if (!strcmp(word, "arrives"))
        x_arrive(&byte, 1);
    if (!strcmp(word, "outside"))
        x_store(device.memory - 8, &one, sizeof one);
    x_load(COPIER_RING + 16 + 12, &status, 4);
    if (!strcmp(word, "early") && status)
        return "a copy is done before the driver waits";
    while (x_settle())
        ;
    if (x_step(0) || x_step(3) != NIC_REFUSED)
        return "a step that isn't possible did something, or there is a fourth kind";
    x_load(COPIER_RING + 16 + 12, &status, 4);
    x_load(TO + 16, &byte, 1);
    return status == COPIER_DONE && byte == 7 ? NULL : "a copy isn't done";
}

int main(int count, char **words)
{
    static const unsigned engines[] = { 0, 1, 8 }, two[] = { 0, 0, 1 };
    const char *name = count > 1 ? words[1] : "";

    device = copier;
    if (!strcmp(name, "no-line"))
        device.line = NULL;
    else if (!strcmp(name, "no-kinds"))
        device.kinds = 0;
    else if (!strcmp(name, "nine-kinds"))
        device.kinds = 9;
    else if (!strcmp(name, "engine"))
        device.engines = engines;
    else if (!strcmp(name, "clocks"))
        device.clocks = 7;
    else if (!strcmp(name, "no-kind"))
        device.clocks = 8;
    else if (!strcmp(name, "memory"))
        device.memory = (1 << 24) + 1;
    else if (!strcmp(name, "pair"))
        device.pairs[0] = (struct x_pair){ "both", 1, 3 };
    else if (!strcmp(name, "two-engines") || !strcmp(name, "clock-pair"))
        device.pairs[0] = (struct x_pair){ "both", 1, 2 };
    else if (!strcmp(name, "clock"))
        device.clocks = 1;
    else if (!strcmp(name, "paired"))
        device.pairs[0] = (struct x_pair){ "both", 1, 2 };
    if (!strcmp(name, "two-engines"))
        device.engines = two;
    if (!strcmp(name, "clock-pair"))
        device.clocks = 2;
    x_use(strcmp(name, "null") ? &device : NULL);
    return nic82540em_explore(count, words, test, words[count > 1]);
}
