/* The driver of docs/SERVE.md in the process of its adapter: records a cause, and reads it.
 *
 * cc -o first first.c $(pkg-config --cflags --libs nic82540em)
 */
#include <inttypes.h>
#include <nic82540em.h>
#include <stdio.h>

int main(void)
{
    struct nic82540em nic = NIC82540EM_NONE;
    const struct nic82540em_options options = NIC82540EM_DEFAULTS;

    if (!nic82540em_new(&nic, &options))
        return 1;
    nic82540em_write(&nic, NIC_IMS, NIC_RXT0); /* unmask RXT0 */
    nic82540em_write(&nic, NIC_ICS, NIC_RXT0); /* record RXT0 */
    printf("line %d\n", nic82540em_line(&nic));
    printf("%08" PRIx32 "\n", nic82540em_read(&nic, NIC_ICR));
    printf("line %d\n", nic82540em_line(&nic));
    nic82540em_free(&nic);
    return 0;
}
