/* Makes calls of one kind to libnic82540em.a, for tests/instructions. Its words are this kind (`read`, `write`, `load`
 * or `store`), and the number of calls divided by 8. */
#include <nic82540em.h>
#include <stdlib.h>

#define EIGHT(call) call; call; call; call; call; call; call; call

int main(int count, char **words)
{
    struct nic82540em nic = NIC82540EM_NONE;
    const struct nic82540em_options options = NIC82540EM_DEFAULTS;
    uint8_t bytes[16] = { 0 };
    uint32_t sum = 0;

    if (count != 3 || !nic82540em_new(&nic, &options))
        return 2;
    for (long left = strtol(words[2], NULL, 10); left > 0; left--)
        switch (words[1][0]) {
        case 'r':
            EIGHT(sum += nic82540em_read(&nic, NIC_STATUS));
            break;
        case 'w':
            EIGHT(nic82540em_write(&nic, NIC_VET, 0x8100));
            break;
        case 'l':
            EIGHT(nic82540em_load(&nic, 0x1000, bytes, sizeof bytes));
            break;
        default:
            EIGHT(nic82540em_store(&nic, 0x1000, bytes, sizeof bytes));
        }
    nic82540em_free(&nic);
    return sum != 0;
}
