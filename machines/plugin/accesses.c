/* A plugin for QEMU's TCG: reports the accesses of a driver to the rings of the adapter. After the number of accesses
 * that the board has set, the guest waits until the board has answered, so that the board can play steps between two
 * accesses.
 *
 *   -plugin accesses.so,socket=N,log=N,memory=N  descriptors of the board's socket, the shared log, and memory
 *   physical=1                                   any guest: accesses of each instruction, found by physical addresses.
 *                                                Otherwise the guest is Linux, and the driver is its only module
 *
 * Debian 12 has no package with qemu-plugin.h, so the functions that are used here are declared here.
 */
#include <stdbool.h>
#include <stdint.h>
#include <stdio.h>
#include <stdlib.h>
#include <string.h>
#include <sys/mman.h>
#include <sys/stat.h>
#include <unistd.h>

#include "../shared/accesses.h"

typedef uint64_t qemu_plugin_id_t;
typedef uint32_t qemu_plugin_meminfo_t;
struct qemu_plugin_tb;
struct qemu_plugin_insn;
struct qemu_info;
typedef void translated_call(qemu_plugin_id_t, struct qemu_plugin_tb *);
typedef void memory_call(unsigned, qemu_plugin_meminfo_t, uint64_t, void *);
void qemu_plugin_register_vcpu_tb_trans_cb(qemu_plugin_id_t, translated_call *);
size_t qemu_plugin_tb_n_insns(const struct qemu_plugin_tb *);
struct qemu_plugin_insn *qemu_plugin_tb_get_insn(const struct qemu_plugin_tb *, size_t);
uint64_t qemu_plugin_insn_vaddr(const struct qemu_plugin_insn *);
void qemu_plugin_register_vcpu_mem_cb(struct qemu_plugin_insn *, memory_call *, int flags, int which, void *);
unsigned qemu_plugin_mem_size_shift(qemu_plugin_meminfo_t);
_Bool qemu_plugin_mem_is_store(qemu_plugin_meminfo_t);
struct qemu_plugin_hwaddr;
struct qemu_plugin_hwaddr *qemu_plugin_get_hwaddr(qemu_plugin_meminfo_t, uint64_t);
_Bool qemu_plugin_hwaddr_is_io(const struct qemu_plugin_hwaddr *);
uint64_t qemu_plugin_hwaddr_phys_addr(const struct qemu_plugin_hwaddr *);

#define EXPORT __attribute__((visibility("default")))
EXPORT int qemu_plugin_version = 1;

/* Linux without address randomization: modules, and the map of all memory, in which the rings are. */
#define MODULES 0xFFFFFFFFC0000000ull
#define DIRECT_MAP 0xFFFF888000000000ull

enum { NO_REGISTERS = 0, LOADS_AND_STORES = 3, PAGE = 4096 };

static struct access_log *shared;
static const uint8_t *memory;
static uint64_t memory_size;
static int board, is_physical;

static void record(uint64_t instruction, uint64_t address, uint32_t size, uint32_t is_store)
{
    struct access_record *next = &shared->records[shared->written % ACCESS_ROOM];

    *next = (struct access_record){ instruction, address, 0, size, is_store };
    if (size <= sizeof next->value && address + size <= memory_size)
        memcpy(&next->value, memory + address, size);
    shared->written++;
}

static void ask_board(void)
{
    char letter = 'm';

    if (write(board, &letter, 1) != 1 || read(board, &letter, 1) != 1)
        shared->countdown = 0; /* the board has ended */
}

static bool is_in_ring(uint64_t address)
{
    for (int ring = 0; ring < ACCESS_RINGS; ring++)
        if (address - shared->rings[ring].begin < shared->rings[ring].size)
            return true;
    return false;
}

/* Whether an address may be in a ring, by its offset in a page: no map changes this offset. */
static bool may_be_in_ring(uint64_t address)
{
    for (int ring = 0; ring < ACCESS_RINGS; ring++)
        if (((address - shared->rings[ring].begin) & (PAGE - 1)) < shared->rings[ring].size)
            return true;
    return false;
}

/* The physical address of an access to memory, or one that is in no ring. */
static uint64_t physical(qemu_plugin_meminfo_t info, uint64_t address)
{
    struct qemu_plugin_hwaddr *place;

    if (!is_physical)
        return address - DIRECT_MAP;
    place = may_be_in_ring(address) ? qemu_plugin_get_hwaddr(info, address) : NULL;
    return place == NULL || qemu_plugin_hwaddr_is_io(place) ? UINT64_MAX : qemu_plugin_hwaddr_phys_addr(place);
}

static void accessed(unsigned processor, qemu_plugin_meminfo_t info, uint64_t address, void *instruction)
{
    (void)processor;
    if (!shared->is_on)
        return;
    address = physical(info, address);
    if (!is_in_ring(address))
        return;
    record((uintptr_t)instruction, address, 1u << qemu_plugin_mem_size_shift(info), qemu_plugin_mem_is_store(info));
    if (shared->countdown > 0 && --shared->countdown == 0)
        ask_board();
}

static void translated(qemu_plugin_id_t id, struct qemu_plugin_tb *block)
{
    size_t count = qemu_plugin_tb_n_insns(block);

    (void)id;
    for (size_t number = 0; number < count; number++) {
        struct qemu_plugin_insn *instruction = qemu_plugin_tb_get_insn(block, number);
        uint64_t address = qemu_plugin_insn_vaddr(instruction);

        if (is_physical || address >= MODULES)
            qemu_plugin_register_vcpu_mem_cb(instruction, accessed, NO_REGISTERS, LOADS_AND_STORES,
                                             (void *)(uintptr_t)address);
    }
}

static void *mapped(int file, size_t size, int protection)
{
    void *bytes = mmap(NULL, size, protection, MAP_SHARED, file, 0);

    return bytes == MAP_FAILED ? NULL : bytes;
}

EXPORT int qemu_plugin_install(qemu_plugin_id_t id, const struct qemu_info *info, int count, char **words)
{
    int log = -1, file = -1;
    struct stat of;

    (void)info;
    for (int number = 0; number < count; number++) {
        sscanf(words[number], "socket=%d", &board);
        sscanf(words[number], "log=%d", &log);
        sscanf(words[number], "memory=%d", &file);
        sscanf(words[number], "physical=%d", &is_physical);
    }
    if (fstat(file, &of) != 0)
        return 1;
    memory_size = of.st_size;
    shared = mapped(log, sizeof *shared, PROT_READ | PROT_WRITE);
    memory = mapped(file, memory_size, PROT_READ);
    if (shared == NULL || memory == NULL)
        return 1;
    qemu_plugin_register_vcpu_tb_trans_cb(id, translated);
    return 0;
}
