/* Types, constants of the interface for user space, words of the compiler and of modules, bytes and bits.
 *
 * `tools/drivers` makes a file for each header that the driver includes. Each includes only small_kernel.h, which includes
 * this file and the others. A name of the kernel means here what it means in the kernel, as far as a driver of
 * this adapter sees it. */
#ifndef KERNEL_BASE_H
#define KERNEL_BASE_H

#include <limits.h>
#include <stdarg.h>
#include <stdbool.h>
#include <stddef.h>
#include <stdint.h>
#include <string.h>
#include <asm/types.h>

typedef uint8_t u8; typedef uint16_t u16; typedef uint32_t u32; typedef uint64_t u64;
typedef int8_t s8; typedef int16_t s16; typedef int32_t s32; typedef int64_t s64;
typedef __u16 __le16, __be16, __sum16;
typedef __u32 __le32, __be32, __wsum;
typedef __u64 __le64, __be64;
typedef u64 dma_addr_t, phys_addr_t, resource_size_t, netdev_features_t;
typedef unsigned gfp_t, pci_ers_result_t, pci_channel_state_t;
typedef int netdev_tx_t, irqreturn_t, pci_power_t;
typedef long ssize_t;
#define __bitwise
#define __kernel_size_t unsigned long
#define __aligned_u64 __u64 __attribute__((aligned(8)))
#define __DECLARE_FLEX_ARRAY(type, name) type name[0]
#define __packed __attribute__((packed))

/* From the package linux-libc-dev. The first line keeps the C library's own types out. */
#define _LINUX_TYPES_H
#include </usr/include/asm-generic/errno-base.h>
#include </usr/include/asm-generic/errno.h>
#include </usr/include/linux/const.h>
#include </usr/include/linux/if_ether.h>
#include </usr/include/linux/mii.h>
#include </usr/include/linux/pci_regs.h>
#include </usr/include/linux/ethtool.h>

#define __iomem
#define __init
#define __exit
#define __read_mostly
#define __maybe_unused __attribute__((unused))
#define __always_unused __attribute__((unused))
#define fallthrough __attribute__((fallthrough))
#define likely(x) (x)
#define unlikely(x) (x)
#define ARRAY_SIZE(array) (sizeof(array) / sizeof *(array))
#define ALIGN(x, to) (((x) + (to) - 1) & ~((__typeof__(x))(to) - 1))
#define container_of(at, type, member) ((type *)((char *)(at) - offsetof(type, member)))
#define min(a, b) ({ __typeof__(a) min_a = (a); __typeof__(b) min_b = (b); min_a < min_b ? min_a : min_b; })
#define max(a, b) ({ __typeof__(a) max_a = (a); __typeof__(b) max_b = (b); max_a > max_b ? max_a : max_b; })

/* A module. Its functions and parameters get names by which the test finds them. */
#define KBUILD_MODNAME "e1000"
#define module_init(function) int (*const kernel_module_init)(void) = function;
#define module_exit(function) void (*const kernel_module_exit)(void) = function;
#define MODULE_AUTHOR(text)
#define MODULE_DESCRIPTION(text)
#define MODULE_LICENSE(text)
#define MODULE_PARM_DESC(name, text)
#define KERNEL_TEXT(x) #x
#define __MODULE_STRING(x) KERNEL_TEXT(x)
#define MODULE_DEVICE_TABLE(type, name)
#define module_param(name, type, mode) void *const kernel_param_##name = (void *)&name;
#define module_param_array_named(name, array, type, count, mode) \
    int *const kernel_param_##name = array; unsigned *const kernel_count_##name = count;

/* Memory isn't reordered here, so a barrier only orders the compiler. */
#define READ_ONCE(x) (*(const volatile __typeof__(x) *)&(x))
#define WRITE_ONCE(x, value) (*(volatile __typeof__(x) *)&(x) = (value))
#define smp_load_acquire(at) READ_ONCE(*(at))
#define smp_store_release(at, value) WRITE_ONCE(*(at), value)
#define barrier() __asm__ volatile("" ::: "memory")
#define smp_mb barrier
#define smp_mb__before_atomic barrier
#define dma_rmb barrier
#define dma_wmb barrier
#define prefetch(at) ((void)(at))

/* Bytes: the processor is little-endian. */
#define cpu_to_le16(x) ((__le16)(x))
#define cpu_to_le32(x) ((__le32)(x))
#define cpu_to_le64(x) ((__le64)(x))
#define le16_to_cpu(x) ((u16)(x))
#define le64_to_cpu(x) ((u64)(x))
#define le16_to_cpus(at) ((void)(at))
#define cpu_to_le16s(at) ((void)(at))
#define htons(x) ((__be16)__builtin_bswap16((u16)(x)))
#define cpu_to_be16 htons

/* Bits. set_bit, clear_bit and test_and_set_bit are atomic: nothing cuts in on them. */
#define BIT(n) (1ul << (n))
#define FIELD_GET(mask, from) (((from) & (mask)) >> __builtin_ctzl(mask))
#define FIELD_PREP(mask, value) (((value) << __builtin_ctzl(mask)) & (mask))
#define BITS_TO_LONGS(n) (((n) + 63) / 64)
#define test_bit(n, at) ((bool)(((const volatile u64 *)(at))[(n) / 64] >> (n) % 64 & 1))
void set_bit(long n, volatile unsigned long *at);
void clear_bit(long n, volatile unsigned long *at);
bool test_and_set_bit(long n, volatile unsigned long *at);
#define for_each_set_bit(n, at, end) for ((n) = 0; (n) < (end); (n)++) if (test_bit(n, at))
static inline int fls(unsigned x) { return x ? 32 - __builtin_clz(x) : 0; }
typedef struct { int value; } atomic_t;
#define atomic_set(at, to) ((at)->value = (to))
#define atomic_read(at) ((at)->value)
#endif
