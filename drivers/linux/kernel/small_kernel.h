/* The part of Linux's kernel that a driver of the 82540EM uses, for a process: what the driver includes. */
#ifndef KERNEL_H
#define KERNEL_H

#include "base.h"
#include "log.h"
#include "memory.h"
#include "locks.h"
#include "work.h"
#include "interrupts.h"
#include "napi.h"
#include "packets.h"
#include "netdevice.h"
#include "ethtool.h"
#include "pci.h"
#endif
