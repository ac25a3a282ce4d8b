/* The process of QEMU. Its words may use these descriptors. */
#ifndef MACHINE_H
#define MACHINE_H

enum {
    MACHINE_CONNECTION = 3, /* of x-pci-proxy-dev */
    MACHINE_MEMORY = 4,     /* the guest's memory */
    MACHINE_PLUGIN = 5,     /* the plugin's socket */
    MACHINE_LOG = 6,        /* the plugin's log */
    MACHINE_FILES = 4
};

/* Runs QEMU with files that get these descriptors, in this order. QEMU ends when the board ends. */
void machine_start(char **words, const int *files);

/* Waits until QEMU has ended. Returns its exit status, or 128 plus the signal that ended it. */
int machine_end(void);

/* Ends QEMU. */
void machine_stop(void);

#endif
