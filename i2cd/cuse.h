/* cuse.h: the bus as a real /dev/i2c-N, where the kernel has /dev/cuse. */
#ifndef CUSE_H
#define CUSE_H

#include <stdint.h>

#include "adapter.h"
#include "file.h"

/* The most files that are open at one time. */
#define MOST_CUSE_FILES 1000

struct cuse {
    struct adapter *adapter;
    int descriptor; /* of /dev/cuse */
    const char *name;
    struct {
        uint8_t is_open;
        struct open_file file;
    } file[MOST_CUSE_FILES];
};

/* Makes the device /dev/NAME; it is there when the call returns.
 * Returns 0, or an errno below 0: that of opening /dev/cuse, EEXIST where /dev has the name. */
int cuse_open(struct cuse *cuse, struct adapter *adapter, const char *name);

/* Removes the device. */
void cuse_close(struct cuse *cuse);

/* Does the next request of the kernel, without waiting. Returns 0, or an errno below 0 where the
 * device is no longer there. */
int cuse_serve(struct cuse *cuse);

#endif
