/* major.c: for LD_PRELOAD after the shim. To fstat /dev/zero has the numbers of /dev/i2c-3, so that what the
 * shim does with a real bus is tried where there is none. */
#define _GNU_SOURCE
#include <fcntl.h>
#include <sys/stat.h>
#include <sys/sysmacros.h>

int fstat(int descriptor, struct stat *found)
{
    int result = fstatat(descriptor, "", found, AT_EMPTY_PATH);
    if (result == 0 && S_ISCHR(found->st_mode) && found->st_rdev == makedev(1, 5))
        found->st_rdev = makedev(89, 3);
    return result;
}
