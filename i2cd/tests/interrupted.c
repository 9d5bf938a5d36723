/* interrupted.c: calls on a bus while the processor is interrupted all the time, by a clock of perf. It counts
 * those that fail: without the second look for a reply in shim/request.c one of some million does, with ENODEV.
 * (perf_event_open may need root.)
 *
 *   pmb-i2cd PROFILE --run -- interrupted PATH SECONDS
 */
#define _GNU_SOURCE
#include <errno.h>
#include <fcntl.h>
#include <stdio.h>
#include <stdlib.h>
#include <string.h>
#include <sys/ioctl.h>
#include <sys/mman.h>
#include <sys/syscall.h>
#include <time.h>
#include <unistd.h>

#include <linux/i2c-dev.h>
#include <linux/perf_event.h>

/* The pages for what the clock says, of which nothing is read. */
#define PAGES 65

/* Has this process interrupted each 12 microseconds. */
static struct perf_event_mmap_page *open_clock(void)
{
    struct perf_event_attr wanted;
    memset(&wanted, 0, sizeof wanted);
    wanted.type = PERF_TYPE_SOFTWARE;
    wanted.size = sizeof wanted;
    wanted.config = PERF_COUNT_SW_CPU_CLOCK;
    wanted.sample_period = 12000;
    wanted.sample_type = PERF_SAMPLE_IP | PERF_SAMPLE_CALLCHAIN;
    int clock = (int)syscall(SYS_perf_event_open, &wanted, 0, -1, -1, PERF_FLAG_FD_CLOEXEC);
    if (clock < 0)
        return NULL;
    void *pages = mmap(NULL, PAGES * 4096, PROT_READ | PROT_WRITE, MAP_SHARED, clock, 0);
    return pages == MAP_FAILED ? NULL : pages;
}

int main(int count, char **words)
{
    unsigned long calls = 0, failed = 0;
    if (count != 3)
        return 2;
    struct perf_event_mmap_page *clock = open_clock();
    int file = open(words[1], O_RDWR);
    if (clock == NULL || file < 0) {
        perror(clock == NULL ? "perf_event_open" : words[1]);
        return 2;
    }
    for (time_t end = time(NULL) + atoi(words[2]); time(NULL) < end; calls++) {
        clock->data_tail = clock->data_head;
        if (ioctl(file, I2C_PEC, 0ul) != 0 && failed++ == 0)
            perror("ioctl");
    }
    printf("%lu calls, %lu failed\n", calls, failed);
    return failed != 0;
}
