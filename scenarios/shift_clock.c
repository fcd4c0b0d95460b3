/* Moves the clock of the day by the seconds in the file that the variable CLOCK_SHIFT names. Loaded by LD_PRELOAD. */
#define _GNU_SOURCE
#include <fcntl.h>
#include <stdlib.h>
#include <sys/syscall.h>
#include <time.h>
#include <unistd.h>

int clock_gettime(clockid_t clock, struct timespec *now) {
    int result = syscall(SYS_clock_gettime, clock, now);
    int file = clock == CLOCK_REALTIME ? open(getenv("CLOCK_SHIFT"), O_RDONLY) : -1;
    char text[32] = "";
    if (file >= 0 && read(file, text, sizeof text - 1) > 0)
        now->tv_sec += strtol(text, NULL, 10);
    if (file >= 0)
        close(file);
    return result;
}
