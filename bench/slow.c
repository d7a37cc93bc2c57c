// Loaded before a program (LD_PRELOAD): each of its syncs takes at least as many microseconds as SYNC_TAKES says.
#include <stdlib.h>
#include <sys/syscall.h>
#include <time.h>
#include <unistd.h>

static long long now(void)
{
    struct timespec t;
    clock_gettime(CLOCK_MONOTONIC, &t);
    return t.tv_sec * 1000000000LL + t.tv_nsec;
}

static int slowed(int number, int file)
{
    const char *text = getenv("SYNC_TAKES");
    long long end = now() + (text ? strtoll(text, NULL, 10) : 0) * 1000;
    int answer = syscall(number, file);
    long long left = end - now();
    if (left > 0) {
        struct timespec t = {left / 1000000000LL, left % 1000000000LL};
        nanosleep(&t, NULL);
    }
    return answer;
}

int fsync(int file)
{
    return slowed(SYS_fsync, file);
}

int fdatasync(int file)
{
    return slowed(SYS_fdatasync, file);
}
