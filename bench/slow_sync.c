/* Loaded before a program (LD_PRELOAD), makes each of its syncs of a file take longer: by the milliseconds that stand in SLOW_SYNC. So a fast
 * disk stands in for one that has to turn, or that lies behind a network. */
#define _GNU_SOURCE
#include <dlfcn.h>
#include <stdlib.h>
#include <time.h>

static void wait_first(void) {
    const char *text = getenv("SLOW_SYNC");
    long milliseconds = text == NULL ? 0 : strtol(text, NULL, 10);
    struct timespec time = {milliseconds / 1000, milliseconds % 1000 * 1000000};
    nanosleep(&time, NULL);
}

int fsync(int file) {
    wait_first();
    return ((int (*)(int))dlsym(RTLD_NEXT, "fsync"))(file);
}

int fdatasync(int file) {
    wait_first();
    return ((int (*)(int))dlsym(RTLD_NEXT, "fdatasync"))(file);
}
