/* Stands between a program and read and write (LD_PRELOAD), and makes its input, its output or its errors give or take little,
 * fail or end. The environment says which:
 *
 * INPUT, OUTPUT, ERRORS=MOST:CALL:HOW   a call gives or takes at most MOST octets, and the call number CALL, counted from 0, stops:
 *                                       it fails, is interrupted, or ends, which is to give or take no octet. The calls after it go
 *                                       on, so that a second try shows
 * CALLS=FILE                            at the end FILE has how many calls there were of each of the three */
#define _GNU_SOURCE
#include <errno.h>
#include <fcntl.h>
#include <stdio.h>
#include <stdlib.h>
#include <string.h>
#include <sys/syscall.h>
#include <unistd.h>

static struct device {
    size_t most;
    long stopping, calls;
    char how[16];
} devices[3];

__attribute__((constructor)) static void begin(void) {
    static const char *const names[] = { "INPUT", "OUTPUT", "ERRORS" };
    int i;
    for (i = 0; i < 3; i++) {
        struct device *device = &devices[i];
        const char *text = getenv(names[i]);
        device->most = (size_t)-1;
        device->stopping = -1;
        if (text && sscanf(text, "%zu:%ld:%15s", &device->most, &device->stopping, device->how) < 1) _exit(70);
    }
}

/* How many octets the next call of the device may give or take; or -1, with an error. */
static ssize_t allowed(int number, size_t count) {
    struct device *device = &devices[number];
    if (device->calls++ != device->stopping) return (ssize_t)(count < device->most ? count : device->most);
    if (strcmp(device->how, "ends") == 0) return 0;
    errno = strcmp(device->how, "interrupted") == 0 ? EINTR : EIO;
    return -1;
}

ssize_t read(int file, void *into, size_t count) {
    ssize_t some = file == 0 && count ? allowed(file, count) : (ssize_t)count;
    return some > 0 ? syscall(SYS_read, file, into, (size_t)some) : some;
}

ssize_t write(int file, const void *from, size_t count) {
    ssize_t some = (file == 1 || file == 2) && count ? allowed(file, count) : (ssize_t)count;
    return some > 0 ? syscall(SYS_write, file, from, (size_t)some) : some;
}

__attribute__((destructor)) static void end(void) {
    const char *name = getenv("CALLS");
    int file = name ? open(name, O_WRONLY | O_CREAT | O_TRUNC, 0600) : -1;
    char text[80];
    int count = snprintf(text, sizeof text, "%ld %ld %ld\n", devices[0].calls, devices[1].calls, devices[2].calls);
    if (name && syscall(SYS_write, file, text, (size_t)count) != count) _exit(70);
}
