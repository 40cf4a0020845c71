/* The library's calls of the system come through the test that includes this, which says what is done before one that sleeps at a word or wakes there, and, where it wants to
 * (BEHIND_A_SLEEP), behind one that slept. */
#ifndef SYSTEM_H
#define SYSTEM_H
#include <dlfcn.h>
#include <linux/futex.h>
#include <stdarg.h>
#include <stdbool.h>
#include <stdint.h>
#include <sys/syscall.h>
#include <unistd.h>

static void at_the_system(uint32_t *word, bool sleeps);

long syscall(long number, ...) {
    static long (*real)(long, ...);
    va_list more;
    long a[6];
    va_start(more, number);
    for (int k = 0; k < 6; k++) a[k] = va_arg(more, long);
    va_end(more);
    if (!real) *(void **)&real = dlsym(RTLD_NEXT, "syscall");
    int call = number == SYS_futex ? (int)a[1] & FUTEX_CMD_MASK : -1;
    bool sleeps = call == FUTEX_WAIT || call == FUTEX_WAIT_BITSET, wakes = call == FUTEX_WAKE || call == FUTEX_WAKE_BITSET;
    if (sleeps || wakes) at_the_system((uint32_t *)a[0], sleeps);
    long told = real(number, a[0], a[1], a[2], a[3], a[4], a[5]);
#ifdef BEHIND_A_SLEEP
    if (sleeps) BEHIND_A_SLEEP();
#endif
    return told;
}
#endif
