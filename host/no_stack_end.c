/* Loaded before a Rust program under an emulator. At its start Rust asks where its stack ends, for which the C library
 * reads /proc/self/maps, and there qemu 8.2 falls. Without an answer Rust goes on. */
#define _GNU_SOURCE
#include <errno.h>
#include <pthread.h>

int pthread_getattr_np(pthread_t thread, pthread_attr_t *attributes)
{
    (void)thread;
    (void)attributes;
    return ENOSYS;
}
