/*
 * The library is compiled for processors of x86-64-v2. Where the shared library is loaded on another one, it says so and ends
 * the process by _exit(127), as the loader does where a library is missing: else an instruction that isn't there would. A
 * loader that reads what the library needs (glibc 2.33 and later) refuses it before that.
 *
 * The archive is without this: a program that links it checks itself, or compiles this file, too.
 */
#include <unistd.h>

/* A test sets another. */
#ifndef HAS
#define HAS(feature) __builtin_cpu_supports(feature)
#endif

static int has_all(void) {
    __builtin_cpu_init();
    return HAS("sse3") && HAS("ssse3") && HAS("sse4.1") && HAS("sse4.2") && HAS("popcnt");
}

/* It writes without the C library's streams, which a program may not have set up yet. */
__attribute__((constructor)) static void check_processor(void) {
    static const char text[] =
        "libfirnuubal: this processor lacks instructions of x86-64-v2, to which the library is compiled: SSE3, SSSE3, SSE4.1, "
        "SSE4.2 or POPCNT\n";
    if (has_all()) return;
    ssize_t written = write(STDERR_FILENO, text, sizeof text - 1);
    (void)written;
    _exit(127);
}
