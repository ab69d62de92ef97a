/* A call of the C library that is held up (LD_PRELOAD). Before the program first removes the file that PAUSE_AT names, it makes
 * the file that PAUSED names, and waits until that is gone. */
#define _GNU_SOURCE
#include <dlfcn.h>
#include <fcntl.h>
#include <stdlib.h>
#include <string.h>
#include <unistd.h>

int unlink(const char *path) {
    static int (*real)(const char *);
    if (!real)
        *(void **)&real = dlsym(RTLD_NEXT, "unlink");
    static int was_paused;
    const char *at = getenv("PAUSE_AT"), *paused = getenv("PAUSED");
    if (at && paused && !was_paused && !strcmp(path, at)) {
        was_paused = 1;
        int made = open(paused, O_CREAT | O_WRONLY, 0600);
        if (made >= 0)
            close(made);
        while (access(paused, F_OK) == 0)
            usleep(10000);
    }
    return real(path);
}
