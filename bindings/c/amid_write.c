/* Preloaded into a program, does what AMID_WRITE says when the program has written a file and waits for the disk (fsync):
 * a number sends the program that signal, "error" has the disk fail. */
#include <errno.h>
#include <signal.h>
#include <stdlib.h>
#include <string.h>
#include <unistd.h>

int fsync(int fd) {
    const char *what = getenv("AMID_WRITE");
    (void)fd;
    if (what && strcmp(what, "error") == 0) {
        errno = EIO;
        return -1;
    }
    return what ? kill(getpid(), atoi(what)) : 0;
}
