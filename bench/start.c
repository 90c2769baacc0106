// Runs a command, and writes to descriptor 3 what it took: its status, its seconds, its seconds of user time, and the most KiB that
// it held at a time. It is small, since what a run held at a time includes the memory of the process that started it.
//
//     cc -O2 -o start bench/start.c && ./start PROGRAM WORD.. < INPUT 3> TAKEN

#include <stdio.h>
#include <stdlib.h>
#include <sys/resource.h>
#include <sys/wait.h>
#include <time.h>
#include <unistd.h>

int main(int count, char **words) {
    struct timespec begun, ended;
    struct rusage used;
    int status;
    if (count < 2) return 1;
    clock_gettime(CLOCK_MONOTONIC, &begun);
    pid_t child = fork();
    if (child == 0) {
        close(3);
        execv(words[1], words + 1);
        _exit(127);
    }
    if (child < 0 || wait4(child, &status, 0, &used) < 0) return 1;
    clock_gettime(CLOCK_MONOTONIC, &ended);
    double seconds = ended.tv_sec - begun.tv_sec + (ended.tv_nsec - begun.tv_nsec) / 1e9;
    double user = used.ru_utime.tv_sec + used.ru_utime.tv_usec / 1e6;
    dprintf(3, "%d %f %f %ld\n", WIFEXITED(status) ? WEXITSTATUS(status) : -WTERMSIG(status), seconds, user, used.ru_maxrss);
    return 0;
}
