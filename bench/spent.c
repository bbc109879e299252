/*
 * spent FILE COMMAND [ARGUMENT..]: runs the command with the file as its standard input and nothing behind its standard output. Prints the
 * seconds that it took and its peak memory in KiB. The system counts this program's own memory before the command starts: it is linked
 * statically, to be smaller than what it measures.
 */
#include <fcntl.h>
#include <stdio.h>
#include <sys/resource.h>
#include <sys/types.h>
#include <sys/wait.h>
#include <time.h>
#include <unistd.h>

static double seconds(void) {
    struct timespec now;
    clock_gettime(CLOCK_MONOTONIC, &now);
    return (double)now.tv_sec + (double)now.tv_nsec / 1e9;
}

int main(int count, char **arguments) {
    if (count < 3) return 2;
    double start = seconds();
    pid_t child = fork();
    if (child < 0) return 1;
    if (child == 0) {
        int in = open(arguments[1], O_RDONLY), out = open("/dev/null", O_WRONLY);
        if (in < 0 || out < 0 || dup2(in, 0) < 0 || dup2(out, 1) < 0) _exit(127);
        execvp(arguments[2], arguments + 2);
        _exit(127);
    }
    int status;
    if (waitpid(child, &status, 0) != child) return 1;
    double spent = seconds() - start;
    struct rusage usage;
    if (status != 0 || getrusage(RUSAGE_CHILDREN, &usage) != 0) {
        fprintf(stderr, "spent: %s failed\n", arguments[2]);
        return 1;
    }
    printf("%.6f %ld\n", spent, usage.ru_maxrss);
    return 0;
}
