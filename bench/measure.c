/* Runs a program once and prints the seconds that it took by the clock, the seconds that a processor worked
   for it, and the most memory that it had, in KiB. Its standard input is this program's own, and its output
   is thrown away. usage: measure PROGRAM [WORD..]; it ends with the program's status. */
#define _DEFAULT_SOURCE
#include <fcntl.h>
#include <stdio.h>
#include <sys/resource.h>
#include <sys/wait.h>
#include <time.h>
#include <unistd.h>

static double seconds(struct timeval t) { return (double)t.tv_sec + (double)t.tv_usec / 1e6; }

static double now(void)
{
    struct timespec t;
    clock_gettime(CLOCK_MONOTONIC, &t);
    return (double)t.tv_sec + (double)t.tv_nsec / 1e9;
}

int main(int argc, char **argv)
{
    if (argc < 2) {
        fprintf(stderr, "usage: measure PROGRAM [WORD..]\n");
        return 2;
    }
    int nowhere = open("/dev/null", O_WRONLY);
    double begin = now();
    pid_t child = fork();
    if (child == 0) {
        dup2(nowhere, 1);
        execv(argv[1], argv + 1);
        perror(argv[1]);
        _exit(127);
    }
    int status = 0;
    struct rusage used;
    if (nowhere < 0 || child < 0 || wait4(child, &status, 0, &used) < 0) {
        perror("measure");
        return 4;
    }
    printf("%.6f %.6f %ld\n", now() - begin, seconds(used.ru_utime) + seconds(used.ru_stime), used.ru_maxrss);
    return WIFEXITED(status) ? WEXITSTATUS(status) : 4;
}
