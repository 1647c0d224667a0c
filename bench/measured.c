// Runs a program and tells its status, its user time in microseconds and its peak memory in KB. usage: measured PROGRAM [WORD]...
// Linux counts the memory of who begins a program as that program's own, and this one has little.
#include <fcntl.h>
#include <stdio.h>
#include <sys/resource.h>
#include <sys/wait.h>
#include <unistd.h>

int main(int argc, char **argv) {
    struct rusage used;
    int status = 0;
    pid_t run = argc > 1 ? fork() : -1;
    if (run < 0) return 2;
    if (run == 0) {
        int nothing = open("/dev/null", O_WRONLY);
        dup2(nothing, 1), dup2(nothing, 2);
        execvp(argv[1], argv + 1);
        _exit(127);
    }
    wait4(run, &status, 0, &used);
    printf("%d %ld %ld\n", status, used.ru_utime.tv_sec * 1000000L + used.ru_utime.tv_usec, used.ru_maxrss);
}
