// measure SECONDS COMMAND..: runs a command, and prints on standard error a line `seconds,processor,peak,status`: its time, its processor time,
// its peak memory in KiB, and its status as a shell has it. After SECONDS it is killed. The peak is that of the command alone, since this
// process is a small one.
#include <signal.h>
#include <stdio.h>
#include <stdlib.h>
#include <sys/resource.h>
#include <sys/wait.h>
#include <time.h>
#include <unistd.h>

static pid_t child;

static double seconds_of(struct timeval time) { return (double)time.tv_sec + (double)time.tv_usec * 1e-6; }

static void stop(int signal_number) {
    (void)signal_number;
    kill(child, SIGKILL);
}

int main(int count, char **words) {
    struct timespec begun, ended;
    struct rusage used;
    int status;
    if (count < 3) return 2;
    signal(SIGALRM, stop);
    clock_gettime(CLOCK_MONOTONIC, &begun);
    child = fork();
    if (child < 0) return 3;
    if (child == 0) {
        execvp(words[2], words + 2);
        _exit(127);
    }
    alarm((unsigned)atoi(words[1]));
    while (wait4(child, &status, 0, &used) < 0) {}
    clock_gettime(CLOCK_MONOTONIC, &ended);
    double seconds = (double)(ended.tv_sec - begun.tv_sec) + (double)(ended.tv_nsec - begun.tv_nsec) * 1e-9;
    double processor = seconds_of(used.ru_utime) + seconds_of(used.ru_stime);
    int as_shell = WIFEXITED(status) ? WEXITSTATUS(status) : 128 + WTERMSIG(status);
    fprintf(stderr, "%.7f,%.6f,%ld,%d\n", seconds, processor, used.ru_maxrss, as_shell);
    return 0;
}
