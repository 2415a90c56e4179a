// Runs a program and prints what it took:
//
//   runner OUT LIMIT PROGRAM WORD..
//
// OUT gets a line: the seconds of processor time, and the peak memory in kilobytes. The program is ended after LIMIT
// seconds of processor time, where that isn't 0. The status is the program's, or 128 and the number of the signal that
// ended it. The kernel counts the memory of whoever starts a program to its peak: so this is a small one.
#include <stdio.h>
#include <stdlib.h>
#include <sys/resource.h>
#include <sys/wait.h>
#include <unistd.h>

static double seconds(struct timeval t) { return t.tv_sec + t.tv_usec * 1e-6; }

int main(int count, char **words) {
    if (count < 4) return 2;
    rlim_t limit = strtoul(words[2], NULL, 10);
    pid_t child = fork();
    if (child == 0) {
        struct rlimit most = {limit, limit + 1};  // with both the same, the signal would be SIGKILL
        if (limit) setrlimit(RLIMIT_CPU, &most);
        execvp(words[3], words + 3);
        _exit(127);
    }
    int status;
    struct rusage usage;
    FILE *out = fopen(words[1], "w");
    if (child < 0 || wait4(child, &status, 0, &usage) < 0 || !out) return 126;
    fprintf(out, "%.6f %ld\n", seconds(usage.ru_utime) + seconds(usage.ru_stime), usage.ru_maxrss);
    fclose(out);
    return WIFEXITED(status) ? WEXITSTATUS(status) : 128 + WTERMSIG(status);
}
