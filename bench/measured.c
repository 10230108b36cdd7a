/* Runs a command, and puts its seconds and the peak of its resident memory in KB into a file. For program.py, since a process that is
 * begun by a large one counts that one's memory as its own.
 *   measured FIGURES WORD.. */
#include <stdio.h>
#include <sys/resource.h>
#include <sys/wait.h>
#include <unistd.h>

#include "timing.h"

int main(int count, char **words) {
    if (count < 3)
        return 2;
    double begun = now();
    pid_t child = fork();
    if (child < 0)
        return 1;
    if (child == 0) {
        execv(words[2], words + 2);
        _exit(127);
    }
    int status;
    struct rusage used;
    if (wait4(child, &status, 0, &used) != child)
        return 1;
    double seconds = now() - begun;
    FILE *file = fopen(words[1], "w");
    if (!file || fprintf(file, "%.6f %ld\n", seconds, used.ru_maxrss) < 0 || fclose(file))
        return 1;
    return WIFEXITED(status) ? WEXITSTATUS(status) : 128;
}
