// Runs a program and notes the most memory that it took: peak NOTE PROGRAM ARGUMENTS..
//
// The file NOTE gets the number of KiB. The status is the program's, or 127 where it can't be run. What the system tells of a program counts
// what the process had that started it, so that it is started from one as small as this.
#include <stdio.h>
#include <sys/resource.h>
#include <sys/wait.h>
#include <unistd.h>

int main(int count, char **words) {
    if (count < 3) return 127;
    pid_t child = fork();
    if (child < 0) return 127;
    if (child == 0) {
        execv(words[2], words + 2);
        _exit(127);
    }
    int status;
    struct rusage used;
    if (wait4(child, &status, 0, &used) != child) return 127;
    FILE *note = fopen(words[1], "w");
    if (!note || fprintf(note, "%ld\n", used.ru_maxrss) < 0 || fclose(note)) return 127;
    return WIFEXITED(status) ? WEXITSTATUS(status) : 127;
}
