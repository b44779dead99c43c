/* Runs a program and tells what it used, for checks/shapes.py:

     usage FILE PROGRAM [WORD..]

   FILE gets its status (256 and the signal, where one ended it, as one does after a minute), its peak
   of memory in KiB and its processor time in microseconds. A caller's own memory would count as the program's: what a process
   held before it became the program belongs to its peak. This one holds next to nothing. */
#define _GNU_SOURCE
#include <stdio.h>
#include <sys/resource.h>
#include <sys/wait.h>
#include <unistd.h>

enum { LONGEST_CALL = 60 };

static long microseconds(struct timeval time) {
    return time.tv_sec * 1000000L + time.tv_usec;
}

int main(int count, char **words) {
    struct rusage used;
    int state;
    if (count < 3)
        return 2;
    pid_t child = fork();
    if (child == 0) {
        alarm(LONGEST_CALL);
        execv(words[2], words + 2);
        _exit(127);
    }
    FILE *told = fopen(words[1], "w");
    if (child < 0 || told == NULL || wait4(child, &state, 0, &used) != child)
        return 2;
    fprintf(told, "%d %ld %ld\n", WIFEXITED(state) ? WEXITSTATUS(state) : 256 + WTERMSIG(state), used.ru_maxrss,
            microseconds(used.ru_utime) + microseconds(used.ru_stime));
    return fclose(told) != 0;
}
