/* Runs a program instruction by instruction, and counts them: steps FILE PROGRAM [WORD]..
 *
 * The program has the standard streams of this process. This process ends with its status, and
 * writes the number to FILE. If the variable OWN is set, instructions of shared libraries are not
 * counted. */
#include <signal.h>
#include <stddef.h>
#include <stdio.h>
#include <stdlib.h>
#include <sys/ptrace.h>
#include <sys/user.h>
#include <sys/wait.h>
#include <unistd.h>

/* An address above the program and below all shared libraries, wherever Linux puts them. */
#define LIBRARIES 0x680000000000UL

/* Returns whether the next instruction of the process is one of the program itself. */
static int is_own(pid_t child) {
    const long at = ptrace(PTRACE_PEEKUSER, child, (void *)offsetof(struct user, regs.rip), NULL);
    return (unsigned long)at < LIBRARIES;
}

int main(int count, char **words) {
    const int counts_all = getenv("OWN") == NULL;
    unsigned long steps = 0;
    int status = 0, sent = 0;
    pid_t child;
    FILE *file;
    if (count < 3 || (child = fork()) < 0)
        return 125;
    if (child == 0) {
        if (ptrace(PTRACE_TRACEME, 0, NULL, NULL) == 0)
            execv(words[2], words + 2);
        _exit(125);
    }
    while (waitpid(child, &status, 0) == child && WIFSTOPPED(status)) {
        sent = WSTOPSIG(status) == SIGTRAP ? 0 : WSTOPSIG(status);
        steps += counts_all || is_own(child);
        if (ptrace(PTRACE_SINGLESTEP, child, NULL, (void *)(long)sent) != 0)
            return 125;
    }
    file = fopen(words[1], "w");
    if (file == NULL || fprintf(file, "%lu\n", steps) < 0 || fclose(file) != 0)
        return 125;
    return WIFEXITED(status) ? WEXITSTATUS(status) : 125;
}
