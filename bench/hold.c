/* Runs a program and holds it before each of its calls of the system, until it is told to go on: `bench/powercut` copies a device
   meanwhile. Words: the number of the file to which a line is written at each call, that of the file from which a byte is read then,
   and the program with its words. A line is the number of the call and its first argument; at the end `end` and the status, or a
   signal below zero. The byte is `g` to go on, or `k` to kill the program before the call. Where this program ends, the held one does. */
#define _GNU_SOURCE
#include <signal.h>
#include <stdio.h>
#include <stdlib.h>
#include <sys/ptrace.h>
#include <sys/wait.h>
#include <unistd.h>

static int ended(int lines, int status) {
    dprintf(lines, "end %d\n", WIFEXITED(status) ? WEXITSTATUS(status) : -WTERMSIG(status));
    return 0;
}

int main(int many, char **words) {
    if (many < 4) return 2;
    int lines = atoi(words[1]), answers = atoi(words[2]), status;
    pid_t held = fork();
    if (held == 0) {
        close(lines);
        close(answers);
        ptrace(PTRACE_TRACEME, 0, 0, 0);
        execv(words[3], words + 3);
        _exit(127);
    }
    if (held < 0 || waitpid(held, &status, 0) < 0 || !WIFSTOPPED(status)) return 1;
    if (ptrace(PTRACE_SETOPTIONS, held, 0, PTRACE_O_TRACESYSGOOD | PTRACE_O_EXITKILL) < 0) return 1;
    for (long signal = 0;;) {
        if (ptrace(PTRACE_SYSCALL, held, 0, signal) < 0 || waitpid(held, &status, 0) < 0) return 1;
        if (!WIFSTOPPED(status)) return ended(lines, status);
        signal = 0;
        if (WSTOPSIG(status) != (SIGTRAP | 0x80)) {
            signal = WSTOPSIG(status) == SIGTRAP ? 0 : WSTOPSIG(status);
            continue;
        }
        struct __ptrace_syscall_info call;
        if (ptrace(PTRACE_GET_SYSCALL_INFO, held, sizeof call, &call) < 0) return 1;
        if (call.op != PTRACE_SYSCALL_INFO_ENTRY) continue;
        char answer;
        dprintf(lines, "%llu %llu\n", (unsigned long long)call.entry.nr, (unsigned long long)call.entry.args[0]);
        if (read(answers, &answer, 1) != 1) return 1;
        if (answer == 'k') {
            kill(held, SIGKILL);
            if (waitpid(held, &status, 0) < 0) return 1;
            return ended(lines, status);
        }
    }
}
