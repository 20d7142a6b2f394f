// Runs a program under ptrace(2), and counts its system calls that read or change files, from 1: from the first one on
// that names a given text.
//
//     fail_call TEXT NUMBER ERROR LOG PROGRAM [WORD..]
//
// The call of this number answers this error, and isn't made; if ERROR is `kill`, the process is killed before it; if
// it is `do:COMMAND`, a shell runs this command before it. With the number 0 nothing is disturbed. Each call is a line of
// the file LOG. The status is the program's. For x86-64. Built by each-call and tests/roots.
#define _GNU_SOURCE
#include <errno.h>
#include <fcntl.h>
#include <limits.h>
#include <signal.h>
#include <stdio.h>
#include <stdlib.h>
#include <string.h>
#include <sys/ptrace.h>
#include <sys/syscall.h>
#include <sys/uio.h>
#include <sys/user.h>
#include <sys/wait.h>
#include <unistd.h>

// A system call, by its name in the log. Its arguments, from 0, or -1 if it has none: a descriptor that it works on, a
// directory from which its paths lead, one or two paths, and a number that the log shows.
struct call {
    long number;
    const char *name;
    int file, directory, one, two, shown;
};

static const struct call calls[] = {
    {SYS_read, "read", 0, -1, -1, -1, 2},
    {SYS_pread64, "read", 0, -1, -1, -1, 2},
    {SYS_readv, "read", 0, -1, -1, -1, 2},
    {SYS_write, "write", 0, -1, -1, -1, 2},
    {SYS_pwrite64, "write", 0, -1, -1, -1, 2},
    {SYS_writev, "write", 0, -1, -1, -1, 2},
    {SYS_getdents64, "getdents", 0, -1, -1, -1, 2},
    {SYS_open, "open", -1, -1, 0, -1, 1},
    {SYS_openat, "open", -1, 0, 1, -1, 2},
    {SYS_stat, "stat", -1, -1, 0, -1, -1},
    {SYS_lstat, "stat", -1, -1, 0, -1, -1},
    {SYS_fstat, "stat", 0, -1, -1, -1, -1},
    {SYS_newfstatat, "stat", -1, 0, 1, -1, 3},
    {SYS_statx, "stat", -1, 0, 1, -1, 2},
    {SYS_access, "access", -1, -1, 0, -1, 1},
    {SYS_faccessat, "access", -1, 0, 1, -1, 2},
    {SYS_readlink, "readlink", -1, -1, 0, -1, -1},
    {SYS_readlinkat, "readlink", -1, 0, 1, -1, -1},
    {SYS_chdir, "chdir", -1, -1, 0, -1, -1},
    {SYS_fchdir, "chdir", 0, -1, -1, -1, -1},
    {SYS_mkdir, "mkdir", -1, -1, 0, -1, 1},
    {SYS_mkdirat, "mkdir", -1, 0, 1, -1, 2},
    {SYS_rmdir, "rmdir", -1, -1, 0, -1, -1},
    {SYS_unlink, "unlink", -1, -1, 0, -1, -1},
    {SYS_unlinkat, "unlink", -1, 0, 1, -1, 2},
    {SYS_rename, "rename", -1, -1, 0, 1, -1},
    {SYS_renameat, "rename", -1, 0, 1, 3, -1},
    {SYS_renameat2, "rename", -1, 0, 1, 3, 4},
    {SYS_link, "link", -1, -1, 0, 1, -1},
    {SYS_linkat, "link", -1, 0, 1, 3, 4},
    {SYS_symlink, "symlink", -1, -1, 1, 0, -1},
    {SYS_symlinkat, "symlink", -1, 1, 2, 0, -1},
    {SYS_chmod, "chmod", -1, -1, 0, -1, 1},
    {SYS_fchmod, "chmod", 0, -1, -1, -1, 1},
    {SYS_fchmodat, "chmod", -1, 0, 1, -1, 2},
    {SYS_chown, "chown", -1, -1, 0, -1, 1},
    {SYS_lchown, "chown", -1, -1, 0, -1, 1},
    {SYS_fchown, "chown", 0, -1, -1, -1, 1},
    {SYS_fchownat, "chown", -1, 0, 1, -1, 2},
    {SYS_ftruncate, "truncate", 0, -1, -1, -1, 1},
    {SYS_fsync, "fsync", 0, -1, -1, -1, -1},
    {SYS_fdatasync, "fsync", 0, -1, -1, -1, -1},
    {SYS_flock, "flock", 0, -1, -1, -1, 1},
};

// What is known of the call that the program is in.
struct made {
    const struct call *call;
    char here[PATH_MAX], one[PATH_MAX], two[PATH_MAX];
    long shown;
};

static void fail(const char *what) {
    perror(what);
    exit(125);
}

static const struct call *known(long number) {
    for (size_t i = 0; i < sizeof calls / sizeof *calls; i++)
        if (calls[i].number == number)
            return &calls[i];
    return NULL;
}

// Copies a text of the program.
static void copy_text(pid_t pid, unsigned long at, char *to) {
    size_t size = 0;
    for (; size + 1 < PATH_MAX; size++) {
        struct iovec here = {to + size, 1}, there = {(void *)(at + size), 1};
        if (process_vm_readv(pid, &here, 1, &there, 1, 0) != 1 || !to[size])
            break;
    }
    to[size] = 0;
}

// Where a descriptor of the program, or its working directory, leads.
static void copy_place(pid_t pid, int fd, char *to) {
    char name[64];
    if (fd == AT_FDCWD)
        snprintf(name, sizeof name, "/proc/%d/cwd", pid);
    else
        snprintf(name, sizeof name, "/proc/%d/fd/%d", pid, fd);
    ssize_t size = readlink(name, to, PATH_MAX - 1);
    to[size < 0 ? 0 : size] = 0;
}

static void look(pid_t pid, const struct user_regs_struct *regs, const struct call *call, struct made *made) {
    unsigned long given[] = {regs->rdi, regs->rsi, regs->rdx, regs->r10, regs->r8, regs->r9};
    made->call = call;
    *made->one = *made->two = 0;
    copy_place(pid, call->directory < 0 ? AT_FDCWD : (int)given[call->directory], made->here);
    if (call->file >= 0)
        copy_place(pid, (int)given[call->file], made->one);
    if (call->one >= 0)
        copy_text(pid, given[call->one], made->one);
    if (call->two >= 0)
        copy_text(pid, given[call->two], made->two);
    made->shown = call->shown < 0 ? 0 : (long)given[call->shown];
}

static pid_t started(char **words) {
    pid_t pid = fork();
    if (pid < 0)
        fail("fork");
    if (!pid) {
        if (ptrace(PTRACE_TRACEME, 0, 0, 0))
            fail("ptrace");
        raise(SIGSTOP);
        execvp(*words, words);
        fail(*words);
    }
    return pid;
}

// Goes on to the next stop, and returns whether it is at a system call. At the end of the program this one ends.
static int goes_on(pid_t pid, int *signal) {
    int status;
    // (a process that was killed can't go on, and its end is waited for)
    if (ptrace(PTRACE_SYSCALL, pid, 0, (long)*signal) && errno != ESRCH)
        fail("ptrace");
    if (waitpid(pid, &status, 0) < 0)
        fail("waitpid");
    if (WIFEXITED(status))
        exit(WEXITSTATUS(status));
    if (WIFSIGNALED(status))
        exit(128 + WTERMSIG(status));
    *signal = WSTOPSIG(status) == (SIGTRAP | 0x80) ? 0 : WSTOPSIG(status);
    if (*signal == SIGTRAP)
        *signal = 0;
    return WSTOPSIG(status) == (SIGTRAP | 0x80);
}

// What is done at the call with the wanted number, and whether it answers an error.
static int disturb(pid_t pid, struct user_regs_struct *regs, const char *how) {
    if (!strcmp(how, "kill"))
        return kill(pid, SIGKILL), 0;
    if (!strncmp(how, "do:", 3)) {
        if (system(how + 3))
            fail(how);
        return 0;
    }
    regs->orig_rax = -1;
    if (ptrace(PTRACE_SETREGS, pid, 0, regs))
        fail("registers");
    return 1;
}

static void trace(pid_t pid, const char *text, long wanted, const char *how, FILE *log) {
    static struct made made;
    struct user_regs_struct regs;
    long seen = 0;
    int signal = 0, is_inside = 0, fails = 0;
    for (;;) {
        if (!goes_on(pid, &signal))
            continue;
        if (ptrace(PTRACE_GETREGS, pid, 0, &regs))
            fail("registers");
        is_inside = !is_inside;
        if (is_inside) {
            const struct call *call = known((long)regs.orig_rax);
            made.call = NULL;
            fails = 0;
            if (!call)
                continue;
            look(pid, &regs, call, &made);
            if (!seen && !strstr(made.one, text))
                made.call = NULL;
            else if (++seen == wanted)
                fails = disturb(pid, &regs, how);
        } else if (made.call) {
            if (fails) {
                regs.rax = -atol(how);
                ptrace(PTRACE_SETREGS, pid, 0, &regs);
            }
            fprintf(log, "%ld\t%s\t%lld\t%s\t%s\t%s\t%ld\n", seen, made.call->name, (long long)regs.rax, made.here,
                    made.one, made.two, made.shown);
            fflush(log);
        }
    }
}

int main(int count, char **words) {
    int status;
    if (count < 6) {
        fprintf(stderr, "fail_call TEXT NUMBER ERROR LOG PROGRAM [WORD..]\n");
        return 125;
    }
    FILE *log = fopen(words[4], "ae");
    if (!log)
        fail(words[4]);
    pid_t pid = started(words + 5);
    if (waitpid(pid, &status, 0) < 0)
        fail("waitpid");
    if (ptrace(PTRACE_SETOPTIONS, pid, 0, PTRACE_O_TRACESYSGOOD | PTRACE_O_EXITKILL))
        fail("ptrace");
    trace(pid, words[1], atol(words[2]), words[3], log);
}
