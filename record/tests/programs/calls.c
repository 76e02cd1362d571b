/* What the tests of observing run: calls WORD FILES..., a way to reach files that is hard to follow for each word. Ends
   with 0 where all of it went well, with 77 where this machine has no such call, else with 1 or more. */
#define _GNU_SOURCE
#include <errno.h>
#include <fcntl.h>
#include <linux/io_uring.h>
#include <pthread.h>
#include <sched.h>
#include <signal.h>
#include <stdint.h>
#include <stdio.h>
#include <stdlib.h>
#include <string.h>
#include <sys/mman.h>
#include <sys/prctl.h>
#include <sys/ptrace.h>
#include <sys/stat.h>
#include <sys/syscall.h>
#include <sys/wait.h>
#include <unistd.h>

enum { NO_SUCH_CALL = 77, OPENAT2 = 437, URING_SETUP = 425, URING_ENTER = 426, IN_ROOT = 0x10, BENEATH = 8 };

static int must(long result) {
    if (result >= 0) return (int)result;
    int is_missing = errno == ENOSYS || errno == EPERM;
    perror("calls");
    exit(is_missing ? NO_SUCH_CALL : 1);
}
static void copy_all(int from, int to) {
    char part[4096];
    for (ssize_t n; (n = must(read(from, part, sizeof part))) > 0;) must(write(to, part, (size_t)n));
}
static int openat2_of(int folder, const char *path, uint64_t flags, uint64_t resolve) {
    uint64_t how[3] = {flags, flags & O_CREAT ? 0644 : 0, resolve};
    return must(syscall(OPENAT2, folder, path, how, sizeof how));
}
/* Each child makes the next one while its own maker waits; the last one runs cp. */
static void chain_of_vforks(int depth, char **files) {
    int status;
    pid_t child = 0;
    if (!depth) execlp("cp", "cp", files[0], files[1], NULL);
    if (depth && !(child = vfork())) chain_of_vforks(depth - 1, files);
    _exit(!depth || child < 0 || waitpid(child, &status, 0) != child || status);
}
static void *in_own_folder(void *files) { /* a thread that shares its folder with no other */
    char **f = files;
    must(unshare(CLONE_FS));
    must(chdir(f[0]));
    copy_all(must(open(f[1], O_RDONLY)), must(open(f[2], O_WRONLY | O_CREAT | O_TRUNC, 0644)));
    return NULL;
}
static void *runs(void *words) { /* a program is put in the place of all threads by one that is not the first */
    execvp(((char **)words)[0], words);
    return NULL;
}
static void thread(void *(*what)(void *), void *with) {
    pthread_t it;
    if (pthread_create(&it, NULL, what, with) || pthread_join(it, NULL)) exit(1);
}
/* Opens a file by a ring of the kernel's, without a call that opens. */
static int opened_by_ring(const char *path) {
    struct io_uring_params p = {0};
    int ring = must(syscall(URING_SETUP, 4, &p));
    size_t asked = p.sq_off.array + p.sq_entries * sizeof(unsigned);
    size_t answered = p.cq_off.cqes + p.cq_entries * sizeof(struct io_uring_cqe);
    size_t size = asked > answered ? asked : answered;
    int both = PROT_READ | PROT_WRITE;
    char *rings = mmap(NULL, size, both, MAP_SHARED | MAP_POPULATE, ring, IORING_OFF_SQ_RING);
    struct io_uring_sqe *sqe = mmap(NULL, p.sq_entries * sizeof *sqe, both, MAP_SHARED, ring, IORING_OFF_SQES);
    if (rings == MAP_FAILED || sqe == MAP_FAILED || !(p.features & IORING_FEAT_SINGLE_MMAP)) exit(NO_SUCH_CALL);
    *sqe = (struct io_uring_sqe){.opcode = IORING_OP_OPENAT, .fd = AT_FDCWD, .addr = (uintptr_t)path};
    *(unsigned *)(rings + p.sq_off.array) = 0;
    __atomic_store_n((unsigned *)(rings + p.sq_off.tail), 1, __ATOMIC_RELEASE);
    must(syscall(URING_ENTER, ring, 1, 1, IORING_ENTER_GETEVENTS, NULL, 0));
    return ((struct io_uring_cqe *)(rings + p.cq_off.cqes))->res;
}
static volatile sig_atomic_t signals_seen;
static void count_signal(int signal) { (void)signal; signals_seen++; }

int main(int count, char **words) {
    char *word = words[1], **f = words + 2, name[64];
    if (count < 3) return 2;
    int folder, file;
    if (!strcmp(word, "copy")) copy_all(must(open(f[0], O_RDONLY)), must(creat(f[1], 0644)));
    else if (!strcmp(word, "vforks")) { /* DEPTH FROM TO */
        if (!(folder = vfork())) chain_of_vforks(atoi(f[0]), f + 1);
        return waitpid(folder, &file, 0) != folder || file;
    } else if (!strcmp(word, "openat2")) { /* FOLDER FROM TO: both in the folder */
        folder = openat2_of(AT_FDCWD, f[0], O_PATH | O_DIRECTORY, 0);
        file = openat2_of(folder, f[1], O_RDONLY, BENEATH);
        copy_all(file, openat2_of(folder, f[2], O_WRONLY | O_CREAT | O_TRUNC, BENEATH));
    } else if (!strcmp(word, "in-root")) { /* FOLDER FROM TO: as if the folder were the root */
        folder = openat2_of(AT_FDCWD, f[0], O_PATH | O_DIRECTORY, 0);
        file = openat2_of(folder, f[1], O_RDONLY, IN_ROOT);
        copy_all(file, openat2_of(folder, f[2], O_WRONLY | O_CREAT | O_TRUNC, IN_ROOT));
    } else if (!strcmp(word, "execveat")) { /* FOLDER PROGRAM FROM TO: the folder's program, then itself */
        char *run[] = {f[1], "copy", f[2], f[3], NULL};
        if (!(folder = fork())) must(syscall(SYS_execveat, must(open(f[0], O_PATH)), f[1], run, environ, 0));
        if (waitpid(folder, &file, 0) != folder || file) return 1;
        must(syscall(SYS_execveat, must(open("/proc/self/exe", O_PATH | O_CLOEXEC)), "", run, environ, AT_EMPTY_PATH));
    } else if (!strcmp(word, "memfd")) { /* PROGRAM FROM TO: runs a copy that no folder has */
        char *run[] = {f[0], "copy", f[1], f[2], NULL};
        file = must(memfd_create("copied", MFD_CLOEXEC));
        copy_all(must(open(f[0], O_RDONLY)), file);
        must(fexecve(file, run, environ));
    } else if (!strcmp(word, "path")) { /* FOLDER FROM TO: by descriptors that can neither read nor write */
        folder = must(open(f[0], O_PATH | O_DIRECTORY));
        snprintf(name, sizeof name, "/proc/self/fd/%d", must(openat(folder, f[1], O_PATH)));
        copy_all(must(open(name, O_RDONLY)), must(openat(folder, f[2], O_WRONLY | O_CREAT | O_TRUNC, 0644)));
    } else if (!strcmp(word, "unnamed")) { /* FOLDER FROM TO: writes a file that has no name, and then gives it one */
        file = must(open(f[0], O_TMPFILE | O_WRONLY, 0644));
        copy_all(must(open(f[1], O_RDONLY)), file);
        snprintf(name, sizeof name, "/proc/self/fd/%d", file);
        must(linkat(AT_FDCWD, name, AT_FDCWD, f[2], AT_SYMLINK_FOLLOW));
    } else if (!strcmp(word, "empty")) { /* FROM TO: asks for a path without a letter, as shells do */
        struct stat it;
        if (!stat("", &it) || !access("", F_OK) || open("", O_RDONLY) >= 0) return 1;
        copy_all(must(open(f[0], O_RDONLY)), must(creat(f[1], 0644)));
    } else if (!strcmp(word, "duplicate")) { /* FOLDER FROM TO: by a copy of the folder's descriptor */
        folder = must(open(f[0], O_RDONLY | O_DIRECTORY));
        file = must(fcntl(folder, F_DUPFD_CLOEXEC, 40));
        must(close(folder)), must(dup2(file, 50)), must(close(file));
        copy_all(must(openat(50, f[1], O_RDONLY)), must(openat(50, f[2], O_WRONLY | O_CREAT | O_TRUNC, 0644)));
    } else if (!strcmp(word, "thread")) { /* FOLDER FROM TO: in the folder of a thread, then in its own */
        thread(in_own_folder, f);
        copy_all(must(open(f[1], O_RDONLY)), must(open(f[2], O_WRONLY | O_CREAT | O_TRUNC, 0644)));
    } else if (!strcmp(word, "thread-runs")) thread(runs, f);
    else if (!strcmp(word, "renamed")) { /* FOLDER ../FOLDER ../OTHER FROM TO: in a folder that is renamed meanwhile */
        must(chdir(f[0])), must(rename(f[1], f[2])), f++;
        copy_all(must(open(f[2], O_RDONLY)), must(open(f[3], O_WRONLY | O_CREAT | O_TRUNC, 0644)));
    } else if (!strcmp(word, "chroot")) { /* FOLDER FROM TO: both below the folder, as absolute paths */
        must(chroot(f[0])), must(chdir("/"));
        copy_all(must(open(f[1], O_RDONLY)), must(open(f[2], O_WRONLY | O_CREAT | O_TRUNC, 0644)));
    } else if (!strcmp(word, "ring")) copy_all(must(opened_by_ring(f[0])), must(creat(f[1], 0644)));
    else if (!strcmp(word, "hidden")) { /* FROM TO: a process that nobody may look into */
        must(prctl(PR_SET_DUMPABLE, 0));
        copy_all(must(open(f[0], O_RDONLY)), must(creat(f[1], 0644)));
    } else if (!strcmp(word, "thirty-two")) {
#ifdef __x86_64__
        long result;
        __asm__ volatile("int $0x80" : "=a"(result) : "a"(20) : "memory", "r8", "r9", "r10", "r11");
        return result != getpid();
#else
        return NO_SUCH_CALL;
#endif
    } else if (!strcmp(word, "trace")) /* FROM TO: asks to be traced, and goes on whatever the answer is */
        ptrace(PTRACE_TRACEME, 0, 0, 0), copy_all(must(open(f[0], O_RDONLY)), must(creat(f[1], 0644)));
    else if (!strcmp(word, "signals")) { /* NUMBER: so many signals of two kinds, each handled once */
        signal(SIGUSR1, count_signal), signal(SIGTRAP, count_signal);
        for (int i = 0; i < atoi(f[0]); i++) must(kill(getpid(), i % 2 ? SIGUSR1 : SIGTRAP));
        return signals_seen != atoi(f[0]);
    } else if (!strcmp(word, "daemon")) { /* WHEN TO: lives on after its maker, and writes once WHEN is there */
        if (fork()) return 0;
        setsid();
        if (fork()) return 0;
        for (int i = 0; i < 3; i++) close(i);
        for (int i = 0; i < 12000 && access(f[0], F_OK); i++) usleep(50000);
        must(creat(f[1], 0644));
    } else return 2;
    return 0;
}
