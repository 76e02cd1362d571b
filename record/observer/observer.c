/* rebug's own observer: runs a command, and tells what its processes do to which entries of folders.

     observer LOG COMMAND...   this process becomes COMMAND; one beside it writes to LOG, a pipe that is being read
     observer --looks LOG COMMAND...   the same, with a look at what each command changed, before COMMAND learns its end
     observer --try            says on standard output why that cannot be done here, and ends with 1; else with 0

   The process beside is nobody's child and has a session of its own: no signal of the terminal reaches it, the caller's
   child is COMMAND itself, and COMMAND's end is its own. A seccomp filter stops those calls alone that are to be told
   (`rules`), and each call that is in no list. PTRACE_O_EXITKILL ends the command where the observer is killed, since
   its filter would make it go on with calls that fail. One stop does for a call that only looks: the observer looks at
   the same path itself. A second one, at the call's end, is made where the result matters, and for every call once a
   process has changed its root, its mounts or its user: the observer's own look would not see the same, and could wait
   for a file system that is served by a process that waits for the observer. A path is taken name by name while its
   process is stopped (`way_of`). README.md has what is written. Linux 5.3 or later, x86-64 or arm64. */
#define _GNU_SOURCE
#include <arpa/inet.h>
#include <errno.h>
#include <fcntl.h>
#include <ftw.h>
#include <limits.h>
#include <linux/audit.h>
#include <linux/filter.h>
#include <linux/seccomp.h>
#include <signal.h>
#include <stdbool.h>
#include <stddef.h>
#include <stdint.h>
#include <stdio.h>
#include <stdlib.h>
#include <string.h>
#include <sys/mman.h>
#include <sys/prctl.h>
#include <sys/ptrace.h>
#include <sys/socket.h>
#include <sys/stat.h>
#include <sys/syscall.h>
#include <sys/uio.h>
#include <sys/sysmacros.h>
#include <sys/un.h>
#include <sys/vfs.h>
#include <sys/wait.h>
#include <time.h>
#include <unistd.h>

#if defined __x86_64__ && !defined __ILP32__
#define ARCHITECTURE AUDIT_ARCH_X86_64
#define MACHINE "x86-64"
#elif defined __aarch64__ && defined __AARCH64EL__
#define ARCHITECTURE AUDIT_ARCH_AARCH64
#define MACHINE "arm64"
#else
#error "the observer knows x86-64 and arm64"
#endif

/* The release of the kernel from which the lists of calls were taken: every call that it has is in one of them. */
#define RELEASE "6.10"

/* Numbers that the two architectures share, and that older headers lack; flags of clone; requests of ptrace. */
enum { SYS_NEW_move_mount = 429, SYS_NEW_clone3 = 435, CLOSE_RANGE, SYS_NEW_openat2, SYS_NEW_faccessat2 = 439,
       SYS_NEW_mount_setattr = 442, SYS_NEW_fchmodat2 = 452, PIDFD_OPEN = 434, PIDFD_GETFD = 438 };
enum { FS = 0x200, FILES = 0x400, THREAD = 0x10000, SPACES = 0x10020000, UNTRACED = 0x800000 };
enum { TRACEME = 0, ATTACH = 16, SEIZE = 0x4206, GET_SYSCALL_INFO = 0x420e };

/* The kinds of a record, as own_records.py has them too; those behind LAST_TOLD are not written. */
enum kind { SPAWN, EXEC, EXIT, UNSHARE, OPEN, STAT, LIST, LINK, SYMLINK, RENAME, EXCHANGE, UNLINK, RMDIR, MKDIR, MKNOD,
            TRUNCATE, META, SOCKET, URING, NAMESPACE, UNRESOLVED, TRACE, CHDIR, READLINK, LOAD, MODE, BIND, IPC, LOCK,
            SIGNAL, ATTRIBUTES, NOTIFIED, UNKNOWN, DEEP, LOOKED, MOVED, LAST_TOLD = MOVED,
            OTHER_USER, ADDRESS, MESSAGE, STATFS, IOCTL };
enum { LONGEST_TRY = 120 }; /* seconds; a busy machine takes a hundred times as long as a quiet one */
enum { NOT_ASKED = 1 << 30 }; /* the result of an open that went well: nobody asks for its descriptor */

/* Which calls stop, and where their parts stand. `reading` says what the argument `flags` is; `mask` has flags that the
   call always has, and for IF_ANY those of which it must have one, for IF_OTHER_SIZE the size that it must not have. */
enum { NO = 6 };
enum reading { FIXED, OPENING, STRUCTURE, AT, FOLLOWING, REMOVING, RENAMING };
enum when { ALWAYS, IF_NAMED, IF_ANY, IF_TRACING, IF_ADDRESSED, IF_OTHER_SIZE, IF_LOCKING, IF_LISTENING,
            IF_OF_OTHERS, IF_OF_FILE, IF_OF_MEMORY };
/* The room for a link's text that the C library's realpath gives: what its questions show is not told (README.md). */
enum { REALPATH_ROOM = 1023 };
struct rule { int number; const char *name; uint8_t kind, folder, path, other_folder, other, flags, reading, when; uint32_t mask; };
#define RULE(call, ...) {SYS_##call, #call, __VA_ARGS__},
#define SHORT(call, kind, when) RULE(call, kind, NO, NO, NO, NO, NO, FIXED, when, 0)
static const struct rule rules[] = {
    RULE(openat, OPEN, 0, 1, NO, NO, 2, OPENING, ALWAYS, 0)
    RULE(newfstatat, STAT, 0, 1, NO, NO, 3, AT, IF_NAMED, 0)
#ifdef SYS_open
    RULE(open, OPEN, NO, 0, NO, NO, 1, OPENING, ALWAYS, 0)
    RULE(stat, STAT, NO, 0, NO, NO, NO, FIXED, ALWAYS, 0)
    RULE(lstat, STAT, NO, 0, NO, NO, NO, FIXED, ALWAYS, O_NOFOLLOW)
    RULE(access, MODE, NO, 0, NO, NO, NO, FIXED, ALWAYS, 0)
    RULE(readlink, READLINK, NO, 0, NO, NO, 2, FIXED, IF_OTHER_SIZE, O_NOFOLLOW)
#endif
    RULE(readlinkat, READLINK, 0, 1, NO, NO, 3, FIXED, IF_OTHER_SIZE, O_NOFOLLOW)
    {SYS_NEW_openat2, "openat2", OPEN, 0, 1, NO, NO, 2, STRUCTURE, ALWAYS, 0},
    RULE(statx, STAT, 0, 1, NO, NO, 2, AT, ALWAYS, 0)
    RULE(faccessat, MODE, 0, 1, NO, NO, NO, FIXED, ALWAYS, 0)
    {SYS_NEW_faccessat2, "faccessat2", MODE, 0, 1, NO, NO, 3, AT, IF_NAMED, 0},
    RULE(execve, EXEC, NO, 0, NO, NO, NO, FIXED, ALWAYS, 0)
    RULE(execveat, EXEC, 0, 1, NO, NO, 4, AT, ALWAYS, 0)
    RULE(chdir, CHDIR, NO, 0, NO, NO, NO, FIXED, ALWAYS, 0)
    RULE(getdents64, LIST, 0, NO, NO, NO, NO, FIXED, ALWAYS, 0)
    RULE(linkat, LINK, 0, 1, 2, 3, 4, FOLLOWING, ALWAYS, 0)
    RULE(symlinkat, SYMLINK, NO, NO, 1, 2, 0, FIXED, ALWAYS, 0)
    RULE(renameat2, RENAME, 0, 1, 2, 3, 4, RENAMING, ALWAYS, 0)
    RULE(unlinkat, UNLINK, 0, 1, NO, NO, 2, REMOVING, ALWAYS, 0)
    RULE(mkdirat, MKDIR, 0, 1, NO, NO, NO, FIXED, ALWAYS, O_NOFOLLOW)
    RULE(mknodat, MKNOD, 0, 1, NO, NO, NO, FIXED, ALWAYS, O_NOFOLLOW)
    RULE(truncate, TRUNCATE, NO, 0, NO, NO, NO, FIXED, ALWAYS, 0)
    RULE(fchmodat, META, 0, 1, NO, NO, NO, FIXED, ALWAYS, 0)
    {SYS_NEW_fchmodat2, "fchmodat2", META, 0, 1, NO, NO, 3, AT, ALWAYS, 0},
    RULE(fchownat, META, 0, 1, NO, NO, 4, AT, ALWAYS, 0)
    RULE(utimensat, META, 0, 1, NO, NO, 3, AT, ALWAYS, 0)
    RULE(fchmod, META, 0, NO, NO, NO, NO, FIXED, ALWAYS, 0)
    RULE(fchown, META, 0, NO, NO, NO, NO, FIXED, ALWAYS, 0)
    RULE(setxattr, META, NO, 0, NO, NO, NO, FIXED, ALWAYS, 0)
    RULE(lsetxattr, META, NO, 0, NO, NO, NO, FIXED, ALWAYS, O_NOFOLLOW)
    RULE(fsetxattr, META, 0, NO, NO, NO, NO, FIXED, ALWAYS, 0)
    RULE(removexattr, META, NO, 0, NO, NO, NO, FIXED, ALWAYS, 0)
    RULE(lremovexattr, META, NO, 0, NO, NO, NO, FIXED, ALWAYS, O_NOFOLLOW)
    RULE(fremovexattr, META, 0, NO, NO, NO, NO, FIXED, ALWAYS, 0)
    RULE(getxattr, STAT, NO, 0, NO, NO, NO, FIXED, ALWAYS, 0)
    RULE(lgetxattr, STAT, NO, 0, NO, NO, NO, FIXED, ALWAYS, O_NOFOLLOW)
    RULE(listxattr, STAT, NO, 0, NO, NO, NO, FIXED, ALWAYS, 0)
    RULE(llistxattr, STAT, NO, 0, NO, NO, NO, FIXED, ALWAYS, O_NOFOLLOW)
    RULE(statfs, STATFS, NO, 0, NO, NO, NO, FIXED, ALWAYS, 0)
    RULE(inotify_add_watch, STATFS, NO, 1, NO, NO, NO, FIXED, ALWAYS, 0)
    RULE(connect, ADDRESS, NO, NO, NO, NO, 1, FIXED, ALWAYS, 0)
    RULE(bind, ADDRESS, NO, NO, NO, NO, 1, FIXED, ALWAYS, 0)
    RULE(sendto, ADDRESS, NO, NO, NO, NO, 4, FIXED, IF_ADDRESSED, 0)
    RULE(sendmsg, MESSAGE, NO, NO, NO, NO, 1, FIXED, ALWAYS, 0)
    RULE(sendmmsg, MESSAGE, NO, NO, NO, NO, 1, FIXED, ALWAYS, 0)
    RULE(flock, LOCK, 0, NO, NO, NO, NO, FIXED, ALWAYS, 0)
    RULE(fcntl, LOCK, 0, NO, NO, NO, NO, FIXED, IF_LOCKING, 0)
    RULE(ioctl, IOCTL, 0, NO, NO, NO, 1, FIXED, IF_OF_FILE, 0)
    SHORT(msgget, IPC, ALWAYS) SHORT(semget, IPC, ALWAYS) SHORT(shmget, IPC, ALWAYS) SHORT(msgctl, IPC, ALWAYS)
    SHORT(semctl, IPC, ALWAYS) SHORT(shmctl, IPC, ALWAYS) SHORT(msgsnd, IPC, ALWAYS) SHORT(msgrcv, IPC, ALWAYS)
    SHORT(semop, IPC, ALWAYS) SHORT(semtimedop, IPC, ALWAYS) SHORT(shmat, IPC, ALWAYS)
    RULE(mq_open, IPC, NO, NO, NO, NO, 0, STRUCTURE, ALWAYS, 0)
    RULE(mq_unlink, IPC, NO, NO, NO, NO, 0, STRUCTURE, ALWAYS, 0)
    SHORT(kill, SIGNAL, IF_OF_OTHERS)
    SHORT(seccomp, NOTIFIED, IF_LISTENING) SHORT(prctl, UNKNOWN, IF_OF_MEMORY)
    SHORT(io_uring_setup, URING, ALWAYS)
    RULE(chroot, NAMESPACE, NO, 0, NO, NO, NO, FIXED, ALWAYS, 0)
    SHORT(pivot_root, NAMESPACE, ALWAYS) SHORT(mount, NAMESPACE, ALWAYS) SHORT(umount2, NAMESPACE, ALWAYS)
    {SYS_NEW_move_mount, "move_mount", NAMESPACE, NO, NO, NO, NO, NO, FIXED, ALWAYS, 0},
    {SYS_NEW_mount_setattr, "mount_setattr", NAMESPACE, NO, NO, NO, NO, NO, FIXED, ALWAYS, 0},
    SHORT(setns, NAMESPACE, ALWAYS)
    RULE(unshare, UNSHARE, NO, NO, NO, NO, 0, OPENING, IF_ANY, SPACES)
    RULE(clone, SPAWN, NO, NO, NO, NO, 0, OPENING, IF_ANY, SPACES | UNTRACED)
    {SYS_NEW_clone3, "clone3", SPAWN, NO, NO, NO, NO, 0, STRUCTURE, ALWAYS, 0},
    SHORT(open_by_handle_at, UNRESOLVED, ALWAYS)
    SHORT(ptrace, TRACE, IF_TRACING)
    SHORT(setuid, OTHER_USER, ALWAYS) SHORT(setreuid, OTHER_USER, ALWAYS) SHORT(setresuid, OTHER_USER, ALWAYS)
    SHORT(setfsuid, OTHER_USER, ALWAYS) SHORT(capset, OTHER_USER, ALWAYS)
#ifdef SYS_renameat
    RULE(renameat, RENAME, 0, 1, 2, 3, NO, FIXED, ALWAYS, 0)
#endif
#ifdef SYS_open
    RULE(creat, OPEN, NO, 0, NO, NO, NO, FIXED, ALWAYS, O_WRONLY | O_CREAT | O_TRUNC)
    RULE(getdents, LIST, 0, NO, NO, NO, NO, FIXED, ALWAYS, 0)
    RULE(link, LINK, NO, 0, NO, 1, NO, FIXED, ALWAYS, O_NOFOLLOW)
    RULE(symlink, SYMLINK, NO, NO, NO, 1, 0, FIXED, ALWAYS, 0)
    RULE(rename, RENAME, NO, 0, NO, 1, NO, FIXED, ALWAYS, 0)
    RULE(unlink, UNLINK, NO, 0, NO, NO, NO, FIXED, ALWAYS, O_NOFOLLOW)
    RULE(rmdir, RMDIR, NO, 0, NO, NO, NO, FIXED, ALWAYS, O_NOFOLLOW)
    RULE(mkdir, MKDIR, NO, 0, NO, NO, NO, FIXED, ALWAYS, O_NOFOLLOW)
    RULE(mknod, MKNOD, NO, 0, NO, NO, NO, FIXED, ALWAYS, O_NOFOLLOW)
    RULE(chmod, META, NO, 0, NO, NO, NO, FIXED, ALWAYS, 0)
    RULE(chown, META, NO, 0, NO, NO, NO, FIXED, ALWAYS, 0)
    RULE(lchown, META, NO, 0, NO, NO, NO, FIXED, ALWAYS, O_NOFOLLOW)
    RULE(utime, META, NO, 0, NO, NO, NO, FIXED, ALWAYS, 0)
    RULE(utimes, META, NO, 0, NO, NO, NO, FIXED, ALWAYS, 0)
    RULE(futimesat, META, 0, 1, NO, NO, NO, FIXED, ALWAYS, 0)
#endif
};
enum { RULES = sizeof rules / sizeof *rules, FOREIGN = RULES, STRANGE };

/* The calls that touch no file, socket or other process: of open descriptors (their open was told), memory, signals of
   its own, waits, clocks, ids and limits. Those of `rules` that do not stop by their arguments are not repeated. */
static const int quiet[] = {
#define QUIET(call) SYS_##call,
    QUIET(read) QUIET(readv) QUIET(pread64) QUIET(preadv) QUIET(preadv2) QUIET(write) QUIET(writev) QUIET(pwrite64)
    QUIET(pwritev) QUIET(pwritev2) QUIET(close) CLOSE_RANGE, QUIET(lseek) QUIET(dup) QUIET(dup3) QUIET(fstat)
    QUIET(fstatfs) QUIET(fsync) QUIET(fdatasync) QUIET(sync) QUIET(syncfs) QUIET(sync_file_range) QUIET(fadvise64)
    QUIET(readahead) QUIET(ftruncate) QUIET(fallocate) QUIET(copy_file_range) QUIET(sendfile) QUIET(splice) QUIET(tee)
    QUIET(vmsplice) QUIET(fgetxattr) QUIET(flistxattr) QUIET(ppoll) QUIET(pselect6) QUIET(epoll_create1)
    QUIET(epoll_ctl) QUIET(epoll_pwait) 441, QUIET(eventfd2) QUIET(timerfd_create) QUIET(timerfd_settime)
    QUIET(timerfd_gettime) QUIET(signalfd4) QUIET(pipe2) QUIET(socketpair) QUIET(fchdir) QUIET(getcwd)
    QUIET(inotify_init1) QUIET(inotify_rm_watch) QUIET(mmap) QUIET(munmap) QUIET(mprotect) QUIET(mremap) QUIET(msync)
    QUIET(madvise) QUIET(mincore) QUIET(brk) QUIET(mlock) QUIET(mlock2) QUIET(munlock) QUIET(mlockall)
    QUIET(munlockall) QUIET(memfd_create) 447, QUIET(pkey_alloc) QUIET(pkey_free) QUIET(pkey_mprotect)
    QUIET(membarrier) 451, 453, 462, QUIET(userfaultfd) QUIET(rt_sigaction) QUIET(rt_sigprocmask) QUIET(rt_sigreturn)
    QUIET(rt_sigpending) QUIET(rt_sigsuspend) QUIET(rt_sigtimedwait) QUIET(sigaltstack) QUIET(restart_syscall)
    QUIET(wait4) QUIET(waitid) QUIET(exit) QUIET(exit_group) QUIET(futex) 449, 454, 455, 456, QUIET(set_robust_list)
    QUIET(get_robust_list) QUIET(rseq) QUIET(set_tid_address) QUIET(gettid) QUIET(getpid) QUIET(getppid)
    QUIET(getpgid) QUIET(getsid) QUIET(getuid) QUIET(geteuid) QUIET(getgid) QUIET(getegid) QUIET(getresuid)
    QUIET(getresgid) QUIET(getgroups) QUIET(capget) QUIET(setpgid) QUIET(setsid) QUIET(umask) QUIET(prlimit64)
    QUIET(getrusage) QUIET(times) QUIET(getpriority) QUIET(setpriority) QUIET(sched_yield) QUIET(sched_getaffinity)
    QUIET(sched_setaffinity) QUIET(sched_getattr) QUIET(sched_setattr) QUIET(sched_getparam)
    QUIET(sched_getscheduler) QUIET(sched_setscheduler) QUIET(sched_setparam) QUIET(sched_get_priority_max)
    QUIET(sched_get_priority_min) QUIET(sched_rr_get_interval) QUIET(ioprio_get) QUIET(ioprio_set)
    QUIET(get_mempolicy) QUIET(set_mempolicy) QUIET(mbind) 450, QUIET(getcpu) QUIET(clock_gettime)
    QUIET(clock_getres) QUIET(clock_nanosleep) QUIET(nanosleep) QUIET(gettimeofday) QUIET(setitimer) QUIET(getitimer)
    QUIET(timer_create) QUIET(timer_settime) QUIET(timer_gettime) QUIET(timer_delete) QUIET(timer_getoverrun)
    426, 427, QUIET(getrandom) QUIET(uname) QUIET(sysinfo) QUIET(setgid) QUIET(setregid) QUIET(setresgid) QUIET(setgroups)
    QUIET(setfsgid) QUIET(socket) QUIET(accept) QUIET(accept4) QUIET(listen) QUIET(shutdown) QUIET(recvfrom)
    QUIET(recvmsg) QUIET(recvmmsg) QUIET(getsockname) QUIET(getpeername) QUIET(getsockopt) QUIET(setsockopt) 444, 445,
    446, PIDFD_OPEN, QUIET(tgkill) QUIET(tkill) QUIET(shmdt) QUIET(mq_timedsend) QUIET(mq_timedreceive)
    QUIET(mq_notify) QUIET(mq_getsetattr) QUIET(personality) QUIET(remap_file_pages) QUIET(kcmp)
#ifdef SYS_setrlimit
    QUIET(setrlimit)
#endif
#ifdef SYS_getrlimit
    QUIET(getrlimit)
#endif
#ifdef SYS_open
    QUIET(poll) QUIET(select) QUIET(epoll_create) QUIET(epoll_wait) QUIET(eventfd) QUIET(signalfd) QUIET(pipe)
    QUIET(dup2) QUIET(pause) QUIET(alarm) QUIET(time) QUIET(getpgrp) QUIET(arch_prctl) QUIET(fork) QUIET(vfork)
    QUIET(inotify_init)
#endif
};
/* Calls that the lists leave to be told as unknown, with their names; others are told by their numbers. */
static const struct { int number; const char *name; } names[] = {
#define NAMED(call) {SYS_##call, #call},
    NAMED(fanotify_init) NAMED(fanotify_mark) NAMED(name_to_handle_at) NAMED(process_vm_readv)
    NAMED(process_vm_writev) NAMED(perf_event_open) NAMED(bpf) NAMED(add_key) NAMED(request_key) NAMED(keyctl)
    NAMED(io_setup) NAMED(io_submit) NAMED(io_destroy) NAMED(io_getevents) NAMED(io_cancel) NAMED(acct)
    NAMED(sethostname) NAMED(setdomainname) NAMED(swapon) NAMED(swapoff) NAMED(reboot) NAMED(quotactl) NAMED(syslog)
    NAMED(rt_sigqueueinfo) NAMED(rt_tgsigqueueinfo) NAMED(clock_settime) NAMED(settimeofday) NAMED(adjtimex)
    NAMED(clock_adjtime) NAMED(init_module) NAMED(finit_module) NAMED(delete_module) NAMED(kexec_load)
    NAMED(migrate_pages) NAMED(move_pages) NAMED(vhangup) {424, "pidfd_send_signal"}, {428, "open_tree"}, {430, "fsopen"}, {431, "fsconfig"}, {432, "fsmount"},
    {433, "fspick"}, {438, "pidfd_getfd"}, {440, "process_madvise"}, {443, "quotactl_fd"},
    {448, "process_mrelease"}, {457, "statmount"}, {458, "listmount"}, {459, "lsm_get_self_attr"},
    {460, "lsm_set_self_attr"}, {461, "lsm_list_modules"},
};
/* What ioctl and fcntl ask of a descriptor or a terminal, and of no file. */
static const uint32_t quiet_ioctls[] = {
    0x5401, 0x5402, 0x5403, 0x5404, 0x540f, 0x5410, 0x5413, 0x5414, 0x5409, 0x541b, 0x5421, 0x5450, 0x5451, 0x5452,
    0x5429, 0x540e, 0x5422, 0x802c542a, 0x402c542b, 0x402c542c, 0x402c542d,
};
static const uint32_t locking[] = {5, 6, 7, 36, 37, 38, 1024, 1026}; /* F_GETLK to F_OFD_SETLKW; leases, F_NOTIFY */

static int by_number(const void *a, const void *b) { return *(const int *)a - *(const int *)b; }

/* The filter that stops a call with the number of its rule: FOREIGN for calls of another architecture (32 bits, x32),
   STRANGE for those that no list has. It is tried without PR_SET_NO_NEW_PRIVS first, so that the superuser's set-user-ID
   programs keep their rights. */
static int set_filter(void) {
    enum { QUIETS = sizeof quiet / sizeof *quiet, IOCTLS = sizeof quiet_ioctls / sizeof *quiet_ioctls,
           LOCKS = sizeof locking / sizeof *locking };
    static struct sock_filter code[64 + 10 * RULES + 2 * QUIETS + IOCTLS + LOCKS];
    int sorted[QUIETS];
    size_t n = 0;
#define PUT(...) code[n++] = (struct sock_filter)__VA_ARGS__
#define LOAD(field) PUT(BPF_STMT(BPF_LD | BPF_W | BPF_ABS, offsetof(struct seccomp_data, field)))
#define LOAD_HIGH(field) PUT(BPF_STMT(BPF_LD | BPF_W | BPF_ABS, offsetof(struct seccomp_data, field) + 4))
#define JUMP(test, value, yes, no) PUT(BPF_JUMP(BPF_JMP | BPF_K | test, value, yes, no))
#define END(what) PUT(BPF_STMT(BPF_RET | BPF_K, what))
    LOAD(arch);
    JUMP(BPF_JEQ, ARCHITECTURE, 1, 0);
    END(SECCOMP_RET_TRACE | FOREIGN);
    LOAD(nr);
    JUMP(BPF_JGE, 0x40000000, 0, 1);
    END(SECCOMP_RET_TRACE | FOREIGN);
    for (size_t i = 0; i < RULES; i++) {
        const struct rule *r = &rules[i];
        size_t begin = n;
        JUMP(BPF_JEQ, (uint32_t)r->number, 0, 0);
        switch (r->when) {
        case ALWAYS: break;
        case IF_NAMED: /* AT_EMPTY_PATH with a descriptor asks for no path */
            LOAD(args[r->flags]);
            JUMP(BPF_JSET, AT_EMPTY_PATH, 0, 3);
            LOAD(args[0]);
            JUMP(BPF_JEQ, (uint32_t)AT_FDCWD, 1, 0);
            END(SECCOMP_RET_ALLOW);
            break;
        case IF_ADDRESSED: /* no address: that of a connection */
            LOAD(args[r->flags]);
            JUMP(BPF_JEQ, 0, 0, 3);
            LOAD_HIGH(args[r->flags]);
            JUMP(BPF_JEQ, 0, 0, 1);
            END(SECCOMP_RET_ALLOW);
            break;
        case IF_ANY: case IF_LISTENING: /* seccomp: SECCOMP_FILTER_FLAG_NEW_LISTENER */
            LOAD(args[r->when == IF_ANY ? 0 : 1]);
            JUMP(BPF_JSET, r->when == IF_ANY ? r->mask : 8, 1, 0);
            END(SECCOMP_RET_ALLOW);
            break;
        case IF_TRACING:
            LOAD(args[0]);
            JUMP(BPF_JEQ, TRACEME, 3, 0);
            JUMP(BPF_JEQ, ATTACH, 2, 0);
            JUMP(BPF_JEQ, SEIZE, 1, 0);
            END(SECCOMP_RET_ALLOW);
            break;
        case IF_OF_MEMORY: /* PR_SET_SECCOMP, PR_SET_MM */
            LOAD(args[0]);
            JUMP(BPF_JEQ, 22, 2, 0);
            JUMP(BPF_JEQ, 35, 1, 0);
            END(SECCOMP_RET_ALLOW);
            break;
        case IF_OTHER_SIZE:
            LOAD(args[r->flags]);
            JUMP(BPF_JEQ, REALPATH_ROOM, 0, 1);
            END(SECCOMP_RET_ALLOW);
            break;
        case IF_OF_OTHERS: /* a signal 0, or one to the own group */
            LOAD(args[0]);
            JUMP(BPF_JEQ, 0, 0, 1);
            END(SECCOMP_RET_ALLOW);
            break;
        case IF_LOCKING:
            LOAD(args[1]);
            for (size_t k = 0; k < LOCKS; k++) JUMP(BPF_JEQ, locking[k], (uint8_t)(LOCKS - k), 0);
            END(SECCOMP_RET_ALLOW);
            break;
        case IF_OF_FILE:
            LOAD(args[1]);
            for (size_t k = 0; k < IOCTLS; k++) JUMP(BPF_JEQ, quiet_ioctls[k], (uint8_t)(IOCTLS - k), 0);
            JUMP(BPF_JA, 1, 0, 0);
            END(SECCOMP_RET_ALLOW);
            break;
        }
        END(SECCOMP_RET_TRACE | (uint32_t)i);
        code[begin].jf = (uint8_t)(n - begin - 1);
    }
    memcpy(sorted, quiet, sizeof quiet);
    qsort(sorted, QUIETS, sizeof *sorted, by_number);
    for (size_t i = 0, last; i < QUIETS; i = last + 1) { /* runs of numbers */
        for (last = i; last + 1 < QUIETS && sorted[last + 1] <= sorted[last] + 1; last++) continue;
        JUMP(BPF_JGE, (uint32_t)sorted[i], 0, 2);
        JUMP(BPF_JGT, (uint32_t)sorted[last], 1, 0);
        END(SECCOMP_RET_ALLOW);
    }
    END(SECCOMP_RET_TRACE | STRANGE);
    struct sock_fprog program = {(unsigned short)n, code};
    if (!syscall(SYS_seccomp, SECCOMP_SET_MODE_FILTER, 0, &program)) return 0;
    if (prctl(PR_SET_NO_NEW_PRIVS, 1, 0, 0, 0)) return errno;
    return syscall(SYS_seccomp, SECCOMP_SET_MODE_FILTER, 0, &program) ? errno : 0;
}

/* What is written: texts, ways and calls once each, by numbers that begin with 1; events that name calls. */
struct buffer { char *at; size_t used, room; };
struct kept { char *bytes; size_t length; uint64_t hash; };
struct table { struct kept *kept; uint32_t *slots; size_t used, room; struct buffer fresh; };
struct call { uint32_t kind; int32_t result; uint32_t flags, way, other, text, name; };
struct event { int32_t process; uint32_t call; int32_t value; uint32_t milliseconds; };
static struct table texts, ways, calls;
static struct buffer commands, events;
static uint32_t commands_count;
static uint64_t began, seed;
static int record = -1; /* -1 once nobody reads: the command goes on as it would, and nothing more is told */

static uint64_t milliseconds(void) {
    struct timespec now;
    clock_gettime(CLOCK_REALTIME, &now);
    return (uint64_t)now.tv_sec * 1000 + (uint64_t)now.tv_nsec / 1000000;
}
static void give_up(void) {
    if (record >= 0) close(record);
    record = -1;
}
static void write_all(const void *bytes, size_t length) {
    for (const char *at = bytes; length && record >= 0;) {
        ssize_t n = write(record, at, length);
        if (n >= 0) at += n, length -= (size_t)n;
        else if (errno != EINTR) give_up();
    }
}
static void flush(void) {
    struct buffer *parts[] = {&texts.fresh, &ways.fresh, &calls.fresh, &commands, &events};
    enum { PARTS = sizeof parts / sizeof *parts };
    uint32_t sizes[PARTS];
    for (int i = 0; i < PARTS; i++) sizes[i] = (uint32_t)parts[i]->used;
    if (!events.used) return;
    write_all(sizes, sizeof sizes);
    for (int i = 0; i < PARTS; i++) write_all(parts[i]->at, parts[i]->used), parts[i]->used = 0;
    commands_count = 0;
}
static void add(struct buffer *to, const void *bytes, size_t length) {
    if (to->used + length > to->room) {
        size_t room = 2 * (to->used + length);
        char *at = realloc(to->at, room);
        if (!at) { give_up(); return; }
        to->at = at, to->room = room;
    }
    memcpy(to->at + to->used, bytes, length);
    to->used += length;
}
static uint64_t hash(const char *bytes, size_t length) {
    uint64_t found = seed ^ length, word;
    for (; length; bytes += word, length -= word) {
        uint64_t part = 0;
        word = length < 8 ? length : 8;
        memcpy(&part, bytes, word);
        found = (found ^ part) * 0x9e3779b97f4a7c15;
        found ^= found >> 32;
    }
    return found;
}
static bool grow(struct table *in) {
    size_t room = in->room ? 2 * in->room : 1024;
    struct kept *kept = realloc(in->kept, room / 2 * sizeof *kept);
    uint32_t *slots = calloc(room, sizeof *slots);
    if (kept) in->kept = kept;
    if (!kept || !slots) { free(slots); give_up(); return false; }
    for (size_t i = 0; i < in->used; i++) {
        size_t at = kept[i].hash & (room - 1);
        while (slots[at]) at = (at + 1) & (room - 1);
        slots[at] = (uint32_t)i + 1;
    }
    free(in->slots);
    in->slots = slots, in->room = room;
    return true;
}
/* The number of a content in a table, which gets it where it is not there yet. */
static uint32_t number_in(struct table *in, const void *bytes, size_t length) {
    uint64_t by = hash(bytes, length);
    if (record < 0 || (2 * in->used >= in->room && !grow(in))) return 0;
    size_t at = by & (in->room - 1);
    for (; in->slots[at]; at = (at + 1) & (in->room - 1)) {
        struct kept *it = &in->kept[in->slots[at] - 1];
        if (it->hash == by && it->length == length && !memcmp(it->bytes, bytes, length)) return in->slots[at];
    }
    char *copy = malloc(length);
    if (!copy) { give_up(); return 0; }
    memcpy(copy, bytes, length);
    in->kept[in->used] = (struct kept){copy, length, by};
    in->slots[at] = (uint32_t)++in->used;
    if (in != &calls) add(&in->fresh, &(uint32_t){(uint32_t)length}, 4);
    add(&in->fresh, bytes, length);
    return in->slots[at];
}
static uint32_t text(const char *bytes, size_t length) { return length ? number_in(&texts, bytes, length) : 0; }
static bool looks; /* whether the ends of commands are looked at */
static void note_entries(pid_t process, const struct call *call);
static void tell(pid_t process, struct call call, int32_t value) {
    if (looks && (call.way || call.other)) note_entries(process, &call);
    struct event it = {process, number_in(&calls, &call, sizeof call), value, (uint32_t)(milliseconds() - began)};
    add(&events, &it, sizeof it);
    if (events.used >= 1 << 16 || texts.fresh.used + ways.fresh.used + commands.used >= 1 << 18) flush();
}

/* A thread that is observed, by its number: the call that it is in, where that is told at its end, and whether it may
   see other files than the observer. */
enum { MOST_LOADED = 6 };
struct pending {
    struct call call;
    bool is_scoped, is_new, is_folder;
    uint32_t entry, other_entry, loaded[MOST_LOADED];
    int socket;
};
struct task { struct pending *pending; uint32_t clone_flags, command; bool is_elsewhere, is_known; };
static struct task *tasks;
enum { MOST_TASKS = 1 << 22 };
static bool is_plain = true; /* every process sees the same files as the observer */
static bool has_spaces; /* a process of the build has changed its root, its mounts or its namespaces */

static bool copy(pid_t pid, uint64_t at, void *to, size_t length) {
#ifdef __aarch64__
    at &= ((uint64_t)1 << 56) - 1;
#endif
    struct iovec here = {to, length}, there = {(void *)(uintptr_t)at, length};
    return process_vm_readv(pid, &here, 1, &there, 1, 0) == (ssize_t)length;
}
/* A path as a process gave it: its length, -1 where it cannot be read or is longer than a path may be. */
static ssize_t path_at(pid_t pid, uint64_t at, char *to) {
    for (size_t got = 0; got < PATH_MAX;) {
        size_t some = 512 - ((at + got) & 511); /* never over the end of a page */
        if (!copy(pid, at + got, to + got, some)) return -1;
        char *end = memchr(to + got, 0, some);
        if (end) return end - to < PATH_MAX ? end - to : -1;
        got += some;
    }
    return -1;
}
static bool path_is_given(pid_t pid, uint64_t at) {
    char first = 0;
    return at && copy(pid, at, &first, 1) && first;
}
static ssize_t link_of(pid_t pid, const char *what, int descriptor, char *to) {
    char name[64];
    snprintf(name, sizeof name, descriptor < 0 ? "/proc/%d/%s" : "/proc/%d/%s/%d", pid, what, descriptor);
    return readlink(name, to, PATH_MAX);
}
/* What stands at an entry, by the number of its path: asked of the disk once, and anew after a call that may have changed
   it. A state of an older `era` does not count: since then a link or a folder went, or came by a rename. */
enum standing { UNASKED, MISSING, A_FILE, A_FOLDER, A_LINK, A_DEVICE, OF_KERNEL };
struct state { uint32_t era, link, inode, noted_by; uint8_t standing; bool is_changed; };
static struct state *states;
static size_t states_room;
static uint32_t era = 1, made_era = 1;

static struct state *state_at(uint32_t entry) {
    if (entry >= states_room) {
        size_t room = entry < 2048 ? 4096 : 2 * (size_t)entry;
        struct state *at = realloc(states, room * sizeof *at);
        if (!at) { give_up(); return NULL; }
        memset(at + states_room, 0, (room - states_room) * sizeof *at);
        states = at, states_room = room;
    }
    return &states[entry];
}
/* File systems by their devices: whether the kernel makes up what they show. */
static bool is_of_kernel(dev_t device, const char *path) {
    static struct { dev_t device; bool is_it; } known[64];
    static const long magic[] = {0x9fa0, 0x62656572, 0x63677270, 0x27e0eb, 0x64626720, 0x74726163, 0x73636673, 0xcafe4a11};
    static size_t count;
    struct statfs it;
    for (size_t i = 0; i < count; i++)
        if (known[i].device == device) return known[i].is_it;
    bool found = false;
    if (!statfs(path, &it))
        for (size_t i = 0; i < sizeof magic / sizeof *magic; i++) found |= (uint32_t)it.f_type == (uint32_t)magic[i];
    if (count < 64) known[count].device = device, known[count++].is_it = found;
    return found;
}
/* Folders by device and inode, so that two ways to one are one entry. */
struct folder { dev_t device; ino_t inode; uint32_t entry; };
static struct folder *folders;
static size_t folders_used, folders_room;
static uint32_t same_folder(const struct stat *it, uint32_t entry) {
    if (2 * folders_used >= folders_room) {
        size_t room = folders_room ? 2 * folders_room : 1024;
        struct folder *at = calloc(room, sizeof *at);
        if (!at) return entry;
        for (size_t i = 0; i < folders_room; i++) {
            if (!folders[i].entry) continue;
            size_t to = (folders[i].inode * 31 + folders[i].device) & (room - 1);
            while (at[to].entry) to = (to + 1) & (room - 1);
            at[to] = folders[i];
        }
        free(folders);
        folders = at, folders_room = room;
    }
    size_t at = (it->st_ino * 31 + it->st_dev) & (folders_room - 1);
    for (; folders[at].entry; at = (at + 1) & (folders_room - 1)) {
        struct folder *f = &folders[at];
        if (f->inode != it->st_ino || f->device != it->st_dev) continue;
        struct kept *k = &texts.kept[f->entry - 1];
        char path[2 * PATH_MAX];
        struct stat now;
        if (f->entry == entry || k->length >= sizeof path) return entry;
        memcpy(path, k->bytes, k->length), path[k->length] = 0;
        if (!fstatat(AT_FDCWD, path, &now, AT_SYMLINK_NOFOLLOW) && now.st_ino == it->st_ino && now.st_dev == it->st_dev)
            return f->entry;
        f->entry = entry;
        return entry;
    }
    folders[at] = (struct folder){it->st_dev, it->st_ino, entry};
    folders_used++;
    return entry;
}
/* The state of an entry, asked of the disk where it is not known. For a folder that another entry is too, `link` is that
   entry. */
static struct state *ask(uint32_t entry, const char *path, bool is_elsewhere) {
    static struct state unknown = {.standing = A_FOLDER};
    struct state *s = state_at(entry);
    struct stat it;
    char to[PATH_MAX + 1];
    if (!s || is_elsewhere) return &unknown;
    if (s->standing != UNASKED && s->era == era) return s;
    *s = (struct state){.era = era, .noted_by = s->noted_by, .is_changed = s->is_changed};
    if (fstatat(AT_FDCWD, *path ? path : "/", &it, AT_SYMLINK_NOFOLLOW)) {
        s->standing = errno == EACCES ? A_FILE : MISSING;
        return s;
    }
    if (S_ISLNK(it.st_mode)) {
        ssize_t n = readlink(path, to, sizeof to);
        uint32_t link = n > 0 ? text(to, (size_t)n) : 0;
        s = state_at(entry);
        if (s) s->standing = n > 0 ? A_LINK : A_FILE, s->link = link;
    } else if (S_ISDIR(it.st_mode)) {
        s->standing = is_of_kernel(it.st_dev, path) ? OF_KERNEL : A_FOLDER;
        if (s->standing == A_FOLDER) s->link = same_folder(&it, entry);
    } else if (S_ISCHR(it.st_mode) || S_ISBLK(it.st_mode)) s->standing = A_DEVICE;
    else {
        s->standing = is_of_kernel(it.st_dev, path) ? OF_KERNEL : A_FILE;
        if (it.st_nlink > 1 && s->standing == A_FILE) {
            int n = snprintf(to, sizeof to, "%lx:%lx", (unsigned long)it.st_dev, (unsigned long)it.st_ino);
            uint32_t inode = text(to, (size_t)n);
            s = state_at(entry);
            if (s) s->inode = inode;
        }
    }
    return s ? s : &unknown;
}
/* A call changed an entry: it is asked for anew, and so is all else where a link or a folder went. */
static void has_changed(uint32_t entry, bool is_folder) {
    struct state *s = entry ? state_at(entry) : NULL;
    if (!s) return;
    if (is_folder || s->era != era || s->standing == A_LINK || s->standing == A_FOLDER) era++;
    s->standing = UNASKED;
    made_era++;
}

/* The folder or file behind a descriptor (AT_FDCWD: the thread's folder). 0 where it has no name in a file system. The
   path of a folder that is gone is in `to`, and its length in `gone`: what is asked for in it is not there, but `..`
   leads to the folder where it was. */
static ssize_t gone;
static ssize_t behind(pid_t pid, int descriptor, char *to) {
    char name[64], mark[] = " (deleted)";
    struct stat itself, named;
    gone = 0;
    ssize_t n = descriptor == AT_FDCWD ? link_of(pid, "cwd", -1, to) : link_of(pid, "fd", descriptor, to);
    if (n <= 0) return n;
    if (to[0] != '/') return 0;
    to[n] = 0;
    if (n < (ssize_t)sizeof mark || strcmp(to + n - (sizeof mark - 1), mark)) return n;
    snprintf(name, sizeof name, descriptor == AT_FDCWD ? "/proc/%d/cwd" : "/proc/%d/fd/%d", pid, descriptor);
    if (stat(name, &itself)) return 0;
    if (!stat(to, &named) && itself.st_ino == named.st_ino && itself.st_dev == named.st_dev) return n;
    n -= sizeof mark - 1;
    if (S_ISDIR(itself.st_mode)) gone = n;
    else if (itself.st_nlink) { errno = EACCES; return -1; } /* it has another name, which nobody says */
    to[n] = 0;
    return 0;
}
/* How a path is taken name by name: where it is, what it came through. A link on the way is a pair of its entry and its
   text; an entry that was asked for on the way, since `..` follows it or no folder is there, is one of it and what stands
   there. */
enum { BROKEN = 0x100, IS_DEEP = 0x200, IS_NOWHERE = 0x400, MOST_LINKS = 40, MOST_ASKED = 40 };
struct walk {
    uint32_t links[2 * MOST_LINKS], asked[2 * MOST_ASKED], links_count, asked_count, flags, process;
    pid_t task;
    bool is_elsewhere, is_of_process;
    size_t root, length;
    char real[2 * PATH_MAX];
};
static void ask_on_the_way(struct walk *w, uint32_t entry, uint32_t standing) {
    if (w->asked_count == MOST_ASKED) { w->flags |= IS_DEEP; return; }
    w->asked[2 * w->asked_count] = entry, w->asked[2 * w->asked_count++ + 1] = standing;
}
static void put(struct walk *w, const char *bytes, size_t length) {
    memcpy(w->real, bytes, length);
    w->real[w->length = length] = 0;
}
static void put_text(struct walk *w, uint32_t number) { put(w, texts.kept[number - 1].bytes, texts.kept[number - 1].length); }
static void up(struct walk *w) {
    while (w->length > w->root && w->real[w->length - 1] != '/') w->length--;
    if (w->length > w->root) w->length--;
    w->real[w->length] = 0;
}
/* One name more; false where the path gets too long, or the name is a process's entry in /proc. */
static bool down(struct walk *w, const char *name, size_t n) {
    if (w->length + n + 1 >= PATH_MAX) { w->flags |= IS_DEEP; return false; }
    bool is_in_proc = w->length == 5 && !memcmp(w->real, "/proc", 5);
    w->real[w->length++] = '/';
    memcpy(w->real + w->length, name, n);
    w->real[w->length += n] = 0;
    if (!is_in_proc) return true;
    char *end;
    long number = strtol(w->real + 6, &end, 10);
    if (!strcmp(w->real + 6, "self") || !strcmp(w->real + 6, "thread-self"))
        w->length = (size_t)snprintf(w->real, sizeof w->real, "/proc/%d", w->task);
    else if (*end || number <= 0) return true;
    else w->process = (uint32_t)number;
    w->is_of_process = true;
    return false;
}
/* Takes the names of `path` from where the walk is. A link at the end is followed, but for `keeps_last`. */
static void walk(struct walk *w, const char *path, bool keeps_last) {
    while (record >= 0 && !(w->flags & (IS_DEEP | IS_NOWHERE))) {
        while (*path == '/') path++;
        if (!*path) return;
        const char *name = path;
        size_t n = strcspn(name, "/"), before = w->length;
        bool is_folder = name[n] == '/';
        path += n + strspn(name + n, "/");
        if (n == 1 && name[0] == '.') continue;
        if (n == 2 && name[0] == '.' && name[1] == '.') {
            if (w->length > w->root)
                ask_on_the_way(w, text(w->real, w->length), w->flags & BROKEN ? MISSING : A_FOLDER);
            up(w);
            continue;
        }
        if (!down(w, name, n) || w->flags & BROKEN) continue;
        if (!*path && keeps_last && !is_folder) return;
        uint32_t entry = text(w->real, w->length);
        struct state *s = entry ? ask(entry, w->real, w->is_elsewhere) : NULL;
        if (!s) return;
        uint32_t link = s->link, standing = s->standing;
        if (standing == A_LINK) {
            char target[PATH_MAX + 1];
            struct kept *k = &texts.kept[link - 1];
            memcpy(target, k->bytes, k->length), target[k->length] = 0;
            if (w->is_of_process) s->standing = UNASKED;
            if (w->links_count == MOST_LINKS) { w->flags |= BROKEN; continue; }
            if (!w->is_of_process) w->links[2 * w->links_count] = entry, w->links[2 * w->links_count++ + 1] = link;
            if (w->is_of_process && target[0] != '/') { w->flags |= IS_NOWHERE; return; }
            w->length = target[0] == '/' ? w->root : before;
            w->real[w->length] = 0;
            if (w->is_of_process) w->length = 0, w->is_of_process = false;
            walk(w, target, false);
        } else if (standing == A_FOLDER && link && link != entry) put_text(w, link);
        else if (standing == MISSING) w->flags |= BROKEN;
        else if ((standing == A_FILE || standing == A_DEVICE) && (*path || is_folder)) {
            ask_on_the_way(w, entry, standing);
            w->flags |= BROKEN;
        }
    }
}
/* A way as it is written: what stands at its last name, its entry, what stands at the end where that name is a link, the
   entry there, the folder where the path begins (0: an absolute path), the file's device and inode (hard links), the
   process of whose folder in /proc it shows something, and three counts: of links on the way, of links from the last
   name to the end, of entries asked for on the way, which follow as pairs. */
enum { WAY_HEAD = 10 };
struct way_head { uint32_t standing, entry, end_standing, end, base, inode, process, links, ends, asked; };

/* What was found before, by folder and path: the way, and by what it counts on. */
struct found { uint32_t base, path, way, entry, end, standing, end_standing, inode, era, made_era; };
static struct found *ways_found;
static size_t found_used, found_room;

static struct found *found_slot(uint32_t base, uint32_t path) {
    if (2 * found_used >= found_room) {
        size_t room = found_room ? 2 * found_room : 1 << 14;
        struct found *at = calloc(room, sizeof *at);
        if (!at) { give_up(); return NULL; }
        for (size_t i = 0; i < found_room; i++) {
            if (!ways_found[i].path) continue;
            size_t to = (ways_found[i].base * 0x9e3779b1u ^ ways_found[i].path * 0x85ebca6bu) & (room - 1);
            while (at[to].path) to = (to + 1) & (room - 1);
            at[to] = ways_found[i];
        }
        free(ways_found);
        ways_found = at, found_room = room;
    }
    size_t at = (base * 0x9e3779b1u ^ path * 0x85ebca6bu) & (found_room - 1);
    while (ways_found[at].path && (ways_found[at].path != path || ways_found[at].base != base)) at = (at + 1) & (found_room - 1);
    return &ways_found[at];
}
static bool stands(uint32_t entry, uint32_t standing, uint32_t inode) {
    if (!entry) return true;
    struct state *s = state_at(entry);
    return s && s->era == era && s->standing == standing && s->inode == inode;
}
static bool still_counts(const struct found *f) {
    if (!f->path || f->era != era || (f->standing & BROKEN && f->made_era != made_era)) return false;
    return f->standing & BROKEN || (stands(f->entry, f->standing & 0xff, f->end ? 0 : f->inode) &&
                                    stands(f->end, f->end_standing, f->inode));
}
/* The end of a link at the last name, from where the walk is. */
static void follow_end(struct walk *w, struct way_head *h, uint32_t link) {
    uint32_t before = w->links_count, standing = A_LINK;
    bool is_jump = w->is_of_process;
    while (standing == A_LINK && record >= 0) {
        char target[PATH_MAX + 1];
        struct kept *k = &texts.kept[link - 1];
        memcpy(target, k->bytes, k->length), target[k->length] = 0;
        if (w->links_count == MOST_LINKS) return;
        if (!is_jump) w->links[2 * w->links_count] = text(w->real, w->length), w->links[2 * w->links_count++ + 1] = link;
        else if (target[0] != '/') return;
        if (target[0] == '/') w->length = is_jump ? 0 : w->root, w->real[w->length] = 0;
        else up(w);
        is_jump = w->is_of_process = false;
        walk(w, target, true);
        if (w->flags & (IS_DEEP | IS_NOWHERE)) return;
        h->end = text(w->real[0] ? w->real : "/", w->length ? w->length : 1);
        struct state *s = w->flags & BROKEN || !h->end ? NULL : ask(h->end, w->real, w->is_elsewhere);
        standing = s ? s->standing : MISSING, link = s ? s->link : 0;
        if (s && standing == A_FOLDER && link && link != h->end) h->end = link;
        if (s && standing != A_LINK) h->inode = s->inode;
    }
    h->end_standing = standing;
    h->ends = w->links_count - before;
}
static uint32_t end_of_last; /* where the link at the last name of the last way leads, where that is one */
/* The number of the way of a path that begins at `base`, and its real path up to the last name in `whole`. */
static uint32_t way_of(pid_t pid, bool is_elsewhere, const char *base, size_t length, size_t root, const char *given,
                       uint32_t *entry, uint32_t *standing, char *whole) {
    static struct walk w;
    static uint32_t record_of[WAY_HEAD + 4 * MOST_LINKS + 2 * MOST_ASKED];
    bool is_absolute = given[0] == '/', is_own = !strncmp(given, "/proc", 5) || !strncmp(given, "/dev", 4);
    uint32_t from = is_absolute ? 0 : text(base, length), path = *given ? text(given, strlen(given)) : text("/.", 2);
    struct found *f = is_elsewhere || is_own || root || (gone && !is_absolute) ? NULL : found_slot(from, path);
    if (record < 0 || !path) return 0;
    if (f && still_counts(f)) {
        struct kept *k = &texts.kept[f->entry - 1];
        memcpy(whole, k->bytes, k->length), whole[k->length] = 0;
        *entry = f->entry, *standing = f->standing, end_of_last = f->end;
        return f->way;
    }
    struct way_head h = {.base = from};
    w.links_count = w.asked_count = w.process = 0, w.flags = gone && !is_absolute ? BROKEN : 0;
    w.task = pid, w.is_elsewhere = is_elsewhere, w.is_of_process = false, w.root = root;
    put(&w, base, is_absolute ? root : length);
    if (w.length == 1 && !root) put(&w, "", 0);
    walk(&w, given, true);
    h.links = w.links_count;
    if (w.flags & IS_NOWHERE) return 0;
    if (w.flags & IS_DEEP) { *standing = IS_DEEP; return 0; }
    h.entry = text(w.length ? w.real : "/", w.length ? w.length : 1);
    struct state *s = w.flags & BROKEN || !h.entry ? NULL : ask(h.entry, w.length ? w.real : "/", is_elsewhere);
    h.standing = is_elsewhere ? UNASKED : s ? s->standing : MISSING;
    if (s && h.standing == A_FOLDER && s->link && s->link != h.entry) {
        h.entry = s->link;
        put_text(&w, s->link);
    }
    memcpy(whole, w.length ? w.real : "/", (w.length ? w.length : 1) + 1);
    *entry = h.entry;
    if (s) h.inode = s->inode;
    if (s && h.standing == A_LINK) {
        bool is_of_process = w.is_of_process;
        if (is_of_process) h.standing = OF_KERNEL, s->standing = UNASKED;
        follow_end(&w, &h, s->link);
    } else if (w.is_of_process && !is_elsewhere) h.standing = OF_KERNEL;
    h.standing |= w.flags & BROKEN && !h.end ? BROKEN : 0;
    end_of_last = h.end;
    h.process = w.process, h.asked = w.asked_count;
    memcpy(record_of, &h, sizeof h);
    memcpy(record_of + WAY_HEAD, w.links, 2 * sizeof(uint32_t) * (h.links + h.ends));
    memcpy(record_of + WAY_HEAD + 2 * (h.links + h.ends), w.asked, 2 * sizeof(uint32_t) * h.asked);
    uint32_t number = number_in(&ways, record_of, sizeof(uint32_t) * (WAY_HEAD + 2 * (h.links + h.ends + h.asked)));
    *standing = h.standing;
    if (f && !h.process && (f = found_slot(from, path))) {
        if (!f->path) found_used++;
        *f = (struct found){from, path, number, h.entry, h.end, h.standing, h.end_standing, h.inode, era, made_era};
    }
    return number;
}
/* Where a path that begins in a folder that is gone goes on: each `..` at its beginning leads one folder up. 0 where it
   is that folder itself. A name in it leads to nothing, which way_of goes by while `gone` is not 0. */
static ssize_t out_of_gone(char *base, const char **given) {
    const char *at = *given;
    ssize_t n = gone;
    for (;;) {
        while (*at == '/' || (at[0] == '.' && (at[1] == '/' || !at[1]))) at++;
        if (at[0] != '.' || at[1] != '.' || (at[2] && at[2] != '/')) break;
        at += 2, gone = 0;
        while (n > 1 && base[--n] != '/') continue;
    }
    if (!*at && gone) return 0;
    base[n] = 0;
    *given = *at ? at : ".";
    return n;
}
enum place { TOLD, NOWHERE, HIDDEN, TOO_DEEP };
/* Where a call's path leads: its way and entry, what stands there, and the real path in `whole`. Without a path it is
   the descriptor's. */
static enum place place(pid_t pid, struct task *t, int descriptor, uint64_t at, bool may_be_empty, uint32_t *way,
                        uint32_t *entry, uint32_t *standing, char *whole) {
    static char given[PATH_MAX + 512], base[PATH_MAX + 1];
    errno = 0, gone = 0;
    ssize_t n = at ? path_at(pid, at, given) : 0, begin = 0, root = 0;
    if (n < 0) return errno == EPERM ? HIDDEN : NOWHERE;
    if (!n && !may_be_empty) return NOWHERE; /* the call fails */
    given[n] = 0;
    bool is_absolute = given[0] == '/';
    if (!is_absolute) begin = behind(pid, descriptor, base);
    else if (!is_plain) begin = root = link_of(pid, "root", -1, base); /* "/", where no process has another root */
    if (begin < 0) return errno == ENAMETOOLONG ? TOO_DEEP : errno == EACCES || errno == EPERM ? HIDDEN : NOWHERE;
    const char *rest = given;
    if (!begin && !is_absolute && !(begin = out_of_gone(base, &rest))) return NOWHERE;
    if (root == 1) root = 0;
    if (!is_plain && !is_absolute) {
        char to[PATH_MAX + 1];
        ssize_t length = link_of(pid, "root", -1, to);
        root = length > 1 && begin >= length && !memcmp(base, to, (size_t)length) ? length : 0;
    }
    *standing = 0;
    *way = way_of(pid, t->is_elsewhere, base, (size_t)begin, (size_t)root, rest, entry, standing, whole);
    if (!*way) return *standing & IS_DEEP ? TOO_DEEP : NOWHERE;
    if (n > 1 && given[n - 1] == '/') strcat(whole, "/");
    return TOLD;
}

/* What a stop says (struct ptrace_syscall_info, which not all headers have). */
struct stop {
    uint8_t at, padding[3];
    uint32_t architecture;
    uint64_t instruction, stack;
    union {
        struct { uint64_t number, arguments[6]; uint32_t rule; } begin;
        struct { int64_t result; uint8_t is_error; } end;
    };
};
enum { AT_ENTRY = 1, AT_END = 2, AT_FILTER = 3 };

static void forget(struct task *t) {
    free(t->pending);
    t->pending = NULL;
}
static struct pending *await(struct task *t, struct call c) {
    if (!(t->pending = calloc(1, sizeof *t->pending))) { give_up(); return NULL; }
    t->pending->call = c;
    return t->pending;
}
static uint32_t name_of_call(uint64_t number) {
    char digits[24];
    for (size_t i = 0; i < sizeof names / sizeof *names; i++)
        if ((uint64_t)names[i].number == number) return text(names[i].name, strlen(names[i].name));
    return text(digits, (size_t)snprintf(digits, sizeof digits, "%llu", (unsigned long long)number));
}
/* What a call that only looks will give, by a look of the observer's own. */
static int32_t look(const struct rule *r, const uint64_t *a, const struct call *c, uint32_t standing, const char *whole) {
    struct stat it;
    bool is_open = r->kind == OPEN, is_nofollow = c->flags & O_NOFOLLOW;
    if (r->kind == READLINK) return standing == A_LINK ? 0 : standing == MISSING || standing & BROKEN ? -ENOENT : -EINVAL;
    if (r->kind == EXEC || (r->kind == MODE && !is_nofollow))
        return syscall(SYS_faccessat, AT_FDCWD, whole, r->kind == EXEC ? X_OK : (int)a[r->path + 1]) ? -errno : 0;
    if (!is_open || c->flags & (O_DIRECTORY | O_PATH | O_NOFOLLOW)) {
        if (fstatat(AT_FDCWD, whole, &it, is_nofollow ? AT_SYMLINK_NOFOLLOW : 0)) return -errno;
        if (is_open && is_nofollow && S_ISLNK(it.st_mode) && !(c->flags & O_PATH)) return -ELOOP;
        if (((is_open && c->flags & O_DIRECTORY) || r->kind == CHDIR) && !S_ISDIR(it.st_mode)) return -ENOTDIR;
    }
    if (is_open && !(c->flags & O_PATH) && syscall(SYS_faccessat, AT_FDCWD, whole, R_OK)) return -errno;
    return is_open ? NOT_ASKED : 0;
}
/* The flags of a call, as they are told; false where the call is to be awaited for what its structure asks. */
static bool read_flags(pid_t pid, const struct rule *r, const uint64_t *a, struct call *c, bool *is_scoped) {
    uint64_t given = r->flags == NO ? 0 : a[r->flags], asked[3] = {0};
    bool is_simple = true;
    c->flags = r->when == IF_ANY ? 0 : r->mask;
    switch (r->reading) {
    case STRUCTURE:
        if (r->kind == IPC) break;
        copy(pid, given, asked, r->kind == SPAWN ? 8 : 24);
        given = asked[0];
        is_simple = !asked[2];
        *is_scoped = asked[2] & 0x10; /* RESOLVE_IN_ROOT: an absolute path begins at the descriptor */
        /* fall through */
    case OPENING: c->flags |= (uint32_t)given; break;
    case AT: c->flags |= given & AT_SYMLINK_NOFOLLOW ? O_NOFOLLOW : 0; break;
    case FOLLOWING: c->flags |= given & AT_SYMLINK_FOLLOW ? 0 : O_NOFOLLOW; break;
    case REMOVING: c->kind = given & AT_REMOVEDIR ? RMDIR : UNLINK, c->flags |= O_NOFOLLOW; break;
    case RENAMING: c->kind = given & 2 ? EXCHANGE : RENAME; break;
    }
    if (c->kind == OPEN)
        c->flags &= c->flags & O_PATH ? O_PATH | O_DIRECTORY | O_NOFOLLOW
            : O_ACCMODE | O_CREAT | O_EXCL | O_TRUNC | O_APPEND | O_DIRECTORY | O_NOFOLLOW | O_TMPFILE;
    if (c->kind == MODE && !a[r->path + 1]) c->flags |= 1; /* F_OK: only whether it is there */
    return is_simple;
}
/* A socket's address as it is told; 0 for those that no other process has (AF_UNSPEC), and for the name service's. */
static uint32_t address_of(const void *bytes, size_t length, char *path) {
    char to[256], host[INET6_ADDRSTRLEN];
    const struct sockaddr *it = bytes;
    *path = 0;
    if (length < 2) return 0;
    switch (it->sa_family) {
    case AF_UNIX: {
        const char *name = ((const struct sockaddr_un *)bytes)->sun_path;
        size_t n = length - 2 < 108 ? length - 2 : 108;
        if (!n) return text("@", 1);
        if (!name[0]) { to[0] = '@', memcpy(to + 1, name + 1, n - 1); return text(to, n); }
        n = strnlen(name, n);
        memcpy(path, name, n), path[n] = 0;
        return strstr(path, "/nscd/") ? (*path = 0, 0) : text(path, n);
    }
    case AF_INET: {
        struct sockaddr_in in = {0};
        memcpy(&in, bytes, length < sizeof in ? length : sizeof in);
        inet_ntop(AF_INET, &in.sin_addr, host, sizeof host);
        return text(to, (size_t)snprintf(to, sizeof to, "%s:%d", host, ntohs(in.sin_port)));
    }
    case AF_INET6: {
        struct sockaddr_in6 in = {0};
        memcpy(&in, bytes, length < sizeof in ? length : sizeof in);
        inet_ntop(AF_INET6, &in.sin6_addr, host, sizeof host);
        return text(to, (size_t)snprintf(to, sizeof to, "[%s]:%d", host, ntohs(in.sin6_port)));
    }
    case AF_UNSPEC: return 0;
    case 16: return text("netlink", 7);
    default: return text(to, (size_t)snprintf(to, sizeof to, "family-%d", it->sa_family));
    }
}
/* The address that a socket of a process has, once it is bound: the system may have chosen its port. */
static uint32_t bound_address(pid_t pid, int socket, char *path) {
    struct sockaddr_storage it = {0};
    socklen_t length = sizeof it;
    int process = (int)syscall(PIDFD_OPEN, pid, 0), own = process < 0 ? -1 : (int)syscall(PIDFD_GETFD, process, socket, 0);
    uint32_t found = own < 0 || getsockname(own, (struct sockaddr *)&it, &length) ? 0 : address_of(&it, length, path);
    if (own >= 0) close(own);
    if (process >= 0) close(process);
    return found;
}
/* connect, bind, and what is sent to an address. */
static void enter_address(pid_t pid, struct task *t, const struct rule *r, const uint64_t *a, struct call c) {
    struct sockaddr_storage it = {0};
    struct { uint64_t at; uint32_t length; } head = {0};
    char path[112], whole[2 * PATH_MAX + 2];
    uint64_t at = a[r->flags], length = r->flags == 4 ? a[5] : a[2];
    if (r->kind == MESSAGE) {
        if (!copy(pid, a[1], &head, sizeof head) || !head.at) return;
        at = head.at, length = head.length;
    }
    if (length > sizeof it) length = sizeof it;
    if (!copy(pid, at, &it, length) || !(c.text = address_of(&it, length, path))) return;
    bool is_bind = r->number == SYS_bind;
    c.kind = is_bind ? BIND : SOCKET;
    uint32_t standing = 0, entry = 0;
    char base[PATH_MAX + 1];
    ssize_t n = *path == '/' ? 0 : *path ? behind(pid, AT_FDCWD, base) : -1;
    if (n > 0 || *path == '/') c.way = way_of(pid, t->is_elsewhere, base, (size_t)n, 0, path, &entry, &standing, whole);
    struct pending *p = await(t, c);
    if (p) p->entry = entry, p->socket = is_bind && !*path ? (int)a[0] + 1 : 0;
}
/* The programs that the kernel loads besides: those behind `#!`, each by the one before, and the one of an ELF file. */
static void find_loaded(pid_t pid, struct task *t, struct pending *p, const char *program) {
    static char whole[2 * PATH_MAX + 2], base[PATH_MAX + 1], name[PATH_MAX];
    char head[4096];
    uint32_t entry, standing;
    ssize_t n = behind(pid, AT_FDCWD, base);
    strcpy(whole, program);
    gone = 0;
    for (int i = 0; i < MOST_LOADED; i++) {
        int file = open(whole, O_RDONLY | O_NONBLOCK | O_CLOEXEC | O_NOCTTY);
        struct stat it;
        ssize_t got = file < 0 || fstat(file, &it) || !S_ISREG(it.st_mode) ? -1 : pread(file, head, sizeof head - 1, 0);
        if (file >= 0) close(file);
        if (got < 4) return;
        head[got] = 0;
        name[0] = 0;
        if (head[0] == '#' && head[1] == '!') {
            char *at = head + 2 + strspn(head + 2, " \t");
            size_t length = strcspn(at, " \t\n");
            if (length && length < sizeof name) memcpy(name, at, length), name[length] = 0;
        } else if (!memcmp(head, "\177ELF\2", 5) && got >= 64) {
            uint64_t table, offset, size;
            uint16_t entry_size, count;
            memcpy(&table, head + 32, 8), memcpy(&entry_size, head + 54, 2), memcpy(&count, head + 56, 2);
            for (uint64_t k = 0; k < count && entry_size >= 56 && table + (k + 1) * entry_size <= (uint64_t)got; k++) {
                const char *it = head + table + k * entry_size;
                if (it[0] != 3 || it[1] || it[2] || it[3]) continue; /* PT_INTERP */
                memcpy(&offset, it + 8, 8), memcpy(&size, it + 32, 8);
                if (size > 1 && size < sizeof name && offset < (uint64_t)got && size <= (uint64_t)got - offset)
                    memcpy(name, head + offset, size), name[size - 1] = 0;
            }
        }
        if (!name[0] || (n <= 0 && name[0] != '/')) return;
        p->loaded[i] = way_of(pid, t->is_elsewhere, base, n > 0 ? (size_t)n : 0, 0, name, &entry, &standing, whole);
        if (!p->loaded[i]) return;
    }
}
/* The calls that name no path; true where that is all. */
static bool enter_without_path(pid_t pid, struct task *t, const struct rule *r, const uint64_t *a, struct call c) {
    char to[24];
    switch (r->kind) {
    case SPAWN:
        t->clone_flags = c.flags & SPACES;
        if (c.flags & SPACES) is_plain = false, has_spaces = true;
        if (c.flags & UNTRACED) { /* a process that cannot be observed, as those are that trace their maker */
            tell(pid, (struct call){.kind = UNRESOLVED, .name = c.name}, 0);
            tell(pid, (struct call){.kind = TRACE, .result = -EPERM}, 0);
        }
        return true;
    case OTHER_USER: /* a user without rights stays what it is */
        if (!geteuid()) is_plain = false;
        return true;
    case ADDRESS: case MESSAGE: enter_address(pid, t, r, a, c); return true;
    case IPC:
        if (r->reading == STRUCTURE) {
            static char given[PATH_MAX + 512];
            ssize_t n = path_at(pid, a[0], given);
            c.text = n > 0 ? text(given, (size_t)n) : 0;
        } else c.text = text(to, (size_t)snprintf(to, sizeof to, "0x%llx", (unsigned long long)(uint32_t)a[0]));
        break;
    case SIGNAL: c.text = text(to, (size_t)snprintf(to, sizeof to, "%d", (int)a[0])); break;
    case UNSHARE: is_plain = false, has_spaces = true; break;
    case NAMESPACE:
        is_plain = false, has_spaces = true;
        if (r->path != NO) return false;
        break;
    case NOTIFIED: case URING: case UNRESOLVED: case TRACE: break;
    case UNKNOWN: break;
    default: return false;
    }
    await(t, c);
    return true;
}
/* What a call on a descriptor, or on a file system, asks of a file: a lock, attributes, or what no list has. */
static void enter_of_file(pid_t pid, const struct rule *r, const uint64_t *a, struct call c, uint32_t standing) {
    static const uint32_t copying[] = {0x40049409, 0x4020940d, 0xc020660b}; /* FICLONE, FICLONERANGE, FIEMAP */
    static const uint32_t attributes[] = {0x80086601, 0x40086602, 0x801c581f, 0x401c5820, 0x80087601, 0x40087602};
    char to[24];
    if (standing != A_FILE && standing != A_FOLDER && (r->kind != LOCK || standing != A_DEVICE)) return;
    if (r->kind == IOCTL) {
        c.kind = UNKNOWN;
        for (int i = 0; i < 3; i++)
            if ((uint32_t)a[1] == copying[i]) return;
        for (int i = 0; i < 6; i++)
            if ((uint32_t)a[1] == attributes[i]) c.kind = ATTRIBUTES;
        if (c.kind == UNKNOWN) c.name = text(to, (size_t)snprintf(to, sizeof to, "ioctl-0x%x", (uint32_t)a[1]));
    } else if (r->kind == STATFS) c.kind = UNKNOWN;
    tell(pid, c, 0);
}
/* A lock of a file that has lost its name, which others may have open by that name. */
static void tell_lock_of_gone(pid_t pid, struct task *t, int descriptor, struct call c) {
    static char lost[PATH_MAX + 1], whole[2 * PATH_MAX + 2];
    uint32_t entry, standing;
    if (behind(pid, descriptor, lost) || lost[0] != '/' || gone || !strncmp(lost, "/memfd:", 7)) return;
    c.way = way_of(pid, t->is_elsewhere, "", 0, 0, lost, &entry, &standing, whole);
    if (c.way) tell(pid, c, 0);
}
/* A call that the filter stopped. */
static void enter(pid_t pid, struct task *t) {
    static char whole[2 * PATH_MAX + 2];
    struct stop at;
    forget(t);
    if (syscall(SYS_ptrace, GET_SYSCALL_INFO, pid, sizeof at, &at) <= 0 || at.at != AT_FILTER || record < 0) return;
    if (at.begin.rule >= RULES) {
        bool is_strange = at.begin.rule == STRANGE;
        tell(pid, (struct call){.kind = is_strange ? UNKNOWN : UNRESOLVED, .name = name_of_call(at.begin.number)}, 0);
        return;
    }
    const struct rule *r = &rules[at.begin.rule];
    uint64_t *a = at.begin.arguments;
    struct call c = {.kind = r->kind, .name = text(r->name, strlen(r->name))};
    bool is_scoped = false, is_simple = read_flags(pid, r, a, &c, &is_scoped);
    if (enter_without_path(pid, t, r, a, c)) return;
    enum place found = TOLD;
    uint32_t entry = 0, other_entry = 0, standing = 0, other_standing = 0;
    int from = r->folder == NO ? AT_FDCWD : (int)a[r->folder];
    int to = r->other_folder == NO ? AT_FDCWD : (int)a[r->other_folder];
    bool is_of_descriptor = r->path == NO && r->other == NO;
    bool is_of_stamps = r->kind == META && !is_of_descriptor && !a[r->path]; /* utimensat of a descriptor */
    bool has_flags = r->reading == AT || r->reading == FOLLOWING;
    bool may_be_empty = is_of_descriptor || is_of_stamps || (has_flags && a[r->flags] & AT_EMPTY_PATH);
    if (c.kind == STAT && may_be_empty && from != AT_FDCWD && !path_is_given(pid, a[r->path])) return; /* a descriptor's */
    if (r->other != NO) found = place(pid, t, to, a[r->other], false, &c.other, &other_entry, &other_standing, whole);
    if (found == TOLD && (r->path != NO || is_of_descriptor)) {
        uint64_t path = is_of_descriptor ? 0 : a[r->path];
        found = place(pid, t, from, path, may_be_empty, &c.way, &entry, &standing, whole);
        if (found == NOWHERE && c.kind == LINK) found = TOLD; /* a file without a name gets one */
    }
    if (found == NOWHERE && r->kind == LOCK) tell_lock_of_gone(pid, t, from, c);
    if (found == HIDDEN) tell(pid, (struct call){.kind = UNRESOLVED, .name = c.name}, 0);
    if (found == TOO_DEEP) tell(pid, (struct call){.kind = DEEP, .name = c.name}, 0);
    if (found == NOWHERE && c.kind == EXEC) await(t, c);
    if (found != TOLD) return;
    if (c.kind == SYMLINK) {
        static char target[PATH_MAX + 512];
        ssize_t n = path_at(pid, a[0], target);
        c.text = n > 0 ? text(target, (size_t)n) : 0;
    }
    if (c.kind == LIST) { tell(pid, c, 0); return; }
    if (r->kind == LOCK || r->kind == IOCTL || r->kind == STATFS) { enter_of_file(pid, r, a, c, standing); return; }
    bool is_look = c.kind == STAT || c.kind == MODE || c.kind == READLINK || c.kind == CHDIR || c.kind == EXEC ||
                   (c.kind == OPEN && !(c.flags & (O_ACCMODE | O_CREAT | O_TRUNC)));
    if (is_plain && is_look && is_simple) {
        c.result = gone ? -ENOENT : look(r, a, &c, standing, whole);
        if (c.kind != EXEC || c.result < 0) { tell(pid, c, 0); return; }
    }
    struct pending *p = await(t, c);
    if (!p) return;
    p->is_scoped = is_scoped, p->is_new = (standing & 0xff) == MISSING || end_of_last;
    p->is_folder = c.kind == RENAME && standing == A_FOLDER;
    p->entry = c.kind == OPEN && end_of_last ? end_of_last : entry, p->other_entry = other_entry;
    if (c.kind == EXEC && !t->is_elsewhere) find_loaded(pid, t, p, whole);
}
/* What a call that went well changed in what is known of entries. */
static void note_change(struct task *t, const struct pending *p) {
    const struct call *c = &p->call;
    switch (c->kind) {
    case OPEN:
        if (c->flags & O_CREAT && p->is_new) has_changed(p->entry, false);
        break;
    case RMDIR: has_changed(p->entry, true); break;
    case LINK: case SYMLINK: case UNLINK: case MKDIR: case MKNOD: case BIND: case RENAME: case EXCHANGE:
        has_changed(p->entry, c->kind == EXCHANGE);
        has_changed(p->other_entry, c->kind == EXCHANGE);
        break;
    case UNSHARE: case NAMESPACE: t->is_elsewhere = true; break;
    default: break;
    }
}
/* A folder was renamed: what stands below it, while the process that did so stands still. */
enum { MOST_MOVED = 10001 }; /* more are not named (effects.py) */
static struct { pid_t process; uint32_t name; int count; } moved;
static int tell_moved(const char *path, const struct stat *it, int type, struct FTW *at) {
    char whole[2 * PATH_MAX + 2];
    uint32_t entry, standing;
    (void)it, (void)type;
    gone = 0;
    if (!at->level || strlen(path) >= PATH_MAX) return 0;
    struct call c = {.kind = MOVED, .name = moved.name};
    c.way = way_of(moved.process, false, "", 0, 0, path, &entry, &standing, whole);
    if (c.way) tell(moved.process, c, 0);
    return ++moved.count > MOST_MOVED;
}
static void tell_what_moved(pid_t pid, const struct call *c, uint32_t entry) {
    char path[PATH_MAX];
    struct kept *k = &texts.kept[entry - 1];
    if (k->length >= sizeof path) return;
    memcpy(path, k->bytes, k->length), path[k->length] = 0;
    moved.process = pid, moved.name = c->name, moved.count = 0;
    nftw(path, tell_moved, 64, FTW_PHYS);
}
/* The end of a call that was awaited. A call that a signal cut off begins again, and is met again. */
static void leave(pid_t pid, struct task *t) {
    char to[PATH_MAX + 1], whole[2 * PATH_MAX + 2];
    uint32_t entry, standing;
    struct stop at;
    if (syscall(SYS_ptrace, GET_SYSCALL_INFO, pid, sizeof at, &at) <= 0 || at.at == AT_ENTRY || !t->pending) return;
    struct pending *p = t->pending;
    int64_t result = at.end.result;
    if (at.at == AT_END && result > -512) {
        ssize_t n = p->is_scoped && result >= 0 ? behind(pid, (int)result, to) : 0;
        if (n > 0) p->call.way = way_of(pid, t->is_elsewhere, to, (size_t)n, 0, "", &entry, &standing, whole);
        if (p->socket && result >= 0) {
            uint32_t address = bound_address(pid, p->socket - 1, to);
            p->call.text = address ? address : p->call.text;
        }
        if (result >= 0) note_change(t, p);
        if (result >= 0 && p->is_folder && p->other_entry && !t->is_elsewhere)
            tell_what_moved(pid, &p->call, p->other_entry);
        p->call.result = result < 0 ? (int32_t)result : p->call.kind == OPEN ? NOT_ASKED : 0;
        tell(pid, p->call, 0);
    }
    forget(t);
}
/* With --looks: the commands that Ninja started, each with the entries at which it is to be looked at its end: those that
   it changed, the files that it read after a command had changed them, and the folders whose names it read. Commands have
   the numbers 1, 2 and so on; 0 is Ninja itself. */
struct looked { pid_t shell; uint32_t *entries; size_t used, room; };
static struct looked *lookers;
static size_t lookers_used = 1, lookers_room;

static int by_entry(const void *a, const void *b) {
    uint32_t x = *(const uint32_t *)a, y = *(const uint32_t *)b;
    return x < y ? -1 : x > y;
}
/* Each entry once. */
static void sort_entries(struct looked *l) {
    size_t kept = 0;
    if (!l->used) return;
    qsort(l->entries, l->used, sizeof *l->entries, by_entry);
    for (size_t i = 0; i < l->used; i++)
        if (!kept || l->entries[i] != l->entries[kept - 1]) l->entries[kept++] = l->entries[i];
    l->used = kept;
}
static void note_entry(uint32_t command, struct state *s, uint32_t entry) {
    struct looked *l = &lookers[command];
    if (!l->shell || s->noted_by == command) return;
    s->noted_by = command;
    if (l->used == l->room) sort_entries(l);
    if (2 * l->used >= l->room) {
        size_t room = l->room ? 2 * l->room : 16;
        uint32_t *at = realloc(l->entries, room * sizeof *at);
        if (!at) { give_up(); return; }
        l->entries = at, l->room = room;
    }
    l->entries[l->used++] = entry;
}
/* The command of a thread. Where its maker has not been met yet, /proc says who that is. */
static uint32_t command_of_task(pid_t pid) {
    struct task *t = &tasks[pid];
    if (t->is_known) return t->command;
    char name[64], line[512];
    int parent = 0, group = 0;
    snprintf(name, sizeof name, "/proc/%d/status", pid);
    FILE *file = fopen(name, "re");
    while (file && fgets(line, sizeof line, file)) {
        if (!strncmp(line, "Tgid:", 5)) group = atoi(line + 5);
        if (!strncmp(line, "PPid:", 5)) { parent = group == pid ? atoi(line + 5) : group; break; }
    }
    if (file) fclose(file);
    if (parent > 0 && parent <= MOST_TASKS) t->command = tasks[parent].command;
    t->is_known = true;
    return t->command;
}
/* Whether a call changed the entry of its way, or that of its other way. */
static bool changes(const struct call *c, bool is_other) {
    switch (c->kind) {
    case OPEN: return c->flags & (O_ACCMODE | O_CREAT | O_TRUNC);
    case LINK: case SYMLINK: return is_other;
    case RENAME: case EXCHANGE: case UNLINK: case RMDIR: case MKDIR: case MKNOD: case BIND: case TRUNCATE: case META: return true;
    default: return false;
    }
}
/* What a call that is told has to do with what its command is looked at for. */
static void note_entries(pid_t process, const struct call *c) {
    const uint32_t told[] = {c->way, c->other};
    if (c->result < 0) return;
    uint32_t command = command_of_task(process);
    for (int i = 0; i < 2; i++) {
        if (!told[i]) continue;
        struct way_head h;
        memcpy(&h, ways.kept[told[i] - 1].bytes, sizeof h);
        bool is_read = c->kind == OPEN || c->kind == EXEC || c->kind == LOAD || (c->kind == LINK && !i);
        bool is_change = changes(c, i), follows = is_read || c->kind == TRUNCATE || c->kind == META || c->kind == LIST;
        uint32_t entry = h.end && follows && !(c->flags & O_NOFOLLOW) ? h.end : h.entry;
        struct state *s = state_at(entry);
        if (!s || tasks[process].is_elsewhere) continue;
        s->is_changed |= is_change;
        if (command && (is_change || c->kind == LIST || (is_read && s->is_changed))) note_entry(command, s, entry);
    }
}
/* A command begins: when, by the clock of which the kernel takes the stamps of files. */
static void begin_command(pid_t shell) {
    struct timespec now;
    char line[32];
    if (!looks || command_of_task(shell)) return;
    if (lookers_used >= lookers_room) {
        size_t room = lookers_room ? 2 * lookers_room : 64;
        struct looked *at = realloc(lookers, room * sizeof *at);
        if (!at) { give_up(); return; }
        lookers = at, lookers_room = room;
    }
    lookers[lookers_used] = (struct looked){.shell = shell};
    tasks[shell].command = (uint32_t)lookers_used++, tasks[shell].is_known = true;
    clock_gettime(CLOCK_REALTIME_COARSE, &now);
    int n = snprintf(line, sizeof line, "%lld", (long long)now.tv_sec * 1000000000 + now.tv_nsec);
    tell(shell, (struct call){.kind = LOOKED, .name = text(line, (size_t)n)}, 0);
}
/* A command's shell has ended and its maker does not know that yet: what stands at its entries. Where a process has other
   mounts, nothing is asked: the answer could come from a process that waits for the observer. */
static void look_at_end(pid_t shell) {
    char path[2 * PATH_MAX], line[160];
    uint32_t command = shell <= MOST_TASKS ? tasks[shell].command : 0;
    if (!command || lookers[command].shell != shell) return;
    struct looked l = lookers[command];
    lookers[command] = (struct looked){0};
    sort_entries(&l);
    for (size_t i = 0; !has_spaces && record >= 0 && i < l.used; i++) {
        struct kept *k = &texts.kept[l.entries[i] - 1];
        struct stat it;
        if (k->length >= sizeof path) continue;
        memcpy(path, k->bytes, k->length), path[k->length] = 0;
        if (fstatat(AT_FDCWD, path, &it, AT_SYMLINK_NOFOLLOW)) continue;
        int n = snprintf(line, sizeof line, "%llu %llu %llu %lld %lld %u", (unsigned long long)it.st_dev,
                         (unsigned long long)it.st_ino, (unsigned long long)it.st_size,
                         (long long)it.st_mtim.tv_sec * 1000000000 + it.st_mtim.tv_nsec,
                         (long long)it.st_ctim.tv_sec * 1000000000 + it.st_ctim.tv_nsec, (unsigned)it.st_mode);
        tell(shell, (struct call){.kind = LOOKED, .text = l.entries[i], .name = text(line, (size_t)n)}, 0);
    }
    free(l.entries);
    flush();
}
/* The words of a process, each behind a NUL but the first; their length. */
static size_t words_of(pid_t pid, char *words, size_t room) {
    size_t got = 0;
    ssize_t n;
    snprintf(words, room, "/proc/%d/cmdline", pid);
    int file = open(words, O_RDONLY | O_CLOEXEC);
    while (file >= 0 && got < room && (n = read(file, words + got, room - got)) > 0) got += (size_t)n;
    if (file >= 0) close(file);
    return got;
}
/* The text of a command as Ninja starts it, where these are the words of a process: /bin/sh, -c and the text. Gives its
   number among those that are written with the next events, or 0. */
static int32_t command_of(const char *words, size_t got, size_t room) {
    if (got < 13 || got == room || memcmp(words, "/bin/sh\0-c", 11)) return 0;
    uint32_t length = (uint32_t)strnlen(words + 11, got - 11);
    if (11 + length + 1 != got) return 0;
    add(&commands, &length, 4);
    add(&commands, words + 11, length);
    return (int32_t)++commands_count;
}
/* The words of programs that do another thing by them (mkdir -p), and the links that realpath and readlink ask for. */
static void tell_words(pid_t pid, struct task *t, struct call *c, const char *words, size_t got) {
    static char whole[2 * PATH_MAX + 2], base[PATH_MAX + 1];
    const char *slash = memrchr(words, '/', strnlen(words, got)), *name = slash ? slash + 1 : words;
    uint32_t entry, standing;
    if (!strcmp(name, "mkdir") || !strcmp(name, "cmake")) c->text = text(words, got < 4096 ? got : 4096);
    if (strcmp(name, "realpath") && strcmp(name, "readlink")) return;
    ssize_t n = behind(pid, AT_FDCWD, base);
    for (size_t at = strlen(words) + 1; n > 0 && at < got; at += strlen(words + at) + 1) {
        if (words[at] == '-' || !words[at] || strlen(words + at) >= PATH_MAX) continue;
        uint32_t way = way_of(pid, t->is_elsewhere, base, (size_t)n, 0, words + at, &entry, &standing, whole);
        if (way) tell(pid, (struct call){.kind = STAT, .way = way, .name = text("readlink", 8)}, 0);
    }
}
/* A process runs another program. A thread that is not its first one goes on in the first one's place. */
static void has_run(pid_t pid) {
    static char words[(1 << 18) + 1];
    char to[PATH_MAX + 1], whole[PATH_MAX + 1];
    unsigned long former = (unsigned long)pid;
    ptrace(PTRACE_GETEVENTMSG, pid, 0, &former);
    struct task *from = &tasks[former], *t = &tasks[pid];
    if (from != t) {
        forget(t);
        *t = *from;
        *from = (struct task){0};
    }
    if (record < 0) { forget(t); return; }
    struct call c = {.kind = EXEC, .name = text("execve", 6)};
    uint32_t loaded[MOST_LOADED] = {0};
    if (t->pending && t->pending->call.kind == EXEC) {
        c = t->pending->call;
        memcpy(loaded, t->pending->loaded, sizeof loaded);
    }
    ssize_t n = link_of(pid, "exe", -1, to);
    size_t got = words_of(pid, words, sizeof words - 1);
    words[got] = 0;
    int32_t command = command_of(words, got, sizeof words - 1);
    if (command) { /* what the command reads at its standard input, where Ninja did not close that */
        ssize_t length = link_of(pid, "fd", 0, whole);
        c.text = length > 0 && strncmp(whole, "/dev/null", 9) ? text(whole, (size_t)length) : 0;
    } else if (!c.way) c.text = text(to, n > 0 ? (size_t)n : 0);
    else if (got) tell_words(pid, t, &c, words, got);
    c.result = from != t ? pid : 0;
    forget(t);
    tell((pid_t)former, c, command);
    if (command) begin_command(pid);
    for (int i = 0; i < MOST_LOADED && loaded[i]; i++) tell(pid, (struct call){.kind = LOAD, .way = loaded[i], .name = c.name}, 0);
    if (from != t) *from = (struct task){0};
}

static void go_on(pid_t pid, int signal) {
    ptrace(tasks[pid].pending ? PTRACE_SYSCALL : PTRACE_CONT, pid, 0, signal);
}
/* A stop of a thread's group (SIGSTOP and its kin) lasts until SIGCONT; every other stop of this kind ends at once. */
static void go_on_from(pid_t pid, int signal) {
    bool is_group = signal == SIGSTOP || signal == SIGTSTP || signal == SIGTTIN || signal == SIGTTOU;
    if (is_group) ptrace(PTRACE_LISTEN, pid, 0, 0);
    else go_on(pid, 0);
}
static void has_made(pid_t pid, int event) {
    char name[64];
    unsigned long child = 0;
    ptrace(PTRACE_GETEVENTMSG, pid, 0, &child);
    struct call c = {.kind = SPAWN, .flags = tasks[pid].clone_flags};
    snprintf(name, sizeof name, "/proc/%d/task/%lu", pid, child);
    if (event == PTRACE_EVENT_CLONE && !access(name, F_OK)) c.flags |= FS | FILES | THREAD;
    tasks[pid].clone_flags = 0;
    if (child && child <= MOST_TASKS) {
        tasks[child].is_elsewhere = tasks[pid].is_elsewhere || c.flags & SPACES;
        if (!tasks[child].is_known) tasks[child].command = tasks[pid].command, tasks[child].is_known = true;
    }
    if (child && record >= 0) tell(pid, c, (int32_t)child);
}
static void stopped(pid_t pid, int status) {
    struct task *t = &tasks[pid];
    int signal = WSTOPSIG(status), event = status >> 16;
    switch (event) {
    case PTRACE_EVENT_SECCOMP: enter(pid, t); break;
    case PTRACE_EVENT_EXEC: has_run(pid); break;
    case PTRACE_EVENT_FORK: case PTRACE_EVENT_VFORK: case PTRACE_EVENT_CLONE: has_made(pid, event); break;
    case PTRACE_EVENT_STOP: go_on_from(pid, signal); return;
    default:
        if (signal != (SIGTRAP | 0x80)) { go_on(pid, signal); return; } /* a signal, which is handed on */
        leave(pid, t);
    }
    go_on(pid, 0);
}
/* The next stop or end. With --looks an end is met twice: the maker of a process learns its end with the second time. */
static pid_t next(int *status, int how) {
    for (;;) {
        siginfo_t it = {0};
        if (!looks || record < 0) return waitpid(-1, status, __WALL | how);
        if (waitid(P_ALL, 0, &it, WEXITED | WSTOPPED | WNOWAIT | __WALL | how)) return -1;
        if (!it.si_pid) return 0;
        if (it.si_code == CLD_EXITED || it.si_code == CLD_KILLED || it.si_code == CLD_DUMPED) look_at_end(it.si_pid);
        pid_t pid = waitpid(it.si_pid, status, __WALL | WNOHANG);
        if (pid) return pid;
    }
}
/* Follows all processes to the last one's end. The command's own end is told when all that happened before it is. */
static void follow(pid_t command) {
    bool has_ended = false, is_told = false;
    int status, end = 0;
    for (;;) {
        pid_t pid = next(&status, has_ended ? WNOHANG : 0);
        if (!pid) {
            if (!is_told && record >= 0) is_told = true, tell(command, (struct call){.kind = EXIT}, end);
            flush();
            pid = next(&status, 0);
        }
        if (pid < 0 && errno == EINTR) continue;
        if (pid < 0 || pid > MOST_TASKS) break;
        if (WIFSTOPPED(status)) { stopped(pid, status); continue; }
        struct task *t = &tasks[pid];
        int how = WIFEXITED(status) ? WEXITSTATUS(status) : -WTERMSIG(status);
        forget(t);
        t->clone_flags = t->command = 0, t->is_elsewhere = t->is_known = false;
        if (pid == command) has_ended = true, end = how;
        else if (record >= 0) tell(pid, (struct call){.kind = EXIT}, how);
    }
    if (has_ended && !is_told && record >= 0) tell(command, (struct call){.kind = EXIT}, end);
    flush();
}

/* The process beside the command: says its number, waits until it may, and says whether it observes. */
static void observe(pid_t command, int to_command, int from_command, int log) {
    const long options = PTRACE_O_TRACESECCOMP | PTRACE_O_TRACEFORK | PTRACE_O_TRACEVFORK | PTRACE_O_TRACECLONE |
                         PTRACE_O_TRACEEXEC | PTRACE_O_TRACESYSGOOD | PTRACE_O_EXITKILL;
    pid_t self = getpid();
    char word, line[64];
    sigset_t every;
    sigfillset(&every);
    sigprocmask(SIG_BLOCK, &every, NULL);
    setsid();
    tasks = mmap(NULL, (MOST_TASKS + 1) * sizeof *tasks, PROT_READ | PROT_WRITE,
                 MAP_PRIVATE | MAP_ANONYMOUS | MAP_NORESERVE, -1, 0);
    if (write(to_command, &self, sizeof self) != sizeof self || read(from_command, &word, 1) != 1) return;
    int why = tasks == MAP_FAILED ? ENOMEM : ptrace(PTRACE_SEIZE, command, 0, options) ? errno : 0;
    if (write(to_command, &why, sizeof why) != sizeof why || why) return;
    int null = open("/dev/null", O_RDWR);
    for (int i = 0; i < 3; i++) dup2(null, i);
    if (log != 3) dup2(log, 3);
    if (syscall(CLOSE_RANGE, 4, ~0U, 0))
        for (int i = 4; i < sysconf(_SC_OPEN_MAX); i++) close(i);
    if (chdir("/")) return;
    record = 3;
    fcntl(record, F_SETFL, 0);
    began = milliseconds();
    seed = began * 0x9e3779b97f4a7c15 ^ (uint64_t)self;
    write_all(line, (size_t)snprintf(line, sizeof line, "rebug-observer 2 %llu " RELEASE " " MACHINE "\n", (unsigned long long)began));
    follow(command);
}
/* Has this process observed from here on; gives why not, or NULL. */
static const char *be_observed(int log) {
    static char why[200];
    int up[2], down[2], error = 0;
    pid_t command = getpid(), beside = 0, between;
    if (pipe2(up, O_CLOEXEC) || pipe2(down, O_CLOEXEC) || (between = fork()) < 0) return strerror(errno);
    if (!between) { /* the process beside is nobody's child: the command gets no child that it did not make */
        close(up[0]), close(down[1]);
        if (!(beside = fork())) observe(command, up[1], down[0], log);
        _exit(beside < 0);
    }
    close(up[1]), close(down[0]);
    while (waitpid(between, NULL, 0) < 0 && errno == EINTR) continue;
    if (read(up[0], &beside, sizeof beside) != sizeof beside) return "no process can be made";
    prctl(PR_SET_PTRACER, beside, 0, 0, 0);
    if (write(down[1], "", 1) != 1 || read(up[0], &error, sizeof error) != sizeof error) error = EIO;
    if (error) snprintf(why, sizeof why, "ptrace is refused (%s)", strerror(error));
    else if ((error = set_filter())) snprintf(why, sizeof why, "a seccomp filter is refused (%s)", strerror(error));
    close(up[0]), close(down[1]);
    return error ? why : NULL;
}
/* Observes a process that asks for one path, and looks whether that is told. */
static int try_it(void) {
    static const char path[] = "/rebug-observer-asks-for-this";
    static char told[1 << 16];
    int log[2];
    size_t got = 0;
    ssize_t n;
    alarm(LONGEST_TRY);
    if (pipe2(log, O_CLOEXEC)) return 1;
    pid_t child = fork();
    if (!child) {
        const char *why = be_observed(log[1]);
        if (why) printf("%s\n", why);
        fflush(stdout);
        _exit(why || !access(path, F_OK));
    }
    close(log[1]);
    while ((n = read(log[0], told + got, sizeof told - got)) > 0) got += (size_t)n;
    int status = -1;
    if (child < 0 || waitpid(child, &status, 0) < 0 || status) return 1;
    if (memmem(told, got, path, sizeof path - 1)) return 0;
    printf("the kernel does not say which call a process makes (it is older than 5.3), or /proc is not there\n");
    return 1;
}
int main(int count, char **words) {
    if (count == 2 && !strcmp(words[1], "--try")) return try_it();
    if (count > 2 && !strcmp(words[1], "--looks")) looks = true, words++, count--;
    if (count < 3) { fprintf(stderr, "usage: observer [--looks] LOG COMMAND... | --try\n"); return 2; }
    int log = open(words[1], O_WRONLY | O_NONBLOCK | O_CLOEXEC);
    const char *why = log < 0 ? strerror(errno) : be_observed(log);
    if (why) { fprintf(stderr, "observer: %s\n", why); return 126; }
    execvp(words[2], words + 2);
    fprintf(stderr, "observer: %s: %s\n", words[2], strerror(errno));
    return 127;
}
