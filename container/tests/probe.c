/* What a process in the container gets when it tries what it may and what it may not: a line for each trial, its name and the error's number, 0 where it worked. */
#define _GNU_SOURCE
#include <dirent.h>
#include <errno.h>
#include <fcntl.h>
#include <sched.h>
#include <signal.h>
#include <stdio.h>
#include <stdlib.h>
#include <string.h>
#include <sys/auxv.h>
#include <sys/mman.h>
#include <sys/resource.h>
#include <sys/socket.h>
#include <sys/stat.h>
#include <sys/syscall.h>
#include <sys/wait.h>
#include <unistd.h>

static void tell(const char *name, long result)
{
    printf("%s %d\n", name, result < 0 ? errno : 0);
    fflush(stdout);
}

static void write_to(const char *name, const char *path)
{
    int file = open(path, O_WRONLY | O_CREAT | O_CLOEXEC, 0600);
    tell(name, file);
    if (file >= 0)
        close(file);
}

/* How many bytes a masked file gives: at most the buffer's. */
static void read_of(const char *name, const char *path)
{
    char buffer[16];
    int file = open(path, O_RDONLY | O_CLOEXEC);
    printf("%s %ld\n", name, file < 0 ? 0L : (long)read(file, buffer, sizeof buffer));
    fflush(stdout);
    if (file >= 0)
        close(file);
}

/* Calls that no gateway makes, by number. The list answers before arguments are looked at; without it these arguments are refused and do no harm. */
static void forbidden_calls(void)
{
    static const struct { const char *name; long number; } calls[] = {
        {"unshare", SYS_unshare},       {"setns", SYS_setns},           {"mount", SYS_mount},         {"umount", SYS_umount2},
        {"pivot_root", SYS_pivot_root}, {"chroot", SYS_chroot},         {"mknod", SYS_mknodat},       {"ptrace", SYS_ptrace},
        {"bpf", SYS_bpf},               {"keyctl", SYS_keyctl},         {"kexec", SYS_kexec_load},    {"module", SYS_init_module},
        {"perf", SYS_perf_event_open},  {"setuid", SYS_setuid},         {"chmod", SYS_chmod},         {"chown", SYS_chown},
        {"reboot", SYS_reboot},         {"settime", SYS_settimeofday},  {"io_uring", SYS_io_uring_setup}, {"clone3", SYS_clone3},
        {"userfault", SYS_userfaultfd}, {"xattr", SYS_setxattr},        {"memfd", SYS_memfd_create},  {"swapon", SYS_swapon},
    };
    for (size_t i = 0; i < sizeof calls / sizeof *calls; i++)
        tell(calls[i].name, syscall(calls[i].number, -1L, -1L, -1L, -1L, -1L, -1L));
}

static void sockets(void)
{
    tell("socket-unix", socket(AF_UNIX, SOCK_STREAM, 0));
    tell("socket-inet", socket(AF_INET, SOCK_STREAM, 0));
    tell("socket-inet6", socket(AF_INET6, SOCK_DGRAM, 0));
    tell("socket-netlink", socket(AF_NETLINK, SOCK_RAW, 0));
    tell("socket-packet", socket(AF_PACKET, SOCK_RAW, 0));
}

static void namespaces(void)
{
    long child = syscall(SYS_clone, CLONE_NEWUSER | SIGCHLD, 0L, 0L, 0L, 0L);
    tell("clone-user", child);
    if (child == 0)
        _exit(0);
    pid_t plain = fork();
    tell("fork", plain);
    if (plain == 0)
        _exit(0);
    while (wait(0) > 0)
        ;
}

/* The signal that ends a child which takes more memory than a container may have: 0 where it gets it. */
static void memory(void)
{
    size_t size = 96u << 20;
    pid_t child = fork();
    if (child == 0) {
        char *taken = mmap(0, size, PROT_READ | PROT_WRITE, MAP_PRIVATE | MAP_ANONYMOUS, -1, 0);
        if (taken == MAP_FAILED)
            _exit(1);
        memset(taken, 1, size);
        _exit(0);
    }
    int status = 0;
    waitpid(child, &status, 0);
    printf("memory %d\n", WIFSIGNALED(status) ? WTERMSIG(status) : 0);
    fflush(stdout);
}

/* How many processes there can be, this one with them. */
static void processes(void)
{
    static pid_t made[1000];
    int count = 0;
    while (count < 1000 && (made[count] = fork()) > 0)
        count++;
    if (count < 1000 && made[count] == 0) {
        pause();
        _exit(0);
    }
    printf("processes %d\n", count + 1);
    fflush(stdout);
    for (int i = 0; i < count; i++)
        kill(made[i], SIGKILL);
    while (wait(0) > 0)
        ;
}

static void surroundings(void)
{
    struct rlimit limit;
    struct dirent *entry;
    DIR *root = opendir("/");
    while (root && (entry = readdir(root)))
        if (entry->d_name[0] != '.')
            printf("root-%s 0\n", entry->d_name);
    /* As the kernel told it at the start: the list has no getuid. */
    printf("uid %lu\ngid %lu\npid %d\n", getauxval(AT_UID), getauxval(AT_GID), getpid());
    getrlimit(RLIMIT_CORE, &limit);
    printf("core %ld\n", (long)limit.rlim_cur);
    fflush(stdout);
}

int main(void)
{
    surroundings();
    write_to("write-root", "/x");
    write_to("write-gateway", "/gateway");
    write_to("write-dev", "/dev/x");
    write_to("write-state", "/state/x");
    write_to("write-line", "/line/x");
    write_to("write-sysrq", "/proc/sysrq-trigger");
    write_to("write-sys", "/proc/sys/kernel/hostname");
    read_of("read-kcore", "/proc/kcore");
    read_of("read-keys", "/proc/keys");
    sockets();
    namespaces();
    forbidden_calls();
    memory();
    processes();
    return 0;
}
