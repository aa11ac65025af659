/* Refuses what a program asks of the C library, and plays a link and children. `.ci/refused` and `.ci/calls` preload it into the
 * program that they try, and say in the environment what is refused and played:
 *   REFUSED=WHAT:HOW:N   the Nth call of a kind; with HOW `one` it alone fails, with `all` it and each one after it; with
 *                        `short` it reads or takes one byte, and with `shorts` each one after it too. With N 0 none fails.
 *     WHAT               memory: malloc, calloc, realloc, aligned_alloc, posix_memalign; open; read; write: to standard output;
 *                        tell: writes to standard error; link: socket, bind, ioctl, sendto, recvfrom; child: posix_spawn, and
 *                        waitpid for a child that was not stopped
 *   REFUSED_COUNT=FILE   a file that takes the number of calls of this kind
 *   REFUSED_WIDTH=N      a write to standard output takes at most N bytes
 *   REFUSED_LINK=FILE    no socket is used: each line is a datagram in hexadecimal digits that is received, or `nothing`, and
 *                        after the last one none is there
 *   REFUSED_CHILDREN=FILE  no child is started: each line says how the next one ends, by its exit status, a space, and what it
 *                        writes in hexadecimal digits; those after the last one write nothing and end with 0
 *   REFUSED_TOLD=FILE    a file that takes the calls of such a link and of such children, a line each. Of a link these are
 *                        `bound PORT`, `gave PORT DIGITS`, `datagram SIZE` and `nothing`, where the call was not refused. Of
 *                        children they are `start WORDS: CHILD` or `start WORDS failed`, `finish CHILD: STATUS SIZE` with how much
 *                        was read of what it wrote, or `finish CHILD failed`, and `stop CHILD`
 * A program that runs for more than 20 seconds is ended by a signal. */
#define _GNU_SOURCE
#include <dlfcn.h>
#include <errno.h>
#include <fcntl.h>
#include <netinet/in.h>
#include <signal.h>
#include <spawn.h>
#include <stdarg.h>
#include <stdio.h>
#include <stdlib.h>
#include <string.h>
#include <sys/socket.h>
#include <sys/syscall.h>
#include <sys/wait.h>
#include <unistd.h>

extern void *__libc_malloc(size_t size);
extern void *__libc_calloc(size_t count, size_t size);
extern void *__libc_realloc(void *block, size_t size);
extern void *__libc_memalign(size_t alignment, size_t size);

enum kind { NONE, MEMORY, OPEN, READ, WRITE, TELL, LINK, CHILD };
static const char *const names[] = {"none", "memory", "open", "read", "write", "tell", "link", "child"};
enum { FIRST = 1 << 22 }; /* the number of the first child that is played: the system has none so great */

static enum kind refused;     /* the kind of the calls that are refused */
static int whole, onwards;    /* whether a call fails, or is short; whether those after it are refused too */
static long at, count;        /* the first call that is refused; how many there were */
static size_t width = -1;     /* the most bytes that a write takes */
static int told = -1;         /* the file that takes the calls */
static char line[1 << 18];    /* a line of it */

/* The lines of a file that are still to come, and whether there is such a file. */
struct lines {
    int are_there;
    char *next, text[1 << 22];
};
static struct lines answers, endings; /* the datagrams of a link, and how children end */

/* A child that is played: its exit status, its end of the pipe, what was read from there, and whether it was stopped. */
static struct child {
    int status, pipe, is_stopped;
    long taken;
} children[64];
static int started, ends[2]; /* how many children there are; the last pipe */

/* Whether this call is refused. */
static int refuses(enum kind kind) {
    if (kind != refused) return 0;
    count++;
    return at != 0 && (onwards ? count >= at : count == at);
}

/* Whether this call fails. */
static int fails(enum kind kind, int error) {
    if (!refuses(kind) || !whole) return 0;
    errno = error;
    return 1;
}

/* Reads the lines of a file. */
static void load(struct lines *lines, const char *path) {
    lines->next = lines->text;
    if (!path) return;
    int file = syscall(SYS_open, path, O_RDONLY);
    long length = syscall(SYS_read, file, lines->text, sizeof lines->text);
    syscall(SYS_close, file);
    if (length == sizeof lines->text) _exit(99);
    lines->are_there = length >= 0;
}

/* The value of a hexadecimal digit. */
static int digit(char letter) {
    return letter <= '9' ? letter - '0' : letter - 'a' + 10;
}

/* The bytes of the digits up to the end of the next line, as many as there is room for. */
static size_t take(struct lines *lines, unsigned char *bytes, size_t room) {
    size_t taken = 0;
    for (; *lines->next != '\n'; lines->next += 2)
        if (taken < room) bytes[taken++] = digit(lines->next[0]) << 4 | digit(lines->next[1]);
    lines->next++;
    return taken;
}

/* Adds to the line of a call that is told. */
__attribute__((format(printf, 2, 3))) static int add(int end, const char *form, ...) {
    va_list rest;
    va_start(rest, form);
    end += vsnprintf(line + end, sizeof line - end, form, rest);
    va_end(rest);
    if (end >= (int)sizeof line) _exit(99);
    if (told >= 0 && line[end - 1] == '\n' && syscall(SYS_write, told, line, end) != end) _exit(99);
    return end;
}

__attribute__((constructor)) static void begin(void) {
    const char *text = getenv("REFUSED"), *most = getenv("REFUSED_WIDTH"), *file = getenv("REFUSED_TOLD");
    char what[16] = "", how[16] = "";
    long first = 0;
    load(&answers, getenv("REFUSED_LINK"));
    load(&endings, getenv("REFUSED_CHILDREN"));
    if (most) width = atol(most);
    if (file) told = syscall(SYS_open, file, O_WRONLY | O_CREAT | O_TRUNC | O_CLOEXEC, 0600);
    if (text && sscanf(text, "%15[^:]:%15[^:]:%ld", what, how, &first) == 3) {
        whole = how[0] != 's';
        onwards = !strcmp(how, "all") || !strcmp(how, "shorts");
        at = first;
        for (int kind = MEMORY; kind <= CHILD; kind++)
            if (!strcmp(what, names[kind])) refused = kind;
    }
    alarm(20);
}

__attribute__((destructor)) static void end(void) {
    const char *file = getenv("REFUSED_COUNT");
    char text[32];
    refused = NONE;
    if (!file) return;
    int to = syscall(SYS_open, file, O_WRONLY | O_CREAT | O_TRUNC, 0600);
    int length = snprintf(text, sizeof text, "%ld\n", count);
    if (syscall(SYS_write, to, text, length) != length) _exit(99);
}

void *malloc(size_t size) {
    return fails(MEMORY, ENOMEM) ? NULL : __libc_malloc(size);
}

void *calloc(size_t members, size_t size) {
    return fails(MEMORY, ENOMEM) ? NULL : __libc_calloc(members, size);
}

void *realloc(void *block, size_t size) {
    return fails(MEMORY, ENOMEM) ? NULL : __libc_realloc(block, size);
}

void *aligned_alloc(size_t alignment, size_t size) {
    return fails(MEMORY, ENOMEM) ? NULL : __libc_memalign(alignment, size);
}

int posix_memalign(void **block, size_t alignment, size_t size) {
    if (fails(MEMORY, ENOMEM)) return ENOMEM;
    *block = __libc_memalign(alignment, size);
    return *block ? 0 : ENOMEM;
}

int open(const char *path, int flags, ...) {
    va_list rest;
    va_start(rest, flags);
    int mode = flags & O_CREAT ? va_arg(rest, int) : 0;
    va_end(rest);
    return fails(OPEN, EMFILE) ? -1 : (int)syscall(SYS_open, path, flags, mode);
}

/* A read or a write, of one byte where it is short. */
static ssize_t transfer(enum kind kind, long call, int file, const void *bytes, size_t length) {
    int is_refused = refuses(kind);
    if (is_refused && whole) {
        errno = EIO;
        return -1;
    }
    return syscall(call, file, bytes, is_refused && length > 1 ? 1 : length);
}

ssize_t read(int file, void *bytes, size_t length) {
    ssize_t taken = transfer(READ, SYS_read, file, bytes, length);
    for (int i = 0; i < started; i++)
        if (children[i].pipe == file && taken > 0) children[i].taken += taken;
    return taken;
}

ssize_t write(int file, const void *bytes, size_t length) {
    if (file == 1 && length > width) length = width;
    return transfer(file == 1 ? WRITE : file == 2 ? TELL : NONE, SYS_write, file, bytes, length);
}

ssize_t __write(int file, const void *bytes, size_t length) {
    return write(file, bytes, length);
}

int socket(int domain, int type, int protocol) {
    if (fails(LINK, EMFILE)) return -1;
    return answers.are_there ? (int)syscall(SYS_open, "/dev/null", O_RDWR) : (int)syscall(SYS_socket, domain, type, protocol);
}

/* The port of an address. */
static int port_of(const struct sockaddr *address) {
    return ntohs(((const struct sockaddr_in *)address)->sin_port);
}

int bind(int file, const struct sockaddr *address, socklen_t size) {
    if (fails(LINK, EADDRINUSE)) return -1;
    if (!answers.are_there) return syscall(SYS_bind, file, address, size);
    add(0, "bound %d\n", port_of(address));
    return 0;
}

int ioctl(int file, unsigned long request, ...) {
    va_list rest;
    va_start(rest, request);
    void *argument = va_arg(rest, void *);
    va_end(rest);
    if (fails(LINK, EIO)) return -1;
    return answers.are_there ? 0 : (int)syscall(SYS_ioctl, file, request, argument);
}

ssize_t sendto(int file, const void *bytes, size_t length, int flags, const struct sockaddr *address, socklen_t size) {
    if (fails(LINK, EACCES)) return -1;
    if (!answers.are_there) return syscall(SYS_sendto, file, bytes, length, flags, address, size);
    int end = add(0, "gave %d ", port_of(address));
    for (size_t i = 0; i < length; i++) end = add(end, "%02x", ((const unsigned char *)bytes)[i]);
    add(end, "\n");
    return length;
}

ssize_t recvfrom(int file, void *bytes, size_t length, int flags, struct sockaddr *address, socklen_t *size) {
    static const struct sockaddr_in from = {.sin_family = AF_INET};
    if (fails(LINK, EIO)) return -1;
    if (!answers.are_there) return syscall(SYS_recvfrom, file, bytes, length, flags, address, size);
    if (!*answers.next || *answers.next == 'n') {
        if (*answers.next) answers.next = strchr(answers.next, '\n') + 1;
        add(0, "nothing\n");
        errno = EAGAIN;
        return -1;
    }
    if (address && size && *size >= sizeof from) {
        memcpy(address, &from, sizeof from);
        *size = sizeof from;
    }
    size_t taken = take(&answers, bytes, length);
    add(0, "datagram %zu\n", taken);
    return taken;
}

int pipe2(int pair[2], int flags) {
    int result = syscall(SYS_pipe2, pair, flags);
    memcpy(ends, pair, sizeof ends);
    return result;
}

int posix_spawn(pid_t *process, const char *path, const posix_spawn_file_actions_t *actions, const posix_spawnattr_t *attributes,
                char *const words[], char *const environment[]) {
    static unsigned char written[4096];
    int is_refused = fails(CHILD, EAGAIN), end = add(0, "start");
    if (!endings.are_there) {
        int (*spawn)(pid_t *, const char *, const posix_spawn_file_actions_t *, const posix_spawnattr_t *, char *const *, char *const *);
        *(void **)&spawn = dlsym(RTLD_NEXT, "posix_spawn");
        return is_refused ? EAGAIN : spawn(process, path, actions, attributes, words, environment);
    }
    for (int i = 1; words[i]; i++) end = add(end, " %s", words[i]);
    if (is_refused || started == sizeof children / sizeof *children) {
        add(end, " failed\n");
        return EAGAIN;
    }
    struct child *child = &children[started];
    child->pipe = ends[0];
    if (*endings.next) {
        child->status = strtol(endings.next, &endings.next, 10);
        endings.next++;
        size_t length = take(&endings, written, sizeof written);
        if (syscall(SYS_write, ends[1], written, length) != (long)length) _exit(99);
    }
    *process = FIRST + started++;
    add(end, ": %d\n", started);
    return 0;
}

/* The number of a child that is played. No other process is asked for. */
static int number_of(pid_t process) {
    if (process < FIRST || process >= FIRST + started) _exit(99);
    return process - FIRST + 1;
}

pid_t waitpid(pid_t process, int *status, int options) {
    if (!endings.are_there) return fails(CHILD, ECHILD) ? -1 : syscall(SYS_wait4, process, status, options, NULL);
    int number = number_of(process);
    struct child *child = &children[number - 1];
    child->pipe = -1;
    *status = child->is_stopped ? SIGKILL : W_EXITCODE(child->status, 0);
    if (child->is_stopped) return process;
    if (fails(CHILD, ECHILD)) {
        add(0, "finish %d failed\n", number);
        return -1;
    }
    add(0, "finish %d: %d %ld\n", number, child->status, child->taken);
    return process;
}

/* Whether a child has ended is asked before it is stopped: it has not. */
int waitid(idtype_t type, id_t process, siginfo_t *info, int options) {
    if (!endings.are_there) return syscall(SYS_waitid, type, process, info, options, NULL);
    number_of(process);
    memset(info, 0, sizeof *info);
    return 0;
}

int kill(pid_t process, int sign) {
    if (!endings.are_there) return syscall(SYS_kill, process, sign);
    int number = number_of(process);
    children[number - 1].is_stopped = 1;
    add(0, "stop %d\n", number);
    return 0;
}
