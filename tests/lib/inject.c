/* A library to be preloaded under the program. It sees each call by which the program asks the C library for memory, or
 * the system for a file, a lock or a socket; it counts them by kind, and refuses one of them, or kills the process
 * there.
 * `refusals` and `kills` build it and say by the environment what it does:
 *
 *   REFUSE_KIND    a kind of NAMES below, or `system`, which is every kind but `alloc`, counted together
 *   REFUSE_CALL    which call of that kind, from 1 on
 *   REFUSE_HOW     once     this call is refused
 *                  lasting  this call and each later one of the kind is refused
 *                  piece    this call reads or writes one byte
 *                  pieces   this call and each later one of the kind reads or writes one byte
 *                  nothing  this call writes no byte, and answers that
 *                  before, after   the process is killed by SIGKILL before this call, or behind it
 *   REFUSE_ERROR   the number of the error that a refused call of the system sets; memory always sets ENOMEM
 *   REFUSE_SECONDS after so many seconds SIGALRM ends the process
 *   REFUSE_TOLD    a file of at least sizeof(struct told) bytes, into which the library writes what it saw, also where the
 *                  process is killed
 *
 * `calls` has the program say itself what is refused, by names that it looks up in the environment:
 *
 *   REFUSE 7 once      from here on allocations are counted anew, and the 7th is refused (`lasting`: and each later one;
 *                      0: none)
 *   REFUSE end         from here on none is refused; the value is how many were counted
 *
 * Calls are counted from the first that the program makes once it is loaded. What the C library does within itself, as
 * the loader's own opening of libraries, does not come here. The library asks for no memory. */
#define _GNU_SOURCE
#include <dlfcn.h>
#include <errno.h>
#include <fcntl.h>
#include <signal.h>
#include <stdarg.h>
#include <stdint.h>
#include <stdlib.h>
#include <string.h>
#include <sys/epoll.h>
#include <sys/file.h>
#include <sys/mman.h>
#include <sys/socket.h>
#include <sys/stat.h>
#include <sys/syscall.h>
#include <sys/uio.h>
#include <unistd.h>

enum kind { ALLOC, OPEN, READ, WRITE, SYNC, RENAME, LOCK, CLOSE, CHANGE, SOCKET, KINDS, SYSTEM = KINDS };
static const char *const NAMES[] = {"alloc", "open",  "read",   "write",  "sync",  "rename",
                                    "lock",  "close", "change", "socket", "system"};

enum how { ONCE, LASTING, PIECE, PIECES, NOTHING, BEFORE, AFTER };
static const char *const HOWS[] = {"once", "lasting", "piece", "pieces", "nothing", "before", "after"};

/* The report: how often each kind was called, `system` last; whether the call that is meant came; of that call its
 * descriptor, -1 where it has none, and its name; and the names of the first calls of the system, in order, each
 * followed by a space. `harness.py` reads it. */
struct told {
    uint64_t calls[KINDS + 1];
    int64_t met;
    int64_t descriptor;
    char name[24];
    char order[4000];
};

static struct told nowhere;
static struct told *told = &nowhere;
static int kind = -1, how = ONCE, error = EIO;
static uint64_t call;

static void *(*real_malloc)(size_t), *(*real_realloc)(void *, size_t), *(*real_calloc)(size_t, size_t);
static int (*real_posix_memalign)(void **, size_t, size_t);

static int place_in(const char *const names[], int count, const char *name) {
    for (int i = 0; name && i < count; i++)
        if (!strcmp(names[i], name)) return i;
    return -1;
}

static long number(const char *name, long other) {
    const char *text = getenv(name);
    return text ? atol(text) : other;
}

__attribute__((constructor)) static void begin(void) {
    real_malloc = dlsym(RTLD_NEXT, "malloc");
    real_realloc = dlsym(RTLD_NEXT, "realloc");
    real_calloc = dlsym(RTLD_NEXT, "calloc");
    real_posix_memalign = dlsym(RTLD_NEXT, "posix_memalign");
    const char *file = getenv("REFUSE_TOLD");
    if (file) {
        int fd = syscall(SYS_openat, AT_FDCWD, file, O_RDWR | O_CLOEXEC);
        void *at = mmap(0, sizeof *told, PROT_READ | PROT_WRITE, MAP_SHARED, fd, 0);
        if (fd < 0 || at == MAP_FAILED) _exit(99);
        syscall(SYS_close, fd);
        told = at;
    }
    how = place_in(HOWS, AFTER + 1, getenv("REFUSE_HOW"));
    error = number("REFUSE_ERROR", EIO);
    call = number("REFUSE_CALL", 0);
    unsigned seconds = number("REFUSE_SECONDS", 0);
    if (seconds) alarm(seconds);
    memset(told, 0, sizeof *told);
    kind = place_in(NAMES, KINDS + 1, getenv("REFUSE_KIND"));
}

enum answer { PASS, REFUSE, ONE_BYTE, NO_BYTE };

static void add_to_order(const char *name) {
    static size_t length;
    size_t more = strlen(name) + 1;
    if (length + more >= sizeof told->order) return;
    memcpy(told->order + length, name, more - 1);
    told->order[length + more - 1] = ' ';
    length += more;
}

/* Counts a call, and returns what is to be done with it. */
static enum answer judge(enum kind of, const char *name, int descriptor) {
    uint64_t nth = __atomic_add_fetch(&told->calls[of], 1, __ATOMIC_SEQ_CST);
    uint64_t mth = of == ALLOC ? 0 : __atomic_add_fetch(&told->calls[SYSTEM], 1, __ATOMIC_SEQ_CST);
    uint64_t at = kind == (int)of ? nth : kind == SYSTEM ? mth : 0;
    if (of != ALLOC) add_to_order(name);
    if (!at || !call || at < call || (at > call && how != LASTING && how != PIECES)) return PASS;
    if (at == call) {
        told->met = 1;
        told->descriptor = descriptor;
        strncpy(told->name, name, sizeof told->name - 1);
    }
    if (how == BEFORE) kill(getpid(), SIGKILL);
    return how == PIECE || how == PIECES ? ONE_BYTE : how == NOTHING ? NO_BYTE : how == AFTER ? PASS : REFUSE;
}

/* Kills the process behind the call that is meant. */
static void behind(enum kind of) {
    if (how == AFTER && told->met && (kind == (int)of || kind == SYSTEM) &&
        told->calls[kind] == call)
        kill(getpid(), SIGKILL);
}

static long refused(void) {
    errno = error;
    return -1;
}

#define SYSTEM_CALL(of, name, descriptor, does)                          \
    do {                                                                 \
        if (judge(of, name, descriptor) == REFUSE) return refused();     \
        long answer = (does);                                            \
        behind(of);                                                      \
        return answer;                                                   \
    } while (0)

/* Of a call that moves `count` bytes. */
#define MOVING_CALL(of, name, descriptor, count, does)                   \
    do {                                                                 \
        enum answer todo = judge(of, name, descriptor);                  \
        if (todo == REFUSE) return refused();                            \
        if (todo == NO_BYTE) return 0;                                   \
        if (todo == ONE_BYTE && count > 1) count = 1;                    \
        long answer = (does);                                            \
        behind(of);                                                      \
        return answer;                                                   \
    } while (0)

static int wants_memory(const char *name) {
    if (judge(ALLOC, name, -1) != REFUSE) return 0;
    errno = ENOMEM;
    return 1;
}

void *malloc(size_t n) { return wants_memory("malloc") ? 0 : real_malloc(n); }
void *realloc(void *p, size_t n) { return wants_memory("realloc") ? 0 : real_realloc(p, n); }
void *reallocarray(void *p, size_t m, size_t n) {
    return m && n > SIZE_MAX / m ? 0 : wants_memory("reallocarray") ? 0 : real_realloc(p, m * n);
}

/* dlsym itself may ask for memory before there is a real calloc. It does without. */
void *calloc(size_t m, size_t n) {
    return !real_calloc || wants_memory("calloc") ? 0 : real_calloc(m, n);
}
int posix_memalign(void **p, size_t a, size_t n) {
    return wants_memory("posix_memalign") ? ENOMEM : real_posix_memalign(p, a, n);
}
static void *aligned(const char *name, size_t a, size_t n) {
    void *p = 0;
    return wants_memory(name) || real_posix_memalign(&p, a < sizeof p ? sizeof p : a, n) ? 0 : p;
}
void *aligned_alloc(size_t a, size_t n) { return aligned("aligned_alloc", a, n); }
void *memalign(size_t a, size_t n) { return aligned("memalign", a, n); }

/* What stands in the environment: getenv itself is seen, below. */
static const char *value_of(const char *name) {
    size_t length = strlen(name);
    for (char **at = environ; at && *at; at++)
        if (!strncmp(*at, name, length) && (*at)[length] == '=') return *at + length + 1;
    return 0;
}

/* The marks of a program that says itself what is refused, and else the environment. It asks for no memory. */
char *getenv(const char *name) {
    static char counted[24];
    static const char mark[] = "REFUSE ";
    if (strncmp(name, mark, sizeof mark - 1)) return (char *)value_of(name);
    const char *said = name + sizeof mark - 1;
    if (!strcmp(said, "end")) {
        kind = -1;
        char *at = counted + sizeof counted - 1;
        uint64_t count = told->calls[ALLOC];
        do *--at = '0' + count % 10;
        while (count /= 10);
        return at;
    }
    char *rest;
    call = strtoul(said, &rest, 10);
    how = !strcmp(rest, " lasting") ? LASTING : ONCE;
    told->calls[ALLOC] = 0;
    told->met = 0;
    kind = ALLOC;
    return 0;
}

static int open_at(const char *name, int dir, const char *path, int flags, mode_t mode) {
    SYSTEM_CALL(OPEN, name, -1, syscall(SYS_openat, dir, path, flags, mode));
}
#define MODE_AFTER(last)                                                 \
    mode_t mode = 0;                                                     \
    if (flags & (O_CREAT | O_TMPFILE)) {                                 \
        va_list rest;                                                    \
        va_start(rest, last);                                            \
        mode = va_arg(rest, mode_t);                                     \
        va_end(rest);                                                    \
    }
int open(const char *path, int flags, ...) {
    MODE_AFTER(flags)
    return open_at("open", AT_FDCWD, path, flags, mode);
}
int open64(const char *path, int flags, ...) {
    MODE_AFTER(flags)
    return open_at("open64", AT_FDCWD, path, flags, mode);
}
int openat(int dir, const char *path, int flags, ...) {
    MODE_AFTER(flags)
    return open_at("openat", dir, path, flags, mode);
}
int openat64(int dir, const char *path, int flags, ...) {
    MODE_AFTER(flags)
    return open_at("openat64", dir, path, flags, mode);
}
int creat(const char *path, mode_t mode) {
    return open_at("creat", AT_FDCWD, path, O_CREAT | O_WRONLY | O_TRUNC, mode);
}

ssize_t read(int fd, void *p, size_t n) { MOVING_CALL(READ, "read", fd, n, syscall(SYS_read, fd, p, n)); }
ssize_t pread(int fd, void *p, size_t n, off_t at) {
    MOVING_CALL(READ, "pread", fd, n, syscall(SYS_pread64, fd, p, n, at));
}
ssize_t readv(int fd, const struct iovec *parts, int count) {
    SYSTEM_CALL(READ, "readv", fd, syscall(SYS_readv, fd, parts, count));
}
ssize_t recv(int fd, void *p, size_t n, int flags) {
    MOVING_CALL(READ, "recv", fd, n, syscall(SYS_recvfrom, fd, p, n, flags, 0, 0));
}
ssize_t recvfrom(int fd, void *p, size_t n, int flags, struct sockaddr *address, socklen_t *length) {
    MOVING_CALL(READ, "recvfrom", fd, n, syscall(SYS_recvfrom, fd, p, n, flags, address, length));
}
ssize_t recvmsg(int fd, struct msghdr *message, int flags) {
    SYSTEM_CALL(READ, "recvmsg", fd, syscall(SYS_recvmsg, fd, message, flags));
}

ssize_t write(int fd, const void *p, size_t n) {
    MOVING_CALL(WRITE, "write", fd, n, syscall(SYS_write, fd, p, n));
}
ssize_t __write(int fd, const void *p, size_t n) {
    MOVING_CALL(WRITE, "__write", fd, n, syscall(SYS_write, fd, p, n));
}
ssize_t pwrite(int fd, const void *p, size_t n, off_t at) {
    MOVING_CALL(WRITE, "pwrite", fd, n, syscall(SYS_pwrite64, fd, p, n, at));
}
ssize_t writev(int fd, const struct iovec *parts, int count) {
    enum answer todo = judge(WRITE, "writev", fd);
    if (todo == REFUSE) return refused();
    if (todo == NO_BYTE) return 0;
    struct iovec byte = {count > 0 ? parts[0].iov_base : 0, 1};
    int cut = todo == ONE_BYTE && count > 0 && parts[0].iov_len > 0;
    long answer = syscall(SYS_writev, fd, cut ? &byte : parts, cut ? 1 : count);
    behind(WRITE);
    return answer;
}
ssize_t send(int fd, const void *p, size_t n, int flags) {
    MOVING_CALL(WRITE, "send", fd, n, syscall(SYS_sendto, fd, p, n, flags, 0, 0));
}
ssize_t sendto(int fd, const void *p, size_t n, int flags, const struct sockaddr *address, socklen_t length) {
    MOVING_CALL(WRITE, "sendto", fd, n, syscall(SYS_sendto, fd, p, n, flags, address, length));
}
ssize_t sendmsg(int fd, const struct msghdr *message, int flags) {
    SYSTEM_CALL(WRITE, "sendmsg", fd, syscall(SYS_sendmsg, fd, message, flags));
}

int fsync(int fd) { SYSTEM_CALL(SYNC, "fsync", fd, syscall(SYS_fsync, fd)); }
int fdatasync(int fd) { SYSTEM_CALL(SYNC, "fdatasync", fd, syscall(SYS_fdatasync, fd)); }

int ftruncate(int fd, off_t length) { SYSTEM_CALL(CHANGE, "ftruncate", fd, syscall(SYS_ftruncate, fd, length)); }
int chmod(const char *path, mode_t mode) { SYSTEM_CALL(CHANGE, "chmod", -1, syscall(SYS_chmod, path, mode)); }
int fchmod(int fd, mode_t mode) { SYSTEM_CALL(CHANGE, "fchmod", fd, syscall(SYS_fchmod, fd, mode)); }

int fchown(int fd, uid_t owner, gid_t group) {
    SYSTEM_CALL(CHANGE, "fchown", fd, syscall(SYS_fchown, fd, owner, group));
}

int unlink(const char *path) { SYSTEM_CALL(CHANGE, "unlink", -1, syscall(SYS_unlink, path)); }
int unlinkat(int fd, const char *path, int flags) {
    SYSTEM_CALL(CHANGE, "unlinkat", fd, syscall(SYS_unlinkat, fd, path, flags));
}

int rename(const char *from, const char *to) { SYSTEM_CALL(RENAME, "rename", -1, syscall(SYS_rename, from, to)); }
int renameat(int fd, const char *from, int gd, const char *to) {
    SYSTEM_CALL(RENAME, "renameat", -1, syscall(SYS_renameat2, fd, from, gd, to, 0));
}
int renameat2(int fd, const char *from, int gd, const char *to, unsigned flags) {
    SYSTEM_CALL(RENAME, "renameat2", -1, syscall(SYS_renameat2, fd, from, gd, to, flags));
}

int flock(int fd, int operation) { SYSTEM_CALL(LOCK, "flock", fd, syscall(SYS_flock, fd, operation)); }
int fcntl(int fd, int command, ...) {
    va_list rest;
    va_start(rest, command);
    long argument = va_arg(rest, long);
    va_end(rest);
    int locks = command == F_SETLK || command == F_SETLKW || command == F_OFD_SETLK || command == F_OFD_SETLKW;
    if (!locks) return syscall(SYS_fcntl, fd, command, argument);
    SYSTEM_CALL(LOCK, "fcntl", fd, syscall(SYS_fcntl, fd, command, argument));
}

/* A close that is refused has closed, as Linux does it. */
int close(int fd) {
    enum answer todo = judge(CLOSE, "close", fd);
    long answer = syscall(SYS_close, fd);
    behind(CLOSE);
    return todo == REFUSE ? refused() : answer;
}

int socket(int domain, int type, int protocol) {
    SYSTEM_CALL(SOCKET, "socket", -1, syscall(SYS_socket, domain, type, protocol));
}
int bind(int fd, const struct sockaddr *address, socklen_t length) {
    SYSTEM_CALL(SOCKET, "bind", fd, syscall(SYS_bind, fd, address, length));
}
int listen(int fd, int backlog) { SYSTEM_CALL(SOCKET, "listen", fd, syscall(SYS_listen, fd, backlog)); }
int accept4(int fd, struct sockaddr *address, socklen_t *length, int flags) {
    SYSTEM_CALL(SOCKET, "accept4", fd, syscall(SYS_accept4, fd, address, length, flags));
}
int accept(int fd, struct sockaddr *address, socklen_t *length) { return accept4(fd, address, length, 0); }
int connect(int fd, const struct sockaddr *address, socklen_t length) {
    SYSTEM_CALL(SOCKET, "connect", fd, syscall(SYS_connect, fd, address, length));
}
int setsockopt(int fd, int level, int name, const void *value, socklen_t length) {
    SYSTEM_CALL(SOCKET, "setsockopt", fd, syscall(SYS_setsockopt, fd, level, name, value, length));
}
int getsockopt(int fd, int level, int name, void *value, socklen_t *length) {
    SYSTEM_CALL(SOCKET, "getsockopt", fd, syscall(SYS_getsockopt, fd, level, name, value, length));
}
int getsockname(int fd, struct sockaddr *address, socklen_t *length) {
    SYSTEM_CALL(SOCKET, "getsockname", fd, syscall(SYS_getsockname, fd, address, length));
}
int getpeername(int fd, struct sockaddr *address, socklen_t *length) {
    SYSTEM_CALL(SOCKET, "getpeername", fd, syscall(SYS_getpeername, fd, address, length));
}
int epoll_create1(int flags) { SYSTEM_CALL(SOCKET, "epoll_create1", -1, syscall(SYS_epoll_create1, flags)); }
int epoll_ctl(int fd, int operation, int of, struct epoll_event *event) {
    SYSTEM_CALL(SOCKET, "epoll_ctl", fd, syscall(SYS_epoll_ctl, fd, operation, of, event));
}
int epoll_wait(int fd, struct epoll_event *events, int most, int milliseconds) {
    SYSTEM_CALL(SOCKET, "epoll_wait", fd, syscall(SYS_epoll_wait, fd, events, most, milliseconds));
}
int shutdown(int fd, int which) { SYSTEM_CALL(SOCKET, "shutdown", fd, syscall(SYS_shutdown, fd, which)); }
