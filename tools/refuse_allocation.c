/* Loaded before a program (LD_PRELOAD), refuses one of its allocations, or some of them, each in a run of its own.
 *
 * The file that REFUSE_COUNT names has eight bytes, in which the number of allocations so far is kept. They are numbered from 1 on.
 *
 * REFUSE is the number of the one that is refused; 0 refuses none.
 *
 * REFUSE_STEP, REFUSE_LAST and REFUSE_ENDS refuse each so-many-th from REFUSE to REFUSE_LAST: at each of them a child begins, whose allocation is refused and which goes on to
 * its end. The program itself waits for it, and then goes on with its memory. So what stands before an allocation is run once. To the file
 * REFUSE_ENDS each child adds a `struct end`, and what it wrote to standard output and to standard error. What the program wrote there before it
 * is counted alone. A child can't begin where other threads run, or where the child could change a file that the program goes on with: where a file
 * is open or stands in the working folder. Nor can it where a thread has ended that wasn't joined: a copy of the process takes its stack as one
 * that is free, and then can't join it. Then its status is NOT_TRIED.
 *
 * What the C library allocates while it starts a thread isn't counted: where no thread can be started, the toolchain's `join` makes its two
 * calls one after the other, and calls that wait for each other then wait for ever, as its guide says. */
#define _GNU_SOURCE
#include <dlfcn.h>
#include <errno.h>
#include <fcntl.h>
#include <pthread.h>
#include <stdlib.h>
#include <sys/mman.h>
#include <sys/stat.h>
#include <sys/syscall.h>
#include <sys/wait.h>
#include <unistd.h>

#define NOT_TRIED (-1)
/* how many seconds a child may take */
#define LIMIT 60
/* the first and the last of the places of files that are looked at */
#define FIRST_FILE 3
#define LAST_FILE 19
/* from which place on this has files of its own */
#define OWN_FILES 500
/* how many milliseconds the task of a thread that was joined is awaited: it stands in /proc for a moment after that, longer on a full machine */
#define AWAITED 2000

struct end {
    unsigned long number;
    long status;
    unsigned long before[2];
    unsigned long written[2];
};

static void *(*next_malloc)(size_t);
static void *(*next_calloc)(size_t, size_t);
static void *(*next_realloc)(void *, size_t);
static int (*next_create)(pthread_t *, const pthread_attr_t *, void *(*)(void *), void *);
static int (*next_join)(pthread_t, void **);
static int (*next_detach)(pthread_t);
static unsigned long refused, last, step;
static unsigned long *count;
/* how many allocations a child has made, in place of the shared number */
static unsigned long own;
/* the file of the ends, and those that a child writes to; the first is below 0 where one allocation alone is refused */
static int ends = -1, outputs[2];
/* how many threads were started that are neither joined nor detached, and how many were detached */
static long unjoined, detached;
/* whether this thread is starting another one */
static _Thread_local int starts __attribute__((tls_model("initial-exec")));

static int kept_open(int file) {
    int placed = file < 0 ? -1 : fcntl(file, F_DUPFD_CLOEXEC, OWN_FILES);
    if (file >= 0) {
        close(file);
    }
    return placed;
}

static void begin_children(void) {
    const char *path = getenv("REFUSE_ENDS");
    const char *number = getenv("REFUSE_LAST");
    const char *width = getenv("REFUSE_STEP");
    if (path == NULL || number == NULL || width == NULL || *width == '0') {
        return;
    }
    last = strtoul(number, NULL, 10);
    step = strtoul(width, NULL, 10);
    outputs[0] = kept_open(memfd_create("output", MFD_CLOEXEC));
    outputs[1] = kept_open(memfd_create("error", MFD_CLOEXEC));
    ends = kept_open(open(path, O_WRONLY | O_APPEND | O_CLOEXEC));
}

__attribute__((constructor)) static void begin(void) {
    next_malloc = (void *(*)(size_t))dlsym(RTLD_NEXT, "malloc");
    next_realloc = (void *(*)(void *, size_t))dlsym(RTLD_NEXT, "realloc");
    next_calloc = (void *(*)(size_t, size_t))dlsym(RTLD_NEXT, "calloc");
    next_create = (int (*)(pthread_t *, const pthread_attr_t *, void *(*)(void *), void *))dlsym(RTLD_NEXT, "pthread_create");
    next_join = (int (*)(pthread_t, void **))dlsym(RTLD_NEXT, "pthread_join");
    next_detach = (int (*)(pthread_t))dlsym(RTLD_NEXT, "pthread_detach");
    const char *number = getenv("REFUSE");
    const char *path = getenv("REFUSE_COUNT");
    int file = path ? open(path, O_RDWR | O_CLOEXEC) : -1;
    if (number == NULL || file < 0) {
        return;
    }
    void *cell = mmap(NULL, sizeof *count, PROT_READ | PROT_WRITE, MAP_SHARED, file, 0);
    close(file);
    refused = strtoul(number, NULL, 10);
    count = cell == MAP_FAILED ? NULL : cell;
    begin_children();
}

/* Whether this is the only thread, and each other one was joined. */
static int is_only_thread(void) {
    struct stat tasks;
    for (int passed = 0; __atomic_load_n(&unjoined, __ATOMIC_SEQ_CST) == 0 && stat("/proc/self/task", &tasks) == 0; passed++) {
        if (tasks.st_nlink == 3) {
            return 1;
        }
        if (passed == AWAITED || __atomic_load_n(&detached, __ATOMIC_SEQ_CST) != 0) {
            return 0;
        }
        usleep(1000);
    }
    return 0;
}

/* Whether this is the only thread, no file is open but the first three, and none stands in the working folder. */
static int is_alone(void) {
    if (!is_only_thread()) {
        return 0;
    }
    for (int file = FIRST_FILE; file <= LAST_FILE; file++) {
        if (fcntl(file, F_GETFD) >= 0) {
            return 0;
        }
    }
    /* an empty folder has two entries of 24 bytes: itself, and the one above */
    char entries[256];
    int folder = open(".", O_RDONLY | O_DIRECTORY | O_CLOEXEC);
    long length = syscall(SYS_getdents64, folder, entries, sizeof entries);
    close(folder);
    return length == 48;
}

/* Sets up a child: its outputs, and its own place in standard input. */
static void go_on_alone(unsigned long number) {
    own = number;
    count = &own;
    ends = -1;
    refused = 0;
    dup2(outputs[0], 1);
    dup2(outputs[1], 2);
    off_t place = lseek(0, 0, SEEK_CUR);
    int input = place < 0 ? -1 : open("/proc/self/fd/0", O_RDONLY | O_CLOEXEC);
    if (input >= 0) {
        lseek(input, place, SEEK_SET);
        dup2(input, 0);
        close(input);
    }
    alarm(LIMIT);
}

/* Appends what a child wrote. */
static void add_output(int output, unsigned long size) {
    char *bytes = size ? mmap(NULL, size, PROT_READ, MAP_SHARED, output, 0) : NULL;
    for (unsigned long done = 0; bytes != MAP_FAILED && done < size;) {
        ssize_t more = write(ends, bytes + done, size - done);
        if (more <= 0) {
            _exit(3);
        }
        done += (unsigned long)more;
    }
    if (bytes != NULL) {
        munmap(bytes, size);
    }
}

/* Runs a child whose allocation is refused: whether this is it. */
static int is_child(unsigned long number) {
    struct end end = {number, NOT_TRIED, {0, 0}, {0, 0}};
    if (is_alone()) {
        for (int at = 0; at < 2; at++) {
            end.before[at] = (unsigned long)lseek(at + 1, 0, SEEK_CUR);
            if (ftruncate(outputs[at], 0) != 0 || lseek(outputs[at], 0, SEEK_SET) != 0) {
                _exit(3);
            }
        }
        pid_t child = fork();
        if (child == 0) {
            go_on_alone(number);
            return 1;
        }
        int status = 0;
        if (child < 0 || waitpid(child, &status, 0) != child) {
            _exit(3);
        }
        end.status = status;
        for (int at = 0; at < 2; at++) {
            end.written[at] = (unsigned long)lseek(outputs[at], 0, SEEK_END);
        }
    }
    if (write(ends, &end, sizeof end) != (ssize_t)sizeof end) {
        _exit(3);
    }
    add_output(outputs[0], end.written[0]);
    add_output(outputs[1], end.written[1]);
    return 0;
}

static int is_refused(void) {
    if (count == NULL || starts) {
        return 0;
    }
    unsigned long number = __atomic_add_fetch(count, 1, __ATOMIC_SEQ_CST);
    int is_chosen = ends < 0 ? number == refused : number >= refused && number <= last && (number - refused) % step == 0;
    if (!is_chosen || (ends >= 0 && !is_child(number))) {
        return 0;
    }
    errno = ENOMEM;
    return 1;
}

void *malloc(size_t size) {
    if (next_malloc == NULL) {
        begin();
    }
    return is_refused() ? NULL : next_malloc(size);
}

void *realloc(void *old, size_t size) {
    if (next_realloc == NULL) {
        begin();
    }
    return is_refused() ? NULL : next_realloc(old, size);
}

void *calloc(size_t number, size_t size) {
    /* dlsym itself may call calloc before it has found the next one, and goes on without the memory */
    return next_calloc == NULL || is_refused() ? NULL : next_calloc(number, size);
}

/* Counts a thread that began or ended, where that went well. */
static int counted(int status, long more) {
    if (status == 0) {
        __atomic_add_fetch(&unjoined, more, __ATOMIC_SEQ_CST);
    }
    return status;
}

int pthread_create(pthread_t *thread, const pthread_attr_t *how, void *(*start)(void *), void *given) {
    starts = 1;
    int status = next_create(thread, how, start, given);
    starts = 0;
    return counted(status, 1);
}

int pthread_join(pthread_t thread, void **ended) {
    return counted(next_join(thread, ended), -1);
}

int pthread_detach(pthread_t thread) {
    __atomic_add_fetch(&detached, 1, __ATOMIC_SEQ_CST);
    return counted(next_detach(thread), -1);
}
