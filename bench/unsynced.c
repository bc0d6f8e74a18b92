/* A disk that forgets what was not synced, for one process (LD_PRELOAD). What the process writes to a file that it opened
 * for reading and writing stays in its memory, where its own reads find it, until it syncs that file: then all of it is
 * written there, in order, and synced. So a SIGKILL loses what was not synced, as a loss of power does. One write in
 * EARLY goes to the file at once, out of order, as a kernel may do it.
 *
 *   gcc -O2 -shared -fPIC bench/unsynced.c -o unsynced.so
 */
#define _GNU_SOURCE
#include <dlfcn.h>
#include <fcntl.h>
#include <stdarg.h>
#include <stdlib.h>
#include <string.h>
#include <sys/stat.h>
#include <unistd.h>

enum { MAX_FILES = 64, EARLY = 4 };

/* A write, or a cut at an offset where it has no bytes. */
struct change {
    struct change *next;
    off_t offset;
    size_t len;
    int is_cut;
    char bytes[];
};

/* A file as its process sees it, and the changes that were not synced. */
static struct file {
    int is_kept;
    char *bytes;
    size_t len, room;
    struct change *first, **last;
} files[MAX_FILES];
static unsigned seed;

#define REAL(name) ({ static __typeof__(&name) real; if (!real) real = (__typeof__(&name))dlsym(RTLD_NEXT, #name); real; })

static struct file *kept(int fd)
{
    return fd >= 0 && fd < MAX_FILES && files[fd].is_kept ? &files[fd] : NULL;
}

/* Makes it so long. Where memory is refused, the process ends. */
static void set_len(struct file *file, size_t len)
{
    if (len > file->room) {
        file->room = 2 * len + 65536;
        file->bytes = realloc(file->bytes, file->room);
        if (!file->bytes) abort();
    }
    if (len > file->len) memset(file->bytes + file->len, 0, len - file->len);
    file->len = len;
}

static int keep(int fd, int flags)
{
    struct stat state;
    if (fd < 0 || fd >= MAX_FILES || (flags & O_ACCMODE) != O_RDWR || fstat(fd, &state) || !S_ISREG(state.st_mode)) return fd;
    struct file *file = &files[fd];
    *file = (struct file){ .is_kept = 1, .last = &file->first };
    set_len(file, (size_t)state.st_size);
    for (size_t done = 0; done < file->len;) {
        ssize_t got = REAL(pread)(fd, file->bytes + done, file->len - done, (off_t)done);
        if (got <= 0) abort();
        done += (size_t)got;
    }
    if (!seed) seed = (unsigned)getpid();
    return fd;
}

static void add_change(struct file *file, off_t offset, const void *bytes, size_t len, int is_cut)
{
    struct change *change = malloc(sizeof *change + len);
    if (!change) abort();
    *change = (struct change){ .offset = offset, .len = len, .is_cut = is_cut };
    if (len) memcpy(change->bytes, bytes, len);
    *file->last = change;
    file->last = &change->next;
}

static int put(int fd, const struct change *change)
{
    if (change->is_cut) return REAL(ftruncate)(fd, change->offset);
    for (size_t done = 0; done < change->len;) {
        ssize_t got = REAL(pwrite)(fd, change->bytes + done, change->len - done, change->offset + (off_t)done);
        if (got <= 0) return -1;
        done += (size_t)got;
    }
    return 0;
}

static int put_all(int fd, struct file *file)
{
    while (file->first) {
        struct change *change = file->first;
        if (put(fd, change)) return -1;
        file->first = change->next;
        free(change);
    }
    file->last = &file->first;
    return 0;
}

int open(const char *path, int flags, ...)
{
    va_list words;
    va_start(words, flags);
    mode_t mode = flags & (O_CREAT | O_TMPFILE) ? va_arg(words, mode_t) : 0;
    va_end(words);
    return keep(REAL(open)(path, flags, mode), flags);
}

int open64(const char *path, int flags, ...)
{
    va_list words;
    va_start(words, flags);
    mode_t mode = flags & (O_CREAT | O_TMPFILE) ? va_arg(words, mode_t) : 0;
    va_end(words);
    return keep(REAL(open)(path, flags, mode), flags);
}

int close(int fd)
{
    struct file *file = kept(fd);
    if (file) {
        /* Whoever closes a file without a sync may lose what it wrote. */
        while (file->first) {
            struct change *change = file->first;
            file->first = change->next;
            free(change);
        }
        free(file->bytes);
        *file = (struct file){ 0 };
    }
    return REAL(close)(fd);
}

ssize_t pread(int fd, void *bytes, size_t len, off_t offset)
{
    struct file *file = kept(fd);
    if (!file) return REAL(pread)(fd, bytes, len, offset);
    if (offset < 0 || (size_t)offset >= file->len) return 0;
    if (len > file->len - (size_t)offset) len = file->len - (size_t)offset;
    memcpy(bytes, file->bytes + offset, len);
    return (ssize_t)len;
}

ssize_t pwrite(int fd, const void *bytes, size_t len, off_t offset)
{
    struct file *file = kept(fd);
    if (!file) return REAL(pwrite)(fd, bytes, len, offset);
    if ((size_t)offset + len > file->len) set_len(file, (size_t)offset + len);
    memcpy(file->bytes + offset, bytes, len);
    add_change(file, offset, bytes, len, 0);
    if (rand_r(&seed) % EARLY == 0) REAL(pwrite)(fd, bytes, len, offset);
    return (ssize_t)len;
}

int ftruncate(int fd, off_t len)
{
    struct file *file = kept(fd);
    if (!file) return REAL(ftruncate)(fd, len);
    set_len(file, (size_t)len);
    add_change(file, len, NULL, 0, 1);
    return 0;
}

int fsync(int fd)
{
    struct file *file = kept(fd);
    return file && put_all(fd, file) ? -1 : REAL(fsync)(fd);
}

int fdatasync(int fd)
{
    struct file *file = kept(fd);
    return file && put_all(fd, file) ? -1 : REAL(fdatasync)(fd);
}

int statx(int fd, const char *path, int flags, unsigned mask, struct statx *state)
{
    int result = REAL(statx)(fd, path, flags, mask, state);
    struct file *file = kept(fd);
    if (!result && file && flags & AT_EMPTY_PATH) state->stx_size = file->len;
    return result;
}

ssize_t pread64(int fd, void *bytes, size_t len, off64_t offset) { return pread(fd, bytes, len, offset); }
ssize_t pwrite64(int fd, const void *bytes, size_t len, off64_t offset) { return pwrite(fd, bytes, len, offset); }
int ftruncate64(int fd, off64_t len) { return ftruncate(fd, len); }
