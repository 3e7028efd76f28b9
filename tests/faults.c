/* Preloaded, read and write go wrong as the environment says: one letter for each call, in order.
 * INPUT_FAULTS: reads of descriptor 0. FILE_FAULTS: reads of any other. OUTPUT_FAULTS: writes to descriptor 1.
 * i: interrupted (EINTR); e: an error (EIO); s: one byte is moved; any other letter, or none left: as it is. */
#define _GNU_SOURCE
#include <dlfcn.h>
#include <errno.h>
#include <stdlib.h>
#include <unistd.h>

struct faults {
    const char *name;
    const char *next;
};

static struct faults input = { "INPUT_FAULTS", NULL };
static struct faults file = { "FILE_FAULTS", NULL };
static struct faults output = { "OUTPUT_FAULTS", NULL };

static char next_fault(struct faults *f)
{
    if (f->next == NULL) {
        f->next = getenv(f->name);
        if (f->next == NULL)
            f->next = "";
    }
    return *f->next == '\0' ? '-' : *f->next++;
}

/* The length to move, or -1 with errno set. */
static ssize_t length_after(char fault, size_t n)
{
    if (fault == 'i' || fault == 'e') {
        errno = fault == 'i' ? EINTR : EIO;
        return -1;
    }
    return fault == 's' && n > 1 ? 1 : (ssize_t)n;
}

ssize_t read(int fd, void *buffer, size_t n)
{
    ssize_t (*next)(int, void *, size_t) = __extension__(ssize_t (*)(int, void *, size_t))dlsym(RTLD_NEXT, "read");
    ssize_t length = length_after(next_fault(fd == 0 ? &input : &file), n);
    return length < 0 ? -1 : next(fd, buffer, (size_t)length);
}

ssize_t write(int fd, const void *buffer, size_t n)
{
    ssize_t (*next)(int, const void *, size_t) = __extension__(ssize_t (*)(int, const void *, size_t))dlsym(RTLD_NEXT, "write");
    ssize_t length = fd == 1 ? length_after(next_fault(&output), n) : (ssize_t)n;
    return length < 0 ? -1 : next(fd, buffer, (size_t)length);
}
