// Lets the streams and the files of a program fail. With LD_PRELOAD naming this library, standard output takes as many
// bytes as the variable ROOM says, one at a time, and standard input gives as many as REST says; the files that the
// program opens take TAKES bytes and give GIVES, all together, and they and the folder FOLDER are put on the disk SYNCS
// times. Then each answers the error whose number is in WAY, or, if that is 0, takes or gives nothing. With KILL the
// program is killed as it writes to a file, makes one shorter or puts one on the disk, for the time of that number,
// counted from 1. With SHRINKS=0 no file can be made shorter. The file named by WRITES, if any, gets how often standard
// error was written to.
#define _GNU_SOURCE
#include "counts.h"
#include <dlfcn.h>
#include <errno.h>
#include <signal.h>
#include <sys/stat.h>

// How many bytes standard output took and standard input gave, how many the other files took and gave, how often
// standard error was written to, and how often a file or the folder was put on the disk.
static long written, given, stored, fetched, told, synced;

// Ends the program by a signal, if it is time to.
static void kill_in_turn(void)
{
    static long turns;
    const char *number = getenv("KILL");
    if (number && ++turns == atol(number))
        raise(SIGKILL);
}

// How many bytes of so many the stream or the file takes or gives: all if the variable is not set; else one, if there
// are fewer so far than it says, and otherwise none.
static size_t part(const char *limit, long so_far, size_t count)
{
    const char *number = getenv(limit);
    if (!number || count == 0)
        return count;
    return so_far < atol(number) ? 1 : 0;
}

// What a stream answers that has come to its end.
static ssize_t failure(void)
{
    const char *way = getenv("WAY");
    errno = way ? atoi(way) : 0;
    return errno ? -1 : 0;
}

ssize_t write(int file, const void *bytes, size_t count)
{
    static ssize_t (*next)(int, const void *, size_t);
    if (!next)
        next = (ssize_t (*)(int, const void *, size_t))dlsym(RTLD_NEXT, "write");
    if (file == 2)
        told++;
    if (file > 2)
        kill_in_turn();
    const char *limit = file == 1 ? "ROOM" : file > 2 ? "TAKES" : "";
    long *so_far = file == 1 ? &written : &stored;
    if (part(limit, *so_far, count) < count) {
        if (part(limit, *so_far, count) == 0)
            return failure();
        count = 1;
    }
    ssize_t taken = next(file, bytes, count);
    if (*limit && taken > 0)
        *so_far += taken;
    return taken;
}

ssize_t read(int file, void *bytes, size_t count)
{
    static ssize_t (*next)(int, void *, size_t);
    if (!next)
        next = (ssize_t (*)(int, void *, size_t))dlsym(RTLD_NEXT, "read");
    const char *limit = file == 0 ? "REST" : file > 2 ? "GIVES" : "";
    long *so_far = file == 0 ? &given : &fetched;
    if (part(limit, *so_far, count) < count) {
        if (part(limit, *so_far, count) == 0)
            return failure();
        count = 1;
    }
    ssize_t got = next(file, bytes, count);
    if (*limit && got > 0)
        *so_far += got;
    return got;
}

// Whether it is a folder, and not the one that is watched.
static int is_elsewhere(int file)
{
    const char *name = getenv("FOLDER");
    struct stat it, folder;
    if (fstat(file, &it) || !S_ISDIR(it.st_mode))
        return 0;
    return !name || stat(name, &folder) || it.st_dev != folder.st_dev || it.st_ino != folder.st_ino;
}

// Puts a file on the disk, by the call of this name.
static int put_on_disk(const char *call, int file)
{
    const char *times = getenv("SYNCS");
    kill_in_turn();
    if (!is_elsewhere(file) && times && synced++ >= atol(times))
        return failure();
    return ((int (*)(int))dlsym(RTLD_NEXT, call))(file);
}

// A file that may not be made shorter if SHRINKS is 0.
int ftruncate(int file, off_t length)
{
    const char *times = getenv("SHRINKS");
    kill_in_turn();
    if (times && atol(times) == 0)
        return failure();
    return ((int (*)(int, off_t))dlsym(RTLD_NEXT, "ftruncate"))(file, length);
}

int fsync(int file)
{
    return put_on_disk("fsync", file);
}

int fdatasync(int file)
{
    return put_on_disk("fdatasync", file);
}

__attribute__((destructor)) static void tell(void)
{
    tell_count("WRITES", told);
}
