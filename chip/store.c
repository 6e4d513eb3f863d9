/*
 * Files that are written so that a stop at any point, by a signal, a full disk or a loss of power,
 * leaves under the final name either what was there before, or the whole file.
 *
 * The bytes go to a file beside, which is synced, then gets the final name, and then loses its own.
 * Its name has a character that no name on a chip has, so it is nobody's photograph. While it is
 * being written it is locked; one that is not locked was left by a process that was stopped, and
 * the next one that writes to the folder takes it away.
 */
#include "command.h"

#include <dirent.h>
#include <errno.h>
#include <fcntl.h>
#include <inttypes.h>
#include <libgen.h>
#include <limits.h>
#include <stdlib.h>
#include <string.h>
#include <sys/file.h>
#include <sys/random.h>
#include <sys/stat.h>
#include <unistd.h>

/* A middle dot in UTF-8, C2h B7h: a chip's name has characters 20h to 7Eh only. */
#define BESIDE ".unfinished\302\267"

/* A file beside the final one, and the folder of both. */
struct beside {
    const char *path; /* the folder's */
    int folder, file;
    char name[64]; /* empty: it has none any more */
};

static bool is_same_file(const struct stat *a, const struct stat *b) {
    return a->st_dev == b->st_dev && a->st_ino == b->st_ino;
}

/* ---- what was left ---- */

static int open_leftover(int folder, const char *name, int access) {
    return openat(folder, name, access | O_NOFOLLOW | O_NONBLOCK | O_CLOEXEC);
}

/* Takes a file away that nobody is writing. Only who holds the lock of a file takes its name away,
   so a name that is found to be this file's stays so until then. */
static void take_away(int folder, const char *name) {
    struct stat locked, named;
    int file = open_leftover(folder, name, O_WRONLY);
    if (file < 0)
        file = open_leftover(folder, name, O_RDONLY);
    if (file < 0)
        return;
    if (flock(file, LOCK_EX | LOCK_NB) == 0 && fstat(file, &locked) == 0 &&
        fstatat(folder, name, &named, AT_SYMLINK_NOFOLLOW) == 0 && is_same_file(&locked, &named))
        unlinkat(folder, name, 0);
    close(file);
}

static void take_leftovers_away(int folder) {
    int copy = openat(folder, ".", O_RDONLY | O_DIRECTORY | O_CLOEXEC);
    DIR *entries = copy < 0 ? NULL : fdopendir(copy);
    if (!entries)
        return;
    for (struct dirent *entry; (entry = readdir(entries));)
        if (strncmp(entry->d_name, BESIDE, strlen(BESIDE)) == 0)
            take_away(folder, entry->d_name);
    closedir(entries);
}

/* ---- the file beside ---- */

/* The permissions of a file that is made. */
static mode_t permissions(void) {
    mode_t mask = umask(0);
    umask(mask);
    return 0666 & ~mask;
}

/* Locks a file that was just made. Its owner may open it until it is whole, so that it can be taken
   away if it is left. */
static bool lock(int file, struct stat *about) {
    return fchmod(file, permissions() | 0600) == 0 && flock(file, LOCK_EX) == 0 &&
           fstat(file, about) == 0;
}

/* A file of its own, locked; -1 if it cannot be made. */
static int make_locked(struct beside *beside) {
    for (;;) {
        struct stat about;
        uint64_t random;
        if (getrandom(&random, sizeof random, 0) != sizeof random)
            return -1;
        snprintf(beside->name, sizeof beside->name, BESIDE "%016" PRIx64, random);
        int file = openat(beside->folder, beside->name, O_WRONLY | O_CREAT | O_EXCL | O_CLOEXEC,
                          S_IRUSR | S_IWUSR);
        if (file < 0 && errno == EEXIST)
            continue;
        if (file < 0)
            return -1;
        if (!lock(file, &about)) {
            unlinkat(beside->folder, beside->name, 0);
            close(file);
            return -1;
        }
        if (about.st_nlink > 0)
            return file;
        close(file); /* another process took it for a leftover before it was locked */
    }
}

static bool open_folder(struct beside *beside, const char *folder) {
    *beside = (struct beside){.path = folder, .file = -1};
    beside->folder = open(folder, O_RDONLY | O_DIRECTORY | O_CLOEXEC);
    return beside->folder >= 0;
}

static bool begin_beside(struct beside *beside) {
    take_leftovers_away(beside->folder);
    beside->file = make_locked(beside);
    return beside->file >= 0;
}

/* The end, well or not: the file beside loses its name, if it still has it. */
static void end_beside(struct beside *beside) {
    int error = errno;
    if (beside->file >= 0 && beside->name[0])
        unlinkat(beside->folder, beside->name, 0);
    if (beside->file >= 0)
        close(beside->file);
    close(beside->folder);
    errno = error;
}

/* Some file systems cannot sync a folder and say EINVAL: there is nothing more to be done then. */
static bool sync_folder(const struct beside *beside) {
    return fsync(beside->folder) == 0 || errno == EINVAL;
}

/* ---- bytes ---- */

static bool write_all(int file, const void *bytes, size_t length) {
    for (size_t done = 0; done < length;) {
        ssize_t n = write(file, (const char *)bytes + done, length - done);
        if (n < 0)
            return false;
        done += (size_t)n;
    }
    return true;
}

enum copied { WHOLE, EMPTY, NOT_READ, NOT_WRITTEN };

/* All of an open file, synced. */
static enum copied copy_all(int from, int to) {
    static char block[65536];
    bool empty = true;
    ssize_t n;
    while ((n = read(from, block, sizeof block)) > 0) {
        empty = false;
        if (!write_all(to, block, (size_t)n))
            return NOT_WRITTEN;
    }
    if (n < 0)
        return NOT_READ;
    if (empty)
        return EMPTY;
    return fchmod(to, permissions()) == 0 && fsync(to) == 0 ? WHOLE : NOT_WRITTEN;
}

/* ---- a name that nothing has ---- */

static enum status there_already(const char *folder, const char *name) {
    complain("%s/%s is there already and stays as it is", folder, name);
    return REFUSED;
}

/* Gives the file beside the name, unless something has it: by a link, or where the file system has
   no links by a rename that does not replace. */
static bool link_name(struct beside *beside, const char *name) {
    if (linkat(beside->folder, beside->name, beside->folder, name, 0) == 0)
        return true;
    if (errno != EPERM && errno != EOPNOTSUPP && errno != ENOSYS)
        return false;
    if (renameat2(beside->folder, beside->name, beside->folder, name, RENAME_NOREPLACE) < 0)
        return false;
    beside->name[0] = 0;
    return true;
}

/* The file beside, which is whole and synced, gets the name. */
static enum status give_name(struct beside *beside, const char *name) {
    if (!link_name(beside, name))
        return errno == EEXIST ? there_already(beside->path, name)
                               : file_error(beside->path, "no file can be named there");
    if (!sync_folder(beside))
        return file_error(beside->path,
                          "the photograph is stored, but the folder cannot be synced");
    return DONE;
}

/* Copies an open file to the file beside, which then gets the name. */
static enum status copy_and_name(int from, const char *source, struct beside *beside,
                                 const char *name) {
    switch (copy_all(from, beside->file)) {
    case EMPTY:
        complain("%s has no bytes and is not stored", source);
        return REFUSED;
    case NOT_READ:
        return file_error(source, "cannot be read");
    case NOT_WRITTEN:
        return file_error(beside->path, "the photograph cannot be written there");
    default:
        return give_name(beside, name);
    }
}

enum status store(int from, const char *source, const char *folder, const char *name) {
    struct beside beside;
    struct stat about;
    enum status status;
    if (!open_folder(&beside, folder))
        return file_error(folder, "no file can be made there");
    if (fstatat(beside.folder, name, &about, AT_SYMLINK_NOFOLLOW) == 0)
        status = there_already(folder, name); /* told before anything is copied */
    else if (!begin_beside(&beside))
        status = file_error(folder, "no file can be made there");
    else
        status = copy_and_name(from, source, &beside, name);
    end_beside(&beside);
    return status;
}

/* ---- a file that may be replaced ---- */

/* The file beside gets the owner and the permissions of the one that it replaces (null: none). */
static bool take_after(int file, const struct stat *before) {
    if (!before)
        return fchmod(file, permissions()) == 0;
    if (fchown(file, before->st_uid, before->st_gid) < 0 && errno != EPERM)
        return false;
    return fchmod(file, before->st_mode & 0777) == 0;
}

/* The file beside takes the place of the one at a path. */
static bool take_place(struct beside *beside, const char *name, const struct stat *before) {
    if (!take_after(beside->file, before) || fsync(beside->file) < 0)
        return false;
    if (renameat(beside->folder, beside->name, beside->folder, name) < 0)
        return false;
    beside->name[0] = 0;
    return sync_folder(beside);
}

static bool replace(const char *path, const struct stat *before, const uint8_t *bytes,
                    size_t length) {
    char folder[PATH_MAX], name[PATH_MAX];
    struct beside beside;
    snprintf(folder, sizeof folder, "%s", path);
    snprintf(name, sizeof name, "%s", path);
    if (!open_folder(&beside, dirname(folder)))
        return false;
    bool good = begin_beside(&beside) && write_all(beside.file, bytes, length) &&
                take_place(&beside, basename(name), before);
    end_beside(&beside);
    return good;
}

/* To what cannot be replaced: a device, or a pipe. */
static bool write_to(const char *path, const uint8_t *bytes, size_t length) {
    int file = open(path, O_WRONLY | O_CLOEXEC);
    if (file < 0)
        return false;
    bool good = write_all(file, bytes, length);
    return close(file) == 0 && good;
}

/* Where nothing is at a path. A link that leads nowhere is not replaced. */
static bool save_new(const char *path, const uint8_t *bytes, size_t length) {
    struct stat about;
    if (errno != ENOENT)
        return false;
    if (lstat(path, &about) == 0) {
        errno = ENOENT;
        return false;
    }
    if (path[strlen(path) - 1] == '/') {
        errno = EISDIR;
        return false;
    }
    return replace(path, NULL, bytes, length);
}

/* To a file, or to what is at a path and is none, or has no path of its own. */
static bool save_at(const char *path, const uint8_t *bytes, size_t length) {
    char found[PATH_MAX];
    struct stat about, resolved;
    if (stat(path, &about) < 0)
        return save_new(path, bytes, length);
    if (S_ISREG(about.st_mode) && realpath(path, found) && stat(found, &resolved) == 0 &&
        is_same_file(&about, &resolved))
        return replace(found, &about, bytes, length);
    return write_to(path, bytes, length);
}

bool is_standard_output(const char *path) {
    struct stat about, standard;
    return is_standard(path) || (stat(path, &about) == 0 && fstat(STDOUT_FILENO, &standard) == 0 &&
                                 is_same_file(&about, &standard));
}

enum status save(const char *path, const uint8_t *bytes, size_t length) {
    if (!is_standard_output(path))
        return save_at(path, bytes, length) ? DONE : file_error(path, "cannot be written");
    fwrite(bytes, 1, length, stdout);
    return DONE;
}
