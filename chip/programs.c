/* The proved programs that are installed beside the command: it hands them their input and takes
 * what they print. */
#include "command.h"

#include <errno.h>
#include <fcntl.h>
#include <limits.h>
#include <spawn.h>
#include <stdlib.h>
#include <string.h>
#include <sys/mman.h>
#include <sys/wait.h>
#include <unistd.h>

extern char **environ;

/* Where a program is installed: PREFIX/libexec/chip/NAME, for this command in PREFIX/bin. */
static bool find_program(const char *name, char path[PATH_MAX]) {
    ssize_t length = readlink("/proc/self/exe", path, PATH_MAX - 1);
    if (length < 0)
        return false;
    path[length] = 0;
    for (int up = 0; up < 2; up++) {
        char *slash = strrchr(path, '/');
        if (!slash)
            return false;
        *slash = 0;
    }
    size_t used = strlen(path);
    return (size_t)snprintf(path + used, PATH_MAX - used, "/libexec/chip/%s", name) <
           PATH_MAX - used;
}

/* A file in memory that has these bytes, at its start; -1 if there is none to be had. */
static int file_of(const void *bytes, size_t length) {
    int file = memfd_create("chip", MFD_CLOEXEC);
    if (file < 0)
        return -1;
    for (size_t done = 0; done < length;) {
        ssize_t n = write(file, (const char *)bytes + done, length - done);
        if (n < 0) {
            close(file);
            return -1;
        }
        done += (size_t)n;
    }
    lseek(file, 0, SEEK_SET);
    return file;
}

/* Begins a program with these files as standard input and output. */
static int begin(const char *path, int input, int output, pid_t *process) {
    char *words[] = {(char *)path, NULL};
    posix_spawn_file_actions_t actions;
    int error = posix_spawn_file_actions_init(&actions);
    if (error)
        return error;
    error = posix_spawn_file_actions_adddup2(&actions, input, STDIN_FILENO);
    if (!error)
        error = posix_spawn_file_actions_adddup2(&actions, output, STDOUT_FILENO);
    if (!error)
        error = posix_spawn(process, path, &actions, NULL, words, environ);
    posix_spawn_file_actions_destroy(&actions);
    return error;
}

/* All that comes out of a pipe. */
static bool read_all(int pipe, struct output *output) {
    size_t room = 0;
    *output = (struct output){NULL, 0};
    for (;;) {
        if (output->length + 1 >= room) {
            char *larger = realloc(output->text, room = room ? 2 * room : 65536);
            if (!larger)
                return false;
            output->text = larger;
        }
        ssize_t n = read(pipe, output->text + output->length, room - output->length - 1);
        if (n <= 0) {
            output->text[output->length] = 0;
            return n == 0;
        }
        output->length += (size_t)n;
    }
}

/* Waits for a program. It must have ended by itself, and have said something. */
static enum status finish(const char *path, pid_t process, bool good, const struct output *output) {
    int ended;
    if (!good || waitpid(process, &ended, 0) < 0)
        return file_error(path, "its answer cannot be read");
    if (WIFEXITED(ended) && WEXITSTATUS(ended) == 0 && output->length > 0)
        return DONE;
    complain("%s: %s", path, WIFSIGNALED(ended) ? strsignal(WTERMSIG(ended)) : "it gave no answer");
    return FILES;
}

/* Runs it between a file and a pipe. */
static enum status run_between(const char *path, int input, const int ends[2],
                               struct output *output) {
    pid_t process;
    int error = begin(path, input, ends[1], &process);
    close(ends[1]);
    if (error) {
        errno = error;
        return file_error(path, "cannot be run");
    }
    bool good = read_all(ends[0], output);
    enum status status = finish(path, process, good, output);
    if (status != DONE)
        free(output->text);
    return status;
}

enum status run_program(const char *name, const void *input, size_t length, struct output *output) {
    char path[PATH_MAX];
    int ends[2];
    if (!find_program(name, path))
        return file_error(name, "cannot be found");
    int file = file_of(input, length);
    if (file < 0 || pipe2(ends, O_CLOEXEC) < 0)
        return file_error(name, "cannot be handed its input");
    enum status status = run_between(path, file, ends, output);
    close(ends[0]);
    close(file);
    return status;
}
