/*
 * The command `chip`: lists, checks, names, chooses and writes the images of EEPROM chips, and
 * uploads photographs. What it says of an image is what the proved library (chip.h) or a proved
 * program that is installed beside it answers. chip(1) is its page.
 */
#include "command.h"

#include <errno.h>
#include <fcntl.h>
#include <signal.h>
#include <stdlib.h>
#include <string.h>
#include <unistd.h>

/* Options, as bits. */
enum { FORMAT = 1, KNOWN = 2, OUT = 4, WHICH = 8 };

struct command {
    const char *name;
    size_t count; /* of words behind it */
    unsigned options;
    enum status (*run)(const struct typed *typed);
    const char *words, *summary, *help;
};

/* The commands, a row for each. */
static const struct command commands[] = {
    {"list", 1, FORMAT, list_command, "FILE", "list what an image holds",
     "Writes the listing of the image, with all kinds known; or why the image is refused.\n"},
    {"check", 1, FORMAT | KNOWN, check_command, "FILE", "say whether an image is accepted",
     "Writes one line: 'accepted' and the number of items, or why the image is refused.\n"},
    {"name", 1, FORMAT | KNOWN, name_command, "FILE", "say the name that a carrier's chip gives",
     "Writes the name alone on one line. Without a name it writes why on standard error.\n"},
    {"choose", 2, KNOWN | OUT | WHICH, choose_command, "FIRMWARE EEPROM",
     "say which of two board images a rig goes by",
     "Writes which image is chosen, and its length; or why both are refused, on standard error.\n"},
    {"write", 1, FORMAT | OUT, write_command, "REQUEST", "write an image",
     "Writes the image that the request in a file asks for: to OUT, or in hexadecimal.\n"
     "A request is a line:\n"
     "  ROOM; RUN  or  ROOM; RUN; POOL                         a tiny image\n"
     "  ROOM; HEADER; VERSION; MAP; RECORDS; BOARD; FURTHER    a board image\n"
     "ROOM is how many bytes the image may take, in decimal; the other parts are bytes\n"
     "in hexadecimal.\n"},
    {"upload", 3, 0, upload_command, "CHIP PHOTOGRAPH FOLDER",
     "store a photograph under its carrier's name",
     "Copies the photograph to FOLDER under the name that the tiny image CHIP gives.\n"
     "It never overwrites a file, and whenever it is stopped, the whole photograph is\n"
     "there or none.\n"},
};

enum { COMMANDS = sizeof commands / sizeof commands[0] };

/* ---- help ---- */

static void put_option(unsigned options, unsigned option, const char *text) {
    if (options & option)
        fputs(text, stdout);
}

static enum status put_command_help(const struct command *command) {
    printf("usage: chip %s%s %s\n\n%s\n", command->name, command->options ? " [OPTION]..." : "",
           command->words, command->help);
    put_option(command->options, FORMAT,
               "  --format tiny|board   the image's format, where it cannot be told\n");
    put_option(command->options, KNOWN,
               "  --known LIST          answer as a rig that knows these kinds: full, bare,\n"
               "                        full-01 (all but 01), or 01,10,MacInfo (these alone)\n");
    put_option(command->options, OUT,
               "  -o OUT                write the bytes to the file OUT ('-': standard output)\n");
    put_option(command->options, WHICH,
               "  --which               write 'firmware' or 'eeprom' and nothing else\n");
    puts("  --help                this text\n\n"
         "A file '-' is standard input. Exit status: 0 done, 1 refused, 2 wrong usage,\n"
         "3 a file cannot be read or written.");
    return DONE;
}

static void put_usage(FILE *to) {
    fputs("usage: chip COMMAND ...\n\n", to);
    for (size_t i = 0; i < COMMANDS; i++)
        fprintf(to, "  chip %-6s %-23s  %s\n", commands[i].name, commands[i].words,
                commands[i].summary);
    fputs("\n  chip COMMAND --help    what a command takes\n"
          "  chip --version         the version\n",
          to);
}

static enum status put_version(void) {
    unsigned version = chip_version();
    printf("chip %s (library %u.%u.%u)\n", CHIP_VERSION_TEXT, version / 10000, version / 100 % 100,
           version % 100);
    return DONE;
}

/* ---- the command line ---- */

static enum status wrong(const struct command *command, const char *what, const char *word) {
    complain("%s: %s%s%s", command->name, what, *word ? " " : "", word);
    fprintf(stderr, "usage: chip %s%s %s; chip %s --help says more\n", command->name,
            command->options ? " [OPTION]..." : "", command->words, command->name);
    return USAGE;
}

/* The bit of an option that has a value (0: no such option), and the value: behind '=', or the next
 * word. */
static unsigned option_of(char ***at, const char **value) {
    static const struct {
        const char *name;
        unsigned bit;
    } names[] = {{"--format", FORMAT}, {"--known", KNOWN}, {"-o", OUT}};
    for (size_t i = 0; i < sizeof names / sizeof names[0]; i++) {
        size_t length = strlen(names[i].name);
        if (strncmp(**at, names[i].name, length) != 0)
            continue;
        if ((**at)[length] == '=' || (names[i].bit == OUT && (**at)[length])) {
            *value = **at + length + ((**at)[length] == '=');
            return names[i].bit;
        }
        if ((**at)[length] == 0) {
            *value = (*at)[1];
            *at += *value != NULL;
            return names[i].bit;
        }
    }
    return 0;
}

static enum status take_value(const struct command *command, unsigned option, const char *value,
                              struct typed *typed) {
    if (!value || !*value)
        return wrong(command, "an option has no value", "");
    if (option == OUT)
        typed->out = value;
    if (option == KNOWN)
        return parse_known(value, &typed->kinds) ? DONE : USAGE;
    if (option == FORMAT) {
        typed->format = strcmp(value, "tiny") == 0    ? TINY
                        : strcmp(value, "board") == 0 ? BOARD
                                                      : NOT_SAID;
        if (typed->format == NOT_SAID)
            return wrong(command, "--format is tiny or board, and not", value);
    }
    return DONE;
}

static enum status take_option(const struct command *command, char ***at, struct typed *typed) {
    const char *word = **at, *value;
    if (strcmp(word, "--which") == 0 && command->options & WHICH) {
        typed->which = true;
        return DONE;
    }
    unsigned option = option_of(at, &value);
    return option & command->options ? take_value(command, option, value, typed)
                                     : wrong(command, "no option of this command:", word);
}

static enum status take_word(const struct command *command, const char *word, struct typed *typed) {
    if (typed->count == command->count)
        return wrong(command, "a word too many:", word);
    typed->words[typed->count++] = word;
    return DONE;
}

static bool is_help(const char *word) {
    return strcmp(word, "--help") == 0 || strcmp(word, "-h") == 0;
}

/* Reads the words behind a command's name, and runs it. */
static enum status run(const struct command *command, char **at) {
    struct typed typed = {.kinds = CHIP_KINDS_FULL};
    bool options = true;
    for (; *at; at++) {
        enum status status = DONE;
        if (options && is_help(*at))
            return put_command_help(command);
        if (options && strcmp(*at, "--") == 0)
            options = false;
        else if (options && (*at)[0] == '-' && (*at)[1])
            status = take_option(command, &at, &typed);
        else
            status = take_word(command, *at, &typed);
        if (status != DONE)
            return status;
    }
    if (typed.count < command->count)
        return wrong(command, "a word is missing:", command->words);
    return command->run(&typed);
}

static const struct command *command_of(const char *name) {
    for (size_t i = 0; i < COMMANDS; i++)
        if (strcmp(name, commands[i].name) == 0)
            return &commands[i];
    return NULL;
}

static enum status run_line(char **words) {
    if (!words[0]) {
        put_usage(stderr);
        return USAGE;
    }
    bool help = strcmp(words[0], "help") == 0;
    if (is_help(words[0]) || (help && !words[1])) {
        put_usage(stdout);
        return DONE;
    }
    if (strcmp(words[0], "--version") == 0)
        return put_version();
    const struct command *command = command_of(words[help]);
    if (command)
        return help ? put_command_help(command) : run(command, words + 1);
    complain("%s is no command", words[help]);
    put_usage(stderr);
    return USAGE;
}

/* ---- standard files ---- */

/* A file that is opened must not become standard output, or what is printed would go into it. */
static bool open_standard_files(void) {
    if (fcntl(STDIN_FILENO, F_GETFD) < 0 && open("/dev/null", O_WRONLY) < 0)
        return false;
    if (fcntl(STDOUT_FILENO, F_GETFD) < 0)
        return false;
    return fcntl(STDERR_FILENO, F_GETFD) >= 0 || open("/dev/null", O_WRONLY) >= 0;
}

int main(int argc, char **argv) {
    if (!open_standard_files())
        return file_error("standard output", "cannot be written");
    signal(SIGXFSZ, SIG_IGN); /* a file over the limit is told as a full disk is */
    signal(SIGCHLD, SIG_DFL); /* a program that is run is waited for, whatever the caller ignores */
    setvbuf(stderr, NULL, _IOLBF, BUFSIZ);
    enum status status = argc > 0 ? run_line(argv + 1) : USAGE;
    bool failed = ferror(stdout);
    if (fclose(stdout) != 0 || failed)
        return file_error("standard output", "cannot be written");
    return status;
}
