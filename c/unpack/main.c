// tracering-unpack FILE: writes a compressed file of trace-cmd, version 7, to standard output, as one that isn't
// compressed.
//
// tracering-unpack PROGRAM WORDS..: runs PROGRAM. If the first word is `collect`, each FILE of the words that is such a
// file is given to it unpacked, in a file without a name; what it prints on standard error names FILE as the words do.
// The exit status is that of PROGRAM. If a FILE can't be unpacked, PROGRAM isn't run.
#include "packed.h"

#include <errno.h>
#include <fcntl.h>
#include <signal.h>
#include <stdio.h>
#include <stdlib.h>
#include <string.h>
#include <sys/prctl.h>
#include <sys/stat.h>
#include <sys/wait.h>
#include <unistd.h>

#define PLACE "/proc/self/fd/"

// The files that were unpacked: by their descriptors, the names that were given. Their list ends with a null.
static const char **names;
static int name_count;

// ---- words

// The path in a word, which may have a CPU before it.
static char *path_in(char *word)
{
    size_t digits = strspn(word, "0123456789");
    return digits > 0 && word[digits] == '=' ? word + digits + 1 : word;
}

// Opens the file of this name, if it is a compressed one of trace-cmd. Only a regular file is looked at.
static bool open_packed(const char *name, struct packed *file)
{
    struct stat found;
    bool is_input = !strcmp(name, "-");
    *file = (struct packed){.name = name, .fd = STDIN_FILENO};
    if ((is_input ? fstat(STDIN_FILENO, &found) : stat(name, &found)) || !S_ISREG(found.st_mode))
        return false;
    off_t begin = is_input ? lseek(STDIN_FILENO, 0, SEEK_CUR) : 0;
    if (begin < 0 || begin > found.st_size || (!is_input && (file->fd = open(name, O_RDONLY | O_CLOEXEC)) < 0))
        return false;
    file->begin = (uint64_t)begin;
    file->size = (uint64_t)(found.st_size - begin);
    if (is_packed(file))
        return true;
    if (!is_input)
        close(file->fd);
    return false;
}

// The word with the path of the unpacked file in it, or the word itself if its file isn't compressed. What is unpacked
// of standard input becomes standard input.
static char *unpacked_word(char *word)
{
    struct packed file;
    char *path = path_in(word);
    if (!open_packed(path, &file))
        return word;
    int fd = unpack(&file);
    if (file.fd == STDIN_FILENO) {
        if (lseek(fd, 0, SEEK_SET) != 0 || dup2(fd, STDIN_FILENO) < 0)
            fail(&file);
        close(fd);
        return word;
    }
    close(file.fd);
    if (fd >= name_count) {
        names = realloc(names, ((size_t)fd + 1) * sizeof *names);
        if (!names)
            end_without_memory();
        memset(names + name_count, 0, (size_t)(fd + 1 - name_count) * sizeof *names);
        name_count = fd + 1;
    }
    names[fd] = path;
    size_t front = (size_t)(path - word), len = front + sizeof PLACE + 3 * sizeof fd;
    char *unpacked = allocate(len);
    snprintf(unpacked, len, "%.*s" PLACE "%d", (int)front, word, fd);
    if (access(unpacked + front, R_OK))
        fail(&file);
    return unpacked;
}

static bool takes_value(const char *word)
{
    return !strcmp(word, "--page") || !strcmp(word, "--formats") || !strcmp(word, "--keep");
}

// Unpacks the files of the words behind `collect`, which a null ends.
static void unpack_words(char **words)
{
    bool are_options_over = false;
    for (char **at = words; *at; at++) {
        bool is_option = !are_options_over && at[0][0] == '-' && at[0][1];
        are_options_over |= !strcmp(*at, "--");
        if (!is_option)
            *at = unpacked_word(*at);
        else if (takes_value(*at) && at[1])
            at++;
    }
}

// ---- the program

static _Noreturn void become(char **words)
{
    execv(words[0], words);
    fprintf(stderr, "tracering: cannot run %s: %s\n", words[0], strerror(errno));
    _exit(NOT_RUN);
}

// Prints a line of the program, with the names that were given in place of the paths.
static void print_named(const char *line)
{
    const char *found;
    while ((found = strstr(line, PLACE))) {
        char *end;
        long fd = strtol(found + sizeof PLACE - 1, &end, 10);
        bool is_ours = fd >= 0 && fd < name_count && names[fd];
        fwrite(line, 1, (size_t)((is_ours ? found : end) - line), stderr);
        if (is_ours)
            fputs(names[fd], stderr);
        line = end;
    }
    fputs(line, stderr);
}

static void print_lines(int fd)
{
    FILE *said = fdopen(fd, "r");
    char *line = NULL;
    size_t room = 0;
    if (!said)
        end_without_memory();
    while (getline(&line, &room, said) >= 0)
        print_named(line);
    free(line);
    fclose(said);
}

// Runs the program, and ends as it does. If this process is ended, the program is too. (Its standard error isn't a
// terminal, so it doesn't say how far it is.)
static _Noreturn void run(char **words)
{
    int ends[2], status;
    pid_t parent = getpid(), child = pipe(ends) ? -1 : fork();
    if (child < 0) {
        fprintf(stderr, "tracering: cannot run %s: %s\n", words[0], strerror(errno));
        exit(FAILED);
    }
    if (child == 0) {
        prctl(PR_SET_PDEATHSIG, SIGTERM);
        if (getppid() != parent || dup2(ends[1], STDERR_FILENO) < 0)
            _exit(NOT_RUN);
        close(ends[0]);
        close(ends[1]);
        become(words);
    }
    close(ends[1]);
    void (*before)(int) = signal(SIGPIPE, SIG_IGN);
    print_lines(ends[0]);
    while (waitpid(child, &status, 0) < 0 && errno == EINTR)
        ;
    if (WIFSIGNALED(status)) {
        signal(SIGPIPE, before);
        raise(WTERMSIG(status));
    }
    exit(WIFEXITED(status) ? WEXITSTATUS(status) : 128 + WTERMSIG(status));
}

// ---- a file alone

static int print_unpacked(const char *name)
{
    struct packed file;
    static char piece[1 << 16];
    ssize_t len;
    errno = 0;
    if (!open_packed(name, &file)) {
        if (errno)
            fail(&file);
        fprintf(stderr, "tracering: cannot unpack %s: it isn't a trace.dat of version 7 with zstd or zlib\n", name);
        return REFUSED;
    }
    int fd = unpack(&file);
    file.name = "to standard output";
    for (off_t at = 0; (len = pread(fd, piece, sizeof piece, at)) > 0; at += len)
        if (fwrite(piece, 1, (size_t)len, stdout) != (size_t)len)
            fail(&file);
    if (len < 0 || fflush(stdout))
        fail(&file);
    return DONE;
}

int main(int count, char **words)
{
    if (count == 2)
        return print_unpacked(words[1]);
    if (count < 2) {
        fputs("usage: tracering-unpack FILE | PROGRAM WORDS..\n", stderr);
        return USAGE;
    }
    if (!strcmp(words[2], "collect"))
        unpack_words(words + 3);
    if (!names)
        become(words + 1);
    run(words + 1);
}
