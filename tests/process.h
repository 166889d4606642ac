/* Runs a program on bytes as its standard input. */
#ifndef PROCESS_H
#define PROCESS_H

#include <signal.h>
#include <stdint.h>
#include <stdio.h>
#include <stdlib.h>
#include <sys/wait.h>
#include <unistd.h>

/* Ends where something of the machine's own fails. */
static inline int need(int answer, const char *what)
{
    if (answer >= 0)
        return answer;
    perror(what);
    exit(1);
}

/* Starts a program with these for standard input, output and error, under the emulator that tests/x86-64 names, if any; the answer is its process. */
static inline pid_t start_program(const char *path, int input, int output, int errors)
{
    pid_t child = need(fork(), "fork");
    if (child != 0)
        return child;
    dup2(input, 0);
    dup2(output, 1);
    dup2(errors, 2);
    const char *emulator = getenv("EMULATOR");
    if (emulator)
        execl(emulator, emulator, path, (char *)NULL);
    else
        execl(path, path, (char *)NULL);
    perror(path);
    _exit(127);
}

/* A file without a name that holds the bytes, read from its start. */
static inline int file_of(const uint8_t *bytes, size_t length)
{
    FILE *file = tmpfile();
    if (!file || fwrite(bytes, 1, length, file) != length || fflush(file) != 0)
        need(-1, "a file for the input");
    int fd = need(dup(fileno(file)), "dup");
    fclose(file);
    need((int)lseek(fd, 0, SEEK_SET), "lseek");
    return fd;
}

/* A pipe into which another process writes the bytes, some at a time. */
static inline int pipe_of(const uint8_t *bytes, size_t length, size_t piece, pid_t *writer)
{
    int ends[2];
    need(pipe(ends), "pipe");
    *writer = need(fork(), "fork");
    if (*writer == 0) {
        close(ends[0]);
        signal(SIGPIPE, SIG_DFL); /* where the program reads no further, the rest is not wanted */
        for (size_t at = 0; at < length; at += piece)
            if (write(ends[1], bytes + at, piece < length - at ? piece : length - at) < 0)
                _exit(1);
        _exit(0);
    }
    close(ends[1]);
    return ends[0];
}

/* All that can be read, at most `room` bytes of it. */
static inline size_t read_all(int from, uint8_t *out, size_t room)
{
    size_t length = 0;
    ssize_t more;
    while (length < room && (more = read(from, out + length, room - length)) > 0)
        length += (size_t)more;
    close(from);
    return length;
}

/* All that a program prints, at most `room` bytes of it, and its exit status (-1: it did not end by itself). Errors go to the file that is given for them. */
static inline size_t printed_beside(const char *path, int input, int errors, uint8_t *out, size_t room, int *status)
{
    int ends[2], ended;
    need(pipe(ends), "pipe");
    fflush(stdout);
    pid_t child = start_program(path, input, ends[1], errors);
    close(ends[1]);
    close(input);
    size_t length = read_all(ends[0], out, room);
    need(waitpid(child, &ended, 0), "waitpid");
    *status = WIFEXITED(ended) ? WEXITSTATUS(ended) : -1;
    return length;
}

static inline size_t printed_by(const char *path, int input, uint8_t *out, size_t room, int *status)
{
    return printed_beside(path, input, 2, out, room, status);
}

#endif
