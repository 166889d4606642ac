/* Keeps a book in a file as lambukir.h advises ("How to keep a book"): whatever happens, it holds the old book or the new one. A book of version 1 is
   carried over, once, into a file of its own. Copy what you need. */
#define _DEFAULT_SOURCE /* for flock, which is not of POSIX */
#include <errno.h>
#include <fcntl.h>
#include <inttypes.h>
#include <stdio.h>
#include <stdlib.h>
#include <string.h>
#include <sys/file.h>
#include <unistd.h>

#include "lambukir.h"

#define CRC_SIZE 4
#define FILE_SIZE (LAMBUKIR_BOOK_SIZE + CRC_SIZE) /* the book and its CRC-32 are one file, so that both change at once */
#define LONGEST_PATH 4096
#define NO_CHANGE "nothing is changed"

enum { DONE, REFUSED, USAGE, FAILED }; /* the exit status */
enum { OPEN, CARRY, ENTER, WITHDRAW, DAYS, EDITION, COMMANDS };

static const struct { const char *name; int values; } commands[COMMANDS] = {{"open", 0},     {"carry", 1}, {"enter", 6},
                                                                            {"withdraw", 2}, {"days", 2},  {"edition", 2}};
static const char usage[] = "usage: keep BOOK open\n"
                            "       keep BOOK carry OLD    (a book of version 1, which stays as it is)\n"
                            "       keep BOOK enter TENANT CELL EDITION KEY KEY LAST    (last expiry, 0 for none)\n"
                            "       keep BOOK withdraw TENANT CELL\n"
                            "       keep BOOK days TENANT DAYS\n"
                            "       keep BOOK edition TENANT CELL\n";

static uint8_t book[FILE_SIZE + 1], old_book[LAMBUKIR_BOOK_SIZE_1 + CRC_SIZE + 1]; /* one byte more than a file should have: so a longer one is known */
static const char *path;
static char new_path[LONGEST_PATH], folder[LONGEST_PATH];

/* Ends the program. It tells which file, what is wrong with it, and what became of the change. */
static _Noreturn void fail(const char *file, const char *wrong, const char *meaning)
{
    fprintf(stderr, "keep: %s: %s; %s\n", file, wrong, meaning);
    exit(FAILED);
}

/* The name of a file beside another. */
static void name_beside(char name[LONGEST_PATH], const char *file, const char *end)
{
    if (strlen(file) + strlen(end) >= LONGEST_PATH)
        fail(file, strerror(ENAMETOOLONG), NO_CHANGE);
    strcat(strcpy(name, file), end);
}

/* The book's file, the new one beside it, and their folder. */
static void name_files(const char *name)
{
    const char *slash = strrchr(name, '/');
    path = name;
    name_beside(new_path, path, ".new");
    snprintf(folder, sizeof folder, "%.*s", slash ? (int)(slash - path) + 1 : 1, slash ? path : ".");
}

/* Waits its turn. The lock is on a file of its own, since a save puts another file in the book's place. It ends with the program, however that ends. */
static void lock(const char *file, int how)
{
    char lock_path[LONGEST_PATH];
    name_beside(lock_path, file, ".lock");
    int fd = open(lock_path, O_RDWR | O_CREAT | O_CLOEXEC, 0600);
    if (fd < 0)
        fail(lock_path, strerror(errno), NO_CHANGE);
    while (flock(fd, how) != 0)
        if (errno != EINTR)
            fail(lock_path, strerror(errno), NO_CHANGE);
}

/* The CRC-32 of a book as the file has it, big-endian. */
static void take_crc(uint8_t crc[CRC_SIZE], const uint8_t *of, size_t size)
{
    uint32_t number = lambukir_crc32(of, size);
    for (int i = 0; i < CRC_SIZE; i++)
        crc[i] = (uint8_t)(number >> (24 - 8 * i));
}

/* No symbolic link is followed: a save would put the book in the place of the link. */
static int open_to_read(const char *file)
{
    return open(file, O_RDONLY | O_NOFOLLOW | O_CLOEXEC);
}

/* Reads all that is in the file, or as much as there is room for; the answer is its length, or -1. */
static ssize_t read_all(int fd, uint8_t *bytes, size_t room)
{
    size_t length = 0;
    while (length < room) {
        ssize_t more = read(fd, bytes + length, room - length);
        if (more == 0)
            break;
        if (more > 0)
            length += (size_t)more;
        else if (errno != EINTR)
            return -1;
    }
    return (ssize_t)length;
}

/* Takes a book of a size from a file, if that is as it was saved. */
static void load(const char *file, uint8_t *bytes, size_t size)
{
    uint8_t crc[CRC_SIZE];
    int fd = open_to_read(file);
    ssize_t length = fd < 0 ? -1 : read_all(fd, bytes, size + CRC_SIZE + 1);
    if (length < 0)
        fail(file, strerror(errno), NO_CHANGE);
    close(fd);
    take_crc(crc, bytes, size);
    if ((size_t)length != size + CRC_SIZE || memcmp(crc, bytes + size, CRC_SIZE) != 0)
        fail(file, size == LAMBUKIR_BOOK_SIZE ? "it is damaged, or is no book of version 2" : "it is damaged, or is no book of version 1", NO_CHANGE);
}

/* A first book is never put in the place of a file that is there. */
static void find_no_file(void)
{
    if (open_to_read(path) >= 0)
        fail(path, "it is there already", NO_CHANGE);
    if (errno != ENOENT)
        fail(path, strerror(errno), NO_CHANGE);
}

/* What a book of version 1 becomes. Its lock is held, too, and is not waited for: whoever has it should have been stopped. */
static uint32_t carry_over(const char *old_path)
{
    find_no_file();
    lock(old_path, LOCK_EX | LOCK_NB);
    load(old_path, old_book, LAMBUKIR_BOOK_SIZE_1);
    return lambukir_carry_over(old_book, LAMBUKIR_BOOK_SIZE_1, book, LAMBUKIR_BOOK_SIZE);
}

/* An empty book. */
static uint32_t make_book(void)
{
    static const uint8_t ids[] = "NODEA2A3A4A5A6A7A8A9B0B1B2B3B4B5";
    static const uint8_t principals[LAMBUKIR_TENANTS] = {0}; /* nobody is a branch */
    uint16_t quotas[LAMBUKIR_TENANTS];
    find_no_file();
    for (int i = 0; i < LAMBUKIR_TENANTS; i++)
        quotas[i] = 32;
    return lambukir_open_book(book, LAMBUKIR_BOOK_SIZE, quotas, LAMBUKIR_TENANTS, ids, sizeof ids - 1, principals, sizeof principals);
}

/* Writes the whole file; the answer is 0, or -1. */
static int write_all(int fd)
{
    size_t length = 0;
    while (length < FILE_SIZE) {
        ssize_t more = write(fd, book + length, FILE_SIZE - length);
        if (more > 0)
            length += (size_t)more;
        else if (errno != EINTR)
            return -1;
    }
    return 0;
}

/* Saves the book. The new file is on the disk before it gets the book's name, and its name is there, too, before anybody is told. */
static void save(void)
{
    take_crc(book + LAMBUKIR_BOOK_SIZE, book, LAMBUKIR_BOOK_SIZE);
    unlink(new_path); /* what a crash may have left */
    int fd = open(new_path, O_WRONLY | O_CREAT | O_EXCL | O_CLOEXEC, 0600); /* for nobody else: it holds keys */
    if (fd < 0 || write_all(fd) != 0 || fsync(fd) != 0 || close(fd) != 0 || rename(new_path, path) != 0) {
        int wrong = errno;
        unlink(new_path);
        fail(new_path, strerror(wrong), NO_CHANGE);
    }
    fd = open(folder, O_RDONLY | O_DIRECTORY | O_CLOEXEC);
    if (fd < 0 || fsync(fd) != 0)
        fail(folder, strerror(errno), "the change is made, but a power cut may undo it");
    close(fd);
}

/* A number of one to nine digits; any other text becomes one that is too great for every call. */
static uint32_t number_from(const char *text)
{
    size_t length = strlen(text);
    if (length < 1 || length > 9 || strspn(text, "0123456789") != length)
        return UINT32_MAX;
    return (uint32_t)strtoul(text, NULL, 10);
}

/* Makes the call that the command stands for, on the book that the file has. */
static uint32_t make_call(int command, char **value)
{
    load(path, book, LAMBUKIR_BOOK_SIZE);
    uint32_t tenant = number_from(value[0]);
    uint64_t name = lambukir_name_from_text(value[1], strlen(value[1]));
    if (command == ENTER) /* your own program gets its keys in another way: all users of a machine can see arguments */
        return lambukir_enter(book, LAMBUKIR_BOOK_SIZE, tenant, name, number_from(value[2]), lambukir_key_from_hex(value[3], strlen(value[3])),
                              lambukir_key_from_hex(value[4], strlen(value[4])), number_from(value[5]));
    if (command == WITHDRAW)
        return lambukir_withdraw(book, LAMBUKIR_BOOK_SIZE, tenant, name);
    if (command == DAYS)
        return lambukir_set_days(book, LAMBUKIR_BOOK_SIZE, tenant, number_from(value[1]));
    lambukir_edition held = lambukir_ask_edition(book, LAMBUKIR_BOOK_SIZE, tenant, name);
    if (held.number == LAMBUKIR_DONE)
        printf("%" PRIu32 "\n", held.edition);
    return held.number;
}

/* The command that is named, if it has all its values; else COMMANDS. */
static int command_from(int arguments, char **argument)
{
    int command = 0;
    while (command < COMMANDS && (arguments != 3 + commands[command].values || strcmp(argument[2], commands[command].name) != 0))
        command++;
    return command;
}

int main(int arguments, char **argument)
{
    int command = command_from(arguments, argument);
    if (command == COMMANDS) {
        fputs(usage, stderr);
        return USAGE;
    }
    name_files(argument[1]);
    lock(path, command == EDITION ? LOCK_SH : LOCK_EX);
    uint32_t number = command == OPEN ? make_book() : command == CARRY ? carry_over(argument[3]) : make_call(command, argument + 3);
    if (number != LAMBUKIR_DONE) {
        fprintf(stderr, "%s: %" PRIu32 ", %s\n", argument[2], number, lambukir_meaning(number).text);
        return number == LAMBUKIR_BOOK_DAMAGED ? FAILED : REFUSED;
    }
    if (command != EDITION) {
        save();
        printf("%s: %" PRIu32 ", %s\n", argument[2], number, lambukir_meaning(number).text);
    }
    if (fflush(stdout) != 0)
        fail("the answer", strerror(errno), "what was asked for is done");
    return DONE;
}
