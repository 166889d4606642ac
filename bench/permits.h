/* The calls of lambukir.h and the look-through, ours and the model's.

   The samples are made for one HW_ID and used in turn: user permits of a register with 256 entries, lines, the same with a wrong last byte,
   and a file of the lines; and permits and lines typed in small letters. Each call sets up a key, but that of a wrong line or at the file's end, and the
   look-through. */
#ifndef PERMITS_H
#define PERMITS_H

#include <fcntl.h>

#include "measure.h"
#include "pieces.h"
#include "process.h"

#define SAMPLES 64
#define ENTRIES 256
#define OURS "target/bin/look_through"
#define THEIRS "target/bench/look_through"

static uint8_t reg[ENTRIES * ENTRY_BYTES], permits[SAMPLES][28], lines[SAMPLES][LONGEST_LINE + 40], wrong_lines[SAMPLES][LONGEST_LINE + 40], written[76];
static uint8_t small_permits[SAMPLES][28], small_lines[SAMPLES][LONGEST_LINE + 40];
static size_t reg_length, line_lengths[SAMPLES], places[SAMPLES];
static record records[SAMPLES];
static uint64_t hw_id;
static pieces file;
static int look_through_input = -1;

/* A copy with its hex letters small from a place to another; what is made is in capitals. */
static void put_small(uint8_t *small, const uint8_t *made, size_t length, size_t from, size_t to)
{
    memcpy(small, made, length);
    for (; from < to; from++)
        small[from] = other_case(small[from]);
}

static void make_samples(void)
{
    seed_random();
    hw_id = some_hw_id();
    reg_length = some_register(reg, ENTRIES);
    put_text(&file, HEADER_TEXT);
    for (size_t i = 0; i < SAMPLES; i++) {
        model_make_user_permit(reg, reg_length, hw_id, m_id_at(reg, i * (ENTRIES / SAMPLES)), permits[i], sizeof permits[i]);
        records[i] = some_record(20240301);
        records[i].edition += records[i].edition == 0;
        line_lengths[i] = line_of(&records[i], hw_id, lines[i]);
        memcpy(wrong_lines[i], lines[i], line_lengths[i]);
        wrong_lines[i][line_lengths[i] - 1] = 0x7f;
        put_small(small_permits[i], permits[i], 28, 0, 28);
        put_small(small_lines[i], lines[i], line_lengths[i], CIPHER_PARTS, CELL_PERMIT);
        places[i] = file.length;
        put_line(&file, lines[i], line_lengths[i], RECORD);
    }
}

#define NTH (i % SAMPLES)
BOTH(model, make, make_user_permit(reg, reg_length, hw_id, m_id_at(reg, NTH), written, sizeof written))
BOTH(model, read, read_user_permit(reg, reg_length, permits[NTH], 28).hw_id)
BOTH(model, line, read_line(hw_id, 20240131, 30, lines[NTH], line_lengths[NTH]).key_one)
BOTH(model, small_permit, read_user_permit(reg, reg_length, small_permits[NTH], 28).hw_id)
BOTH(model, small_line, read_line(hw_id, 20240131, 30, small_lines[NTH], line_lengths[NTH]).key_one)
BOTH(model, wrong_line, read_line(hw_id, 20240131, 30, wrong_lines[NTH], line_lengths[NTH]).number)
BOTH(model, write, write_line(hw_id, records[NTH].name, records[NTH].expiry, records[NTH].key_one, records[NTH].key_two, records[NTH].level,
                       records[NTH].edition, records[NTH].server, written, sizeof written).length)
BOTH(model, file_line, read_file_line(hw_id, 20240131, 30, file.bytes, file.length, places[NTH]).next)
BOTH(model, file_end, read_file_line(hw_id, 20240131, 30, file.bytes, file.length, file.length).at_end)

/* An input of about so many bytes: the first line, a header and good lines, in capitals or in small letters. */
static void put_look_through(size_t size, bool small)
{
    static pieces input;
    char first[20];
    snprintf(first, sizeof first, "xxxxx 20240131 30\r\n");
    for (int i = 0; i < 5; i++)
        first[i] = (char)(hw_id >> 8 * (4 - i));
    input.length = input.lines = 0;
    put_text(&input, first);
    put_text(&input, HEADER_TEXT);
    for (size_t i = 0; input.length + LONGEST_LINE + 2 < size; i++) {
        uint8_t line[LONGEST_LINE + 40], typed[LONGEST_LINE + 40];
        record r = some_record(days_after(20240131, i % 60));
        size_t length = line_of(&r, hw_id, line);
        put_small(typed, line, length, small ? CIPHER_PARTS : CELL_PERMIT, CELL_PERMIT);
        put_line(&input, typed, length, RECORD);
        input.lines = 0;
    }
    if (look_through_input >= 0)
        close(look_through_input);
    look_through_input = file_of(input.bytes, input.length);
}

/* Runs a program on the input, with nowhere to print to. */
static void look_through(const char *path, int calls)
{
    int status, nowhere = need(open("/dev/null", O_WRONLY), "/dev/null");
    for (int i = 0; i < calls; i++) {
        need((int)lseek(look_through_input, 0, SEEK_SET), "lseek");
        need(waitpid(start_program(path, look_through_input, nowhere, 2), &status, 0), "waitpid");
        if (status != 0)
            need(-1, path);
    }
    close(nowhere);
}

static void our_look_through(int calls)
{
    look_through(OURS, calls);
}

static void their_look_through(int calls)
{
    look_through(THEIRS, calls);
}

#endif
