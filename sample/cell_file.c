/* A cell file enciphered and opened: whole; by parts, as a program does that reads its files in pieces; with the two keys of a cell permit. */
#include <inttypes.h>
#include <stdio.h>
#include <string.h>

#include "lambukir.h"

#define PIECE 16 /* so small that this short file has some of them: in earnest 65536 or more, since a key is set up for each */
#define KEY_ONE 0xC1CB518E9C /* as in the cell permit of S-63's example; lambukir_read_line tells those of a permit */
#define KEY_TWO 0x421571CC66

/* In earnest a cell that was packed by zip, as S-63 asks. Its CRC-32 is kept with what is enciphered, for whoever opens that. */
static const char file[] = "NO4D0613.000 would stand here, packed by zip: bytes of any kind.";

/* Enciphers what is left of a stream to another. 1 where that is done, 0 where a call refused or a stream failed. */
static int encipher_stream(uint64_t key, FILE *from, FILE *to)
{
    uint8_t piece[PIECE], out[PIECE]; /* 8 divides their length, so that there is room for what comes out */
    lambukir_part_written part = {0, 0, 0, LAMBUKIR_DONE};
    size_t length;
    while ((length = fread(piece, 1, sizeof piece, from)) > 0) {
        part = lambukir_encipher_part(key, part.carried, part.carried_length, piece, length, out, sizeof out);
        if (part.number != LAMBUKIR_DONE || fwrite(out, 1, part.length, to) != part.length)
            return 0;
    }
    lambukir_written end = lambukir_encipher_end(key, part.carried, part.carried_length, out, sizeof out);
    return !ferror(from) && end.number == LAMBUKIR_DONE && fwrite(out, 1, end.length, to) == end.length && fflush(to) == 0;
}

/* Whether the file, read in pieces from the disk, is enciphered to the same bytes. */
static int parts_give(const uint8_t *enciphered, size_t length)
{
    uint8_t read[sizeof file + 8];
    FILE *from = tmpfile(), *to = tmpfile();
    if (from == NULL || to == NULL)
        return 0;
    fwrite(file, 1, strlen(file), from);
    rewind(from);
    int good = encipher_stream(KEY_ONE, from, to);
    rewind(to);
    good = good && fread(read, 1, sizeof read, to) == length && memcmp(read, enciphered, length) == 0;
    fclose(from);
    fclose(to);
    return good;
}

static void open_file(const uint8_t *enciphered, size_t length, uint64_t key_one, uint64_t key_two, uint32_t crc)
{
    uint8_t out[sizeof file + 8]; /* as long as what is opened, at least */
    lambukir_cell_file opened = lambukir_open_cell_file(enciphered, length, key_one, key_two, crc, out, sizeof out);
    printf("%" PRIu32 ", %s", opened.number, lambukir_meaning(opened.number).text);
    if (opened.number == LAMBUKIR_DONE)
        printf("; by key %" PRIu32 ", %" PRIu64 " bytes: %.12s ..", opened.key, opened.length, (const char *)out);
    puts("");
}

int main(void)
{
    uint8_t enciphered[sizeof file + 8];
    const uint32_t crc = lambukir_crc32((const uint8_t *)file, strlen(file));
    lambukir_written written = lambukir_encipher_file(KEY_ONE, (const uint8_t *)file, strlen(file), enciphered, sizeof enciphered);
    printf("A cell file of %zu bytes, CRC-32 %08" PRIX32 ", is enciphered: %" PRIu32 ", %s; %" PRIu64 " bytes\n", strlen(file), crc, written.number,
           lambukir_meaning(written.number).text, written.length);
    printf("Enciphered by parts: %s\n", parts_give(enciphered, written.length) ? "the same" : "something else");
    printf("Opened: ");
    open_file(enciphered, written.length, KEY_ONE, KEY_TWO, crc);
    printf("With the keys the other way round: ");
    open_file(enciphered, written.length, KEY_TWO, KEY_ONE, crc);
    printf("With a wrong CRC-32: ");
    open_file(enciphered, written.length, KEY_ONE, KEY_TWO, crc + 1);
    enciphered[written.length - 1] ^= 1;
    printf("With its last byte damaged: ");
    open_file(enciphered, written.length, KEY_ONE, KEY_TWO, crc);
    return 0;
}
