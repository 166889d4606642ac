/* Writes the sample PERMIT.TXT to standard output: permits for the ship with HW_ID 12348, written by the library, and two lines that went bad on the way.
   The last is a single purchase; the others are subscriptions. */
#include <stdio.h>
#include <string.h>

#include "lambukir.h"

/* One line, with one of its characters changed where change is not 0. */
static int put_line(const char *name, uint32_t expiry, uint32_t level, uint32_t edition, size_t change)
{
    const uint64_t ship = lambukir_hw_id_from_text("12348", 5), cell = lambukir_name_from_text(name, strlen(name)), key = cell % 0x10000000000;
    const uint32_t server = lambukir_code_from_text("GB", 2);
    uint8_t line[LAMBUKIR_LINE_SIZE];
    lambukir_written written = lambukir_write_line(ship, cell, expiry, key, key ^ 0x5A5A5A5A5A, level, edition, server, line, sizeof line);
    if (written.number != LAMBUKIR_DONE)
        return 1;
    if (change != 0)
        line[change] = line[change] == '0' ? '1' : '0';
    return fwrite(line, 1, written.length, stdout) != written.length;
}

int main(void)
{
    fputs(":DATE 20240131 09:30\r\n:VERSION 2\r\n:ENC\r\n", stdout);
    int bad = put_line("GB50184C", 20241231, 0, 7, 0);
    bad |= put_line("NO4D0613", 20240215, 0, 10, 0);
    bad |= put_line("DE416080", 20231231, 0, 3, 0);
    bad |= put_line("FR572410", 20241231, 0, 112, 20);
    fputs("FR57241\r\n", stdout);
    bad |= put_line("US5NY1CM", 20231231, 1, 1, 0);
    fputs(":ECS\r\n", stdout);
    return bad;
}
