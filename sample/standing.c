/* Which charts of a ship are behind: each of its cells is held against the product list that its Data Server sent, a file that is named when it is run. */
#include <inttypes.h>
#include <stdio.h>
#include <string.h>

#include "lambukir.h"

#define LONGEST 100000

static uint8_t list[LONGEST];

/* What the ship has on board. */
static const struct {
    const char *cell;
    uint32_t edition, update;
} on_board[] = {
    {"AR201130", 1, 1}, {"DE416080", 3, 9}, {"FR572410", 112, 3}, {"GB50184C", 7, 2}, {"NO4D0613", 10, 2}, {"US5NY1CM", 1, 0},
};

static void tell(lambukir_standing answer)
{
    static const char *const standings[] = {"up to date", "behind", "cancelled", "not listed"};
    printf("%s", lambukir_is_success(answer.number) ? standings[answer.standing] : lambukir_meaning(answer.number).text);
    if (answer.number == LAMBUKIR_DONE)
        puts("");
    else
        printf(" (%" PRIu32 ")\n", answer.number);
}

int main(int arguments, char **argument)
{
    FILE *file = arguments == 2 ? fopen(argument[1], "rb") : NULL;
    if (file == NULL) {
        fputs("usage: standing PRODUCTS.TXT\n", stderr);
        return 1;
    }
    size_t length = fread(list, 1, sizeof list, file);
    if (fgetc(file) != EOF) {
        fputs("the list is too long for this small program\n", stderr);
        return 1;
    }
    fclose(file);
    for (size_t i = 0; i < sizeof on_board / sizeof *on_board; i++) {
        const char *cell = on_board[i].cell;
        printf("%s, edition %" PRIu32 ", update %" PRIu32 ": ", cell, on_board[i].edition, on_board[i].update);
        tell(lambukir_product_standing(list, length, lambukir_name_from_text(cell, strlen(cell)), on_board[i].edition, on_board[i].update));
    }
    return 0;
}
