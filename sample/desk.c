/* The permit desk at work: a book for sixteen agents, two of them entering cells and a branch of one selling from its list, permits issued to a ship and
   read back. */
#include <ctype.h>
#include <inttypes.h>
#include <stdio.h>
#include <string.h>

#include "lambukir.h"

#define OSLO 0 /* three of the sixteen agents, by their numbers in the book */
#define HAMBURG 1
#define BERGEN 2 /* a branch of Oslo: it sells what Oslo has entered */
#define TODAY 20240131
#define EXPIRY 20240331
#define AFTERWARDS 20240401
#define NONE 0 /* no last expiry: a cell that may be sold for any time */

static uint8_t book[LAMBUKIR_BOOK_SIZE]; /* keep.c keeps one in a file */
static const uint8_t reg[] = "0198765";  /* who makes bridge equipment: manufacturer 01 has the key 98765 */
static const char *const agents[] = {"Oslo", "Hamburg", "Bergen"};

/* A text that is no cell name gives a number that every call refuses. */
static uint64_t name_of(const char *cell)
{
    return lambukir_name_from_text(cell, strlen(cell));
}

/* The number with its meaning, and the line's end. */
static void tell(uint32_t number)
{
    printf("%" PRIu32 ", %s\n", number, lambukir_meaning(number).text);
}

/* An empty book: Oslo may hold 100 cells, Hamburg two, Bergen none, as a branch, and the others 25 each. */
static void open_book(void)
{
    const uint8_t principals[LAMBUKIR_TENANTS] = {[BERGEN] = OSLO + 1};
    uint16_t quotas[LAMBUKIR_TENANTS] = {100, 2, 0};
    for (int i = 3; i < LAMBUKIR_TENANTS; i++)
        quotas[i] = 25;
    const char *ids = "NODEA2A3A4A5A6A7A8A9B0B1B2B3B4B5";
    printf("A book is opened for sixteen agents: ");
    tell(lambukir_open_book(book, sizeof book, quotas, LAMBUKIR_TENANTS, (const uint8_t *)ids, strlen(ids), principals, LAMBUKIR_TENANTS));
}

static void enter(uint32_t agent, const char *cell, uint32_t edition, uint64_t key_one, uint64_t key_two, uint32_t last_expiry)
{
    printf("%s enters %s, edition %" PRIu32, agents[agent], cell, edition);
    if (last_expiry != NONE)
        printf(", last expiry %" PRIu32, last_expiry);
    printf(": ");
    tell(lambukir_enter(book, sizeof book, agent, name_of(cell), edition, key_one, key_two, last_expiry));
}

static void ask(uint32_t agent, const char *cell)
{
    lambukir_edition held = lambukir_ask_edition(book, sizeof book, agent, name_of(cell));
    printf("%s asks for its edition of %s: ", agents[agent], cell);
    if (held.number == LAMBUKIR_DONE)
        printf("%" PRIu32 "\n", held.edition);
    else
        tell(held.number);
}

static void ask_producer(uint32_t agent, const char *producer)
{
    lambukir_held any = lambukir_ask_producer(book, sizeof book, agent, lambukir_code_from_text(producer, strlen(producer)));
    printf("%s asks whether it holds any cell of %s: ", agents[agent], producer);
    if (any.number == LAMBUKIR_DONE)
        puts(any.held ? "yes" : "no");
    else
        tell(any.number);
}

/* Issues a permit to a ship, which is known by its user permit. The line goes to `line`; the answer is its length without CR LF, or 0. */
static size_t issue(uint32_t agent, const char *cell, uint32_t expiry, const uint8_t permit[LAMBUKIR_USER_PERMIT_SIZE], uint8_t line[LAMBUKIR_LINE_SIZE])
{
    lambukir_written written = lambukir_issue(book, sizeof book, reg, 7, agent, name_of(cell), expiry, LAMBUKIR_SUBSCRIPTION, permit,
                                              LAMBUKIR_USER_PERMIT_SIZE, line, LAMBUKIR_LINE_SIZE);
    printf("%s issues %s until %" PRIu32 ": ", agents[agent], cell, expiry);
    tell(written.number);
    if (written.number != LAMBUKIR_DONE)
        return 0;
    printf("  %.*s\n", (int)written.length - 2, (const char *)line);
    return written.length - 2;
}

/* Reads the line as the ship would, with the agent's own warning days. An expired permit still has its edition and keys; a refused line has none. */
static void check(uint32_t agent, uint64_t hw_id, uint32_t today, const uint8_t *line, size_t length)
{
    lambukir_line read = lambukir_check(book, sizeof book, agent, hw_id, today, line, length);
    printf("%s checks it on %" PRIu32 ": ", agents[agent], today);
    if (!lambukir_is_success(read.number)) {
        tell(read.number);
        return;
    }
    const char *notice = read.number == LAMBUKIR_EXPIRED ? "expired" : read.number == LAMBUKIR_SOON ? "expires soon" : "current";
    printf("%" PRIu32 ", %s; edition %" PRIu32 ", keys %s", read.number, notice, read.edition, lambukir_key_to_hex(read.key_one).text);
    printf(" and %s\n", lambukir_key_to_hex(read.key_two).text);
}

/* Enters a cell as the house, for an agent. How many records moved goes by what all of them hold: it is for the operator alone. */
static void house_enter(uint32_t agent, const char *cell, uint32_t edition, uint64_t key_one, uint64_t key_two)
{
    lambukir_moved done = lambukir_house_enter(book, sizeof book, agent, name_of(cell), edition, key_one, key_two, NONE);
    printf("The house enters %s for %s, which moves %" PRIu32 " records: ", cell, agents[agent], done.moved);
    tell(done.number);
}

int main(void)
{
    const uint64_t hw_id = lambukir_hw_id_from_text("12348", 5);
    uint8_t permit[LAMBUKIR_USER_PERMIT_SIZE], line[LAMBUKIR_LINE_SIZE];

    open_book();
    enter(OSLO, "NO4D0613", 10, 0xC1CB518E9C, 0x421571CC66, EXPIRY); /* no later than this, the producer says */
    enter(HAMBURG, "DE416080", 3, 0x0102030405, 0x060708090A, NONE);
    enter(HAMBURG, "NO4D0613", 11, 0xA1A2A3A4A5, 0xB1B2B3B4B5, NONE); /* its own cell: Oslo's stays as it is */
    enter(HAMBURG, "DE416081", 1, 0x1112131415, 0x161718191A, NONE);
    enter(HAMBURG, "DE4160810", 1, 0x1112131415, 0x161718191A, NONE); /* a character too many */

    if (lambukir_make_user_permit(reg, 7, hw_id, lambukir_code_from_text("01", 2), permit, sizeof permit) != LAMBUKIR_DONE)
        return 1;
    printf("The ship's user permit is %.28s\n", (const char *)permit);
    for (size_t i = 0; i < sizeof permit; i++)
        permit[i] = (uint8_t)tolower(permit[i]); /* which is as good */
    printf("The crew mails it in small letters: %.28s\n", (const char *)permit);
    size_t length = issue(OSLO, "NO4D0613", EXPIRY, permit, line);
    if (length == 0)
        return 1;
    check(OSLO, hw_id, TODAY, line, length);

    printf("Hamburg sets its warning days to 90: ");
    tell(lambukir_set_days(book, sizeof book, HAMBURG, 90));
    check(HAMBURG, hw_id, TODAY, line, length);
    check(OSLO, hw_id, TODAY, line, length); /* with Oslo's own 30 days, as before */
    check(OSLO, hw_id, AFTERWARDS, line, length);
    check(OSLO, lambukir_hw_id_from_text("12345", 5), TODAY, line, length); /* another ship's */

    length = issue(BERGEN, "NO4D0613", EXPIRY, permit, line); /* from Oslo's list, with its own Data Server ID in the end */
    if (length == 0)
        return 1;
    check(BERGEN, hw_id, TODAY, line, length);
    issue(BERGEN, "NO4D0613", AFTERWARDS, permit, line); /* a day too late, as it would be for Oslo */
    enter(BERGEN, "NO4D0614", 1, 0x2122232425, 0x262728292A, NONE);

    printf("Oslo withdraws NO4D0613: ");
    tell(lambukir_withdraw(book, sizeof book, OSLO, name_of("NO4D0613")));
    ask(OSLO, "NO4D0613");
    ask(BERGEN, "NO4D0613"); /* which can no longer sell it either */
    ask(HAMBURG, "NO4D0613"); /* which Oslo cannot touch */
    ask_producer(OSLO, "NO");
    ask_producer(HAMBURG, "NO");
    house_enter(OSLO, "NO4D0614", 1, 0x2122232425, 0x262728292A); /* the records are Hamburg's, which come after Oslo's */
    return 0;
}
