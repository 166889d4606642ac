/* User permits, made and read, against the model and against what the rules say of each case. */
#define _DEFAULT_SOURCE
#include <strings.h>
#include <sys/mman.h>

#include "calls.h"
#include "values.h"

#define ENTRIES 256
#define PERMIT 28
#define ROOM ((ENTRIES + 1) * ENTRY_BYTES + 8)

static uint8_t reg[ROOM];
static size_t reg_length;

static uint32_t some_m_id(void)
{
    return m_id_at(reg, random_below(reg_length / ENTRY_BYTES));
}

/* An M_ID that the register has not, of good or of bad characters; `bits` says which may be set. */
static uint32_t absent_m_id(uint32_t bits)
{
    for (;;) {
        uint32_t m_id = (random_below(2) ? some_two() : no_two()) & bits;
        size_t entry = 0;
        while (entry < reg_length / ENTRY_BYTES && m_id_at(reg, entry) != m_id)
            entry++;
        if (entry == reg_length / ENTRY_BYTES)
            return m_id;
    }
}

/* The worked values of S-63 (10.6.1 and 11.4) and of the rules (P10, P11). */
static void worked(void)
{
    static const uint8_t one[] = "0198765", ab[] = "AB123AB", permit[] = "73871727080876A07E450C043031";
    const uint64_t hw_id = number_from("12348");
    uint8_t out[PERMIT];
    ABOUT("S-63's user permit");
    expect(compare_make(one, 7, hw_id, number_from("01"), PERMIT), 0);
    expect(lambukir_make_user_permit(one, 7, hw_id, number_from("01"), out, PERMIT), 0);
    same((uint64_t)memcmp(out, permit, PERMIT), 0, "the user permit of S-63");
    lambukir_user_permit read = compare_read_permit(one, 7, permit, PERMIT);
    expect(read.number, 0);
    same(read.hw_id, hw_id, "HW_ID of S-63");
    same(read.m_id, 0x3031, "M_ID of S-63");
    ABOUT("P10 and P11 of the rules");
    expect(lambukir_make_user_permit(ab, 7, hw_id, number_from("AB"), out, PERMIT), 0);
    same((uint64_t)memcmp(out + 24, "4142", 4), 0, "M_ID AB in hex");
    expect(compare_make(one, 7, number_from("1234G"), number_from("01"), PERMIT), 18);
}

/* A permit that was made reads back as it was made, however its letters and those of the HW_ID are typed. */
static void good(void)
{
    static const size_t sizes[] = {1, 2, 3, 10, 255, 256};
    uint8_t permit[LONGEST_OUT];
    for (int i = 0; i < 3000; i++) {
        ABOUT("good permit %d", i);
        reg_length = some_register(reg, PICK(sizes));
        uint64_t hw_id = some_hw_id();
        uint32_t m_id = some_m_id();
        expect(compare_make(reg, reg_length, hw_id, m_id, PERMIT + random_below(40)), 0);
        expect(lambukir_make_user_permit(reg, reg_length, typed_hw_id(hw_id), m_id, permit, PERMIT), 0);
        type_hex(permit, PERMIT);
        lambukir_user_permit read = compare_read_permit(reg, reg_length, permit, PERMIT);
        same(read.hw_id, hw_id, "%s: HW_ID read back", about);
        same(read.m_id, m_id, "%s: M_ID read back", about);
    }
}

/* Each position of a permit as each other byte: refused, but perhaps in the manufacturer code. The same letter in the other case is no damage. */
static void damaged(void)
{
    uint8_t permit[PERMIT + 1];
    for (int i = 0; i < 4; i++) {
        reg_length = some_register(reg, i == 3 ? 256 : 3);
        model_make_user_permit(reg, reg_length, some_hw_id(), some_m_id(), permit, PERMIT);
        for (size_t at = 0; at < PERMIT; at++)
            for (int add = 1; add < 256; add++) {
                uint8_t was = permit[at];
                permit[at] = (uint8_t)(was + add);
                ABOUT("damaged permit %d, byte %zu as %02X", i, at, permit[at]);
                uint32_t number = compare_read_permit(reg, reg_length, permit, PERMIT).number;
                if (at < 24 || permit[at] == other_case(was))
                    same((uint64_t)is_refusal(number), permit[at] != other_case(was), "%s: refused", about);
                permit[at] = was;
            }
    }
}

/* Each position of a register as other bytes. */
static void damage_register(const uint8_t *permit, uint64_t hw_id, uint32_t m_id, int step)
{
    for (size_t at = 0; at < reg_length; at++)
        for (int add = 1; add < 256; add += step) {
            reg[at] = (uint8_t)(reg[at] + add);
            ABOUT("register of %zu bytes, byte %zu as %02X", reg_length, at, reg[at]);
            compare_make(reg, reg_length, hw_id, m_id, PERMIT);
            compare_read_permit(reg, reg_length, permit, PERMIT);
            reg[at] = (uint8_t)(reg[at] - add);
        }
}

static void damaged_registers(void)
{
    static const size_t sizes[] = {1, 3, 256};
    uint8_t permit[PERMIT];
    for (size_t i = 0; i < COUNT(sizes); i++) {
        reg_length = some_register(reg, sizes[i]);
        uint64_t hw_id = some_hw_id();
        uint32_t m_id = some_m_id();
        model_make_user_permit(reg, reg_length, hw_id, m_id, permit, PERMIT);
        damage_register(permit, hw_id, m_id, sizes[i] < 100 ? 1 : 51);
    }
}

/* Breaks a rule of the register that has two entries at least. */
static void spoil_register(void)
{
    size_t entry = random_below(reg_length / ENTRY_BYTES - 1) * ENTRY_BYTES;
    switch (random_below(6)) {
    case 0: reg_length -= 1 + random_below(6); break;
    case 1: memset(reg + reg_length, '0', 6); reg_length += 1 + random_below(6); break;
    case 2: reg_length = some_register(reg, ENTRIES + 1); break;
    case 3: reg[entry + random_below(2)] = (uint8_t)NO_NAMES[random_below(sizeof NO_NAMES)]; break;
    case 4: reg[entry + 2 + random_below(5)] = (uint8_t)NO_UPPER_HEX[random_below(sizeof NO_UPPER_HEX)]; break;
    default: memcpy(reg + entry + ENTRY_BYTES, reg + entry, 2);
    }
}

/* Every set of reasons to refuse at once: the first of the order wins. */
static void make_refusals(void)
{
    static const uint32_t order[] = {109, 108, 18, 107};
    for (int i = 0; i < 16 * 150; i++) {
        unsigned mask = (unsigned)i % 16;
        reg_length = some_register(reg, 2 + random_below(20));
        uint64_t hw_id = mask & 4 ? no_hw_id() : typed_hw_id(some_hw_id());
        uint32_t m_id = mask & 8 ? absent_m_id(UINT32_MAX) : some_m_id();
        if (mask & 1)
            spoil_register();
        ABOUT("make, reasons %X, round %d", mask, i / 16);
        expect(compare_make(reg, reg_length, hw_id, m_id, mask & 2 ? random_below(PERMIT) : PERMIT + random_below(9)), first_of(order, 4, mask));
    }
}

/* A block that deciphers to no HW_ID: a bad character, a small letter too, or a bad padding. */
static uint64_t bad_block(void)
{
    if (random_below(2))
        return (some_text(HEX, 4) << 8 | (uint8_t)NO_UPPER_HEX[random_below(sizeof NO_UPPER_HEX)]) << 24 | 0x030303;
    return (some_hw_id() << 24 | 0x030303) ^ (uint64_t)1 << random_below(24);
}

static void read_refusals(void)
{
    static const uint32_t order[] = {109, 106, 17, 107, 18};
    uint8_t permit[PERMIT + 9];
    for (int i = 0; i < 32 * 150; i++) {
        unsigned mask = (unsigned)i % 32;
        size_t length = PERMIT, entry;
        reg_length = some_register(reg, 2 + random_below(20));
        entry = random_below(reg_length / ENTRY_BYTES);
        memset(permit, '0', sizeof permit);
        model_user_permit_of(reg + entry * ENTRY_BYTES + 2, mask & 16 ? bad_block() : some_hw_id() << 24 | 0x030303,
                             mask & 8 ? absent_m_id(0xFFFF) : m_id_at(reg, entry), permit);
        type_hex(permit, PERMIT);
        if (mask & 4)
            change_hex(permit + random_below(24));
        if (mask & 2 && random_below(2))
            length = random_below(2) ? random_below(PERMIT) : PERMIT + 1 + random_below(8);
        else if (mask & 2)
            permit[random_below(PERMIT)] = (uint8_t)NO_HEX[random_below(sizeof NO_HEX)];
        if (mask & 1)
            spoil_register();
        ABOUT("read, reasons %X, round %d", mask, i / 32);
        expect(compare_read_permit(reg, reg_length, permit, length).number, first_of(order, 5, mask));
    }
}

/* Lengths of permit, output and register. */
static void lengths(void)
{
    uint8_t permit[201];
    uint64_t hw_id = some_hw_id();
    reg_length = some_register(reg, ENTRIES + 1);
    uint32_t m_id = m_id_at(reg, 0);
    memset(permit, 'A', sizeof permit);
    model_make_user_permit(reg, ENTRY_BYTES, hw_id, m_id, permit, PERMIT);
    for (size_t length = 0; length <= 200; length++) {
        ABOUT("length %zu", length);
        expect(compare_read_permit(reg, ENTRY_BYTES, permit, length).number, length == PERMIT ? 0 : 106);
        expect(compare_make(reg, ENTRY_BYTES, hw_id, m_id, length), length < PERMIT ? 108 : 0);
    }
    for (size_t length = 0; length <= reg_length; length++) {
        int damaged = length % ENTRY_BYTES != 0 || length > ENTRIES * ENTRY_BYTES;
        ABOUT("register of %zu bytes", length);
        expect(compare_read_permit(reg, length, permit, PERMIT).number, damaged ? 109 : length == 0 ? 107 : 0);
        expect(compare_make(reg, length, hw_id, m_id, PERMIT), damaged ? 109 : length == 0 ? 107 : 0);
    }
}

/* The order of M_IDs: each two neighbours of a full register exchanged, and made the same. */
static void orders(void)
{
    uint8_t entry[ENTRY_BYTES], *at;
    uint64_t hw_id = some_hw_id();
    reg_length = some_register(reg, ENTRIES);
    for (size_t i = 0; i + 1 < ENTRIES; i++) {
        at = reg + i * ENTRY_BYTES;
        memcpy(entry, at, ENTRY_BYTES);
        memcpy(at, at + ENTRY_BYTES, 2);
        ABOUT("entry %zu twice", i + 1);
        expect(compare_make(reg, reg_length, hw_id, m_id_at(reg, 0), PERMIT), 109);
        memcpy(at, at + ENTRY_BYTES, ENTRY_BYTES);
        memcpy(at + ENTRY_BYTES, entry, ENTRY_BYTES);
        ABOUT("entries %zu and %zu exchanged", i, i + 1);
        expect(compare_make(reg, reg_length, hw_id, m_id_at(reg, 0), PERMIT), 109);
        memcpy(at + ENTRY_BYTES, at, ENTRY_BYTES);
        memcpy(at, entry, ENTRY_BYTES);
    }
    ABOUT("the full register");
    expect(compare_make(reg, reg_length, hw_id, m_id_at(reg, ENTRIES - 1), PERMIT), 0);
}

/* Every number of two bytes, and some above, as an M_ID of a full register. */
static void m_ids(void)
{
    uint64_t hw_id = some_hw_id();
    reg_length = some_register(reg, ENTRIES);
    for (uint32_t m_id = 0; m_id <= 65536; m_id++) {
        ABOUT("M_ID %" PRIX32, m_id);
        compare_make(reg, reg_length, hw_id, m_id, PERMIT);
    }
    for (int bit = 16; bit < 32; bit++) {
        ABOUT("M_ID with bit %d", bit);
        expect(compare_make(reg, reg_length, hw_id, some_m_id() | (uint32_t)1 << bit, PERMIT), 107);
    }
}

/* Lengths that 32 bits would take for good ones. */
static void huge(void)
{
    const size_t more = (size_t)1 << 32;
    reg_length = some_register(reg, 2);
    uint8_t permit[PERMIT], *map = mmap(NULL, more + 64, PROT_READ | PROT_WRITE, MAP_PRIVATE | MAP_ANONYMOUS | MAP_NORESERVE, -1, 0);
    same(map != MAP_FAILED, 1, "a map of %zu bytes", more);
    if (map == MAP_FAILED)
        return;
    uint64_t hw_id = some_hw_id();
    uint32_t m_id = some_m_id();
    ABOUT("more than 32 bits can count");
    expect(lambukir_make_user_permit(reg, reg_length, hw_id, m_id, map, more + 1), 0);
    expect(model_make_user_permit(reg, reg_length, hw_id, m_id, permit, PERMIT), 0);
    same((uint64_t)memcmp(map, permit, PERMIT), 0, "%s: the permit made", about);
    expect(lambukir_read_user_permit(reg, reg_length, map, more + PERMIT).number, 106);
    memcpy(map, reg, reg_length);
    expect(lambukir_read_user_permit(map, more + 5, permit, PERMIT).number, 109); /* 2^32 + 5 is a multiple of 7 */
    expect(lambukir_make_user_permit(map, more + 5, hw_id, m_id, permit, PERMIT), 109);
    munmap(map, more + 64);
}

/* The answer to a permit as it was typed is the one to the permit as it was made. */
static void compare_typed(const uint8_t *made, const uint8_t *typed)
{
    lambukir_user_permit theirs = lambukir_read_user_permit(reg, reg_length, made, PERMIT);
    lambukir_user_permit ours = compare_read_permit(reg, reg_length, typed, PERMIT);
    expect(ours.number, theirs.number);
    same(ours.hw_id, theirs.hw_id, "%s: HW_ID, against that of the permit as it was made", about);
    same(ours.m_id, theirs.m_id, "%s: M_ID, against that of the permit as it was made", about);
}

/* A permit with each letter in the other case, all of them, and mixed; and each character as a byte next to the letters. */
static void type_permit(const uint8_t made[PERMIT], int which)
{
    uint8_t typed[PERMIT];
    for (size_t at = 0; at < PERMIT; at++) {
        memcpy(typed, made, PERMIT);
        typed[at] = other_case(made[at]);
        ABOUT("permit %d, character %zu in the other case", which, at);
        compare_typed(made, typed);
        for (size_t i = 0; i < COUNT(beside_letters); i++) {
            typed[at] = beside_letters[i];
            ABOUT("permit %d, character %zu as %02X", which, at, typed[at]);
            expect(compare_read_permit(reg, reg_length, typed, PERMIT).number, 106);
        }
    }
    for (int i = 0; i < 20; i++) {
        memcpy(typed, made, PERMIT);
        for (size_t at = 0; at < PERMIT; at++)
            typed[at] = i == 0 || random_below(2) ? other_case(typed[at]) : typed[at];
        ABOUT("permit %d, typed in way %d", which, i);
        compare_typed(made, typed);
    }
}

/* Permits of every answer from 17 on: made, with another CRC, of an unknown manufacturer or one in small letters, over a block that holds no HW_ID. */
static void small_letters(void)
{
    uint8_t permit[PERMIT], same_permit[PERMIT];
    for (int i = 0; i < 300; i++) {
        reg_length = some_register(reg, 20);
        size_t entry = random_below(reg_length / ENTRY_BYTES);
        const uint8_t *m_key = reg + entry * ENTRY_BYTES + 2;
        uint64_t hw_id = some_hw_id(), small = some_text("0123456789abcdef", 4) << 8 | (uint64_t)"abcdef"[random_below(6)];
        uint32_t m_id = m_id_at(reg, entry), small_m_id = (uint32_t)some_text("abcdefghijklmnopqrstuvwxyz", 2);
        model_user_permit_of(m_key, (i % 4 == 1 ? small : hw_id) << 24 | 0x030303, i % 4 == 2 ? small_m_id : m_id, permit);
        if (i % 4 == 3)
            change_hex(permit + random_below(24));
        ABOUT("permit %d", i);
        expect(compare_read_permit(reg, reg_length, permit, PERMIT).number, ((const uint32_t[]){0, 18, 107, 17})[i % 4]);
        type_permit(permit, i);
        ABOUT("HW_ID typed in way %d", i);
        expect(lambukir_make_user_permit(reg, reg_length, hw_id, m_id, permit, PERMIT), 0);
        expect(lambukir_make_user_permit(reg, reg_length, typed_hw_id(hw_id), m_id, same_permit, PERMIT), 0);
        same((uint64_t)memcmp(permit, same_permit, PERMIT), 0, "%s: the same permit is made", about);
        expect(compare_make(reg, reg_length, hw_id, small_m_id, PERMIT), 107);
        reg[random_below(reg_length)] = (uint8_t)"abcdef"[random_below(6)];
        ABOUT("register %d with a small letter", i);
        expect(compare_make(reg, reg_length, hw_id, m_id, PERMIT), 109);
        expect(compare_read_permit(reg, reg_length, permit, PERMIT).number, 109);
    }
}

/* Each byte of a given HW_ID as each other: taken exactly where it is hex in either case. */
static void hw_ids(void)
{
    reg_length = some_register(reg, 2);
    uint32_t m_id = some_m_id();
    for (uint64_t i = 0; i < 5 * 256; i++) {
        uint64_t shift = i / 256 * 8, hw_id = (typed_hw_id(some_hw_id()) & ~((uint64_t)0xFF << shift)) | i % 256 << shift;
        ABOUT("HW_ID %010" PRIX64, hw_id);
        expect(compare_make(reg, reg_length, hw_id, m_id, PERMIT), isxdigit((int)(i % 256)) ? 0 : 18);
        expect(compare_make(reg, reg_length, hw_id | (uint64_t)1 << (40 + i % 24), m_id, PERMIT), 18);
    }
}

#define SHIPS 24

/* A permit whose manufacturer code is changed to another's: the other's ship where both have one key. */
static void other_makers(const uint8_t made[PERMIT], uint64_t hw_id, size_t entry)
{
    char permit[PERMIT + 1];
    for (size_t other = 0; other < reg_length / ENTRY_BYTES; other++) {
        memcpy(permit, made, 24);
        snprintf(permit + 24, 5, "%04" PRIX32, m_id_at(reg, other));
        ABOUT("a permit of entry %zu, as one of entry %zu", entry, other);
        lambukir_user_permit read = compare_read_permit(reg, reg_length, (uint8_t *)permit, PERMIT);
        if (other == entry || entry + other == 1) {
            expect(read.number, 0);
            same(read.hw_id, hw_id, "%s: HW_ID", about);
            same(read.m_id, m_id_at(reg, other), "%s: M_ID", about);
        }
    }
}

/* Permits are the same exactly where M_IDs and HW_IDs are, letters raised, and are read to the same exactly where they are the same, letters raised.
   The first two manufacturers have one key. */
static void one_ship(void)
{
    static const char *const hw_ids[] = {"12348", "12340", "1234A", "1234a", "ABCDE", "abcde", "AbCdE", "ABCDF", "0000F", "F0000", "f0000"};
    for (int round = 0; round < 60; round++) {
        const char *ship[SHIPS];
        size_t entry[SHIPS];
        uint8_t made[SHIPS][PERMIT], typed[SHIPS][PERMIT];
        lambukir_user_permit read[SHIPS];
        reg_length = some_register(reg, 3);
        memcpy(reg + ENTRY_BYTES + 2, reg + 2, 5);
        for (int i = 0; i < SHIPS; i++) {
            ship[i] = PICK(hw_ids);
            entry[i] = random_below(3);
            ABOUT("round %d, ship %d", round, i);
            expect(lambukir_make_user_permit(reg, reg_length, number_from(ship[i]), m_id_at(reg, entry[i]), made[i], PERMIT), 0);
            memcpy(typed[i], made[i], PERMIT);
            type_hex(typed[i], PERMIT);
            read[i] = compare_read_permit(reg, reg_length, typed[i], PERMIT);
            other_makers(made[i], read[i].hw_id, entry[i]);
            for (int j = 0; j < i; j++) {
                int one = entry[i] == entry[j] && strcasecmp(ship[i], ship[j]) == 0;
                ABOUT("round %d, ships %d and %d", round, j, i);
                same(memcmp(made[i], made[j], PERMIT) == 0, (uint64_t)one, "%s: one permit", about);
                same(strncasecmp((char *)typed[i], (char *)typed[j], PERMIT) == 0, (uint64_t)one, "%s: one permit, as typed", about);
                same(read[i].hw_id == read[j].hw_id && read[i].m_id == read[j].m_id, (uint64_t)one, "%s: read to one ship", about);
            }
        }
    }
}

int main(int argc, char **argv)
{
    static const subject subjects[] = {
        {"permits-worked", worked},
        {"permits-good", good},
        {"permits-damaged", damaged},
        {"permits-registers", damaged_registers},
        {"permits-make-refusals", make_refusals},
        {"permits-read-refusals", read_refusals},
        {"permits-lengths", lengths},
        {"permits-orders", orders},
        {"permits-m-ids", m_ids},
        {"permits-small-letters", small_letters},
        {"permits-hw-ids", hw_ids},
        {"permits-one-ship", one_ship},
        {"permits-huge", huge},
    };
    seed_random();
    return run_subjects(subjects, COUNT(subjects), argc, argv);
}
