/* The model's user permits, cell permits and lines. */
#include "model_parts.h"

#define ENTRY 7
#define LONGEST_REGISTER (256 * ENTRY)
#define USER_PERMIT 28
#define CELL_PERMIT 64
#define CHECKED 48 /* the characters under a cell permit's check */
#define SHORTEST_LINE (CELL_PERMIT + 7) /* commas, level and Data Server ID; edition and comment blank */

bool is_register(const uint8_t *reg, size_t length)
{
    if (length % ENTRY != 0 || length > LONGEST_REGISTER)
        return false;
    for (size_t at = 0; at < length; at += ENTRY) {
        if (!is_name(reg + at, 2) || !is_upper_hex(reg + at + 2, 5))
            return false;
        if (at > 0 && memcmp(reg + at - ENTRY, reg + at, 2) >= 0)
            return false;
    }
    return true;
}

/* The M_KEY of an M_ID, or NULL. */
static const uint8_t *m_key_of(const uint8_t *reg, size_t length, uint64_t m_id)
{
    for (size_t at = 0; at < length; at += ENTRY)
        if (number_of(reg + at, 2) == m_id)
            return reg + at + 2;
    return NULL;
}

void model_user_permit_of(const uint8_t *m_key, uint64_t block, uint32_t m_id, uint8_t out[USER_PERMIT])
{
    BF_KEY key;
    BF_set_key(&key, 5, m_key);
    write_hex(out, 16, encipher(&key, block));
    write_hex(out + 16, 8, crc32(0, out, 16));
    write_hex(out + 24, 4, m_id);
}

uint32_t model_make_user_permit(const uint8_t *reg, size_t reg_length, uint64_t hw_id, uint32_t m_id, uint8_t *out, size_t out_length)
{
    if (!is_register(reg, reg_length))
        return 109;
    if (out_length < USER_PERMIT)
        return 108;
    if (!is_hw_id(hw_id))
        return 18;
    const uint8_t *m_key = m_key_of(reg, reg_length, m_id);
    if (!m_key)
        return 107;
    model_user_permit_of(m_key, pad_five(raised_hw_id(hw_id)), m_id, out);
    return 0;
}

lambukir_user_permit read_by_register(const uint8_t *reg, size_t reg_length, const uint8_t *permit, size_t permit_length)
{
    uint64_t enciphered, crc, m_id;
    uint8_t raised[16], hw_id[HW_ID_LENGTH];
    if (permit_length != USER_PERMIT || !read_hex(permit, 16, &enciphered) || !read_hex(permit + 16, 8, &crc) || !read_hex(permit + 24, 4, &m_id))
        return (lambukir_user_permit){.number = 106};
    raise_letters(raised, permit, 16);
    if (crc != crc32(0, raised, 16))
        return (lambukir_user_permit){.number = 17};
    const uint8_t *m_key = m_key_of(reg, reg_length, m_id);
    if (!m_key)
        return (lambukir_user_permit){.number = 107};
    BF_KEY key;
    BF_set_key(&key, 5, m_key);
    uint64_t block = decipher(&key, enciphered);
    bytes_of(hw_id, HW_ID_LENGTH, block >> 24);
    if (!is_padded_five(block) || !is_upper_hex(hw_id, HW_ID_LENGTH))
        return (lambukir_user_permit){.number = 18};
    return (lambukir_user_permit){.hw_id = block >> 24, .m_id = (uint32_t)m_id};
}

lambukir_user_permit model_read_user_permit(const uint8_t *reg, size_t reg_length, const uint8_t *permit, size_t permit_length)
{
    if (!is_register(reg, reg_length))
        return (lambukir_user_permit){.number = 109};
    return read_by_register(reg, reg_length, permit, permit_length);
}

/* The first 64 characters of a line. */
static bool take_permit_apart(const uint8_t *permit, line_fields *fields)
{
    if (!is_name(permit, 8) || !read_decimal(permit + 8, 8, &fields->expiry) || !is_date(fields->expiry))
        return false;
    fields->name = number_of(permit, 8);
    return read_hex(permit + 16, 16, &fields->block_one) && read_hex(permit + 32, 16, &fields->block_two) &&
           read_hex(permit + 48, 16, &fields->check);
}

bool take_apart(const uint8_t *line, size_t length, line_fields *fields)
{
    if (length < SHORTEST_LINE || length > LONGEST_LINE || !take_permit_apart(line, fields))
        return false;
    if (line[64] != ',' || (line[65] != '0' && line[65] != '1') || line[66] != ',')
        return false;
    fields->level = line[65] - '0';
    size_t digits = 0;
    while (digits < 3 && is_digit(line[67 + digits]))
        digits++;
    if (digits > 0 && line[67] == '0')
        return false;
    read_decimal(line + 67, digits, &fields->edition);
    const uint8_t *rest = line + 67 + digits; /* a comma, the Data Server ID, a comma, the comment */
    if (length < SHORTEST_LINE + digits || rest[0] != ',' || !is_name(rest + 1, 2) || rest[3] != ',')
        return false;
    fields->server = (uint32_t)number_of(rest + 1, 2);
    fields->comment = SHORTEST_LINE + digits;
    for (size_t i = fields->comment; i < length; i++)
        if (line[i] < 0x20 || line[i] > 0x7E)
            return false;
    return true;
}

/* A date's day number, for differences alone. */
static uint32_t day_number(uint32_t date)
{
    static const uint16_t before[] = {0, 31, 59, 90, 120, 151, 181, 212, 243, 273, 304, 334};
    uint32_t year = date / 10000, month = date / 100 % 100, past = month > 2 ? year : year - 1;
    return year * 365 + past / 4 - past / 100 + past / 400 + before[month - 1] + date % 100;
}

/* A single purchase does not run out. */
static uint32_t notice(uint32_t level, uint32_t today, uint32_t expiry, uint32_t days)
{
    if (level == LAMBUKIR_SINGLE_PURCHASE)
        return 0;
    if (expiry < today)
        return 15;
    return day_number(expiry) - day_number(today) < days ? 20 : 0;
}

/* The number and the values of a line of good shape. */
lambukir_line judge(const BF_KEY *hw_id6, uint32_t today, uint32_t days, const uint8_t *line, const line_fields *fields)
{
    uint8_t raised[CHECKED];
    raise_letters(raised, line, CHECKED);
    if (encipher(hw_id6, pad_four(crc32(0, raised, CHECKED))) != fields->check)
        return (lambukir_line){.number = 13};
    uint64_t one = decipher(hw_id6, fields->block_one), two = decipher(hw_id6, fields->block_two);
    if (!is_padded_five(one) || !is_padded_five(two))
        return (lambukir_line){.number = 21};
    return (lambukir_line){fields->name,  one >> 24,       two >> 24,      fields->expiry,
                           fields->level, fields->edition, fields->server, notice(fields->level, today, fields->expiry, days)};
}

lambukir_line model_read_line(uint64_t hw_id, uint32_t today, uint32_t days, const uint8_t *line, size_t line_length)
{
    line_fields fields;
    uint32_t refused = refuse_given(hw_id, today, days);
    if (refused != 0)
        return (lambukir_line){.number = refused};
    if (!take_apart(line, line_length, &fields))
        return (lambukir_line){.number = 12};
    BF_KEY hw_id6;
    set_hw_id6(&hw_id6, hw_id);
    return judge(&hw_id6, today, days, line, &fields);
}

lambukir_part model_comment(const uint8_t *line, size_t line_length)
{
    line_fields fields;
    if (!take_apart(line, line_length, &fields))
        return (lambukir_part){0, 0};
    return (lambukir_part){fields.comment, line_length - fields.comment};
}

void model_cell_permit_of(uint64_t hw_id, uint64_t name, uint32_t expiry, uint64_t block_one, uint64_t block_two, uint8_t out[CELL_PERMIT])
{
    BF_KEY hw_id6;
    set_hw_id6(&hw_id6, hw_id);
    bytes_of(out, 8, name);
    write_decimal(out + 8, 8, expiry);
    write_hex(out + 16, 16, encipher(&hw_id6, block_one));
    write_hex(out + 32, 16, encipher(&hw_id6, block_two));
    write_hex(out + 48, 16, encipher(&hw_id6, pad_four(crc32(0, out, CHECKED))));
}

lambukir_written model_write_line(uint64_t hw_id, uint64_t name, uint32_t expiry, uint64_t key_one, uint64_t key_two, uint32_t level,
                                  uint32_t edition, uint32_t server, uint8_t *out, size_t out_length)
{
    if (out_length < WRITTEN_LINE)
        return (lambukir_written){.number = 108};
    if (!is_name_number(name, 8) || !is_date(expiry) || key_one >> 40 != 0 || key_two >> 40 != 0 || level > 1 || edition < 1 ||
        edition > 999 || !is_name_number(server, 2))
        return (lambukir_written){.number = 103};
    if (!is_hw_id(hw_id))
        return (lambukir_written){.number = 18};
    model_cell_permit_of(hw_id, name, expiry, pad_five(key_one), pad_five(key_two), out);
    uint8_t level_text[3] = {',', (uint8_t)('0' + level), ','}, end[6] = {',', (uint8_t)(server >> 8), (uint8_t)server, ',', '\r', '\n'};
    size_t digits = edition < 10 ? 1 : edition < 100 ? 2 : 3;
    memcpy(out + CELL_PERMIT, level_text, 3);
    write_decimal(out + 67, digits, edition);
    memcpy(out + 67 + digits, end, 6);
    return (lambukir_written){.length = 73 + digits};
}
