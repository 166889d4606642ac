// A program in the C++ of 1998 that includes the header and calls the library. tests/install builds it by what pkg-config says, and has what it must print.
#include <lambukir.h>

#include <cstdio>
#include <string>
#include <vector>

static const uint8_t *bytes(const std::string &text)
{
    return reinterpret_cast<const uint8_t *>(text.data());
}

int main()
{
    const std::string reg = "0198765", cell = "NO4D0613", hw_id = "12348", m_id = "01", ids(2 * LAMBUKIR_TENANTS, 'A');
    const uint64_t ship = lambukir_hw_id_from_text(hw_id.data(), hw_id.size()), name = lambukir_name_from_text(cell.data(), cell.size());
    const std::vector<uint16_t> quotas(LAMBUKIR_TENANTS, 1);
    const std::vector<uint8_t> principals(LAMBUKIR_TENANTS, 0);
    std::vector<uint8_t> book(LAMBUKIR_BOOK_SIZE), permit(LAMBUKIR_USER_PERMIT_SIZE);

    uint32_t made = lambukir_make_user_permit(bytes(reg), reg.size(), ship, lambukir_code_from_text(m_id.data(), m_id.size()), &permit[0], permit.size());
    std::printf("%u %s\n", made, std::string(permit.begin(), permit.end()).c_str());

    uint32_t opened = lambukir_open_book(&book[0], book.size(), &quotas[0], quotas.size(), bytes(ids), ids.size(), &principals[0], principals.size());
    uint32_t entered = lambukir_enter(&book[0], book.size(), 15, name, 10, 0xC1CB518E9C, 0x421571CC66, 0);
    lambukir_edition held = lambukir_ask_edition(&book[0], book.size(), 15, name);
    lambukir_edition others = lambukir_ask_edition(&book[0], book.size(), 14, name);
    std::printf("%u %u %u %u %u %u\n", opened, entered, held.number, held.edition, others.number, lambukir_is_success(others.number));

    std::printf("%s %d\n", lambukir_name_to_text(name).text, lambukir_meaning(LAMBUKIR_NOT_HELD).text[0] != '\0');
    return 0;
}
