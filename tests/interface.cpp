// include/galtuyeg.h from C++: its structs and enums are named without `struct` and `enum`, since no function has the name of one.
// Ends with a line, or with status 1.
#include <cstdio>
#include <cstring>
#include <vector>

#include "galtuyeg.h"

int main()
{
    std::vector<uint8_t> image(32768, 0xFF);
    std::memcpy(image.data(), "KATANA_FLASH____\x03\x01", 18);
    std::vector<uint8_t> card(131072, 0);
    const std::vector<uint8_t> name(GALTUYEG_NAME_BYTES, 'A');
    const std::vector<uint8_t> time(GALTUYEG_TIME_BYTES, 0x20);
    std::vector<uint8_t> block(GALTUYEG_BLOCK_BYTES);

    const galtuyeg_report report = galtuyeg_flash_report(image.data(), image.size(), 3);
    const galtuyeg_next_live next = galtuyeg_flash_next_live(image.data(), image.size(), 3, 0);
    const galtuyeg_slot listed = galtuyeg_slot_list(image.data(), image.size(), 3, 0);
    const galtuyeg_card_checked checked = galtuyeg_card_check(card.data(), card.size());
    const galtuyeg_card_entry entry = galtuyeg_card_list(card.data(), card.size(), 0);
    const galtuyeg_card_verdict read =
        galtuyeg_card_read(card.data(), card.size(), name.data(), name.size(), 0, block.data(), block.size());
    const galtuyeg_card_verdict written = galtuyeg_card_write(card.data(), card.size(), name.data(), name.size(), 0x00,
                                                              time.data(), time.size(), 0, block.data(), block.size());
    const galtuyeg_card_verdict deleted = galtuyeg_card_delete(card.data(), card.size(), name.data(), name.size());
    const galtuyeg_code unformatted = GALTUYEG_CARD_WRONG_FORMAT;
    const galtuyeg_place_kind root = GALTUYEG_BLOCK;

    const bool as_expected = galtuyeg_version() == GALTUYEG_VERSION && report.code == GALTUYEG_DONE && report.capacity == 510
        && next.code == GALTUYEG_FLASH_NOTHING_THERE && listed.code == GALTUYEG_FLASH_NOTHING_THERE && checked.code == unformatted && checked.place_kind == root
        && checked.place == 255 && entry.code == unformatted && read.code == unformatted && written.code == unformatted
        && deleted.code == unformatted;
    std::puts(as_expected ? "interface: the same from C++" : "interface.cpp: an answer from C++ is not as expected");
    return as_expected ? 0 : 1;
}
