#include "chips.h"

#include <stdbool.h>

enum { COLUMNS = 528, BLOCKS = 8, PAGES = 4 };

/* Its signature, what it can't do, its sizes, what comes with an address, and its checksum. */
const uint8_t chip_page[CHIP_PAGE] = {'O', 'N', 'F', 'I', [81] = 2, [84] = 16, [92] = PAGES, [96] = BLOCKS, [100] = 1, 0x23, [254] = 0x11, 0x56};

/* A byte of a page is its column's lowest byte, until its block is erased. */
static struct chip {
    uint8_t address[5], addresses, polls_left, erased;
    bool shows_status;
    unsigned column;
} chips[CHIPS];

static unsigned block_from(const struct chip *chip, unsigned first) { return (chip->address[first] | (unsigned)chip->address[first + 1] << 8) / PAGES % BLOCKS; }

void give_command(unsigned ce, uint8_t byte) {
    struct chip *chip = &chips[ce];
    chip->shows_status = byte == 0x70;
    if (byte == 0xff) chip->polls_left = 1;
    if (byte == 0x60 || byte == 0x00) chip->addresses = 0;
    if (byte == 0xd0) chip->erased |= (uint8_t)(1 << block_from(chip, 0)), chip->polls_left = 2;
    if (byte == 0x30) chip->column = chip->address[0] | (unsigned)chip->address[1] << 8, chip->polls_left = 1;
}

void give_address(unsigned ce, uint8_t byte) { chips[ce].address[chips[ce].addresses++ % 5] = byte; }

uint8_t take_byte(unsigned ce) {
    struct chip *chip = &chips[ce];
    if (!chip->shows_status) return chip->erased >> block_from(chip, 2) & 1 ? 0xff : (uint8_t)(chip->column++ % COLUMNS);
    if (chip->polls_left == 0) return 0xe0; /* ready, its array too */
    return chip->polls_left--, 0x80;        /* busy */
}
