/* Chips on the pins, simulated: 512 + 16 bytes a page, 4 pages a block, 8 blocks, one LUN, one chip on each chip enable. Their work lasts some polls of their status. */
#ifndef CHIPS_H
#define CHIPS_H
#include <stddef.h>
#include <stdint.h>

enum { CHIPS = 2, CHIP_PAGE = 256 };

/* The parameter page of each. */
extern const uint8_t chip_page[CHIP_PAGE];

void give_command(unsigned ce, uint8_t byte);
void give_address(unsigned ce, uint8_t byte);
uint8_t take_byte(unsigned ce);
#endif
