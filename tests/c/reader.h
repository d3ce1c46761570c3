/* A reader of blocks, written from docs/BLOCK.md alone. */
#ifndef READER_H
#define READER_H

#include <stddef.h>
#include <stdint.h>

/* The first rule of docs/BLOCK.md that the bytes break; NULL where they break none. */
const char *block_fault(const uint8_t *bytes, size_t length);

/* The interrupt lines of a block. */
uint32_t block_lines(const uint8_t *bytes);

/* The mailboxes that are not empty, as bits; the one on the wire, or 3. */
unsigned block_requests(const uint8_t *bytes);
unsigned block_on_wire(const uint8_t *bytes);
unsigned block_aborts(const uint8_t *bytes);

uint32_t block_mcr(const uint8_t *bytes);

#endif
