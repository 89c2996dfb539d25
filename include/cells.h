/* The calls of the rights monitor, as the static library libcells.a defines them.
 *
 * Every call takes M, the lists first, last and offset, the marks, the rights, the grants, the memory and the registers.
 * A list is a pointer and a number of entries; nothing is asked of the lengths, and any values may be passed: the call
 * tests everything itself. Each pointer points to that many entries and is not NULL; where the number is 0, any other aligned
 * address will do. A list that a call may change overlaps no other list.
 *
 * number is 0 for acceptance, else 1 to 13:
 *    1  M, N or L outside its bounds, or a list of the wrong length
 *    2  tables not sound; value is the lowest unsound cell
 *    3  current or caller division not below M
 *    4  instruction number above 10
 *    5  operand outside its range, or an unused operand not 0
 *    6  no cell covers the address
 *    7  cell not valid (for revalidate: cell valid)
 *    8  word not whole, or block or view running past the cell
 *    9  a needed right is missing
 *   10  no standing grant from the named source names the current division
 *   11  another division holds a right on the cell
 *   12  the word at the address is not the entry word
 *   13  the rights asked for equal those held
 * After a refusal every list and the registers are as they were.
 */
#ifndef CELLS_H
#define CELLS_H

#include <stddef.h>
#include <stdint.h>

/* One core's registers: they go in and come back as one value. */
typedef struct {
    uint32_t current, caller, place;
} cells_registers;

typedef struct {
    uint32_t number, value;
    cells_registers registers;
} cells_reply;

/* Where a view's part begins in the memory, and how many bytes it has; both 0 on a refusal. */
typedef struct {
    uint32_t number, value;
    size_t start, count;
} cells_view_place;

/* M and the cells, which no call changes. */
#define CELLS_TABLES \
    size_t m, const uint32_t *first, size_t firsts, const uint32_t *last, size_t lasts, const uint32_t *offset, size_t offsets

/* One instruction, given as four numbers. */
cells_reply cells_execute(CELLS_TABLES, uint8_t *marks, size_t marked, uint8_t *rights, size_t righted, uint16_t *grants,
                          size_t granted, uint8_t *memory, size_t bytes, cells_registers registers, uint32_t number,
                          uint32_t x, uint32_t y, uint32_t z);

/* Instructions in turn, four numbers each, with their answers in two lists: as many as are whole and have room for both
 * answers. The tables are checked once. */
cells_registers cells_execute_all(CELLS_TABLES, uint8_t *marks, size_t marked, uint8_t *rights, size_t righted,
                                  uint16_t *grants, size_t granted, uint8_t *memory, size_t bytes,
                                  cells_registers registers, const uint32_t *instructions, size_t count,
                                  uint32_t *numbers, size_t numbered, uint32_t *values, size_t valued);

/* The bytes of the memory from the place of x on become block. */
cells_reply cells_write_block(CELLS_TABLES, const uint8_t *marks, size_t marked, const uint8_t *rights, size_t righted,
                              const uint16_t *grants, size_t granted, uint8_t *memory, size_t bytes,
                              cells_registers registers, uint32_t x, const uint8_t *block, size_t length);

/* The place in memory of the n bytes from x on. */
cells_view_place cells_view(CELLS_TABLES, const uint8_t *marks, size_t marked, const uint8_t *rights, size_t righted,
                            const uint16_t *grants, size_t granted, const uint8_t *memory, size_t bytes,
                            cells_registers registers, uint32_t x, size_t n);

#endif
