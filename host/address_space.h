/* The address space that a sheet has: its profile, and where its top page table lies. */
#ifndef ADDRESS_SPACE_H
#define ADDRESS_SPACE_H

#include <stddef.h>
#include <stdint.h>

/* The numbers as the library has them. */
struct address_space {
    uint64_t mode, directory, place;
};

/* Takes directory page and place from the value of the register CR3 as a machine of this mode has it. Gives NULL, or what is
 * wrong in words. */
const char *parse_cr3(const char *text, size_t length, uint64_t mode, struct address_space *space);

/* Adds it to the item at hand. */
void add_address_space(struct address_space space);

#endif
