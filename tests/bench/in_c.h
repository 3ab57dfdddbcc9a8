/* The exported calls written in C, for comparison: the same answers wherever each entry read is valid or 0, but for the
 * position of a number refused by 11 or 18, which stays 0. With it gcc no longer compiles the check of the sheet into
 * c_resolve, and C would be the slower for it. */
#ifndef IN_C_H
#define IN_C_H

#include "glintloom.h"

/* The walk on a parsed case, as the crate bench_walk exports it. */
uint64_t bench_walk_pages(const uint64_t *rows, size_t rows_length, const uint8_t *image, size_t image_length,
                          const uint8_t *pagefile, size_t pagefile_length, uint64_t directory, uint64_t mode, uint64_t place,
                          uint64_t start, uint64_t pages);
uint64_t bench_walk_one(const uint64_t *rows, size_t rows_length, const uint8_t *image, size_t image_length,
                        const uint8_t *pagefile, size_t pagefile_length, uint64_t directory, uint64_t mode, uint64_t place,
                        uint64_t address);

uint64_t c_walk_pages(const uint64_t *rows, size_t rows_length, const uint8_t *image, size_t image_length,
                      const uint8_t *pagefile, size_t pagefile_length, uint64_t directory, uint64_t mode, uint64_t place,
                      uint64_t start, uint64_t pages);
uint64_t c_walk_one(const uint64_t *rows, size_t rows_length, const uint8_t *image, size_t image_length,
                    const uint8_t *pagefile, size_t pagefile_length, uint64_t directory, uint64_t mode, uint64_t place,
                    uint64_t address);

glint_answer c_resolve(const uint8_t *sheet, size_t sheet_length, const uint8_t *image, size_t image_length,
                       const uint8_t *pagefile, size_t pagefile_length, uint64_t address);
glint_bytes c_read(const uint8_t *sheet, size_t sheet_length, const uint8_t *image, size_t image_length,
                   const uint8_t *pagefile, size_t pagefile_length, uint64_t address, uint64_t n,
                   uint8_t *out, size_t out_length);
glint_time_answer c_read_time(const uint8_t *sheet, size_t sheet_length, const uint8_t *image, size_t image_length,
                              const uint8_t *pagefile, size_t pagefile_length, uint64_t address);
glint_written c_map(const uint8_t *sheet, size_t sheet_length, const uint8_t *image, size_t image_length,
                    const uint8_t *pagefile, size_t pagefile_length, uint64_t start, uint64_t pages,
                    uint8_t *out, size_t out_length);
glint_written c_write_sheet(uint64_t directory, uint64_t mode, uint64_t place, const uint64_t *starts, size_t starts_length,
                            const uint64_t *lengths, size_t lengths_length, uint8_t *out, size_t out_length);
glint_answer c_processor_block(const uint8_t *sheet, size_t sheet_length, const uint8_t *image, size_t image_length,
                               const uint8_t *pagefile, size_t pagefile_length, uint64_t from);
glint_written c_process_list(const uint8_t *sheet, size_t sheet_length, const uint8_t *image, size_t image_length,
                             const uint8_t *pagefile, size_t pagefile_length, uint64_t head,
                             uint64_t *out, size_t out_length);
glint_written c_pool_headers(const uint8_t *image, size_t image_length, uint64_t *out, size_t out_length);

/* The address call that takes the sheet as checked: its rows and address space are handed in. */
glint_answer c_resolve_checked(const uint64_t *rows, size_t rows_length, const uint8_t *image, size_t image_length,
                               uint64_t directory, uint64_t mode, uint64_t place, uint64_t address);

#endif
