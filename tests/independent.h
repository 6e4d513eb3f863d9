/*
 * What tests/independent.rs exports: the calls of chip/chip.h, of tests/reader.h, and a whole walk, with the same arguments. They return the number that a
 * chip_answer has.
 */
#ifndef INDEPENDENT_H
#define INDEPENDENT_H

#include "reader.h"

uint64_t independent_tiny_judge(const uint8_t *image, size_t length, uint32_t kinds);
uint64_t independent_board_judge(const uint8_t *image, size_t length, uint32_t kinds);
uint64_t independent_board_choice(const uint8_t *firmware, size_t firmware_length, const uint8_t *eeprom, size_t eeprom_length, uint32_t kinds);
uint64_t independent_tiny_name(const uint8_t *image, size_t length, uint32_t kinds, uint8_t *buffer, size_t room);
uint64_t independent_list(uint32_t format, const uint8_t *image, size_t length, uint32_t kinds, Entry *out, size_t room);

/* Goes from item to item and reads each: how many are known, or a refusal. */
uint64_t independent_walk(uint32_t format, const uint8_t *image, size_t length, uint32_t kinds);

#endif
