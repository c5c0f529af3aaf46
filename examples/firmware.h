/* Between the example's firmware (firmware.c) and the board it runs on (host.c). */
#ifndef FIRMWARE_H
#define FIRMWARE_H

#include <stddef.h>
#include <stdint.h>

/* The board gives: one transfer with SS low, `n` bytes each way; the level of the chip's INT line. */
void spi(const uint8_t *send, uint8_t *receive, size_t n);
int int_is_low(void);

/* The firmware gives: what runs after power-on, and one pass of its main loop. */
void initialize(void);
void run_firmware(void);

#endif
