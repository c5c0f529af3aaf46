/* How to connect your firmware to the model: give it this routine in place of your SPI driver. It sends `n` bytes with
 * SS low and gets as many back, as the hardware does. Keep one record; it is the chip. */
#include <stdio.h>

#include "max3420e.h"

static max3420e_chip chip; /* = max3420e_power_on() before the first transfer */
static uint8_t int_pin;    /* what your interrupt line reads: MAX3420E_PIN_LOW, _HIGH or _OPEN */

static int spi_exchange(const uint8_t *send, uint8_t *receive, size_t n)
{
    max3420e_answer answer = max3420e_transfer(chip, send, n, receive, n);
    chip = answer.chip;
    int_pin = answer.pin;
    return answer.refusal; /* 0, unless n is 0 or over 4,096 */
}

int main(void)
{
    const uint8_t read_epirq[2] = {11 << 3, 0}; /* R11; bit 1 of the command byte would write */
    uint8_t received[2];
    chip = max3420e_power_on();
    int refusal = spi_exchange(read_epirq, received, sizeof read_epirq);
    printf("EPIRQ after power-on: %02X, INT pin %u\n", (unsigned)received[1], (unsigned)int_pin);
    return refusal != 0 || received[1] != 0x19; /* the three IN buffers are free */
}
