/* A lesson with two pupils: the teacher opens two desks, each pupil's calls name his desk and key, a wrong key is
 * refused, and closing a desk puts its board back to power-on. Keep one record; it is the classroom. */
#include <stdio.h>

#include "max3420e.h"

static max3420e_classroom classroom; /* = max3420e_classroom_start() before the first call */

static void teach(const char *what, max3420e_teacher_answer answer)
{
    classroom = answer.classroom;
    printf("%s: refusal %u\n", what, (unsigned)answer.refusal);
}

static void transfer(const char *who, uint8_t desk, uint32_t key, const uint8_t *send, size_t n)
{
    uint8_t receive[8] = {0};
    max3420e_desk_answer answer = max3420e_desk_transfer(classroom, desk, key, send, n, receive, sizeof receive);
    classroom = answer.classroom;
    printf("%s: refusal %u, pin %u, received", who, (unsigned)answer.refusal, (unsigned)answer.pin);
    for (unsigned i = 0; i < answer.count; i++)
        printf(" %02X", (unsigned)receive[i]);
    printf("\n");
}

int main(void)
{
    const uint32_t anna = 0x5EED0001, ben = 0x5EED0002;
    const uint8_t read_pins[2] = {20 << 3, 0}, write_pins[2] = {20 << 3 | 2, 0x05};
    classroom = max3420e_classroom_start();
    transfer("Anna before the lesson", 3, anna, read_pins, sizeof read_pins);
    teach("desk 3 opened for Anna", max3420e_open_desk(classroom, 3, anna));
    teach("desk 9 opened for Ben with Anna's key", max3420e_open_desk(classroom, 9, anna));
    teach("desk 9 opened for Ben", max3420e_open_desk(classroom, 9, ben));
    transfer("Anna writes IOPINS", 3, anna, write_pins, sizeof write_pins);
    transfer("Ben reads IOPINS", 9, ben, read_pins, sizeof read_pins);
    transfer("Ben reads IOPINS at Anna's desk", 3, ben, read_pins, sizeof read_pins);
    transfer("Anna reads IOPINS", 3, anna, read_pins, sizeof read_pins);
    teach("desk 3 closed", max3420e_close_desk(classroom, 3));
    transfer("Anna after the lesson", 3, anna, read_pins, sizeof read_pins);
    teach("desk 3 opened for Anna", max3420e_open_desk(classroom, 3, anna));
    transfer("Anna reads IOPINS", 3, anna, read_pins, sizeof read_pins);
    teach("desk 16 closed", max3420e_close_desk(classroom, 16));
    return 0;
}
