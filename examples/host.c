/*
 * The shortest host of the proved tag: it makes a factory tag, turns the field on, asks who is there, and prints the answer.
 * It shows how a program links the library; include/uistermo.h says what each call does. tools/link-c OUT examples/host.c links it.
 */
#include <stdio.h>

#include "uistermo.h"

int main(void)
{
    static const uint8_t inventory[] = {0x26, 0x01, 0x00, 0xF6, 0x0A}; /* with one slot and no mask; as on the air, from the flags to the CRC */
    uint8_t record[UISTERMO_RECORD], memory[UISTERMO_MEMORY_16K], room[UISTERMO_ROOM];

    uint64_t result = uistermo_factory(record, 0xE002230401D6C8F0, memory, sizeof memory);
    if (!uistermo_refusal(result))
        result = uistermo_event(record, memory, sizeof memory, room, sizeof room, UISTERMO_ON, NULL, 0);
    if (!uistermo_refusal(result))
        result = uistermo_event(record, memory, sizeof memory, room, sizeof room, UISTERMO_REQUEST, inventory, sizeof inventory);
    if (uistermo_refusal(result)) {
        fprintf(stderr, "refused %u\n", (unsigned)uistermo_refusal(result));
        return 1;
    }
    for (size_t i = 0; i < uistermo_length(result); i++)
        printf("%02X", room[i]);
    putchar('\n');
    return 0;
}
