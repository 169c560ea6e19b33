/* Clears and counts logs as the radio firmware does, and prints what took place. */
#include "kilqaros_log.h"

#include <stdio.h>
#include <string.h>

enum { CAPACITY = 3, LENGTH = KILQAROS_LOG_LENGTH(CAPACITY) };

static uint8_t bytes[LENGTH + 1];
static uint8_t before[LENGTH + 1];

/* Clears the first `length` bytes, and says what came of it and whether a byte was touched. */
static void clear(const char *what, size_t length, uint16_t capacity)
{
    memcpy(before, bytes, sizeof bytes);
    unsigned answer = kilqaros_log_clear(bytes, length, capacity);
    int same = memcmp(before, bytes, sizeof bytes) == 0;
    printf("clear %s: %u, bytes %s\n", what, answer, same ? "as they were" : "written");
}

static void count(const char *what, size_t length)
{
    printf("count %s: %u\n", what, (unsigned)kilqaros_log_count(bytes, length));
}

int main(void)
{
    memset(bytes, 0xAA, sizeof bytes);
    count("before clearing", LENGTH);
    clear("one byte short", LENGTH - 1, CAPACITY);
    clear("one byte long", LENGTH + 1, CAPACITY);
    clear("to capacity 0", LENGTH, 0);
    clear("to capacity 2", LENGTH, CAPACITY - 1);
    clear("to capacity 3", LENGTH, CAPACITY);

    int zeros = 1;
    for (size_t i = 2; i < LENGTH; i++) {
        zeros = zeros && bytes[i] == 0;
    }
    printf("sizes %02X%02X %02X%02X, the rest %s, the byte after %02X\n", bytes[0], bytes[1], bytes[2],
           bytes[3], zeros ? "zero" : "not zero", bytes[LENGTH]);

    count("the cleared log", LENGTH);
    count("cut by one byte", LENGTH - 1);
    count("padded by one byte", LENGTH + 1);
    count("of three bytes", 3);
    count("of no bytes", 0);
    bytes[3] = CAPACITY;
    count("a full log", LENGTH);
    bytes[3] = CAPACITY + 1;
    count("more than there is room for", LENGTH);
    return 0;
}
