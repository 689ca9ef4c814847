/* Copies the image on standard input so many times, and checks its fields: `fields 1000 < IMAGE`.

   What the proved decoder is measured against: one memcpy of all bytes, and then, field by field, the
   header, each declaration, and of each instruction its opcode, its seven registers and what it
   doesn't use. It makes no values of what it reads. */
#include <stdint.h>
#include <stdio.h>
#include <stdlib.h>
#include <string.h>

enum { MOST = 65676, HEADER = 20, DECLARATION = 8, INSTR = 16, REGISTERS = 32 };
enum ending { NOTHING, NUMBER, TARGET, BOTH, ROOM, HANDLES };

/* How many registers an opcode uses, one more than that, and 0 for an unknown one. */
static const uint8_t used[256] = {
    [1] = 2, [2] = 3, [3] = 4, [4] = 3, [5] = 4, [6] = 4, [7] = 4, [8] = 4, [9] = 3, [10] = 3,
    [11] = 3, [12] = 3, [13] = 3, [14] = 3, [15] = 3, [16] = 3, [17] = 1, [18] = 2, [19] = 2,
    [20] = 2, [21] = 2, [22] = 2, [23] = 2, [24] = 2, [25] = 2,
    [64] = 3, [65] = 4, [66] = 4, [67] = 4, [68] = 5, [69] = 8, [70] = 3, [71] = 5, [72] = 5,
    [73] = 5, [74] = 5, [75] = 6, [76] = 3, [77] = 5, [78] = 7, [79] = 7, [80] = 5, [81] = 5,
    [82] = 5, [83] = 2, [84] = 3, [85] = 4, [86] = 6,
    [87] = 4,
};

/* What stands in the last eight bytes. */
static const uint8_t ending[256] = {
    [1] = NUMBER, [4] = NUMBER, [9] = NUMBER, [10] = NUMBER, [12] = NUMBER, [13] = NUMBER,
    [14] = NUMBER, [15] = NUMBER, [16] = NUMBER, [17] = TARGET, [18] = TARGET, [19] = TARGET,
    [20] = BOTH, [21] = BOTH, [22] = BOTH, [23] = BOTH, [24] = BOTH, [25] = BOTH,
    [65] = NUMBER, [66] = NUMBER, [68] = HANDLES, [69] = ROOM,
};

static uint32_t word(const uint8_t *at) {
    return at[0] | (uint32_t)at[1] << 8 | (uint32_t)at[2] << 16 | (uint32_t)at[3] << 24;
}

static int is_list(const uint8_t *places) {
    int ended = 0;
    for (int n = 0; n < 8; n++) {
        if (places[n] == 0xff)
            ended = 1;
        else if (ended || places[n] >= REGISTERS)
            return 0;
    }
    return 1;
}

static int is_instr(const uint8_t *at) {
    int registers = used[at[0]] - 1;
    uint32_t number = word(at + 8), target = word(at + 12);
    if (registers < 0)
        return 0;
    for (int n = 0; n < 7; n++)
        if (at[1 + n] >= REGISTERS || (n >= registers && at[1 + n] != 0))
            return 0;
    switch (ending[at[0]]) {
    case NOTHING: return number == 0 && target == 0;
    case NUMBER: return target == 0;
    case TARGET: return number == 0;
    case BOTH: return 1;
    case ROOM: return target == 0 && number <= 8 && at[7] + 3 * number <= REGISTERS;
    default: return is_list(at + 8);
    }
}

static uint32_t allowed(uint8_t kind) {
    switch (kind) {
    case 0: return 0x3f60f;
    case 1: return 184847;
    case 4: return 61454;
    case 5: return 53251;
    case 6: return 32783;
    case 16: return 61443;
    case 17: return 251407;
    default: return 0;
    }
}

static int is_declaration(const uint8_t *at, int is_slots) {
    uint32_t length = at[2] | (uint32_t)at[3] << 8;
    if (at[1] != 0 || (is_slots ? length == 0 || length > 256 : length != 0))
        return 0;
    return allowed(at[0]) != 0 && (word(at + 4) & ~allowed(at[0])) == 0;
}

/* How many instructions the bytes have, or 0 where they are no image without the raw mark. */
static unsigned check(const uint8_t *bytes, size_t size) {
    if (size < HEADER || memcmp(bytes, "ZLAB\1\0", 6) != 0)
        return 0;
    unsigned count = bytes[6] | bytes[7] << 8, starts = bytes[17], slots = bytes[18];
    const uint8_t *at = bytes + HEADER;
    if (count > 4096 || word(bytes + 8) > 65536 || word(bytes + 12) - 1 >= 1000000)
        return 0;
    if ((bytes[16] & ~0x1f) != 0 || starts > 7 || slots > 8 || bytes[19] != 0)
        return 0;
    if (size != HEADER + DECLARATION * (starts + slots) + INSTR * (size_t)count)
        return 0;
    for (unsigned n = 0; n < starts + slots; n++, at += DECLARATION)
        if (!is_declaration(at, n >= starts))
            return 0;
    for (unsigned n = 0; n < count; n++, at += INSTR)
        if (!is_instr(at))
            return 0;
    return count;
}

int main(int argc, char **argv) {
    static uint8_t bytes[MOST + 1], copy[MOST + 1];
    size_t size = fread(bytes, 1, sizeof bytes, stdin);
    unsigned long total = 0;
    if (argc != 2 || size > MOST)
        return 1;
    for (long turns = atol(argv[1]); turns > 0; turns--) {
        unsigned count;
        memcpy(copy, bytes, size);
        /* The compiler has to take it that the copy was changed, and that it is read. */
        __asm__ volatile("" : : "r"(copy) : "memory");
        count = check(copy, size);
        if (count == 0)
            return 1;
        total += count;
    }
    printf("%lu\n", total);
    return 0;
}
