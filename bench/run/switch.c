/* Runs the image in a file by a plain switch over its instructions of 16 bytes: switch IMAGE prints the code with
 * which process_exit ends it. At each instruction it tests that the counter lies in the code, that each register is
 * one of the 32, and that what is loaded, stored or swapped lies in the memory or in its array. It knows no other
 * call, copies nothing, and expects a processor that has the lowest byte first. */
#include <stdint.h>
#include <stdio.h>
#include <stdlib.h>
#include <string.h>

enum { HEADER = 20, DECLARATION = 8, INSTRUCTIONS = 4096, REGISTERS = 32, ARRAYS = 8, PLACES = 256 };

struct instr {
    uint8_t op, place[7];
    uint32_t number, target;
};

static struct instr code[INSTRUCTIONS];
static uint64_t registers[REGISTERS], slots[ARRAYS][PLACES];
static uint8_t memory[65536];
static uint32_t instructions, memory_size, arrays, lengths[ARRAYS];

_Noreturn static void fail(const char *what) {
    fprintf(stderr, "switch: %s\n", what);
    exit(1);
}

static void get(FILE *file, void *bytes, size_t size) {
    if (size != 0 && fread(bytes, size, 1, file) != 1) fail("the image is too short");
}

static void load(const char *path) {
    uint8_t head[HEADER], declared[DECLARATION];
    uint16_t count;
    FILE *file = fopen(path, "rb");
    if (file == NULL) fail("the image can't be opened");
    get(file, head, HEADER);
    memcpy(&count, head + 6, sizeof count);
    memcpy(&memory_size, head + 8, sizeof memory_size);
    instructions = count;
    arrays = head[18];
    if (memcmp(head, "ZLAB\1", 5) != 0 || count > INSTRUCTIONS || memory_size > sizeof memory || arrays > ARRAYS)
        fail("the file is no image");
    for (int n = 0; n < head[17]; n++) get(file, declared, DECLARATION);
    for (uint32_t n = 0; n < arrays; n++) {
        get(file, declared, DECLARATION);
        lengths[n] = declared[2] | declared[3] << 8;
        if (lengths[n] > PLACES) fail("an array is too long");
    }
    get(file, code, count * sizeof *code);
    fclose(file);
}

static inline uint64_t *reg(const struct instr *at, int n) {
    if (at->place[n] >= REGISTERS) fail("there is no such register");
    return &registers[at->place[n]];
}

static inline uint8_t *bytes(uint64_t base, uint32_t offset, uint32_t size) {
    uint64_t end;
    if (__builtin_add_overflow(base, (uint64_t)offset + size, &end) || end > memory_size)
        fail("the address lies outside the memory");
    return memory + (end - size);
}

static inline uint64_t *slot(uint32_t array, uint64_t place) {
    if (array >= arrays || place >= lengths[array]) fail("there is no such place");
    return &slots[array][place];
}

#define A (*reg(at, 0))
#define B (*reg(at, 1))
#define C (*reg(at, 2))
#define GO_IF(test) if (test) counter = at->target; break

static int32_t run(void) {
    for (uint64_t counter = 0;;) {
        if (counter >= instructions) fail("the counter is outside the code");
        const struct instr *at = &code[counter++];
        uint64_t value, *place;
        switch (at->op) {
        case 1: A = at->number; break;
        case 2: A = B; break;
        case 3: A = B + C; break;
        case 4: A = B + at->number; break;
        case 5: A = B - C; break;
        case 6: A = B & C; break;
        case 7: A = B | C; break;
        case 8: A = B ^ C; break;
        case 9: A = at->number < 64 ? B << at->number : 0; break;
        case 10: A = at->number < 64 ? B >> at->number : 0; break;
        case 11: A = B; B = 0; break;
        case 12: place = slot(at->number, B); value = *place; *place = A; A = value; break;
        case 13: A = *bytes(B, at->number, 1); break;
        case 14: memcpy(&value, bytes(B, at->number, 8), 8); A = value; break;
        case 15: *bytes(A, at->number, 1) = B; break;
        case 16: value = B; memcpy(bytes(A, at->number, 8), &value, 8); break;
        case 17: counter = at->target; break;
        case 18: GO_IF(A == 0);
        case 19: GO_IF(A != 0);
        case 20: GO_IF(A == at->number);
        case 21: GO_IF(A != at->number);
        case 22: GO_IF(A < at->number);
        case 23: GO_IF(A >= at->number);
        case 24: GO_IF((A & at->number) == at->number);
        case 25: GO_IF((A & at->number) != at->number);
        case 83: return (int32_t)A;
        default: fail("the opcode is none of these");
        }
    }
}

int main(int argc, char **argv) {
    if (argc != 2) return 2;
    load(argv[1]);
    printf("%d\n", run());
    return 0;
}
