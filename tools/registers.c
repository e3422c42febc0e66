/* Registers that no image may write, named for whoever meets a refusal. The packet rules are the library's alone: the header that it
 * refuses gets another register here, and the library reads on from there. */
#include "tool.h"

#include <stdlib.h>
#include <string.h>

enum {
    WORD = 4,
    FAR = 1, /* a register that may be written, and not with commands; and not 0, which is what a no-operation has */
};

/* The register of a header: its bits 17 to 13. */
static unsigned header_register(const uint8_t *header)
{
    return (header[1] & 3u) << 3 | header[2] >> 5;
}

static void set_header_register(uint8_t *header, unsigned number)
{
    header[1] = (uint8_t)((header[1] & ~3u) | number >> 3);
    header[2] = (uint8_t)((header[2] & 0x1Fu) | (number & 7) << 5);
}

/* What the words from a header on read to. A sync word comes in place of the word before them; so the header's place is WORD. */
static TealsettleImage read_from(uint8_t *header, size_t length)
{
    static const uint8_t sync[WORD] = {0xAA, 0x99, 0x55, 0x66};
    memcpy(header - WORD, sync, WORD);
    return tealsettle_image_check(TEALSETTLE_SPI, header - WORD, length + WORD);
}

/* The registers that may not be written and stand in the way, a bit each; and whether there is nothing else in it. */
typedef struct {
    uint32_t registers;
    bool loads;
} Unlisted;

/* From one refused header to the next, as long as its register is all that is wrong with it: only these headers are read twice. */
static Unlisted find_unlisted(uint8_t *bytes, size_t length, size_t at)
{
    Unlisted found = {0, false};
    while (length - at >= WORD) {
        unsigned number = header_register(bytes + at);
        set_header_register(bytes + at, FAR);
        TealsettleImage rest = read_from(bytes + at, length - at);
        if (rest.number == TEALSETTLE_REFUSED_IMAGE_FAULT && rest.place == WORD)
            return found;
        found = (Unlisted){found.registers | UINT32_C(1) << number, rest.number == 0};
        if (rest.number != TEALSETTLE_REFUSED_IMAGE_FAULT)
            return found;
        at += rest.place - WORD;
    }
    return found;
}

static Unlisted unlisted_from(const File *file, size_t place)
{
    uint8_t *copy = held(malloc(file->length));
    memcpy(copy, file->bytes, file->length);
    Unlisted found = find_unlisted(copy, file->length, place);
    free(copy);
    return found;
}

/* A set of registers in words: "register 19", "registers 15, 18 and 30". Returns where they end. */
static char *put_registers(char *at, uint32_t registers)
{
    const char *before = registers & (registers - 1) ? "registers " : "register ";
    for (unsigned number = 0; registers != 0; number++) {
        if ((registers >> number & 1) == 0)
            continue;
        at += sprintf(at, "%s%u", before, number);
        registers &= ~(UINT32_C(1) << number);
        before = registers & (registers - 1) ? ", " : " and ";
    }
    return at;
}

const char *register_words(const File *file, size_t place)
{
    static char words[320]; /* room for all 32 numbers */
    Unlisted found = unlisted_from(file, place);
    if (found.registers == 0)
        return NULL;
    char *at = words + sprintf(words, "the header there names register %u, which the FPGA guide does not list",
                               header_register(file->bytes + place));
    if (found.loads) {
        at += sprintf(at, "; nothing else is wrong: with ");
        at = put_registers(at, found.registers);
        strcpy(at, " admitted it would load");
    }
    return words;
}
