/* tealsettle_file_form, tealsettle_update_place and tealsettle_switch beside the reference: random BIT files, good and damaged, texts and plain
 * bytes; and chips whose segment 1 names a place, or nearly does. Prints how many were tried. */
#include "compare.h"
#include "make.h"

enum { FILES = 1000000, CHIPS = 300000, LONGEST = 9000 };

static uint8_t file[LONGEST];
static size_t file_length;
static long forms[4], found_places, switched_on;

/* Files. */

static void put_byte(uint8_t byte)
{
    if (file_length < LONGEST)
        file[file_length++] = byte;
}

static void put_number(size_t number, int bytes)
{
    while (bytes-- > 0)
        put_byte((uint8_t)(number >> 8 * bytes));
}

/* A field of a BIT file; now and then with another letter, or with a length that is not the content's. */
static void put_field(uint8_t letter, int bytes)
{
    size_t length = below(one_in(4) ? 60 : 12);
    put_byte(one_in(60) ? (uint8_t)next_random() : letter);
    put_number(one_in(60) ? next_random() : length + (one_in(60) ? 1 : 0), bytes);
    for (size_t i = 0; i < length; i++)
        put_byte((uint8_t)next_random());
}

static void make_bit(void)
{
    static const uint8_t start[] = {0x00, 0x09, 0x0F, 0xF0, 0x0F, 0xF0, 0x0F, 0xF0, 0x0F, 0xF0, 0x00, 0x00, 0x01};
    for (size_t i = 0; i < sizeof start; i++)
        put_byte(start[i]);
    for (uint8_t letter = 'a'; letter <= 'd'; letter++)
        put_field(letter, 2);
    put_field('e', 4);
    for (size_t i = one_in(4) ? below(20) : 0; i > 0; i--)
        put_byte((uint8_t)next_random());
}

static void make_plain(void)
{
    uint8_t most = one_in(2) ? 0x7F : 0xFF;
    for (size_t i = below(one_in(50) ? LONGEST : 40); i > 0; i--)
        put_byte((uint8_t)next_random() & most);
    if (file_length > 0 && one_in(8))
        file[below(file_length)] = 0x80;
}

static void make_file(void)
{
    file_length = 0;
    if (one_in(3))
        make_plain();
    else
        make_bit();
    if (one_in(6))
        file_length = below(file_length + 1);
    if (file_length > 0 && one_in(6))
        file[below(file_length)] ^= (uint8_t)(1u << below(8));
}

static int form_differs(void)
{
    TealsettleForm r = tealsettle_file_form(file, file_length);
    ReferenceForm m = reference_file_form(file, file_length);
    forms[m.form]++;
    return differs("form: number", r.number, m.number) || differs("form: place", r.place, m.place) ||
           differs("form: form", r.form, m.form) || differs("form: first", r.first, m.first) ||
           differs("form: length", r.length, m.length);
}

/* Chips. */

static int place_differs(uint32_t kind, const uint8_t *bytes, size_t length)
{
    TealsettlePlace r = tealsettle_update_place(kind, bytes, length);
    int found = 0;
    size_t update = 0;
    uint32_t number = kind == TEALSETTLE_SPI ? reference_update_place(bytes, length, &found, &update)
                                             : (uint32_t)TEALSETTLE_REFUSED_BAD_CHIP_LENGTH;
    found_places += found;
    return differs("place: number", r.number, number) || differs("place: place", r.place, 0) ||
           differs("place: found", r.found, (size_t)found) || differs("place: update", r.update, update);
}

/* ON is the one word; where a bit or more of it is another, the switch is OFF. */
static int switch_differs(uint32_t kind, const uint8_t *bytes, size_t length)
{
    TealsettleSwitch r = tealsettle_switch(kind, bytes, length);
    int allowed = kind == TEALSETTLE_SPI && reference_length_allowed(length);
    int on = allowed && memcmp(bytes + 4092, ON, sizeof ON) == 0;
    switched_on += on;
    return differs("switch: number", r.number, allowed ? 0 : (uint32_t)TEALSETTLE_REFUSED_BAD_CHIP_LENGTH) ||
           differs("switch: place", r.place, 0) || differs("switch: on", r.on, (size_t)on);
}

static int try_chip(void)
{
    static uint8_t bytes[20480];
    static const uint8_t words[20] = {0x30, 0x02, 0x00, 0x01, 0, 0, 0, 0, 0x30, 0x00, 0x80, 0x01, 0, 0, 0, 0x0F, 0x20};
    size_t length = one_in(20) ? below(sizeof bytes + 1) : one_in(2) ? 16384 : 20480;
    memcpy(bytes + 4096, words, sizeof words);
    fill_random(bytes + 4100, 4);
    if (one_in(3))
        bytes[4096 + below(20)] ^= (uint8_t)(1u << below(8));
    memcpy(bytes + 4092, ON, sizeof ON);
    if (one_in(2))
        bytes[4092 + below(4)] ^= (uint8_t)(1u << below(8));
    uint32_t kind = some_kind();
    return place_differs(kind, bytes, length) || switch_differs(kind, bytes, length);
}

int main(void)
{
    for (tried = 0; tried < FILES; tried++) {
        make_file();
        if (form_differs())
            return 1;
    }
    for (; tried < FILES + CHIPS; tried++)
        if (try_chip())
            return 1;
    printf("host test: %d files and %d chips tried, none differs (text %ld, BIT %ld, binary %ld, refused %ld; places found %ld, switches ON %ld)\n",
           FILES, CHIPS, forms[TEALSETTLE_TEXT], forms[TEALSETTLE_BIT], forms[TEALSETTLE_BINARY], forms[0], found_places,
           switched_on);
    return 0;
}
