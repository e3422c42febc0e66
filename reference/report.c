/* The boot report of a chip, as text. */
#include "reference.h"

#include <string.h>

static uint8_t *put_text(uint8_t *at, const char *text)
{
    size_t length = strlen(text);
    memcpy(at, text, length);
    return at + length;
}

static uint8_t *put_hexadecimal(uint8_t *at, size_t value, size_t digits)
{
    for (size_t i = digits; i-- > 0; value /= 16)
        at[i] = (uint8_t) "0123456789ABCDEF"[value % 16];
    return at + digits;
}

static uint8_t *put_decimal(uint8_t *at, size_t value)
{
    uint8_t digits[20], *first = digits + sizeof digits;
    do
        *--first = (uint8_t)('0' + value % 10);
    while ((value /= 10) > 0);
    size_t count = (size_t)(digits + sizeof digits - first);
    memcpy(at, first, count);
    return at + count;
}

static uint8_t *put_write(uint8_t *at, const ReferenceWrite *write)
{
    at = put_hexadecimal(put_text(at, "WRITE "), write->register_number, 2);
    at = put_hexadecimal(put_text(at, " "), write->word, 8);
    return put_text(put_hexadecimal(put_text(at, " "), write->place, 8), "\n");
}

size_t reference_report(const ReferenceBoot *boot, const ReferenceWrite *list, uint8_t *out)
{
    uint8_t *at = out;
    if (boot->stuck) {
        at = put_hexadecimal(put_text(at, "STUCK "), boot->place, 8);
    } else {
        at = put_text(at, boot->jumped ? "LOADED update\n" : "LOADED golden\n");
        for (size_t i = 0; i < boot->writes; i++)
            at = put_write(at, &list[i]);
        at = put_hexadecimal(put_text(at, "END "), boot->end, 8);
        at = put_decimal(put_text(at, " writes "), boot->writes);
    }
    return (size_t)(put_text(at, "\n") - out);
}
