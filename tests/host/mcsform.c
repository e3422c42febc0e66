/* tealsettle_mcs_form beside the reference, and beside what it means: a text is in the form if it is read, and writing what it
 * holds gives the same text. On texts put down here, short and long, in the form or not as it is said; and on random ones, most
 * of them nearly in the form. Prints how many were tried. */
#include "compare.h"
#include "texts.h"

#include <stdlib.h>

enum { LONGEST = 16 << 20, HALF = 65536, TEXTS = 400000, LONG_TEXTS = 400 };

static uint8_t *image, *read_back, *written;
static long answers[3]; /* not read; read, but in another form; in the form */

/* ---- One text ---- */

static int by_meaning(void)
{
    TealsettleRead read = tealsettle_mcs_read(text, text_length, read_back, sizeof text / 2);
    if (read.number != 0)
        return answers[0]++, 0;
    TealsettleText again = tealsettle_mcs_write(read_back, read.length, written, sizeof text);
    int same = again.number == 0 && again.length == text_length && memcmp(written, text, text_length) == 0;
    return answers[1 + same]++, same;
}

static int form_differs(void)
{
    size_t expected = (size_t)by_meaning();
    tried++;
    if (!differs("form", tealsettle_mcs_form(text, text_length), expected) &&
        !differs("reference: form", (size_t)reference_mcs_form(text, text_length), expected))
        return 0;
    printf("%.*s\n", (int)min(text_length, 2000), (char *)text);
    return 1;
}

/* The same, of a text of which it is said whether it is in the form. */
static int said_differs(const char *what, size_t expected)
{
    return differs(what, tealsettle_mcs_form(text, text_length), expected) || form_differs();
}

/* ---- Short texts, line by line ---- */

#define HALF_0 ":020000040000FA\n"
#define HALF_1 ":020000040001F9\n"
#define ROW_0 ":10000000000102030405060708090A0B0C0D0E0F78\n"
#define ROW_1 ":10001000101112131415161718191A1B1C1D1E1F68\n"
#define LAST ":0100100010DF\n"
#define END ":00000001FF\n"

static const char *const in_form[] = {
    HALF_0 ":01000000AA55\n" END,
    HALF_0 ":0F000000000102030405060708090A0B0C0D0E88\n" END,
    HALF_0 ROW_0 END,
    HALF_0 ROW_0 LAST END,
    HALF_0 ROW_0 ROW_1 END,
};

typedef struct {
    const char *what, *text;
} Odd;

static const Odd odd[] = {
    /* MCS text, but in another form */
    {"CR LF", ":020000040000FA\r\n:01000000AA55\r\n:00000001FF\r\n"},
    {"CR LF in the first line", ":020000040000FA\r\n" ROW_0 END},
    {"CR LF in the last line", HALF_0 ROW_0 ":00000001FF\r\n"},
    {"no type 04 at 0", ROW_0 LAST END},
    {"type 04 twice", HALF_0 HALF_0 ROW_0 LAST END},
    {"type 04 of another half, and then of its own", HALF_1 HALF_0 ROW_0 LAST END},
    {"type 04 within a half", HALF_0 ROW_0 HALF_0 LAST END},
    {"type 04 before the end", HALF_0 ROW_0 LAST HALF_0 END},
    {"type 04 of the next half before the end", HALF_0 ROW_0 LAST HALF_1 END},
    {"type 04 after the first data", ROW_0 HALF_0 LAST END},
    {"a short record in the middle", HALF_0 ":080000000001020304050607DC\n:0800080008090A0B0C0D0E0F94\n" LAST END},
    {"a short record at the end that is two", HALF_0 ":080000000001020304050607DC\n:0800080008090A0B0C0D0E0F94\n" END},
    {"a record of 17 bytes", HALF_0 ":11000000000102030405060708090A0B0C0D0E0F1067\n" END},
    {"a record of 32 bytes", HALF_0 ":20000000000102030405060708090A0B0C0D0E0F101112131415161718191A1B1C1D1E1FF0\n" END},
    {"no bytes", END},
    {"no bytes, after type 04", HALF_0 END},
    /* no MCS text */
    {"empty", ""},
    {"LF alone", "\n"},
    {"small letters", HALF_0 ":01000000aa55\n" END},
    {"a small letter in the checksum", ":020000040000fA\n:01000000AA55\n" END},
    {"a wrong checksum", HALF_0 ":01000000AA56\n" END},
    {"a data record of no bytes", HALF_0 ROW_0 ":00001000F0\n" END},
    {"only a data record of no bytes", HALF_0 ":0000000000\n" END},
    {"another half at 0", HALF_1 ROW_0 LAST END},
    {"another half at 0, by its high byte", ":020000040100F9\n" ROW_0 LAST END},
    {"another address", HALF_0 ROW_1 END},
    {"another address, by its high byte", HALF_0 ":10010000000102030405060708090A0B0C0D0E0F77\n" END},
    {"the same record twice", HALF_0 ROW_0 ROW_0 END},
    {"a count that is not the line's", HALF_0 ":0F000000000102030405060708090A0B0C0D0E0F79\n" END},
    {"a count that is not the last line's", HALF_0 ROW_0 ":0200100010DE\n" END},
    {"a count that is not the end's", HALF_0 ROW_0 ":01000001FE\n"},
    {"no end record", HALF_0 ROW_0 LAST},
    {"the end record twice", HALF_0 ROW_0 END END},
    {"an end record with an address", HALF_0 ROW_0 ":00000101FE\n"},
    {"a line after the end", HALF_0 ROW_0 END LAST},
    {"LF after the end", HALF_0 ROW_0 END "\n"},
    {"no LF at the end", HALF_0 ROW_0 ":00000001FF"},
    {"CR at the end", HALF_0 ROW_0 ":00000001FF\r"},
    {"no colon", HALF_0 "10000000000102030405060708090A0B0C0D0E0F78\n" END},
    {"an empty line", HALF_0 "\n" ROW_0 END},
    {"a space before a line", HALF_0 " " ROW_0 END},
    {"a record of another type", ":020000021000EC\n" ROW_0 END},
};

static void put_text(const char *characters)
{
    text_length = 0;
    splice(0, 0, characters, strlen(characters));
}

static int try_short(void)
{
    for (size_t i = 0; i < sizeof in_form / sizeof *in_form; i++) {
        put_text(in_form[i]);
        if (said_differs("a text in the form", 1))
            return 1;
    }
    for (size_t i = 0; i < sizeof odd / sizeof *odd; i++) {
        put_text(odd[i].text);
        if (said_differs(odd[i].what, 0))
            return 1;
    }
    return 0;
}

/* ---- Long texts: lines put in and taken out ---- */

/* How long the first lines are, in a text of which all data records but the last have 16 bytes. */
static size_t first_lines(size_t halves, size_t rows)
{
    return 16 * halves + 44 * rows;
}

enum { TYPE_04 = 16, ROW = 44, ROWS = HALF / 16 }; /* the lengths of lines, and how many rows a half has */

static void put_image(size_t n)
{
    size_t length;
    if (reference_mcs_write(image, n, text, sizeof text, &length) != 0)
        exit(1);
    text_length = length;
}

/* The text of an image, with other lines in the place of `gone` bytes at a place. */
static int edited_differs(const char *what, size_t n, size_t at, size_t gone, const char *lines)
{
    put_image(n);
    splice(at, gone, lines, strlen(lines));
    return said_differs(what, 0);
}

/* The last row of the first half as two records. */
static int split_row_differs(void)
{
    put_image(HALF + 1);
    size_t rest = text_length - first_lines(1, ROWS);
    memcpy(written, text + first_lines(1, ROWS), rest);
    text_length = first_lines(1, ROWS - 1);
    put_record(HALF - 16, 0, image + HALF - 16, 8, 0);
    put_record(HALF - 8, 0, image + HALF - 8, 8, 0);
    splice(text_length, 0, written, rest);
    return said_differs("a short record at the end of a half", 0);
}

/* One byte more than an image has, all lines as they would come. */
static int too_long_differs(void)
{
    static const uint8_t half[2] = {1, 0};
    put_image(LONGEST);
    if (said_differs("the longest text", 1))
        return 1;
    text_length -= sizeof END - 1;
    put_record(0, 4, half, 2, 0);
    put_record(0, 0, image, 1, 0);
    put_record(0, 1, image, 0, 0);
    return said_differs("a byte too many", 0);
}

static int try_long(void)
{
    size_t second = first_lines(1, ROWS);
    return edited_differs("type 04 before the end, at 65,536", HALF, second, 0, HALF_1) ||
           edited_differs("no second type 04", HALF + 1, second, TYPE_04, "") ||
           edited_differs("the second type 04 has the first half", HALF + 1, second, TYPE_04, HALF_0) ||
           edited_differs("the second type 04 has the third half", HALF + 1, second, TYPE_04, ":020000040002F8\n") ||
           edited_differs("the second type 04 twice", HALF + 1, second, 0, HALF_1) ||
           edited_differs("the second type 04 a row too soon", HALF + 1, second - ROW, 0, HALF_1) ||
           edited_differs("the second type 04 again, a row later", 2 * HALF, second + TYPE_04 + ROW, 0, HALF_1) ||
           edited_differs("a row is missing", 2 * HALF, second + TYPE_04 + ROW, ROW, "") || split_row_differs() ||
           too_long_differs();
}

/* ---- Random texts ---- */

typedef struct {
    size_t at, length;
} Line;

static Line some_line(void)
{
    size_t at = below(text_length), end = at;
    while (at > 0 && text[at - 1] != '\n')
        at--;
    while (end < text_length && text[end] != '\n')
        end++;
    return (Line){at, min(end + 1, text_length) - at};
}

/* A line goes elsewhere, or stands there too. */
static void move_line(int stays)
{
    Line line = some_line();
    memcpy(written, text + line.at, line.length);
    if (!stays)
        splice(line.at, line.length, "", 0);
    splice(text_length ? some_line().at : 0, 0, written, line.length);
}

/* One change: of a character or of a line. */
static void change_text(void)
{
    if (text_length == 0 || one_in(3)) {
        damage_text();
        return;
    }
    Line line = some_line();
    switch (below(5)) {
    case 0:
        splice(line.at, line.length, "", 0);
        break;
    case 1:
        splice(line.at + line.length - 1, 0, "\r", 1);
        break;
    case 2:
        splice(line.at, 0, one_in(2) ? HALF_0 : HALF_1, TYPE_04);
        break;
    default:
        move_line(one_in(2));
        break;
    }
}

/* Mostly 0; else a bit of two bytes. */
static size_t some_bit(void)
{
    return one_in(60) ? (size_t)1 << below(16) : 0;
}

static void put_half(void)
{
    size_t upper = some_bit();
    uint8_t half[2] = {(uint8_t)(upper >> 8), (uint8_t)upper};
    put_record(some_bit(), 4, half, 2, one_in(60));
}

/* A text whose lines are right by themselves, with this and that which the form has not, or which is not read. */
static void put_loosely(size_t n)
{
    text_length = 0;
    for (size_t at = 0, count; at < n; at += count) {
        count = min(one_in(30) ? 1 + below(255) : 16, n - at);
        if (at == 0 ? !one_in(20) : one_in(40))
            put_half();
        put_record(at ^ some_bit(), 0, image + at, count, one_in(60));
    }
    if (one_in(30))
        put_half();
    put_record(some_bit(), 1, image, 0, one_in(60));
}

static int try_text(void)
{
    if (one_in(3))
        put_loosely(below(120));
    else
        put_image(1 + below(one_in(4) ? 300 : 40));
    for (size_t k = one_in(8) ? 0 : 1 + below(2); k > 0; k--)
        change_text();
    return form_differs();
}

static int try_long_text(void)
{
    put_image(HALF - 40 + below(80));
    if (!one_in(8))
        change_text();
    return form_differs();
}

int main(void)
{
    image = malloc(LONGEST);
    read_back = malloc(sizeof text / 2);
    written = malloc(sizeof text);
    if (!image || !read_back || !written)
        return 1;
    fill_random(image, LONGEST);
    if (try_short() || try_long() || try_often(TEXTS, try_text) || try_often(LONG_TEXTS, try_long_text))
        return 1;
    printf("host test: %ld texts tried for the form, none differs (in the form %ld, in another %ld, not read %ld)\n", tried,
           answers[2], answers[1], answers[0]);
    return 0;
}
