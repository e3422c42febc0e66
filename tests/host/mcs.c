/* tealsettle_mcs_read beside the reference: random texts, good and damaged, short and long, with room and without; and
 * whole files of more than 65,536 bytes as other tools write them, with the answers that the specification gives.
 * Answers and every byte of the buffer are compared. Prints how many were tried. */
#include "compare.h"
#include "texts.h"

enum { TEXTS = 400000, ROOM = 2000, MARK = 0x5A };

/* Texts. */

/* A data record, now and then after one of type 04, and now and then with a wrong address, type, count or line end.
 * Returns the address after it. */
static size_t put_some_record(size_t address, int cr, uint8_t *data)
{
    uint8_t half[2] = {0, (uint8_t)(one_in(8) ? below(3) : 0)};
    size_t count = one_in(60) ? 0 : 1 + below(one_in(10) ? 255 : 20);
    fill_random(data, count);
    if (one_in(20))
        put_record(one_in(10) ? below(300) : 0, 4, half, one_in(10) ? below(3) : 2, cr);
    put_record(address + (one_in(40) ? below(3) : 0), one_in(60) ? below(7) : 0, data, count, one_in(30) ? !cr : cr);
    return address + count;
}

/* A file of a few records, now and then with a wrong end. */
static void make_file(void)
{
    uint8_t data[256] = {MARK}; /* never read uninitialised, also where no record came */
    size_t next = 0, lines = below(6);
    int cr = one_in(2);
    text_length = 0;
    for (size_t i = 0; i < lines; i++)
        next = put_some_record(next, cr, data);
    if (!one_in(12))
        put_record(one_in(50) ? below(3) : 0, 1, data, one_in(50) ? below(2) : 0, cr);
    if (one_in(12))
        text[text_length++] = (uint8_t)below(256);
}

/* Whole files. */

enum { FILE_ROOM = 131072 };

/* An image's length, the bytes in a record, CR LF or LF, a type 04 record at each multiple of 65,536 or at 0
 * only; and the refusal, or 0. */
typedef struct {
    size_t image_length;
    unsigned per_record;
    int cr, each_segment;
    uint32_t number;
    size_t place;
} File;

static const File files[] = {
    /* across 65,536 */
    {70000, 16, 0, 1, 0, 0},
    {70000, 16, 1, 1, 0, 0},
    {70000, 32, 0, 1, 0, 0},
    {70000, 32, 1, 1, 0, 0},
    /* up to a multiple of 65,536, one byte less and one more, and as much as there is room for */
    {65535, 16, 0, 1, 0, 0},
    {65536, 16, 0, 0, 0, 0},
    {65537, 16, 0, 1, 0, 0},
    {FILE_ROOM, 32, 0, 1, 0, 0},
    {FILE_ROOM + 1, 32, 0, 1, TEALSETTLE_REFUSED_NO_ROOM, 0},
    /* a record past a multiple of 65,536 */
    {70000, 48, 0, 1, TEALSETTLE_REFUSED_BAD_ADDRESS, 147436},
    {65537, 255, 0, 1, TEALSETTLE_REFUSED_BAD_ADDRESS, 134170}, /* by one byte */
    /* no type 04 record at 65,536: addresses do not wrap */
    {65552, 16, 0, 0, TEALSETTLE_REFUSED_BAD_ADDRESS, 180240},
    {65552, 16, 1, 0, TEALSETTLE_REFUSED_BAD_ADDRESS, 184337},
};

enum { FILES = sizeof files / sizeof files[0] };

static void put_image(const uint8_t *image, const File *file)
{
    text_length = 0;
    for (size_t i = 0; i < file->image_length; i += file->per_record) {
        size_t left = file->image_length - i;
        uint8_t half[2] = {(uint8_t)(i >> 24), (uint8_t)(i >> 16)};
        if (i % 65536 == 0 && (i == 0 || file->each_segment))
            put_record(0, 4, half, 2, file->cr);
        put_record(i, 0, image + i, min(left, file->per_record), file->cr);
    }
    put_record(0, 1, image, 0, file->cr);
}

/* 0 where a file is answered otherwise than it should be, by the library or by the reference. */
static int file_answered(const File *file)
{
    static uint8_t image[FILE_ROOM + 1], ours[FILE_ROOM], theirs[FILE_ROOM], expected[FILE_ROOM];
    size_t read = file->number ? 0 : file->image_length;
    for (size_t i = 0; i < sizeof image; i++)
        image[i] = (uint8_t)(i % 251);
    put_image(image, file);
    memset(ours, MARK, sizeof ours);
    memset(theirs, MARK, sizeof theirs);
    memset(expected, MARK, sizeof expected);
    memcpy(expected, image, read);
    TealsettleRead r = tealsettle_mcs_read(text, text_length, ours, sizeof ours);
    ReferenceRead m = reference_mcs_read(text, text_length, theirs, sizeof theirs);
    return r.number == file->number && r.place == file->place && r.length == read && m.number == r.number && m.place == r.place &&
           m.length == r.length && memcmp(ours, expected, sizeof ours) == 0 && memcmp(theirs, expected, sizeof theirs) == 0;
}

static long answers[NUMBERS];

static int text_differs(size_t room)
{
    static uint8_t ours[ROOM + 8], theirs[ROOM + 8];
    memset(ours, MARK, sizeof ours);
    memset(theirs, MARK, sizeof theirs);
    TealsettleRead r = tealsettle_mcs_read(text, text_length, ours, room);
    ReferenceRead m = reference_mcs_read(text, text_length, theirs, room);
    tried++, answers[m.number]++;
    return differs("number", r.number, m.number) || differs("place", r.place, m.place) || differs("length", r.length, m.length) ||
           bytes_differ("the buffer's bytes", ours, theirs, sizeof ours);
}

static int try_text(void)
{
    make_file();
    for (size_t k = one_in(3) ? 1 + below(2) : 0; k > 0; k--)
        damage_text();
    if (!text_differs(one_in(8) ? below(60) : ROOM))
        return 0;
    printf("%.*s\n", (int)text_length, (char *)text);
    return 1;
}

static int try_files(void)
{
    for (int i = 0; i < FILES; i++)
        if (!file_answered(&files[i])) {
            printf("file %d of %zu bytes is answered otherwise\n", i, files[i].image_length);
            return 1;
        }
    return 0;
}

int main(void)
{
    if (try_often(TEXTS, try_text) || try_files())
        return 1;
    printf("host test: %d files and %ld MCS texts tried, none differs (read %ld", FILES, tried, answers[0]);
    print_refusals(answers);
    printf(")\n");
    return 0;
}
