/* A chip's layout, and what it loads. */
#include "tool.h"

int read_update_place(const File *chip, size_t *update)
{
    TealsettlePlace answer = tealsettle_update_place(TEALSETTLE_SPI, chip->bytes, chip->length);
    *update = answer.update;
    if (answer.number != 0)
        return refused(chip->name, answer.number, answer.place);
    if (!answer.found)
        return refused_in_words(chip->name, "segment 1 (from 4096 on) does not hold the words that say where the update area "
                                            "begins: is this the whole dump of a printer's chip?");
    return DONE;
}

size_t read_area(const Arguments *arguments, size_t length, size_t update)
{
    size_t rest = update < length ? length - update : 0; /* with 0 the place is refused first */
    return arguments->area.given ? arguments->area.value : rest;
}

int refused_run(const char *chip, const File *image, uint32_t number, size_t place)
{
    switch (number) {
    case TEALSETTLE_REFUSED_BAD_IMAGE_LENGTH:
    case TEALSETTLE_REFUSED_IMAGE_FAULT:
    case TEALSETTLE_REFUSED_IMAGE_JUMPS:
        return refused_image(image, number, place);
    default:
        return refused(chip, number, place);
    }
}

void say_stuck(const File *chip, size_t place)
{
    const char *why = register_words(chip, place);
    if (why)
        fprintf(stderr, "tealsettle: %s: stuck at %zu: %s\n", chip->name, place, why);
}

int say_boot(FILE *to, const File *chip)
{
    TealsettleBoot boot = tealsettle_boot(TEALSETTLE_SPI, chip->bytes, chip->length);
    if (boot.number != 0)
        return refused(chip->name, boot.number, boot.place);
    if (!tealsettle_loads(boot)) {
        fprintf(to, "loads nothing: stuck at %zu\n", boot.place);
        say_stuck(chip, boot.place);
        return ANSWER_NO;
    }
    fprintf(to, "loads %s: sync %zu, end %zu, writes %zu\n", boot.jumped ? "update" : "golden", boot.sync, boot.end,
            boot.writes);
    return DONE;
}
