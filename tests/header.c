/* A host in the words of C99, C11 and C++17 alike, over the functions of include/tealsettle.h that take a state or a cursor
 * itself: the loop of the header on a chip in memory, and the writes that the chip then loads, one by one. */
#include "../include/tealsettle.h"

#include <stdio.h>
#include <string.h>

enum { LENGTH = 16384, UPDATE = 12288, AREA = 4096 };

static const uint8_t image[12] = {0xAA, 0x99, 0x55, 0x66, 0x30, 0x00, 0x80, 0x01, 0x00, 0x00, 0x00, 0x0D};
static uint8_t chip[LENGTH];
static size_t orders; /* carried out so far */

static void carry_out(const TealsettleOrder *order)
{
    if (order->operation == TEALSETTLE_ERASE)
        memset(chip + order->address, 0xFF, order->length);
    if (order->operation == TEALSETTLE_PROGRAM)
        for (size_t i = 0; i < order->length; i++)
            chip[order->address + i] = (uint8_t)(chip[order->address + i] & order->bytes[i]);
    orders++;
}

/* The order's number is as many as were carried out, and one. */
static int is_counted(TealsettleState state)
{
    TealsettleProgress at = tealsettle_run_progress(TEALSETTLE_SPI, state);
    return at.number == 0 && at.order == orders + 1 && at.orders == 37;
}

static uint32_t run(void)
{
    TealsettleStart start = tealsettle_start(TEALSETTLE_SPI, LENGTH, UPDATE, AREA, image, sizeof image);
    TealsettleState state = start.state;
    uint32_t number = start.number;
    while (number == 0 && !tealsettle_run_finished(TEALSETTLE_SPI, state).ended) {
        TealsettleOrder order = tealsettle_run_order(TEALSETTLE_SPI, state, image, sizeof image);
        if (!is_counted(state))
            return TEALSETTLE_ABANDONED;
        carry_out(&order);
        TealsettleReply reply =
            order.operation == TEALSETTLE_LOOK
                ? tealsettle_run_read(TEALSETTLE_SPI, state, image, sizeof image, chip + order.address, order.length)
                : tealsettle_run_done(TEALSETTLE_SPI, state, image, sizeof image);
        number = reply.number;
        state = reply.state;
    }
    return number;
}

static size_t count_writes(void)
{
    size_t writes = 0;
    TealsettleListing list = tealsettle_writes(TEALSETTLE_SPI, chip, sizeof chip);
    TealsettleStep step = tealsettle_list_next(TEALSETTLE_SPI, list.cursor, chip, sizeof chip);
    for (; step.found; step = tealsettle_list_next(TEALSETTLE_SPI, step.cursor, chip, sizeof chip))
        writes++;
    return writes;
}

/* An image as MCS text, and back. The buffer has just room for the text. */
static int is_text_of_image(void)
{
    uint8_t text[64], back[sizeof image];
    TealsettleText length = tealsettle_mcs_length(sizeof image);
    TealsettleText written = tealsettle_mcs_write(image, sizeof image, text, sizeof text);
    TealsettleRead read = tealsettle_mcs_read(text, written.length, back, sizeof back);
    return length.number == 0 && written.number == 0 && length.length == sizeof text && written.length == sizeof text &&
           tealsettle_mcs_form(text, written.length) == 1 && read.number == 0 && read.length == sizeof image &&
           memcmp(back, image, sizeof image) == 0;
}

/* The three ways to say the version are one. */
static int is_one_version(void)
{
    char text[32];
    uint32_t number = tealsettle_version();
    snprintf(text, sizeof text, "%u.%u.%u", (unsigned)(number / 10000), (unsigned)(number / 100 % 100), (unsigned)(number % 100));
    return number == TEALSETTLE_VERSION_NUMBER && strcmp(text, TEALSETTLE_VERSION) == 0;
}

int main(void)
{
    TealsettleBuild built = tealsettle_build(TEALSETTLE_SPI, LENGTH, UPDATE, AREA, image, sizeof image, chip, sizeof chip);
    uint32_t number = run();
    TealsettleBoot boot = tealsettle_boot(TEALSETTLE_SPI, chip, sizeof chip);
    int good = built.number == 0 && number == 0 && orders == 37 && tealsettle_loads(boot) && boot.jumped &&
               count_writes() == boot.writes && tealsettle_switch(TEALSETTLE_SPI, chip, sizeof chip).on && is_one_version() &&
               is_text_of_image();
    TealsettleListing list = tealsettle_writes(TEALSETTLE_SPI, chip, sizeof chip);
    good = good && tealsettle_list_next(1, list.cursor, chip, sizeof chip).number == TEALSETTLE_REFUSED_BAD_CHIP_LENGTH;
    TealsettleCounts programmed = tealsettle_after_program(0xFFFFFFFFu, 0xAA995566u), erased = tealsettle_after_erase(0);
    good = good && programmed.words == 65536 && programmed.on == 1 && erased.words == UINT64_C(4294967296) && erased.on == 1;
    TealsettleMost most = tealsettle_most_writes(sizeof chip), heaviest = tealsettle_heaviest_image(sizeof chip, chip, sizeof chip);
    TealsettleImage loaded = tealsettle_image_check(TEALSETTLE_SPI, chip, sizeof chip);
    good = good && most.number == 0 && most.writes == sizeof chip / 4 - 3 && heaviest.writes == most.writes;
    good = good && loaded.number == 0 && loaded.writes == most.writes;
    memset(chip, 0, sizeof chip);
    boot = tealsettle_boot(TEALSETTLE_SPI, chip, sizeof chip);
    good = good && boot.number == 0 && !tealsettle_loads(boot) && !tealsettle_loads(tealsettle_boot(1, chip, sizeof chip));
    if (!good)
        printf("a host does not get the answers that the header promises\n");
    return !good;
}
