/* A null pointer with length 0: every call that is lent bytes answers as it does for a pointer to none, and neither reads
 * nor writes through it. Each slice of each call is tried. */
#include "../../include/tealsettle.h"

#include <stdio.h>
#include <string.h>

static const uint8_t image[12] = {0xAA, 0x99, 0x55, 0x66, 0x30, 0x00, 0x80, 0x01, 0x00, 0x00, 0x00, 0x0D};
static const uint8_t end_record[] = ":00000001FF\n";
static uint8_t chip[16384], some_byte;
static int calls, wrong;

static void expect(const char *call, size_t ours, size_t expected)
{
    calls++;
    if (ours == expected)
        return;
    printf("%s with a null pointer: %zu, expected is %zu\n", call, ours, expected);
    wrong = 1;
}

/* The first state of a run on the chip. */
static TealsettleState first_state(void)
{
    return tealsettle_start(TEALSETTLE_SPI, sizeof chip, 12288, 4096, image, sizeof image).state;
}

static void try_files(void)
{
    expect("file_form", tealsettle_file_form(NULL, 0).form, tealsettle_file_form(&some_byte, 0).form);
    expect("mcs_read, text", tealsettle_mcs_read(NULL, 0, &some_byte, 1).number, TEALSETTLE_REFUSED_BAD_END);
    TealsettleRead none = tealsettle_mcs_read(end_record, sizeof end_record - 1, NULL, 0);
    expect("mcs_read, out", none.number, 0);
    expect("mcs_read, out", none.length, 0);
    expect("mcs_write, image", tealsettle_mcs_write(NULL, 0, &some_byte, 1).number, TEALSETTLE_REFUSED_BAD_IMAGE_LENGTH);
    expect("mcs_write, both", tealsettle_mcs_write(NULL, 0, NULL, 0).number, TEALSETTLE_REFUSED_BAD_IMAGE_LENGTH);
    expect("mcs_write, out", tealsettle_mcs_write(image, sizeof image, NULL, 0).number, TEALSETTLE_REFUSED_NO_ROOM);
    expect("mcs_form", tealsettle_mcs_form(NULL, 0), 0);
}

static void try_chips(void)
{
    TealsettleCursor at_end = {0, 0, 0, 0}, before_some = {0, 0, 0, 1};
    expect("boot", tealsettle_boot(TEALSETTLE_SPI, NULL, 0).number, TEALSETTLE_REFUSED_BAD_CHIP_LENGTH);
    expect("write", tealsettle_write(TEALSETTLE_SPI, NULL, 0, 0).number, TEALSETTLE_REFUSED_BAD_CHIP_LENGTH);
    expect("writes", tealsettle_writes(TEALSETTLE_SPI, NULL, 0).number, TEALSETTLE_REFUSED_BAD_CHIP_LENGTH);
    expect("switch", tealsettle_switch(TEALSETTLE_SPI, NULL, 0).number, TEALSETTLE_REFUSED_BAD_CHIP_LENGTH);
    expect("update_place", tealsettle_update_place(TEALSETTLE_SPI, NULL, 0).number, TEALSETTLE_REFUSED_BAD_CHIP_LENGTH);
    expect("image_check", tealsettle_image_check(TEALSETTLE_SPI, NULL, 0).number, TEALSETTLE_REFUSED_BAD_IMAGE_LENGTH);
    expect("image_writes", tealsettle_image_writes(TEALSETTLE_SPI, NULL, 0).number, TEALSETTLE_REFUSED_BAD_IMAGE_LENGTH);
    expect("next_write, at the end", tealsettle_list_next(TEALSETTLE_SPI, at_end, NULL, 0).found, 0);
    expect("next_write, of no bytes", tealsettle_list_next(TEALSETTLE_SPI, before_some, NULL, 0).found, 0);
    expect("report, chip", tealsettle_report(TEALSETTLE_SPI, NULL, 0, &some_byte, 1).number, TEALSETTLE_REFUSED_BAD_CHIP_LENGTH);
    expect("report, out", tealsettle_report(TEALSETTLE_SPI, chip, sizeof chip, NULL, 0).number, TEALSETTLE_REFUSED_NO_ROOM);
}

static void try_builds(void)
{
    expect("heaviest_image", tealsettle_heaviest_image(12, NULL, 0).number, TEALSETTLE_REFUSED_NO_ROOM);
    expect("heaviest_image, of no length", tealsettle_heaviest_image(11, NULL, 0).number, TEALSETTLE_REFUSED_BAD_HEAVIEST_LENGTH);
    expect("build, golden", tealsettle_build(TEALSETTLE_SPI, sizeof chip, 12288, 4096, NULL, 0, chip, sizeof chip).number,
           TEALSETTLE_REFUSED_BAD_IMAGE_LENGTH);
    expect("build, out", tealsettle_build(TEALSETTLE_SPI, sizeof chip, 12288, 4096, image, sizeof image, NULL, 0).number,
           TEALSETTLE_REFUSED_NO_ROOM);
}

static void try_runs(void)
{
    TealsettleState first = first_state();
    TealsettleReply next = tealsettle_run_done(TEALSETTLE_SPI, first, image, sizeof image);
    expect("start", tealsettle_start(TEALSETTLE_SPI, sizeof chip, 12288, 4096, NULL, 0).number, TEALSETTLE_REFUSED_BAD_IMAGE_LENGTH);
    expect("order", tealsettle_run_order(TEALSETTLE_SPI, first, NULL, 0).number, TEALSETTLE_REFUSED_BAD_STATE);
    expect("reply, image", tealsettle_run_done(TEALSETTLE_SPI, first, NULL, 0).number, TEALSETTLE_REFUSED_BAD_STATE);
    expect("reply, done", next.number, 0);
    expect("reply, done", next.state.phase, 1);
    expect("reply, read", tealsettle_run_read(TEALSETTLE_SPI, next.state, image, sizeof image, NULL, 0).number,
           TEALSETTLE_REFUSED_BAD_REPLY);
}

/* Order 1 is an erase and wants damage bytes, order 2 is a look and wants none. */
static void try_benches(void)
{
    expect("cut_run, chip", tealsettle_cut_run(TEALSETTLE_SPI, NULL, 0, 12288, 4096, image, sizeof image, 0, NULL, 0).number,
           TEALSETTLE_REFUSED_BAD_CHIP_LENGTH);
    expect("cut_run, image", tealsettle_cut_run(TEALSETTLE_SPI, chip, sizeof chip, 12288, 4096, NULL, 0, 0, NULL, 0).number,
           TEALSETTLE_REFUSED_BAD_IMAGE_LENGTH);
    expect("cut_run, an erase",
           tealsettle_cut_run(TEALSETTLE_SPI, chip, sizeof chip, 12288, 4096, image, sizeof image, 0, NULL, 0).number,
           TEALSETTLE_REFUSED_BAD_DAMAGE);
    expect("cut_run, a look",
           tealsettle_cut_run(TEALSETTLE_SPI, chip, sizeof chip, 12288, 4096, image, sizeof image, 1, NULL, 0).state.phase, 1);
}

int main(void)
{
    memset(chip, 0xFF, sizeof chip);
    try_files();
    try_chips();
    try_builds();
    try_runs();
    try_benches();
    if (!wrong)
        printf("host test: %d answers to null pointers with length 0 are those to no bytes\n", calls);
    return wrong;
}
