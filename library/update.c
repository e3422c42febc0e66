/* A whole update over the functions of a flash's driver: the loop of include/tealsettle.h, from the start of a run to its
 * end. All that is decided about the chip is decided by the proved calls; here their orders are handed to the driver, once
 * each, and where the driver fails the run is abandoned, which is to the chip as if its power had been cut there. */
#include "../include/tealsettle.h"

#include <string.h>

enum { SHORTEST_CHIP = 16384 };

/* A run that is under way. */
typedef struct {
    const TealsettleFlash *flash;
    const uint8_t *image;
    size_t image_length;
    TealsettleState state;
    TealsettleUpdate result; /* so far: the run goes on while its number is 0 */
} Run;

static void abandon(Run *run, size_t address, int driver)
{
    run->result.number = TEALSETTLE_ABANDONED;
    run->result.place = address;
    run->result.driver = driver;
}

/* The update place that segment 1 names is the flash's, or the run ends here. tealsettle_update_place reads the beginning of
 * segment 1 and nothing else of a chip, so it is given the shortest chip, with that page in it. */
static void check_place(Run *run)
{
    uint8_t chip[SHORTEST_CHIP];
    memset(chip, 0xFF, sizeof chip);
    int read = run->flash->read(run->flash->context, TEALSETTLE_SEGMENT, chip + TEALSETTLE_SEGMENT, TEALSETTLE_PAGE);
    TealsettlePlace named = tealsettle_update_place(run->flash->kind, chip, sizeof chip);
    if (read != (int)TEALSETTLE_PAGE) {
        abandon(run, TEALSETTLE_SEGMENT, read);
    } else if (!named.found || named.update != run->flash->update) {
        run->result.number = TEALSETTLE_OTHER_PLACE;
        run->result.place = TEALSETTLE_SEGMENT;
    }
}

/* Tells the host which order comes next. Not 0: the host wants the run abandoned. */
static int tell(Run *run, const TealsettleOrder *order)
{
    TealsettleProgress at = tealsettle_run_progress(run->flash->kind, run->state);
    TealsettleAhead ahead = {at.order, at.orders, run->state.phase, order->operation, order->address, order->length};
    run->result.order = at.order;
    run->result.orders = at.orders;
    return run->flash->progress ? run->flash->progress(run->flash->context, &ahead) : 0;
}

/* Erases or programs. Not 0: the driver failed. */
static int change(const TealsettleFlash *flash, const TealsettleOrder *order)
{
    if (order->operation == TEALSETTLE_ERASE)
        return flash->erase(flash->context, order->address, order->length);
    return flash->program(flash->context, order->address, order->bytes, order->length);
}

static void take_reply(Run *run, TealsettleReply reply)
{
    run->result.number = reply.number;
    run->result.place = reply.place;
    run->state = reply.state;
}

/* A look: only bytes that were all read are a reply. They are zeros at first: what a read has not put there does not look
 * erased, so a driver that never reads is stopped at its first look. */
static void look(Run *run, const TealsettleOrder *order)
{
    uint8_t seen[TEALSETTLE_PAGE] = {0};
    int read = run->flash->read(run->flash->context, order->address, seen, order->length);
    if (read < 0 || (size_t)read != order->length)
        abandon(run, order->address, read);
    else
        take_reply(run, tealsettle_run_read(run->flash->kind, run->state, run->image, run->image_length, seen,
                                            order->length));
}

static void erase_or_program(Run *run, const TealsettleOrder *order)
{
    int failed = change(run->flash, order);
    if (failed)
        abandon(run, order->address, failed);
    else
        take_reply(run, tealsettle_run_done(run->flash->kind, run->state, run->image, run->image_length));
}

/* Carries out the order of the run's state, once. */
static void carry_out(Run *run)
{
    TealsettleOrder order = tealsettle_run_order(run->flash->kind, run->state, run->image, run->image_length);
    int unwanted = tell(run, &order);
    if (unwanted)
        abandon(run, order.address, unwanted);
    else if (order.operation == TEALSETTLE_LOOK)
        look(run, &order);
    else
        erase_or_program(run, &order);
}

/* A run on a flash that has all its functions. Each order that is replied to brings it one further on, so it has at most as
 * many turns as orders. The state is always the one handed back last, and fits its image: no order and no reply is refused. */
static void run_orders(Run *run)
{
    while (run->result.number == 0 && !tealsettle_run_finished(run->flash->kind, run->state).ended)
        carry_out(run);
}

TealsettleUpdate tealsettle_update(const TealsettleFlash *flash, const uint8_t *image, size_t image_length)
{
    Run run = {.flash = flash, .image = image, .image_length = image_length};
    if (!flash || !flash->erase || !flash->program || !flash->read) {
        abandon(&run, 0, 0);
        return run.result;
    }
    TealsettleStart start = tealsettle_start(flash->kind, flash->length, flash->update, flash->area, image, image_length);
    run.state = start.state;
    run.result.number = start.number;
    run.result.place = start.place;
    if (start.number == 0)
        check_place(&run);
    run_orders(&run);
    return run.result;
}
