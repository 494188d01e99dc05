/* Each field of each struct, and each kind of outcome, average and reply: that the library reads and writes it where the header has it. */
#include <stdio.h>
#include <string.h>

#include "tumghavi.h"

typedef char opening_size[sizeof(tumghavi_opening) == 136 ? 1 : -1];
typedef char message_size[sizeof(tumghavi_message) == 40 ? 1 : -1];
typedef char outcome_size[sizeof(tumghavi_outcome) == 32 ? 1 : -1];
typedef char fill_size[sizeof(tumghavi_fill) == 88 ? 1 : -1];
typedef char average_size[sizeof(tumghavi_average_price) == 24 ? 1 : -1];
typedef char reply_size[sizeof(tumghavi_reply) == 16 ? 1 : -1];

#define EXPECT(holds) expect((holds), #holds, __LINE__)

static int failures = 0;

static void expect(int holds, const char *what, int line)
{
    if (!holds) {
        printf("line %d: %s\n", line, what);
        failures++;
    }
}

static tumghavi_fill fills[TUMGHAVI_LEAST_PLACES];

static tumghavi_opening good_opening(void)
{
    tumghavi_opening opening;
    memset(&opening, 0, sizeof opening);
    memcpy(opening.legs[0].symbol, "XYZ   260116C00020000", 21);
    memcpy(opening.legs[1].symbol, "XYZ   260116C00025000", 21);
    opening.legs[0].side = TUMGHAVI_BUY;
    opening.legs[1].side = TUMGHAVI_SELL;
    opening.legs[0].ratio = opening.legs[1].ratio = 1;
    opening.legs[0].mpv = opening.legs[1].mpv = 5;
    opening.leg_count = 2;
    opening.first_number = UINT64_C(1000000000000000) - 100;
    opening.opening_time = 7;
    opening.minimum = 999999;
    opening.interval = 1000;
    opening.distance = 999;
    opening.most_legs = 4;
    opening.amounts[0] = opening.amounts[1] = opening.amounts[2] = 999;
    return opening;
}

/* The number that an opening gets: where it is 0 nothing is left of what two copies held, else both are as they were. */
static uint32_t number_of(tumghavi_opening opening)
{
    tumghavi_copy copy, other, before;
    uint32_t number;
    memset(&copy, 7, sizeof copy);
    memset(&other, 9, sizeof other);
    before = copy;
    number = tumghavi_open(&copy, &opening);
    EXPECT(tumghavi_open(&other, &opening) == number);
    EXPECT((memcmp(&copy, &other, sizeof copy) == 0) == (number == 0));
    EXPECT((memcmp(&copy, &before, sizeof copy) == 0) == (number != 0));
    return number;
}

/* An opening with one field changed is refused with a number. */
#define WITH(change, number)                   \
    do {                                       \
        tumghavi_opening opening = good;       \
        opening.change;                        \
        EXPECT(number_of(opening) == (number)); \
    } while (0)

/* The greatest value of each setting is accepted, one more is not, and the bounds differ from field to field. */
static void openings(void)
{
    const tumghavi_opening good = good_opening();
    EXPECT(number_of(good) == 0);
    WITH(leg_count = 5, 1);
    WITH(legs[1].symbol[20] = 'x', 2);
    WITH(legs[0].symbol[11] = '7', 3);
    WITH(legs[1] = good.legs[0], 4);
    WITH(legs[1].ratio = 4, 5);
    WITH(legs[0].side = 0, 6);
    WITH(legs[1].mpv = 2, 6);
    WITH(interval++, 7);
    WITH(distance++, 7);
    WITH(most_legs++, 7);
    WITH(minimum++, 7);
    WITH(first_number += 101, 7);
    WITH(opening_time = UINT64_C(1000000000000001), 7);
    WITH(amounts[0]++, 7);
    WITH(amounts[1]++, 7);
    WITH(amounts[2]++, 7);
}

static int is_refused(tumghavi_outcome outcome, uint32_t number)
{
    return outcome.kind == TUMGHAVI_REFUSED && outcome.number == number && outcome.cause == 0 && outcome.fills == 0 && outcome.units == 0 && outcome.deadline == 0;
}

static int is_noted(tumghavi_outcome outcome)
{
    return outcome.kind == TUMGHAVI_NOTED && outcome.cause == 0 && outcome.number == 0 && outcome.fills == 0 && outcome.units == 0 && outcome.deadline == 0;
}

static tumghavi_message quote(uint8_t leg, int32_t bid, int32_t ask)
{
    tumghavi_message message;
    memset(&message, 0, sizeof message);
    message.kind = TUMGHAVI_LOCAL;
    message.wish_or_leg = leg;
    message.units = message.ask_size = 50;
    message.price = bid;
    message.ask = ask;
    message.time = 7;
    return message;
}

static tumghavi_message entry(uint8_t kind, uint32_t id, uint8_t side, uint32_t units, int32_t price)
{
    tumghavi_message message;
    memset(&message, 0, sizeof message);
    message.kind = kind;
    message.side = side;
    message.account = TUMGHAVI_OTHER;
    message.wish_or_leg = 1;
    message.id = id;
    message.participant = 3;
    message.units = units;
    message.price = price;
    message.time = 7;
    return message;
}

static int is_average(tumghavi_average_price average, int64_t quotient, uint64_t remainder)
{
    return average.kind == TUMGHAVI_EXACT_AVERAGE && average.quotient == quotient && average.remainder == remainder;
}

static int is_none(tumghavi_average_price average)
{
    return average.kind == TUMGHAVI_NO_AVERAGE && average.quotient == 0 && average.remainder == 0;
}

/* Whether a record has the prices of two legs, read in both ways. */
static int has_prices(const tumghavi_fill *fill, uint64_t first, uint64_t second)
{
    const int read = tumghavi_fill_leg_price(fill, 0) == first && tumghavi_fill_leg_price(fill, 1) == second;
    return tumghavi_fill_leg_count(fill) == 2 && read && fill->leg_prices[0] == first && fill->leg_prices[1] == second;
}

static int has_no_prices(const tumghavi_fill *fill)
{
    return tumghavi_fill_leg_count(fill) == 0 && fill->legs == 0 && tumghavi_fill_leg_price(fill, 0) == 0;
}

static tumghavi_outcome send(tumghavi_copy *copy, tumghavi_message message)
{
    return tumghavi_step(copy, &message, fills, TUMGHAVI_LEAST_PLACES);
}

/* An auction that is begun, joined, answered and ended by its deadline: every number of every outcome. */
static void outcomes(void)
{
    tumghavi_opening opening = good_opening();
    tumghavi_message clock;
    tumghavi_outcome outcome;
    tumghavi_copy copy, other;
    tumghavi_open_counts counts;
    uint8_t bytes[TUMGHAVI_COPY_SIZE];
    opening.first_number = 1;
    opening.minimum = 1;
    EXPECT(tumghavi_open(&copy, &opening) == 0);
    EXPECT(is_noted(send(&copy, quote(0, 220, 240))));
    EXPECT(is_noted(send(&copy, quote(1, 110, 120))));
    outcome = send(&copy, entry(TUMGHAVI_ORDER, 11, TUMGHAVI_BUY, 40, 125));
    EXPECT(outcome.kind == TUMGHAVI_BEGUN && outcome.deadline == 1007 && outcome.units == 0 && outcome.fills == 0);
    outcome = send(&copy, entry(TUMGHAVI_ORDER, 12, TUMGHAVI_BUY, 20, 125));
    EXPECT(outcome.kind == TUMGHAVI_JOINED && outcome.units == 60 && outcome.deadline == 0 && outcome.fills == 0);
    outcome = send(&copy, entry(TUMGHAVI_ORDER, 13, TUMGHAVI_SELL, 5, 140));
    EXPECT(outcome.kind == TUMGHAVI_PLACED && outcome.units == 5 && outcome.fills == 0 && outcome.deadline == 0);
    EXPECT(is_noted(send(&copy, entry(TUMGHAVI_RESPONSE, 21, TUMGHAVI_SELL, 30, -120))));
    EXPECT(is_refused(send(&copy, entry(TUMGHAVI_RESPONSE, 21, TUMGHAVI_SELL, 30, 120)), 42));
    counts = tumghavi_counts(&copy);
    EXPECT(counts.orders == 3 && counts.responses == 1);

    tumghavi_save(&copy, bytes);
    memset(&other, 7, sizeof other);
    tumghavi_load(&other, bytes);
    EXPECT(memcmp(&other, &copy, sizeof copy) == 0);

    clock = entry(TUMGHAVI_CLOCK, 0, 0, 0, 0);
    clock.time = 1007;
    EXPECT(is_refused(tumghavi_step(&copy, &clock, fills, TUMGHAVI_LEAST_PLACES - 1), 10));
    EXPECT(memcmp(&other, &copy, sizeof copy) == 0);
    outcome = send(&copy, clock);
    EXPECT(outcome.kind == TUMGHAVI_ENDED && outcome.cause == TUMGHAVI_BY_TIME && outcome.fills == 1 && outcome.units == 0 && outcome.deadline == 0);
    EXPECT(fills[0].number == 7 && fills[0].order == 11 && tumghavi_fill_rank(&fills[0]) == 'N' && fills[0].units == 30);
    EXPECT(!tumghavi_fill_is_legs(&fills[0]) && tumghavi_fill_contra(&fills[0]) == 21 && tumghavi_fill_price(&fills[0]) == -120);
    EXPECT(has_no_prices(&fills[0]));
    EXPECT(is_average(tumghavi_average(fills, outcome.fills, 11), -120, 0));
    EXPECT(is_none(tumghavi_average(fills, outcome.fills, 21)));
}

/* An auction whose orders are reduced and then cancelled, which ends it: a seller that was held goes live and sells to the legs. */
static void cancels(void)
{
    tumghavi_opening opening = good_opening();
    tumghavi_message reduce;
    tumghavi_outcome outcome;
    tumghavi_copy copy;
    tumghavi_open_counts counts;
    opening.first_number = 1;
    opening.minimum = 1;
    EXPECT(tumghavi_open(&copy, &opening) == 0);
    EXPECT(is_noted(send(&copy, quote(0, 220, 240))));
    EXPECT(is_noted(send(&copy, quote(1, 110, 120))));
    EXPECT(send(&copy, entry(TUMGHAVI_ORDER, 11, TUMGHAVI_BUY, 40, 125)).kind == TUMGHAVI_BEGUN);
    EXPECT(is_refused(send(&copy, entry(TUMGHAVI_REDUCE, 12, 0, 25, 0)), 50));
    EXPECT(is_refused(send(&copy, entry(TUMGHAVI_REDUCE, 11, 0, 0, 0)), 71));
    EXPECT(is_refused(send(&copy, entry(TUMGHAVI_REDUCE, 11, 0, 40, 0)), 71));
    reduce = entry(TUMGHAVI_REDUCE, 11, 0, 25, 0);
    reduce.participant = 4;
    EXPECT(is_refused(send(&copy, reduce), 50));
    reduce.participant = 3;
    EXPECT(is_noted(send(&copy, reduce)));
    EXPECT(is_refused(send(&copy, reduce), 71));
    outcome = send(&copy, entry(TUMGHAVI_ORDER, 12, TUMGHAVI_BUY, 20, 125));
    EXPECT(outcome.kind == TUMGHAVI_JOINED && outcome.units == 45);
    EXPECT(send(&copy, entry(TUMGHAVI_ORDER, 13, TUMGHAVI_SELL, 5, 90)).kind == TUMGHAVI_PLACED);
    EXPECT(is_noted(send(&copy, entry(TUMGHAVI_RESPONSE, 21, TUMGHAVI_SELL, 30, 120))));
    EXPECT(is_noted(send(&copy, entry(TUMGHAVI_CANCEL, 11, 0, 0, 0))));
    counts = tumghavi_counts(&copy);
    EXPECT(counts.orders == 2 && counts.responses == 1);
    outcome = send(&copy, entry(TUMGHAVI_CANCEL, 12, 0, 0, 0));
    EXPECT(outcome.kind == TUMGHAVI_ENDED && outcome.cause == TUMGHAVI_BY_CANCEL && outcome.number == 0 && outcome.fills == 1 && outcome.units == 0 && outcome.deadline == 0);
    EXPECT(fills[0].number == 9 && fills[0].order == 13 && tumghavi_fill_rank(&fills[0]) == 'L' && fills[0].units == 5);
    EXPECT(tumghavi_fill_is_legs(&fills[0]) && tumghavi_fill_price(&fills[0]) == 100 && has_prices(&fills[0], 220, 120));
    counts = tumghavi_counts(&copy);
    EXPECT(counts.orders == 0 && counts.responses == 0);
}

static tumghavi_outcome place(tumghavi_copy *copy, uint32_t id, uint8_t side, uint32_t units, int32_t price)
{
    tumghavi_message message = entry(TUMGHAVI_ORDER, id, side, units, price);
    message.wish_or_leg = 0;
    return send(copy, message);
}

/* Sellers take a buyer inside the legs, then the legs, and a buyer once a leg has no bid; and a count that no record has is read. */
static void leg_prices(void)
{
    tumghavi_opening opening = good_opening();
    tumghavi_fill fill;
    tumghavi_copy copy;
    size_t leg;
    opening.first_number = 1;
    EXPECT(tumghavi_open(&copy, &opening) == 0);
    EXPECT(is_noted(send(&copy, quote(0, 220, 240))));
    EXPECT(is_noted(send(&copy, quote(1, 110, 120))));
    EXPECT(place(&copy, 11, TUMGHAVI_BUY, 40, 107).fills == 0);
    EXPECT(place(&copy, 12, TUMGHAVI_SELL, 30, 107).fills == 1);
    EXPECT(tumghavi_fill_contra(&fills[0]) == 11 && tumghavi_fill_price(&fills[0]) == 107 && has_prices(&fills[0], 220, 113));
    EXPECT(place(&copy, 13, TUMGHAVI_SELL, 60, 100).fills == 2);
    EXPECT(tumghavi_fill_contra(&fills[0]) == 11 && has_prices(&fills[0], 220, 113));
    EXPECT(tumghavi_fill_is_legs(&fills[1]) && tumghavi_fill_price(&fills[1]) == 100 && has_prices(&fills[1], 220, 120));
    EXPECT(place(&copy, 14, TUMGHAVI_BUY, 5, 107).fills == 0);
    EXPECT(place(&copy, 15, TUMGHAVI_SELL, 5, 107).fills == 1);
    EXPECT(tumghavi_fill_contra(&fills[0]) == 14 && has_no_prices(&fills[0]));

    memset(&fill, 9, sizeof fill);
    EXPECT(tumghavi_fill_leg_count(&fill) == 4);
    for (leg = 0; leg < 6; leg++)
        EXPECT(tumghavi_fill_leg_price(&fill, leg) == (leg < 4 ? fill.leg_prices[leg] : 0));
}

/* A record of an order, at a biased price. */
static tumghavi_fill fill_of(uint64_t order, uint64_t price, uint64_t units)
{
    tumghavi_fill fill = {4, 0, 4, 10, 0, 0, 0, {0}};
    fill.order = order;
    fill.price = price;
    fill.units = units;
    return fill;
}

/* A sum of -7 over 2 units; orders without fills or without units; numbers that are too great, counts past the list, half a record. */
static void averages(void)
{
    const uint64_t zero = 40000000, most = UINT64_C(1) << 62;
    tumghavi_fill list[5];
    list[0] = fill_of(8, zero - 3, 1);
    list[1] = fill_of(8, zero - 4, 1);
    list[2] = fill_of(6, zero + 100, 0);
    list[3] = fill_of(UINT64_MAX, UINT64_MAX, UINT64_MAX);
    list[4] = fill_of(UINT32_MAX, most - 1, 1);
    EXPECT(is_none(tumghavi_average(list, 0, 8)));
    EXPECT(is_average(tumghavi_average(list, 1, 8), -3, 0));
    EXPECT(is_average(tumghavi_average(list, 5, 8), -4, 1));
    EXPECT(is_none(tumghavi_average(list, 5, 9)));
    EXPECT(is_none(tumghavi_average(list, 5, 6)));
    EXPECT(is_average(tumghavi_average(list, 4, UINT32_MAX), (int64_t)(most - zero), 0));
    EXPECT(is_average(tumghavi_average(list, 5, UINT32_MAX), (int64_t)(most - zero) - 1, UINT32_MAX));
    EXPECT(is_average(tumghavi_average_in(&list[0].number, 22, SIZE_MAX, 8), -4, 1));
    EXPECT(is_average(tumghavi_average_in(&list[0].number, 21, 2, 8), -3, 0));
    EXPECT(is_none(tumghavi_average_in(&list[0].number, 10, 1, 8)));
    EXPECT(is_none(tumghavi_average_in(&list[0].number, 0, SIZE_MAX, 0)));
}

/* Bytes of another size than a record's are refused with 61 and change nothing; a record's own size is taken. */
static void records(void)
{
    static const size_t sizes[] = {0, 1, 35, 37};
    const tumghavi_opening opening = good_opening();
    uint8_t clock[37] = {TUMGHAVI_CLOCK};
    tumghavi_copy copy, other;
    size_t i;
    clock[28] = 7;
    EXPECT(tumghavi_open(&copy, &opening) == 0);
    other = copy;
    for (i = 0; i < sizeof sizes / sizeof sizes[0]; i++) {
        EXPECT(is_refused(tumghavi_record(&other, clock, sizes[i], fills, TUMGHAVI_LEAST_PLACES), 61));
        EXPECT(memcmp(&other, &copy, sizeof copy) == 0);
    }
    EXPECT(tumghavi_record(&other, clock, TUMGHAVI_RECORD_SIZE, fills, TUMGHAVI_LEAST_PLACES).kind == TUMGHAVI_NOTED);
    EXPECT(memcmp(&other, &copy, sizeof copy) != 0);
}

static int is_reply(tumghavi_reply reply, uint32_t number, size_t size)
{
    return reply.number == number && reply.size == size;
}

/* No legs, an order and a clock behind a gap: the form and what is behind it, and each number that leaves every byte. */
static void forms(void)
{
    enum { GAP = 5, SIZE = 40 + 2 * TUMGHAVI_RECORD_SIZE };
    uint8_t tape[SIZE + GAP], form[SIZE], out[SIZE + 3], before[SIZE + 3];
    uint8_t *const order = tape + 40 + GAP, *const clock = order + TUMGHAVI_RECORD_SIZE;
    memset(tape, 99, sizeof tape);
    memset(tape, 0, 8);
    tape[2] = 1;
    tape[4] = 2;
    tape[6] = 40 + GAP;
    order[0] = TUMGHAVI_ORDER;
    clock[0] = TUMGHAVI_CLOCK;

    memcpy(form, tape, 40);
    form[2] = form[6] = 40;
    memcpy(form + 40, order, 2 * TUMGHAVI_RECORD_SIZE);
    form[43] = 1;
    memset(form + 60, 0, 8);
    memset(form + 77, 0, 27);

    memset(before, 7, sizeof before);
    memcpy(out, before, sizeof out);
    EXPECT(is_reply(tumghavi_form(tape, sizeof tape, out, SIZE - 1), 70, 0));
    EXPECT(is_reply(tumghavi_form(tape, sizeof tape, out, 0), 70, 0));
    EXPECT(is_reply(tumghavi_form(tape, sizeof tape - 1, out, sizeof out), 60, 0));
    EXPECT(is_reply(tumghavi_form(tape, sizeof tape - 1, out, 0), 60, 0));
    clock[0] = 0;
    EXPECT(is_reply(tumghavi_form(tape, sizeof tape, out, sizeof out), 61, 0));
    EXPECT(is_reply(tumghavi_form(tape, sizeof tape, out, 0), 61, 0));
    clock[0] = TUMGHAVI_CLOCK;
    EXPECT(memcmp(out, before, sizeof out) == 0);

    EXPECT(is_reply(tumghavi_form(tape, sizeof tape, out, sizeof out), 0, SIZE));
    EXPECT(memcmp(out, form, SIZE) == 0 && memcmp(out + SIZE, before + SIZE, sizeof out - SIZE) == 0);
    memcpy(out, before, sizeof out);
    EXPECT(is_reply(tumghavi_form(tape, sizeof tape, out, SIZE), 0, SIZE));
    EXPECT(memcmp(out, form, SIZE) == 0 && memcmp(out + SIZE, before + SIZE, sizeof out - SIZE) == 0);
}

int main(void)
{
    openings();
    outcomes();
    cancels();
    leg_prices();
    averages();
    records();
    forms();
    return failures != 0;
}
