/* Document 01's own case, message by message, printed as tapeprint prints it. The copy is saved and brought back before each message. */
#include <stdio.h>
#include <string.h>

#include "tumghavi.h"

/* The size of a copy, checked when this is compiled. */
typedef char copy_size[sizeof(tumghavi_copy) == TUMGHAVI_COPY_SIZE ? 1 : -1];

static tumghavi_copy copy;
static tumghavi_fill fills[TUMGHAVI_LEAST_PLACES];

static tumghavi_leg leg_of(const char *symbol, uint8_t side)
{
    tumghavi_leg leg;
    memcpy(leg.symbol, symbol, sizeof leg.symbol);
    leg.side = side;
    leg.ratio = 1;
    leg.mpv = 5;
    return leg;
}

static tumghavi_opening own_opening(void)
{
    tumghavi_opening opening;
    memset(&opening, 0, sizeof opening);
    opening.legs[0] = leg_of("XYZ   260116C00020000", TUMGHAVI_BUY);
    opening.legs[1] = leg_of("XYZ   260116C00025000", TUMGHAVI_SELL);
    opening.leg_count = 2;
    opening.first_number = 1;
    opening.minimum = 1;
    opening.interval = 500;
    opening.most_legs = 4;
    opening.amounts[0] = 10;
    opening.amounts[1] = 15;
    opening.amounts[2] = 30;
    return opening;
}

static tumghavi_message message_of(uint8_t kind)
{
    tumghavi_message message;
    memset(&message, 0, sizeof message);
    message.kind = kind;
    return message;
}

static tumghavi_message quote(uint8_t leg, int32_t bid, int32_t ask)
{
    tumghavi_message message = message_of(TUMGHAVI_LOCAL);
    message.wish_or_leg = leg;
    message.units = 10;
    message.price = bid;
    message.ask = ask;
    message.ask_size = 10;
    return message;
}

static tumghavi_message order(uint32_t id, uint32_t participant, uint8_t side, uint32_t units)
{
    tumghavi_message message = message_of(TUMGHAVI_ORDER);
    message.side = side;
    message.account = TUMGHAVI_CUSTOMER;
    message.id = id;
    message.participant = participant;
    message.units = units;
    message.price = 100;
    return message;
}

static tumghavi_message cancel(uint32_t id, uint32_t participant)
{
    tumghavi_message message = message_of(TUMGHAVI_CANCEL);
    message.id = id;
    message.participant = participant;
    return message;
}

static void save_and_bring_back(void)
{
    uint8_t bytes[TUMGHAVI_COPY_SIZE];
    tumghavi_save(&copy, bytes);
    memset(&copy, 7, sizeof copy);
    tumghavi_load(&copy, bytes);
}

static void print_fill(const tumghavi_fill *fill)
{
    printf("%llu %llu %c %lu %lld %llu\n", (unsigned long long)fill->number, (unsigned long long)fill->order, tumghavi_fill_rank(fill),
        (unsigned long)tumghavi_fill_contra(fill), (long long)tumghavi_fill_price(fill), (unsigned long long)fill->units);
}

static int is_first(uint32_t at)
{
    uint32_t i = 0;
    while (fills[i].order != fills[at].order)
        i++;
    return i == at;
}

static void print_average(uint32_t count, uint32_t order)
{
    const tumghavi_average_price average = tumghavi_average(fills, count, order);
    if (average.kind == TUMGHAVI_EXACT_AVERAGE)
        printf("average %lu %lld %llu\n", (unsigned long)order, (long long)average.quotient, (unsigned long long)average.remainder);
}

static void step(unsigned position, const tumghavi_message *message)
{
    tumghavi_outcome outcome;
    uint32_t i;
    save_and_bring_back();
    outcome = tumghavi_step(&copy, message, fills, TUMGHAVI_LEAST_PLACES);
    for (i = 0; i < outcome.fills; i++)
        print_fill(&fills[i]);
    for (i = 0; i < outcome.fills; i++)
        if (is_first(i))
            print_average(outcome.fills, (uint32_t)fills[i].order);
    if (outcome.kind == TUMGHAVI_REFUSED)
        printf("refused %u %lu\n", position, (unsigned long)outcome.number);
}

int main(void)
{
    const tumghavi_opening opening = own_opening();
    const uint32_t number = tumghavi_open(&copy, &opening);
    tumghavi_message messages[5];
    tumghavi_open_counts counts;
    unsigned i;
    if (number != 0) {
        printf("refused 0 %lu\n", (unsigned long)number);
        return 0;
    }
    messages[0] = quote(0, 220, 240);
    messages[1] = quote(1, 110, 120);
    messages[2] = order(7, 1, TUMGHAVI_BUY, 10);
    messages[3] = order(8, 2, TUMGHAVI_SELL, 15);
    messages[4] = cancel(9, 1);
    printf("number order rank contra price units\n");
    for (i = 0; i < 5; i++)
        step(i + 1, &messages[i]);
    counts = tumghavi_counts(&copy);
    printf("open %lu answers %lu\n", (unsigned long)counts.orders, (unsigned long)counts.responses);
    return 0;
}
