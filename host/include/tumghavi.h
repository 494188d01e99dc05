/*
 * The proved auction engine for hosts in C and C++. Link libtumghavi.a, which `./build tumghavi` writes to target/staticlib.
 *
 * A host keeps a copy of the engine in a tumghavi_copy of its own, opens it once, and has each message answered in place.
 * Every value of every field is answered: a wrong one is refused with a number of docs/NUMBERS.md, and a refused message
 * changes nothing. What C cannot check is left to the host: no pointer may be null, each must lead to as much as its type
 * and count say, and what is lent to one call must not overlap. Calls on different copies may run at the same time.
 */
#ifndef TUMGHAVI_H
#define TUMGHAVI_H

#include <stddef.h>
#include <stdint.h>

#ifdef __cplusplus
extern "C" {
#endif

/* A copy: all of its state, to be assigned, compared and kept as it is, or saved as bytes. */
typedef struct tumghavi_copy {
    uint64_t longs[71];
    uint32_t words[580];
} tumghavi_copy;

/* The bytes of a saved copy. */
#define TUMGHAVI_COPY_SIZE 2888

/* ---- an opening */

/* Symbol: root padded to 6, yymmdd, C or P, strike in 8 digits. Side: 'B' or 'S', as seen by a buyer of the strategy. */
typedef struct tumghavi_leg {
    uint8_t symbol[21];
    uint8_t side;
    uint8_t ratio;
    uint8_t mpv;
} tumghavi_leg;

/* The legs in use are the first leg_count; the amounts of the filter are those for an mpv of 1, 5 and 10. */
typedef struct tumghavi_opening {
    tumghavi_leg legs[4];
    size_t leg_count;
    uint64_t first_number;
    uint64_t opening_time;
    uint32_t minimum;
    uint16_t interval;
    uint16_t distance;
    uint16_t most_legs;
    uint16_t amounts[3];
} tumghavi_opening;

/* ---- a message */

enum {
    TUMGHAVI_LOCAL = 1,
    TUMGHAVI_NATIONAL = 2,
    TUMGHAVI_ORDER = 3,
    TUMGHAVI_RESPONSE = 4,
    TUMGHAVI_MODIFY = 5,
    TUMGHAVI_CANCEL = 6,
    TUMGHAVI_CLOCK = 7,
    TUMGHAVI_REDUCE = 8
};

enum { TUMGHAVI_BUY = 'B', TUMGHAVI_SELL = 'S' };

enum { TUMGHAVI_CUSTOMER = 1, TUMGHAVI_OTHER = 2 };

/*
 * Fields that its kind does not use are ignored. units and price are a quote's bid size and bid, units the new open units of an
 * order that is reduced; prices are in cents.
 */
typedef struct tumghavi_message {
    uint8_t kind;
    uint8_t side;
    uint8_t account;
    uint8_t wish_or_leg;
    uint32_t id;
    uint32_t participant;
    uint32_t units;
    int32_t price;
    int32_t ask;
    uint32_t ask_size;
    uint64_t time;
} tumghavi_message;

/* The bytes of a message record, as a tape has it. */
#define TUMGHAVI_RECORD_SIZE 36

/* ---- the answer */

/* The kinds of outcomes. */
enum {
    TUMGHAVI_NOTED = 1,
    TUMGHAVI_PLACED = 2,
    TUMGHAVI_BEGUN = 3,
    TUMGHAVI_JOINED = 4,
    TUMGHAVI_ENDED = 5,
    TUMGHAVI_REFUSED = 6
};

/* The causes of an end. */
enum { TUMGHAVI_BY_TIME = 1, TUMGHAVI_BY_ORDER = 2, TUMGHAVI_BY_LEGS = 3, TUMGHAVI_BY_CANCEL = 4 };

/*
 * An outcome. What it does not have is 0: cause is an end's, number a refusal's, deadline that of an auction begun; units are
 * those open of an order placed, or those in the queue that was joined; fills are of one noted, placed or ended.
 */
typedef struct tumghavi_outcome {
    uint32_t kind;
    uint32_t cause;
    uint32_t number;
    uint32_t fills;
    uint64_t units;
    uint64_t deadline;
} tumghavi_outcome;

/* A fill record; all but its number is read by the functions below. */
typedef struct tumghavi_fill {
    uint64_t number;
    uint64_t order;
    uint64_t rank;
    uint64_t contra;
    uint64_t price;
    uint64_t units;
    uint64_t legs;
    /* To be read by tumghavi_fill_leg_count and tumghavi_fill_leg_price: places behind the count mean nothing. */
    uint64_t leg_prices[4];
} tumghavi_fill;

/* The numbers of a fill record. */
#define TUMGHAVI_FILL_NUMBERS 11

/* The places that a fill list must have: no message has more records. */
#define TUMGHAVI_LEAST_PLACES 2000

/* The kinds of averages. */
enum { TUMGHAVI_NO_AVERAGE = 1, TUMGHAVI_EXACT_AVERAGE = 2 };

/*
 * The average net price of an order: the sum of price times units over the records that name it as order, divided by their units.
 * The quotient is in cents, rounded toward minus infinity; the remainder is from 0 to the units less 1. An order without fills
 * has none, and both are 0.
 */
typedef struct tumghavi_average_price {
    uint32_t kind;
    int64_t quotient;
    uint64_t remainder;
} tumghavi_average_price;

/* How many orders and responses are open. */
typedef struct tumghavi_open_counts {
    size_t orders;
    size_t responses;
} tumghavi_open_counts;

/* What a form is answered with: 0 and the bytes of the form, or the number that refuses it and size 0. */
typedef struct tumghavi_reply {
    uint32_t number;
    size_t size;
} tumghavi_reply;

/* ---- the library's own functions, over the parts of a copy and the numbers of a fill list */

uint32_t tumghavi_open_in(uint64_t *longs, uint32_t *words, tumghavi_opening opening);
tumghavi_outcome tumghavi_step_in(uint64_t *longs, uint32_t *words, uint64_t *list, size_t numbers, tumghavi_message message);
tumghavi_outcome tumghavi_record_in(uint64_t *longs, uint32_t *words, uint64_t *list, size_t numbers, const uint8_t *bytes, size_t size);
tumghavi_open_counts tumghavi_counts_in(const uint32_t *words);
tumghavi_average_price tumghavi_average_in(const uint64_t *list, size_t numbers, size_t fills, uint32_t order);

/*
 * The bytes that tapeprint prints for a tape: as many as out has room for, from its start on; what stands behind them is as it was.
 * Returns how many were written. Where that is out_size there may be more: call again with more room. Any bytes are a tape.
 * Its fill list stands on the stack, of which it needs 200,000 bytes; every other function needs less than 16,000.
 */
size_t tumghavi_print(const uint8_t *tape, size_t tape_size, uint8_t *out, size_t out_size);

/*
 * The written form of a tape, the same bytes for all tapes of one meaning: legs at 40, messages straight after, fields that a kind does
 * not use 0, a wish 1. Number 0, and the form stands at the start of out, in size bytes; what stands behind them is as it was. Else
 * 60 or 61 for a tape that tapeprint turns back so, and then 70 for an out too short; size is 0, and every byte of out is as it was.
 * A form is never longer than its tape, so that an out of tape_size bytes never meets 70, and one of 65,535 serves every tape.
 */
tumghavi_reply tumghavi_form(const uint8_t *tape, size_t tape_size, uint8_t *out, size_t out_size);

/* ---- a copy */

/*
 * Opens a copy: 0, and it holds the state of the opening and nothing of what it held; or the number that refuses it, and it is as
 * it was. The library itself leaves numbers that are not in use as they were, so zeros are lent to it here: a new copy need not be
 * cleared, and two that are opened and sent the same are the same, number for number.
 */
static inline uint32_t tumghavi_open(tumghavi_copy *copy, const tumghavi_opening *opening)
{
    tumghavi_copy opened = {{0}, {0}};
    const uint32_t number = tumghavi_open_in(opened.longs, opened.words, *opening);
    if (number == 0)
        *copy = opened;
    return number;
}

/*
 * Answers a message. Its fill records stand at the start of fills, as many as the outcome counts; what stands behind them is as
 * it was. They stand order by order, as they execute; those of one order by price from the best, then by rank, then by the
 * contra's arrival number. Under a refusal the copy and the fills are as they were. Fewer than TUMGHAVI_LEAST_PLACES places are
 * refused with 10, but a kind that is none with 61, whatever the places.
 */
static inline tumghavi_outcome tumghavi_step(tumghavi_copy *copy, const tumghavi_message *message, tumghavi_fill *fills, size_t places)
{
    return tumghavi_step_in(copy->longs, copy->words, (uint64_t *)fills, places * TUMGHAVI_FILL_NUMBERS, *message);
}

/* The same from a message record's bytes. Bytes that are not TUMGHAVI_RECORD_SIZE are no record and are refused with 61. */
static inline tumghavi_outcome tumghavi_record(tumghavi_copy *copy, const uint8_t *bytes, size_t size, tumghavi_fill *fills, size_t places)
{
    return tumghavi_record_in(copy->longs, copy->words, (uint64_t *)fills, places * TUMGHAVI_FILL_NUMBERS, bytes, size);
}

/* How many orders and responses are open in a copy. */
static inline tumghavi_open_counts tumghavi_counts(const tumghavi_copy *copy)
{
    return tumghavi_counts_in(copy->words);
}

/*
 * ---- a fill
 *
 * Any numbers are answered for: an id or units above 32 bits count as the greatest number of 32 bits, a price above 2^62 as that,
 * prices of more than four legs as those of four.
 */

/* The lesser of two numbers, and a number cut at 32 bits, for the functions below. */
static inline uint64_t tumghavi_lesser(uint64_t a, uint64_t b)
{
    return a < b ? a : b;
}

static inline uint32_t tumghavi_narrow(uint64_t number)
{
    return (uint32_t)tumghavi_lesser(number, UINT32_MAX);
}

/* The id of the order that was filled. */
static inline uint32_t tumghavi_fill_order(const tumghavi_fill *fill)
{
    return tumghavi_narrow(fill->order);
}

/* Its rank's letter: L legs, C customer, N not a customer, T late legs, R by arrival. */
static inline char tumghavi_fill_rank(const tumghavi_fill *fill)
{
    return fill->rank < 4 ? "LCNT"[fill->rank] : 'R';
}

/* Whether its other side is the legs. */
static inline int tumghavi_fill_is_legs(const tumghavi_fill *fill)
{
    return fill->contra == 0;
}

/* The id of its other side, 0 for the legs. */
static inline uint32_t tumghavi_fill_contra(const tumghavi_fill *fill)
{
    return fill->contra == 0 ? 0 : tumghavi_narrow(fill->contra - 1);
}

/* Its net price in cents. */
static inline int64_t tumghavi_fill_price(const tumghavi_fill *fill)
{
    return (int64_t)tumghavi_lesser(fill->price, (uint64_t)1 << 62) - 40000000;
}

/* Its units. */
static inline uint32_t tumghavi_fill_units(const tumghavi_fill *fill)
{
    return tumghavi_narrow(fill->units);
}

/*
 * Whether it has leg prices. A fill with the legs has the prices taken. Any other has prices inside each leg's local bid and ask as
 * they stood just before it, whose net is its price; of several the lowest on leg 0, then on leg 1, and so on. It has none where
 * some leg has no bid or no ask, some ask is over 50 cents above its bid, or no prices inside make the net.
 */
static inline int tumghavi_fill_is_priced(const tumghavi_fill *fill)
{
    return fill->legs != 0;
}

/* Of how many legs it has prices: of all, or of none. */
static inline size_t tumghavi_fill_leg_count(const tumghavi_fill *fill)
{
    return fill->legs == 0 ? 0 : (size_t)tumghavi_lesser(fill->legs - 1, 4);
}

/* The price of a leg, from 0, in cents; 0 where it has none. */
static inline uint64_t tumghavi_fill_leg_price(const tumghavi_fill *fill, size_t leg)
{
    return leg < tumghavi_fill_leg_count(fill) ? fill->leg_prices[leg] : 0;
}

/* ---- the fills of a message */

/*
 * The average of an order over the fill records of a message, as many as its outcome counts. Of more than TUMGHAVI_LEAST_PLACES,
 * which no message has, only so many are looked at. Any numbers are answered for, read as above.
 */
static inline tumghavi_average_price tumghavi_average(const tumghavi_fill *fills, size_t count, uint32_t order)
{
    return tumghavi_average_in((const uint64_t *)fills, count * TUMGHAVI_FILL_NUMBERS, count, order);
}

/* ---- a copy as bytes, little-endian, on any machine */

/*
 * While an auction is pending, keep with the bytes the deadline that TUMGHAVI_BEGUN told: a clock must be sent at it, and nothing
 * tells it again.
 */
static inline void tumghavi_save(const tumghavi_copy *copy, uint8_t *bytes)
{
    size_t i;
    for (i = 0; i < 568; i++)
        bytes[i] = (uint8_t)(copy->longs[i / 8] >> 8 * (i % 8));
    for (i = 0; i < 2320; i++)
        bytes[568 + i] = (uint8_t)(copy->words[i / 4] >> 8 * (i % 4));
}

/* Any bytes are answered for, but only saved ones are a copy that messages have led to. */
static inline void tumghavi_load(tumghavi_copy *copy, const uint8_t *bytes)
{
    const tumghavi_copy none = {{0}, {0}};
    size_t i;
    *copy = none;
    for (i = 0; i < 568; i++)
        copy->longs[i / 8] |= (uint64_t)bytes[i] << 8 * (i % 8);
    for (i = 0; i < 2320; i++)
        copy->words[i / 4] |= (uint32_t)bytes[568 + i] << 8 * (i % 4);
}

#ifdef __cplusplus
}
#endif

#endif
