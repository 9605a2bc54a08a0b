/*
 * linediff.h: one terminal of a line current differential relay, over an IEEE C37.94 channel, as a C library.
 *
 * A terminal samples the currents of its own station, sends a frame to each peer every 125 ticks, takes in the bits that come
 * from the peers, aligns their samples with its own, and judges each complete set of samples by the restraint region. It has
 * no clock, no thread and no file: the caller hands in each stamp. Only linediff_new takes memory.
 *
 * A tick is one microsecond of the terminal's own clock, and a stamp is a count of ticks from 0 to LINEDIFF_LAST_STAMP. Stamps
 * of two terminals need not agree. The terminal's time is the greatest stamp handed in so far. Currents are counts of the
 * analogue-to-digital converter.
 *
 * What the caller owes, which nothing here can check:
 *  - Every pointer leads to a whole object of its type, and no two pointers of one call lead to the same memory.
 *  - A linediff_terminal is zeroed before its first call. Afterwards only these functions change its fields, and it isn't
 *    copied: a copy is a second owner of the same memory.
 *  - One call at a time for each linediff_terminal, and none from a signal handler. Different terminals are independent, and
 *    each stays on the thread that made it.
 *  - Each bool that is handed in is false or true.
 *  - malloc, realloc and free come from one allocator; a block is aligned to each power of two up to 16 that divides its size.
 *
 * A call that answers anything but LINEDIFF_DONE has changed nothing, but for the refusal that linediff_new tells. What a call
 * tells is written where it is said to be told; the rest of that struct is left as it was.
 */
#ifndef LINEDIFF_H
#define LINEDIFF_H

#include <stdbool.h>
#include <stdint.h>

#ifdef __cplusplus
extern "C" {
#endif

#define LINEDIFF_LAST_STAMP UINT64_C(2000000000000)

/* How a call ends: the first of these that holds. */
enum {
    LINEDIFF_DONE = 0,     /* the call was made */
    LINEDIFF_EMPTY = 1,    /* there is no terminal: linediff_new wasn't called, or linediff_free was */
    LINEDIFF_FULL = 2,     /* linediff_new: there is a terminal */
    LINEDIFF_SETTINGS = 3, /* linediff_new: the settings are refused, and the refusal says why */
    LINEDIFF_STATION = 4,  /* linediff_new: the line has no such station */
    LINEDIFF_STAMP = 5,    /* the stamp is above LINEDIFF_LAST_STAMP */
    LINEDIFF_PEER = 6,     /* the station is no peer of the terminal */
    LINEDIFF_BITS = 7,     /* linediff_bits: there are more than 256 bits */
    LINEDIFF_MEMORY = 8    /* linediff_new: memory is refused */
};

/* A terminal, or none. The fields are the library's. */
typedef struct {
    void *at;
    bool full;
    uint8_t me;
    uint8_t stations;
} linediff_terminal;

/* The settings of a line. All its terminals have the same. linediff_usual fills in the defaults. */
typedef struct {
    uint32_t spacing; /* ticks from one sample to the next: 500 to 10000 */
    uint32_t drift;   /* the bound on a clock's drift, in millionths of a tick per tick: 0 to 200 */
    uint32_t slow;    /* the longest round trip of an exchange that is used, in ticks: 1 to 200000 */
    uint32_t age;     /* the age up to which an exchange is in force, in ticks: 1000 to 10000000 */
    uint32_t limit;   /* the age below which a sample is judged, in ticks: 1 to 480000, at most 48 spacings */
    uint32_t silent;  /* the silence above which a peer is reported, in ticks: 1 to 1000000 */
    uint32_t rn;      /* the outer radius of the restraint region is rn / rd: 1 to 10000 */
    uint32_t rd;      /* 1 to rn */
    int32_t p;        /* the direction (p, q) of the region's upper edge: -10000 to 10000 */
    int32_t q;        /* 1 to 10000 */
    uint16_t pickup;  /* the pickup of the differential current, in counts: 1 to 32767 */
    uint8_t stations; /* terminals of the line: 2 or 3 */
    uint8_t channels; /* channels of 64 kbit/s: 1 to 12 */
    uint8_t cycle;    /* samples of a cycle: 4, 8, 12, 16 or 20 */
    uint8_t count;    /* consecutive sets outside the restraint region that make a trip: 1 to 32 */
    uint8_t worda;    /* header word A is worda * 256 + 15: 128 to 255 */
    uint8_t wordb;    /* header word B is wordb * 256 + 15: 128 to 255, and not worda */
    uint8_t misses;   /* missed header words in a row that end the lock: 1 to 10 */
} linediff_settings;

/* Why settings are refused: the first of these that holds. */
enum {
    /* 1 to 18: the setting lies outside its range */
    LINEDIFF_BAD_STATIONS = 1,
    LINEDIFF_BAD_CHANNELS = 2,
    LINEDIFF_BAD_SPACING = 3,
    LINEDIFF_BAD_CYCLE = 4,
    LINEDIFF_BAD_DRIFT = 5,
    LINEDIFF_BAD_SLOW = 6,
    LINEDIFF_BAD_AGE = 7,
    LINEDIFF_BAD_LIMIT = 8,
    LINEDIFF_BAD_SILENT = 9,
    LINEDIFF_BAD_COUNT = 10,
    LINEDIFF_BAD_PICKUP = 11,
    LINEDIFF_BAD_RN = 12,
    LINEDIFF_BAD_RD = 13,
    LINEDIFF_BAD_P = 14,
    LINEDIFF_BAD_Q = 15,
    LINEDIFF_BAD_WORDA = 16,
    LINEDIFF_BAD_WORDB = 17,
    LINEDIFF_BAD_MISSES = 18,
    LINEDIFF_CHANNEL_TOO_SLOW = 19, /* a message takes `ticks` on its channels, which is more than the spacing */
    LINEDIFF_LIMIT_TOO_LONG = 20,   /* the limit is above `ticks`, which are 48 spacings */
    LINEDIFF_SAME_WORDS = 21        /* both header words are the same */
};

typedef struct {
    uint32_t reason;
    uint32_t ticks; /* 0 where the reason names no ticks */
} linediff_refusal;

/* What became of an own sample. Its stamp decides: a sample belongs to each multiple of the spacing, or a tick later. */
enum {
    LINEDIFF_TOOK = 0,     /* it is kept as the sample `number`, which is the stamp divided by the spacing */
    LINEDIFF_OFF_GRID = 1, /* its stamp isn't at a multiple of the spacing, nor a tick later */
    LINEDIFF_AGAIN = 2     /* its number isn't above the last one taken, which is `number` */
};

typedef struct {
    uint8_t kind;
    uint32_t number; /* 0 where it is off the grid */
} linediff_own;

/* What is decided of a phase at a set. */
enum {
    LINEDIFF_WAITING = 0,  /* there is no full cycle of consecutive sets yet */
    LINEDIFF_RESTRAIN = 1, /* the phase isn't outside the restraint region */
    LINEDIFF_OUTSIDE = 2,  /* it is outside, for fewer consecutive sets than a trip needs */
    LINEDIFF_TRIP = 3      /* it was outside in as many consecutive sets as a trip needs */
};

/* A set that was judged. */
typedef struct {
    bool given;          /* whether there is one: if not, the rest isn't told */
    uint8_t verdicts[3]; /* of the phases a, b and c */
    uint32_t number;     /* of the own sample in it */
} linediff_judged;

/* The alarms of a peer's channel. */
enum {
    LINEDIFF_UNLOCKED = 0,  /* the receiver of the line from the peer has no lock */
    LINEDIFF_YELLOW = 1,    /* the peer's receiver had no lock when it sent its last good frame */
    LINEDIFF_SILENT = 2,    /* no message was accepted for too long */
    LINEDIFF_UNALIGNED = 3, /* no estimate of the clocks' offset is in force */
    LINEDIFF_FAULTY = 4     /* a call on a wire to or from the peer failed, and nothing came since */
};

/* An alarm that turned on or off. */
typedef struct {
    uint8_t peer;
    uint8_t alarm;
    bool on;
} linediff_change;

/* The alarms that turned with a call, by peer and then in the order of the alarms: the first `count` of `items`. */
typedef struct {
    uint8_t count;
    linediff_change items[10];
} linediff_changes;

/* A relay message: a sample of its sender, with what the receiver needs to estimate the offset of their clocks. */
typedef struct {
    uint64_t sent;      /* the sender's stamp at the slot in which it began */
    uint64_t echo_sent; /* of the last message that the sender accepted from the receiver: its send stamp, */
    uint64_t echo_came; /* and the stamp at which it came; told where has_echo is on */
    uint32_t number;    /* of the sample */
    int16_t a;          /* the sample */
    int16_t b;
    int16_t c;
    uint8_t from;
    uint8_t to;
    bool has_echo;
} linediff_message;

/* Some bits of a line in order, up to 256: the first `count` of `bytes`, the highest bit of a byte first. */
typedef struct {
    uint8_t bytes[32];
    uint16_t count;
} linediff_chunk;

/* The 256 bits of a frame on its way to a peer. */
typedef struct {
    uint8_t bytes[32];
    uint8_t to;
    bool begins;              /* whether a message begins in it */
    linediff_message message; /* that message, told where `begins` is on */
} linediff_outgoing;

/* What linediff_sample tells. */
typedef struct {
    linediff_own own;
    linediff_judged judged; /* the set that the sample completed */
    linediff_changes changes;
} linediff_sampled;

/* What linediff_slot tells: a frame for each peer, the first `count` of `frames`. */
typedef struct {
    linediff_outgoing frames[2];
    uint8_t count;
    linediff_changes changes;
} linediff_slotted;

/* What ended in the bits. */
enum {
    LINEDIFF_NO_FRAME = 0,
    LINEDIFF_GOOD_FRAME = 1, /* odd, yellow and payload are told */
    LINEDIFF_NO_HEADER = 2,  /* a frame without its header word */
    LINEDIFF_BAD_PAIR = 3,   /* the pair at the frame's bit `detail` isn't a bit and its complement */
    LINEDIFF_BAD_WIDTH = 4   /* `detail` stands in the place of the count of channels */
};

typedef struct {
    uint8_t kind;
    uint8_t detail;
    bool odd;            /* whether it begins with word B */
    bool yellow;         /* the yellow bit: the sender's receiver has no lock */
    uint8_t payload[12]; /* a byte for each channel, and 0xFF past them */
} linediff_frame;

/* What a message that was complete is to the terminal. */
enum {
    LINEDIFF_NO_MESSAGE = 0,
    LINEDIFF_ACCEPTED = 1, /* `message` is accepted */
    LINEDIFF_REPEAT = 2,   /* its number `number` isn't above that of the last one accepted, which is `last` */
    LINEDIFF_STRANGER = 3  /* it doesn't go from the peer to the terminal: `address` has the sender in its high nibble */
};

typedef struct {
    linediff_message message;
    uint32_t number;
    uint32_t last;
    uint8_t kind;
    uint8_t address;
} linediff_news;

/* The first fault for which a place of the payload is no message. */
enum {
    LINEDIFF_NOT_REFUSED = 0,
    LINEDIFF_BAD_MARKER = 1,
    LINEDIFF_BAD_CHECK = 2,
    LINEDIFF_BAD_ADDRESS = 3, /* `detail` stands in the place of the address */
    LINEDIFF_BAD_FLAGS = 4,   /* `detail` stands in the place of the flags */
    LINEDIFF_BAD_ECHO = 5     /* no echo is flagged, and an echo's field isn't zero */
};

typedef struct {
    uint8_t kind;
    uint8_t detail; /* 0 where the fault has none */
} linediff_refused;

/* What became of the exchange that an accepted message completes. */
enum {
    LINEDIFF_NO_EXCHANGE = 0,
    LINEDIFF_KEPT = 1,
    LINEDIFF_SLOW = 2 /* its round trip is above the setting `slow` */
};

/* An exchange with a peer: the four stamps of a message there and one back. The peer's clock is estimated to be ahead of the
 * own one by ((b2 - a1) - (a4 - b3)) / 2 ticks. */
typedef struct {
    uint64_t a1; /* the own stamp at which the first message was sent */
    uint64_t b2; /* the peer's stamp at which it came */
    uint64_t b3; /* the peer's stamp at which the second message was sent */
    uint64_t a4; /* the own stamp at which that came */
    bool given;  /* whether there is one: if not, the rest isn't told */
} linediff_exchange;

/* What became of the sample in an accepted message, which is aligned to the own sample `number`. */
enum {
    LINEDIFF_NOT_PLACED = 0, /* no message was accepted, or no exchange is in force; `number` is 0 */
    LINEDIFF_STALE = 1,      /* `number` is negative, or its sample isn't younger than the limit */
    LINEDIFF_AHEAD = 2,      /* its sample is more than a spacing ahead */
    LINEDIFF_DOUBLE = 3,     /* a sample of this peer is kept there */
    LINEDIFF_STORED = 4      /* it is kept there */
};

typedef struct {
    int64_t number;
    uint8_t kind;
} linediff_placed;

/* What linediff_bits tells. */
typedef struct {
    linediff_news news;
    linediff_exchange chosen; /* the exchange in force, where a message was accepted */
    linediff_placed placed;
    linediff_frame frame;
    linediff_refused refused;
    uint8_t taken; /* LINEDIFF_NO_EXCHANGE, LINEDIFF_KEPT or LINEDIFF_SLOW */
    linediff_judged judged; /* the set that the message's sample completed */
    linediff_changes changes;
} linediff_heard;

/* The defaults for a line of so many stations and channels. */
void linediff_usual(uint8_t stations, uint8_t channels, linediff_settings *settings);

/* Makes the terminal of station `me`, 1 to 3, on a line of these settings.
 * DONE, FULL, SETTINGS (with the refusal), STATION, MEMORY. */
uint32_t linediff_new(linediff_terminal *terminal, const linediff_settings *settings, uint8_t me, linediff_refusal *refusal);

/* Frees the terminal, where there is one. */
void linediff_free(linediff_terminal *terminal);

/* Takes an own sample of the phases a, b and c, and judges the set that it completes. To be called once a spacing.
 * DONE, EMPTY, STAMP. */
uint32_t linediff_sample(linediff_terminal *terminal, uint64_t now, int16_t a, int16_t b, int16_t c, linediff_sampled *told);

/* Makes the frames of the next slot, one to each peer. To be called every 125 ticks.
 * DONE, EMPTY, STAMP. */
uint32_t linediff_slot(linediff_terminal *terminal, uint64_t now, linediff_slotted *told);

/* Takes in the next bits of the line from a peer, however they were cut, and judges the set that they complete.
 * DONE, EMPTY, STAMP, PEER, BITS. */
uint32_t linediff_bits(linediff_terminal *terminal, uint64_t now, uint8_t peer, const linediff_chunk *bits, linediff_heard *told);

/* Notes that a send to a peer or a receive from it failed.
 * DONE, EMPTY, STAMP, PEER. */
uint32_t linediff_fault(linediff_terminal *terminal, uint64_t now, uint8_t peer, linediff_changes *told);

/* For a binding in another language, to be compared with the library: numbers the fields of each answer from 1 up in their
 * order. Each bool is true and has no number. Of an array the first and the last element are numbered, the others are zero. */
void linediff_layout(linediff_sampled *sampled, linediff_slotted *slotted, linediff_heard *heard);

#ifdef __cplusplus
}
#endif

#endif
