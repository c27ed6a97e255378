/* Sealed hall records: the calls of a board.

   Link libboards.a (tools/boards builds it) with any C library that has memcpy and memset. Nothing is allocated, nothing is kept between calls but
   what the caller keeps, and every call tests whatever it is given. A length of 0 may come with a null pointer; any other length must come with
   that many readable, or for areas writable, bytes. Areas and states of one call must not overlap each other or what else it is given.

   docs/BOARDS.md says more, docs/FORMAT.md has the record and the refusals. */
#ifndef SIDINGMINT_H
#define SIDINGMINT_H

#include <stddef.h>
#include <stdint.h>

#ifdef __cplusplus
extern "C" {
#endif

/* Piles. a: POLYVAL twice with the AES expander (keys of 16, 16 or 32, and 16 bytes). b: CMAC twice with ChaCha (keys of 16, 32 and 16 bytes). */
#define SIDINGMINT_PILE_A 'a'
#define SIDINGMINT_PILE_B 'b'

/* Sizes in bytes. */
#define SIDINGMINT_LINE 8            /* the name of a line */
#define SIDINGMINT_HEADER_MOST 256   /* the longest header */
#define SIDINGMINT_TEXT_LEAST 16     /* the shortest text of either pile */
#define SIDINGMINT_TEXT_MOST 4096    /* the longest */
#define SIDINGMINT_RECORD_EXTRA 24   /* a record is this much longer than its text */
#define SIDINGMINT_WORK_MOST 4112    /* a work area that suffices for every record */

/* Record numbers go from 1 to this. */
#define SIDINGMINT_LAST ((uint64_t)1 << 40)

/* Refusals by number; in brackets the detail. */
enum sidingmint_refusal {
    SIDINGMINT_DONE = 0,              /* not refused */
    SIDINGMINT_KEY_LENGTH = 1,        /* a key has the wrong length [its length] */
    SIDINGMINT_FIRST_NUMBER = 2,      /* the first number is 0 or above 2^40 [that number] */
    SIDINGMINT_DOMAIN = 3,            /* the domain is not 1 or 2 [the domain]; no call of a board makes it */
    SIDINGMINT_PAST_REACH = 4,        /* past the expander's reach [the reach]; only as what 6 carries */
    SIDINGMINT_TEXT_SHORT = 5,        /* tag and text are shorter than the cipher admits [the lowest length] */
    SIDINGMINT_TEXT_LONG = 6,         /* tag and text are longer than the cipher admits [the highest length] */
    SIDINGMINT_RECORD_SHORT = 7,      /* the record has under 8 bytes [its length] */
    SIDINGMINT_HEADER_LONG = 8,       /* the header has over 256 bytes [its length] */
    SIDINGMINT_WORK_SHORT = 9,        /* the work area is too short [the length needed] */
    SIDINGMINT_AREA_SHORT = 10,       /* the record area or the text area is too short [the length needed] */
    SIDINGMINT_NUMBER_OUTSIDE = 11,   /* the number is 0 or above 2^40 [the number] */
    SIDINGMINT_NO_SEALING = 12,       /* the record is no sealing for this header and line [0] */
    SIDINGMINT_TICKET_OUT = 13,       /* a ticket is out [its number] */
    SIDINGMINT_USED_UP = 14,          /* the numbers are used up [2^40] */
    SIDINGMINT_WRONG_TICKET = 15,     /* the ticket brought is not the one that is out [its number] */
    SIDINGMINT_TOO_OLD = 16,          /* the number is 64 or more below the highest [the highest] */
    SIDINGMINT_ACCEPTED_EARLIER = 17, /* the number was accepted earlier [the number] */
    SIDINGMINT_NO_PILE = 100,         /* the pile is neither 'a' nor 'b' [what was brought] */
    SIDINGMINT_LINE_LENGTH = 101,     /* the name of the line has not 8 bytes [its length] */
    SIDINGMINT_NO_STATE = 102         /* no end can stand at the numbers kept [the next number, or the highest] */
};

/* Places. */
enum sidingmint_place {
    SIDINGMINT_NOWHERE = 0,
    SIDINGMINT_PART = 1,
    SIDINGMINT_SENDER = 2,
    SIDINGMINT_EXPANDER = 3,
    SIDINGMINT_CIPHER = 4,
    SIDINGMINT_SEALING = 5,
    SIDINGMINT_RECEIVER = 6,
    SIDINGMINT_BOARD = 100
};

/* A refusal's number, place and detail; all 0 where there is none. */
typedef struct {
    uint32_t number;
    uint32_t place;
    uint64_t detail;
} sidingmint_reason;

/* What every call answers: refusal.number is 0 and then number and length say what was done, or it is not and they are 0. A refusal leaves every
   area and state as it was, except that a work area is zeroed. */
typedef struct {
    sidingmint_reason refusal;
    sidingmint_reason carried; /* the refusal that the other one carries: 4 in a 6 */
    uint64_t number;           /* the number of the record, drawn, sealed, given up or received */
    size_t length;             /* how many bytes were written at the front of the area */
} sidingmint_answer;

/* A sending end, as the board keeps it: the next number, and the number outstanding, or 0. Only the calls below change it. */
typedef struct {
    uint64_t next;
    uint64_t outstanding;
} sidingmint_sender;

/* A receiving end, as the board keeps it: the highest number accepted, or 0; bit i of the marks says that the number i below it was accepted. */
typedef struct {
    uint64_t highest;
    uint64_t marks;
} sidingmint_receiver;

/* Plain seal: the record of `text` under `number` goes to the front of `area`. Refusals in this order: 100, 1, 101, 8, 5, 6, 10, 11. */
sidingmint_answer sidingmint_seal(
    uint8_t pile,
    const uint8_t *hash_key, size_t hash_key_length,
    const uint8_t *expander_key, size_t expander_key_length,
    const uint8_t *header_key, size_t header_key_length,
    const uint8_t *line, size_t line_length,
    uint64_t number,
    const uint8_t *header, size_t header_length,
    const uint8_t *text, size_t text_length,
    uint8_t *area, size_t area_length);

/* Plain open: the text of `record` goes to the front of `text`. `work` is all zero afterwards. 100, 1, 101, 7, 8, 5, 6, 9, 10, 11, 12. */
sidingmint_answer sidingmint_open(
    uint8_t pile,
    const uint8_t *hash_key, size_t hash_key_length,
    const uint8_t *expander_key, size_t expander_key_length,
    const uint8_t *header_key, size_t header_key_length,
    const uint8_t *line, size_t line_length,
    const uint8_t *header, size_t header_length,
    const uint8_t *record, size_t record_length,
    uint8_t *work, size_t work_length,
    uint8_t *text, size_t text_length);

/* Makes a sender whose first number is `first`, whatever `state` held. 2. */
sidingmint_answer sidingmint_sender_make(sidingmint_sender *state, uint64_t first);

/* Draws the next number, which is then outstanding: answer.number is the ticket. 102, 13, 14. */
sidingmint_answer sidingmint_sender_draw(sidingmint_sender *state);

/* Gives up the number outstanding, which must be `ticket`; it is never sealed. 102, 15. */
sidingmint_answer sidingmint_sender_give_up(sidingmint_sender *state, uint64_t ticket);

/* Seals `text` under the number outstanding, which must be `ticket` and is then outstanding no more. 100, 1, 101, 102, 15, 8, 5, 6, 10. */
sidingmint_answer sidingmint_sender_seal(
    uint8_t pile,
    const uint8_t *hash_key, size_t hash_key_length,
    const uint8_t *expander_key, size_t expander_key_length,
    const uint8_t *header_key, size_t header_key_length,
    const uint8_t *line, size_t line_length,
    sidingmint_sender *state,
    uint64_t ticket,
    const uint8_t *header, size_t header_length,
    const uint8_t *text, size_t text_length,
    uint8_t *area, size_t area_length);

/* Makes a receiver that has accepted nothing, whatever `state` held. Never refused. */
sidingmint_answer sidingmint_receiver_make(sidingmint_receiver *state);

/* Takes a record in, once: its text goes to the front of `text`. `work` is all zero afterwards. 100, 1, 101, 102, 7, 8, 5, 6, 9, 10, 11, 16, 17, 12. */
sidingmint_answer sidingmint_receiver_receive(
    uint8_t pile,
    const uint8_t *hash_key, size_t hash_key_length,
    const uint8_t *expander_key, size_t expander_key_length,
    const uint8_t *header_key, size_t header_key_length,
    const uint8_t *line, size_t line_length,
    sidingmint_receiver *state,
    const uint8_t *header, size_t header_length,
    const uint8_t *record, size_t record_length,
    uint8_t *work, size_t work_length,
    uint8_t *text, size_t text_length);

#ifdef __cplusplus
}
#endif

#endif
