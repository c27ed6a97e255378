/* A board's session with both ends in one program: what README.md shows of hallrun, by the calls of sidingmint.h. Prints a line for each call. */
#include "sidingmint.h"
#include <inttypes.h>
#include <stdio.h>

static const uint8_t key[16];
static const uint8_t line[8] = {0, 0, 0, 0, 0, 0, 0, 1};

static const char *place(uint32_t code) {
    switch (code) {
    case SIDINGMINT_PART: return "part";
    case SIDINGMINT_SENDER: return "sender";
    case SIDINGMINT_EXPANDER: return "expander";
    case SIDINGMINT_CIPHER: return "cipher";
    case SIDINGMINT_SEALING: return "sealing";
    case SIDINGMINT_RECEIVER: return "receiver";
    case SIDINGMINT_BOARD: return "board";
    default: return "nowhere";
    }
}

static void print(const char *call, sidingmint_answer answer, const uint8_t *bytes) {
    printf("%s:", call);
    if (answer.refusal.number) {
        printf(" refused %" PRIu32 " %s %" PRIu64, answer.refusal.number, place(answer.refusal.place), answer.refusal.detail);
        if (answer.carried.number) printf(", carried %" PRIu32 " %s %" PRIu64, answer.carried.number, place(answer.carried.place), answer.carried.detail);
    } else {
        printf(" %" PRIu64, answer.number);
        if (answer.length) printf(" ");
        for (size_t i = 0; i < answer.length; i++) printf("%02x", bytes[i]);
    }
    printf("\n");
}

static sidingmint_answer seal(sidingmint_sender *sender, uint64_t ticket, const uint8_t *text, size_t length, uint8_t *area, size_t area_length) {
    return sidingmint_sender_seal(SIDINGMINT_PILE_A, key, 16, key, 16, key, 16, line, 8, sender, ticket, NULL, 0, text, length, area, area_length);
}

static sidingmint_answer receive(sidingmint_receiver *receiver, const uint8_t *record, size_t length, uint8_t *work, size_t work_length, uint8_t *text, size_t text_length) {
    return sidingmint_receiver_receive(SIDINGMINT_PILE_A, key, 16, key, 16, key, 16, line, 8, receiver, NULL, 0, record, length, work, work_length, text, text_length);
}

int main(void) {
    static uint8_t area[SIDINGMINT_TEXT_MOST + SIDINGMINT_RECORD_EXTRA], work[SIDINGMINT_WORK_MOST], got[SIDINGMINT_TEXT_MOST], longest[SIDINGMINT_TEXT_MOST + 1];
    static const uint8_t text[16] = {'l', 'i', 'f', 't', 's', ' ', 'u', 'n', 'i', 't', ' ', '7', ':', ' ', '4', '1'};
    sidingmint_sender sender;
    sidingmint_receiver receiver;
    print("make a sender from 0", sidingmint_sender_make(&sender, 0), NULL);
    print("make a sender from 1", sidingmint_sender_make(&sender, 1), NULL);
    print("make a receiver", sidingmint_receiver_make(&receiver), NULL);
    print("draw", sidingmint_sender_draw(&sender), NULL);
    print("draw", sidingmint_sender_draw(&sender), NULL);
    print("give up 1", sidingmint_sender_give_up(&sender, 1), NULL);
    print("draw", sidingmint_sender_draw(&sender), NULL);
    print("seal with 1", seal(&sender, 1, text, 16, area, sizeof area), area);
    print("seal 4097 bytes", seal(&sender, 2, longest, sizeof longest, area, sizeof area), area);
    sidingmint_answer sealed = seal(&sender, 2, text, 16, area, sizeof area);
    print("seal", sealed, area);
    print("receive 3 bytes", receive(&receiver, area, 3, work, sizeof work, got, sizeof got), got);
    print("receive", receive(&receiver, area, sealed.length, work, sizeof work, got, sizeof got), got);
    print("receive again", receive(&receiver, area, sealed.length, work, sizeof work, got, sizeof got), got);
    printf("sender kept: %" PRIu64 " %" PRIu64 "\n", sender.next, sender.outstanding);
    printf("receiver kept: %" PRIu64 " %" PRIx64 "\n", receiver.highest, receiver.marks);
    sender.outstanding = 1;
    print("draw where no sender stands", sidingmint_sender_draw(&sender), NULL);
    return 0;
}
