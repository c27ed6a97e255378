/* Compares libboards.a with reference.h: answers, every byte of every area, and the numbers kept, at the edges of every size and at random inputs,
   valid and damaged.

       compare [ROUNDS [SEED]]

   Ends with status 1 at the first difference. */
#include "reference.h"
#include "sidingmint.h"
#include <inttypes.h>

#define ROOM 5000
#define LAST SIDINGMINT_LAST

static uint64_t seed = 1;
static uint64_t counts[200];
static uint64_t calls;

static uint64_t any(void) {
    seed ^= seed << 13;
    seed ^= seed >> 7;
    seed ^= seed << 17;
    return seed;
}

static uint64_t below(uint64_t n) { return any() % n; }

static void fill(uint8_t *s, size_t length) {
    for (size_t i = 0; i < length; i++) s[i] = (uint8_t)(any() >> 32);
}

/* What a call brings, but its areas. */
typedef struct {
    uint8_t pile;
    uint8_t hash_key[40], expander_key[40], header_key[40], name[12];
    size_t hash_length, expander_length, header_key_length, name_length;
    uint8_t header[300];
    size_t header_length;
} brought;

static void bring(brought *b, uint8_t pile, size_t header_length) {
    b->pile = pile;
    fill(b->hash_key, 40);
    fill(b->expander_key, 40);
    fill(b->header_key, 40);
    fill(b->name, 12);
    fill(b->header, 300);
    b->hash_length = 16;
    b->expander_length = pile == 'b' || below(2) ? 32 : 16;
    b->header_key_length = 16;
    b->name_length = 8;
    b->header_length = header_length;
}

static reference_line line_of(const brought *b) {
    reference_line l = {b->pile, b->hash_key, b->expander_key, b->expander_length, b->header_key, b->name};
    return l;
}

static sidingmint_answer refused(uint32_t number, uint32_t place, uint64_t detail) {
    sidingmint_answer a = {{number, place, detail}, {0, 0, 0}, 0, 0};
    return a;
}

static sidingmint_answer done(uint64_t number, size_t length) {
    sidingmint_answer a = {{0, 0, 0}, {0, 0, 0}, number, length};
    return a;
}

static int is_refused(sidingmint_answer a) { return a.refusal.number != 0; }

static void die(const char *what, sidingmint_answer got, sidingmint_answer expected) {
    fprintf(stderr, "compare: %s differs after %" PRIu64 " calls\n", what, calls);
    for (int i = 0; i < 2; i++) {
        sidingmint_answer a = i ? expected : got;
        fprintf(stderr, "%s: %" PRIu32 " %" PRIu32 " %" PRIu64 ", carried %" PRIu32 " %" PRIu32 " %" PRIu64 ", number %" PRIu64 ", length %zu\n", i ? "expected" : "got", a.refusal.number, a.refusal.place, a.refusal.detail, a.carried.number, a.carried.place, a.carried.detail, a.number, a.length);
    }
    exit(1);
}

static void same(const char *what, sidingmint_answer got, sidingmint_answer expected) {
    calls++;
    counts[expected.refusal.number]++;
    if (got.refusal.number != expected.refusal.number || got.refusal.place != expected.refusal.place || got.refusal.detail != expected.refusal.detail
        || got.carried.number != expected.carried.number || got.carried.place != expected.carried.place || got.carried.detail != expected.carried.detail
        || got.number != expected.number || got.length != expected.length)
        die(what, got, expected);
}

/* The refusals of the line: pile, keys, name. */
static sidingmint_answer judge_line(const brought *b) {
    if (b->pile != 'a' && b->pile != 'b') return refused(100, 100, b->pile);
    if (b->hash_length != 16) return refused(1, 1, b->hash_length);
    if (b->expander_length != 32 && !(b->pile == 'a' && b->expander_length == 16)) return refused(1, 1, b->expander_length);
    if (b->header_key_length != 16) return refused(1, 1, b->header_key_length);
    if (b->name_length != 8) return refused(101, 100, b->name_length);
    return done(0, 0);
}

static sidingmint_answer judge_length(size_t length) {
    if (length < 32) return refused(5, 4, 32);
    if (length > 4112) {
        sidingmint_answer a = refused(6, 4, 4112);
        a.carried.number = 4;
        a.carried.place = 3;
        a.carried.detail = 4096;
        return a;
    }
    return done(0, 0);
}

static sidingmint_answer judge_sealing(const brought *b, size_t text, size_t area) {
    sidingmint_answer a;
    if (b->header_length > 256) return refused(8, 5, b->header_length);
    a = judge_length(text + 16);
    if (is_refused(a)) return a;
    if (area < text + 24) return refused(10, 5, text + 24);
    return done(0, text + 24);
}

static uint64_t number_of(const uint8_t *record) {
    uint64_t n = 0;
    for (int i = 0; i < 8; i++) n = n << 8 | record[i];
    return n;
}

static sidingmint_answer judge_record(const brought *b, const uint8_t *record, size_t length, size_t work, size_t text) {
    sidingmint_answer a;
    if (length < 8) return refused(7, 5, length);
    if (b->header_length > 256) return refused(8, 5, b->header_length);
    a = judge_length(length - 8);
    if (is_refused(a)) return a;
    if (work < length - 8) return refused(9, 5, length - 8);
    if (text < length - 24) return refused(10, 5, length - 24);
    if (number_of(record) == 0 || number_of(record) > LAST) return refused(11, 5, number_of(record));
    return done(number_of(record), length - 24);
}

static uint8_t area[ROOM], expected_area[ROOM], work[ROOM], zero[ROOM], text_area[ROOM], expected_text[ROOM], buffer[ROOM];

#define LINE(b) (b)->pile, (b)->hash_key, (b)->hash_length, (b)->expander_key, (b)->expander_length, (b)->header_key, (b)->header_key_length, (b)->name, (b)->name_length
#define HEADER(b) (b)->header, (b)->header_length

/* The sender, told again here: which number is next, and which is out. */
static int no_sender(const sidingmint_sender *s) {
    return s->next < 1 || s->next > LAST + 1 || (s->outstanding && s->outstanding != s->next - 1);
}

static void same_sender(const char *what, const sidingmint_sender *got, const sidingmint_sender *expected) {
    if (got->next != expected->next || got->outstanding != expected->outstanding) {
        fprintf(stderr, "compare: %s leaves %" PRIu64 " %" PRIu64 " and not %" PRIu64 " %" PRIu64 "\n", what, got->next, got->outstanding, expected->next, expected->outstanding);
        exit(1);
    }
}

static void try_make(uint64_t first) {
    sidingmint_sender s = {any(), any()}, e = s;
    sidingmint_answer expected = first < 1 || first > LAST ? refused(2, 2, first) : done(first, 0);
    if (!is_refused(expected)) {
        e.next = first;
        e.outstanding = 0;
    }
    same("make", sidingmint_sender_make(&s, first), expected);
    same_sender("make", &s, &e);
}

static sidingmint_answer try_draw(sidingmint_sender *s) {
    sidingmint_sender e = *s;
    sidingmint_answer expected;
    if (no_sender(s)) expected = refused(102, 100, s->next);
    else if (s->outstanding) expected = refused(13, 2, s->outstanding);
    else if (s->next > LAST) expected = refused(14, 2, LAST);
    else {
        expected = done(s->next, 0);
        e.outstanding = e.next++;
    }
    same("draw", sidingmint_sender_draw(s), expected);
    same_sender("draw", s, &e);
    return expected;
}

static void try_give_up(sidingmint_sender *s, uint64_t ticket) {
    sidingmint_sender e = *s;
    sidingmint_answer expected;
    if (no_sender(s)) expected = refused(102, 100, s->next);
    else if (!s->outstanding || s->outstanding != ticket) expected = refused(15, 2, ticket);
    else {
        expected = done(ticket, 0);
        e.outstanding = 0;
    }
    same("give up", sidingmint_sender_give_up(s, ticket), expected);
    same_sender("give up", s, &e);
}

static void check_area(const char *what, sidingmint_answer expected, const uint8_t *got, const uint8_t *wanted) {
    if (memcmp(got, wanted, ROOM)) die(what, expected, expected);
}

/* Plain seal where s is null. The record is left in `area`. */
static sidingmint_answer try_seal(const brought *b, sidingmint_sender *s, uint64_t number, const uint8_t *text, size_t length, size_t area_length) {
    sidingmint_answer expected = judge_line(b);
    sidingmint_sender e = {0, 0};
    if (s) e = *s;
    if (!is_refused(expected) && s && no_sender(s)) expected = refused(102, 100, s->next);
    else if (!is_refused(expected) && s && (!s->outstanding || s->outstanding != number)) expected = refused(15, 2, number);
    else if (!is_refused(expected)) {
        expected = judge_sealing(b, length, area_length);
        if (!is_refused(expected) && (number < 1 || number > LAST)) expected = refused(11, 5, number);
    }
    fill(area, ROOM);
    memcpy(expected_area, area, ROOM);
    if (!is_refused(expected)) {
        reference_line l = line_of(b);
        reference_seal(&l, number, b->header, b->header_length, text, length, expected_area);
        expected.number = number;
        e.outstanding = 0;
    }
    if (s) {
        same("seal", sidingmint_sender_seal(LINE(b), s, number, HEADER(b), text, length, area, area_length), expected);
        same_sender("seal", s, &e);
    } else {
        same("plain seal", sidingmint_seal(LINE(b), number, HEADER(b), text, length, area, area_length), expected);
    }
    check_area("the record area", expected, area, expected_area);
    return expected;
}

/* What a receiver has accepted, as a list. */
typedef struct {
    uint64_t accepted[4000];
    size_t count;
    uint64_t highest;
} history;

static int was_accepted(const history *h, uint64_t number) {
    for (size_t i = 0; i < h->count; i++)
        if (h->accepted[i] == number) return 1;
    return 0;
}

static int no_receiver(const sidingmint_receiver *r) {
    if (r->highest > LAST) return 1;
    for (uint64_t i = 0; i < 64; i++) {
        int marked = r->marks >> i & 1;
        if (marked && i >= r->highest) return 1;
        if (i == 0 && r->highest && !marked) return 1;
    }
    return 0;
}

static void check_receiver(const sidingmint_receiver *r, const history *h) {
    int wrong = r->highest != h->highest;
    for (uint64_t i = 0; i < 64; i++) {
        int marked = r->marks >> i & 1;
        int due = i < h->highest && was_accepted(h, h->highest - i);
        wrong |= marked != due;
    }
    if (wrong) {
        fprintf(stderr, "compare: a receiver is left at %" PRIu64 " %" PRIx64 "\n", r->highest, r->marks);
        exit(1);
    }
}

/* Plain open where r is null; h is what r has accepted, or null where r may be no receiver at all. */
static sidingmint_answer try_open(const brought *b, sidingmint_receiver *r, history *h, const uint8_t *record, size_t length, size_t work_length, size_t text_length) {
    sidingmint_answer expected = judge_line(b);
    sidingmint_receiver before = {0, 0};
    if (r) before = *r;
    fill(work, ROOM);
    memcpy(zero, work, ROOM);
    memset(zero, 0, work_length);
    fill(text_area, ROOM);
    memcpy(expected_text, text_area, ROOM);
    if (!is_refused(expected) && r && no_receiver(r)) expected = refused(102, 100, r->highest);
    else if (!is_refused(expected)) {
        expected = judge_record(b, record, length, work_length, text_length);
        if (!is_refused(expected) && r && expected.number + 64 <= h->highest) expected = refused(16, 6, h->highest);
        else if (!is_refused(expected) && r && was_accepted(h, expected.number)) expected = refused(17, 6, expected.number);
        else if (!is_refused(expected)) {
            reference_line l = line_of(b);
            if (!reference_open(&l, b->header, b->header_length, record, length, expected_text)) expected = refused(12, 5, 0);
        }
    }
    if (r) same("receive", sidingmint_receiver_receive(LINE(b), r, HEADER(b), record, length, work, work_length, text_area, text_length), expected);
    else same("plain open", sidingmint_open(LINE(b), HEADER(b), record, length, work, work_length, text_area, text_length), expected);
    check_area("the text area", expected, text_area, expected_text);
    check_area("the work area", expected, work, zero);
    if (r && is_refused(expected) && memcmp(r, &before, sizeof before)) die("a receiver that refused", expected, expected);
    if (r && !is_refused(expected)) {
        h->accepted[h->count++] = expected.number;
        if (expected.number > h->highest) h->highest = expected.number;
        check_receiver(r, h);
    }
    return expected;
}

static const uint8_t piles[] = {'a', 'b'};

/* Each size at its edges, with all else in order. */
static void edges(void) {
    static const size_t key_lengths[] = {0, 1, 15, 16, 17, 31, 32, 33, 40};
    static const size_t name_lengths[] = {0, 7, 8, 9};
    static const size_t header_lengths[] = {0, 1, 7, 8, 9, 255, 256, 257, 300};
    static const uint64_t numbers[] = {0, 1, 2, 63, 64, 65, LAST - 1, LAST, LAST + 1, UINT64_MAX};
    static uint8_t text[ROOM], record[ROOM];
    brought b;
    fill(text, ROOM);
    for (int p = 0; p < 256; p++) {
        bring(&b, (uint8_t)p, 5);
        try_seal(&b, NULL, 1, text, 20, 100);
        try_open(&b, NULL, NULL, area, 44, 100, 100);
    }
    for (int p = 0; p < 2; p++) {
        for (size_t i = 0; i < 3; i++)
            for (size_t k = 0; k < sizeof key_lengths / sizeof *key_lengths; k++) {
                bring(&b, piles[p], 5);
                *(i == 0 ? &b.hash_length : i == 1 ? &b.expander_length : &b.header_key_length) = key_lengths[k];
                if (below(2)) b.name_length = 7;
                try_seal(&b, NULL, 1, text, 20, 100);
                try_open(&b, NULL, NULL, text, 60, 100, 100);
            }
        for (size_t k = 0; k < sizeof name_lengths / sizeof *name_lengths; k++) {
            bring(&b, piles[p], 5);
            b.name_length = name_lengths[k];
            try_seal(&b, NULL, 1, text, 20, 100);
            try_open(&b, NULL, NULL, area, 44, 100, 100);
        }
        for (size_t k = 0; k < sizeof header_lengths / sizeof *header_lengths; k++) {
            bring(&b, piles[p], header_lengths[k]);
            try_seal(&b, NULL, 9, text, 20, 100);
            memcpy(record, area, ROOM);
            try_open(&b, NULL, NULL, record, 44, 36, 20);
        }
        for (size_t k = 0; k < sizeof numbers / sizeof *numbers; k++) {
            bring(&b, piles[p], 5);
            try_seal(&b, NULL, numbers[k], text, 20, 44);
            memcpy(record, area, ROOM);
            for (int i = 0; i < 8; i++) record[i] = (uint8_t)(numbers[k] >> (56 - 8 * i));
            try_open(&b, NULL, NULL, record, 44, 36, 20);
        }
        for (size_t length = 0; length < 4200; length += length < 100 || length > 4050 ? 1 : 61)
            for (size_t less = 0; less < 3; less++) {
                bring(&b, piles[p], below(257));
                try_seal(&b, NULL, 1 + below(LAST), text, length, length + 23 + less);
                memcpy(record, area, ROOM);
                if (length + 24 + 8 < ROOM) {
                    try_open(&b, NULL, NULL, record, length + 24, length + 16, length);
                    if (length) try_open(&b, NULL, NULL, record, length + 24, length + 15, length);
                    if (length) try_open(&b, NULL, NULL, record, length + 24, length + 16 + less, length - 1);
                    try_open(&b, NULL, NULL, record, length, ROOM, ROOM);
                }
            }
    }
    for (size_t k = 0; k < sizeof numbers / sizeof *numbers; k++) try_make(numbers[k]);
}

/* Numbers kept that are at the edges of what an end can stand at. */
static void states(void) {
    static const uint64_t values[] = {0, 1, 2, 3, 4, 62, 63, 64, 65, LAST - 1, LAST, LAST + 1, LAST + 2, (uint64_t)1 << 63, UINT64_MAX};
    const size_t count = sizeof values / sizeof *values;
    brought b;
    bring(&b, 'a', 5);
    fill(buffer, ROOM);
    for (size_t i = 0; i < count; i++)
        for (size_t k = 0; k < count; k++) {
            sidingmint_sender s = {values[i], values[k]}, t = s, u = s;
            try_draw(&s);
            for (size_t j = 0; j < count; j++) {
                t = u;
                try_give_up(&t, values[j]);
                t = u;
                try_seal(&b, &t, values[j], buffer, 16, 40);
            }
        }
    for (size_t i = 0; i < count; i++)
        for (uint64_t k = 0; k < 200; k++) {
            uint64_t bit = (uint64_t)1 << (k % 64);
            sidingmint_receiver r = {values[i], k < 64 ? bit : k < 128 ? bit | 1 : k < 192 ? (bit - 1) | bit : any()};
            if (no_receiver(&r)) try_open(&b, &r, NULL, buffer, 60, 100, 100);
            else {
                history h = {{0}, 0, r.highest};
                for (uint64_t j = 0; j < 64; j++)
                    if (r.marks >> j & 1) h.accepted[h.count++] = r.highest - j;
                uint64_t number = r.highest + 70 < 2 * below(140) ? 1 : r.highest + 70 - below(140);
                try_seal(&b, NULL, number, buffer, 16, 40);
                uint8_t record[40];
                memcpy(record, area, 40);
                try_open(&b, &r, &h, record, 40, 32, 16);
            }
        }
}

static size_t some_length(void) {
    switch (below(8)) {
    case 0: return 16;
    case 1: return 4096;
    case 2: return 16 + below(4081);
    default: return 16 + below(120);
    }
}

/* Damages a record, or its header, in one of several ways; returns its new length. */
static size_t damage(brought *b, uint8_t *record, size_t length) {
    switch (below(8)) {
    case 0: record[below(length)] ^= (uint8_t)(1 << below(8)); break;
    case 1: record[below(8)] ^= (uint8_t)(1 << below(8)); break;
    case 2: record[length - 1 - below(16)] ^= (uint8_t)(1 + below(255)); break;
    case 3: record[8 + below(16)] ^= (uint8_t)(1 + below(255)); break;
    case 4: return length - 1 - below(length < 60 ? length - 1 : 30);
    case 5: return length < 4120 ? length + 1 : length;
    case 6: b->name[below(8)] ^= 1; break;
    default:
        if (b->header_length) b->header[below(b->header_length)] ^= 1;
        else b->header_length = 1;
    }
    return length;
}

/* A session: a sender and a receiver of one line, with records lost, repeated, late and damaged. */
static void session(uint8_t pile, uint64_t steps) {
    static uint8_t text[ROOM], record[ROOM];
    static struct { uint8_t bytes[4200]; size_t length; uint8_t header[300]; size_t header_length; } sent[80];
    static history h;
    brought b;
    size_t count = 0;
    sidingmint_sender s;
    sidingmint_receiver r;
    h.count = 0;
    h.highest = 0;
    bring(&b, pile, 0);
    uint64_t first = below(4) ? 1 + below(100) : LAST - below(40);
    sidingmint_sender_make(&s, first);
    sidingmint_receiver_make(&r);
    check_receiver(&r, &h);
    for (uint64_t n = 0; n < steps; n++) {
        b.header_length = below(3) ? below(20) : below(257);
        switch (below(6)) {
        case 0:
        case 1: try_draw(&s); break;
        case 2:
            if (below(4) == 0) try_give_up(&s, below(3) ? s.outstanding : below(s.next + 2));
            break;
        case 3: {
            size_t length = below(10) ? some_length() : below(20);
            size_t room = length + 24 - (below(10) ? 0 : 1) + below(30);
            fill(text, length);
            sidingmint_answer a = try_seal(&b, &s, below(8) ? s.outstanding : below(s.next + 2), text, length, room);
            if (!is_refused(a)) {
                size_t at = count < 80 ? count++ : below(80);
                memcpy(sent[at].bytes, area, a.length);
                sent[at].length = a.length;
                memcpy(sent[at].header, b.header, 300);
                sent[at].header_length = b.header_length;
            }
            break;
        }
        default:
            if (count) {
                size_t at = below(count);
                brought d = b;
                memcpy(record, sent[at].bytes, sent[at].length);
                memcpy(d.header, sent[at].header, 300);
                d.header_length = sent[at].header_length;
                size_t length = below(3) ? sent[at].length : damage(&d, record, sent[at].length);
                size_t need = length < 24 ? 24 : length;
                try_open(&d, NULL, NULL, record, length, need + below(20), need + below(20));
                if (h.count < 4000) try_open(&d, &r, &h, record, length, need - 8 - (below(12) ? 0 : 1), need - 24 + below(9));
            }
        }
        /* Now and then a jump ahead, as after a long silence. */
        if (below(60) == 0 && !s.outstanding && s.next + 200 < LAST) s.next += below(200);
    }
}

static void known(void) {
    /* RFC 8452, appendix A. */
    static const uint8_t key[16] = {0x25, 0x62, 0x93, 0x47, 0x58, 0x92, 0x42, 0x76, 0x1d, 0x31, 0xf8, 0x26, 0xba, 0x4b, 0x75, 0x7b};
    static const uint8_t blocks[32] = {0x4f, 0x4f, 0x95, 0x66, 0x8c, 0x83, 0xdf, 0xb6, 0x40, 0x17, 0x62, 0xbb, 0x2d, 0x01, 0xa2, 0x62, 0xd1, 0xa2, 0x4d, 0xdd, 0x27, 0x21, 0xd0, 0x06, 0xbb, 0xe4, 0x5f, 0x20, 0xd3, 0xc9, 0xf3, 0x62};
    static const uint8_t value[16] = {0xf7, 0xa3, 0xb4, 0x7b, 0x84, 0x61, 0x19, 0xfa, 0xe5, 0xb7, 0x86, 0x6c, 0xf5, 0xe5, 0xb7, 0x7e};
    const element inverse = {{1, (uint64_t)1 << 63 | (uint64_t)1 << 60 | (uint64_t)1 << 57 | (uint64_t)1 << 50}};
    element h = element_times(element_of(key), inverse), sum = {{0, 0}}, v = element_of(value);
    for (int i = 0; i < 2; i++) {
        element x = element_of(blocks + 16 * i);
        sum.word[0] ^= x.word[0];
        sum.word[1] ^= x.word[1];
        sum = element_times(sum, h);
    }
    if (sum.word[0] != v.word[0] || sum.word[1] != v.word[1]) {
        fprintf(stderr, "compare: the reference's POLYVAL is wrong\n");
        exit(1);
    }
}

int main(int argc, char **argv) {
    uint64_t rounds = argc > 1 ? strtoull(argv[1], NULL, 10) : 60;
    seed = argc > 2 ? strtoull(argv[2], NULL, 10) | 1 : 0x9e3779b97f4a7c15;
    known();
    edges();
    states();
    for (uint64_t i = 0; i < rounds; i++) session(piles[i % 2], 400);
    printf("compare: %" PRIu64 " calls agree; not refused: %" PRIu64, calls, counts[0]);
    for (int i = 1; i < 200; i++)
        if (counts[i]) printf(", %d: %" PRIu64, i, counts[i]);
    printf("\n");
    /* Each refusal that a board can meet was met. */
    static const int met[] = {1, 2, 5, 6, 7, 8, 9, 10, 11, 12, 13, 14, 15, 16, 17, 100, 101, 102};
    for (size_t i = 0; i < sizeof met / sizeof *met; i++)
        if (!counts[met[i]]) {
            fprintf(stderr, "compare: refusal %d was never met\n", met[i]);
            return 1;
        }
    return 0;
}
