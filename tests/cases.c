/* Asks the library what case lines on standard input say, and prints each line again with what came out.
 * docs/CASES.md has the lines, word by word.
 *
 * Nothing of the paper stands here but the 45 of a session that has not ended: words are parsed, the library is
 * called, fields and bytes are printed. A parser gives 0 for a word that is not what it parses, and a request 0
 * for a line that is no case; nothing is done then. What is printed is flushed before the program waits for
 * input. Its status is 0 at the end of the input, and 1 where input or output fails. */
#define _POSIX_C_SOURCE 200809L
#include "gremolunde.h"
#include <stdlib.h>
#include <string.h>
#include <unistd.h>

#define COUNT(table) (sizeof(table) / sizeof *(table))

/* Output. */

static char output[65536];
static size_t output_end;

static void flush(void) {
    size_t done = 0;
    while (done < output_end) {
        ssize_t n = write(1, output + done, output_end - done);
        if (n <= 0) {
            _exit(1);
        }
        done += (size_t)n;
    }
    output_end = 0;
}

static void put(const char *text, size_t length) {
    while (length > 0) {
        size_t n = sizeof output - output_end;
        n = n < length ? n : length;
        memcpy(output + output_end, text, n);
        output_end += n;
        text += n;
        length -= n;
        if (output_end == sizeof output) {
            flush();
        }
    }
}

/* What comes out: each value behind a single space. */

static void give_text(const char *text, size_t length) {
    if (length > 0) {
        put(" ", 1);
        put(text, length);
    }
}

static void give_word(const char *word) { give_text(word, strlen(word)); }

static void give_number(uint64_t n) {
    char digits[20];
    size_t at = sizeof digits;
    do {
        digits[--at] = (char)('0' + n % 10);
        n /= 10;
    } while (n > 0);
    give_text(digits + at, sizeof digits - at);
}

static const char hex_digits[] = "0123456789ABCDEF";

static void give_bytes(const uint8_t *bytes, size_t length) {
    size_t i;
    put(" ", length > 0);
    for (i = 0; i < length; i++) {
        if (sizeof output - output_end < 2) {
            flush();
        }
        output[output_end++] = hex_digits[bytes[i] >> 4];
        output[output_end++] = hex_digits[bytes[i] & 15];
    }
}

static void give_address(uint32_t a) {
    uint8_t bytes[] = {(uint8_t)(a >> 24), (uint8_t)(a >> 16), (uint8_t)(a >> 8), (uint8_t)a};
    give_bytes(bytes, sizeof bytes);
}

static void give_half(uint16_t half) {
    uint8_t bytes[] = {(uint8_t)(half >> 8), (uint8_t)half};
    give_bytes(bytes, sizeof bytes);
}

/* Input. */

typedef struct word {
    const char *at;
    size_t length;
} word;

static char *input;
static size_t input_at, input_end, input_room;

/* More input behind what is not yet taken, or 0 at its end. */
static int more(void) {
    ssize_t got;
    flush();
    if (input_at > 0) {
        memmove(input, input + input_at, input_end - input_at);
        input_end -= input_at;
        input_at = 0;
    }
    if (input_end == input_room) {
        input_room = input_room == 0 ? 65536 : 2 * input_room;
        input = realloc(input, input_room);
        if (input == NULL) {
            _exit(1);
        }
    }
    got = read(0, input + input_end, input_room - input_end);
    if (got < 0) {
        _exit(1);
    }
    input_end += (size_t)got;
    return got > 0;
}

/* The next line without its end, or 0 where there is none; what stands behind the last end is a line too. */
static int next_line(word *line) {
    size_t seen = 0;
    const char *end = NULL;
    while (end == NULL) {
        if (input_end - input_at == seen && !more()) {
            break;
        }
        end = memchr(input + input_at + seen, '\n', input_end - input_at - seen);
        seen = input_end - input_at;
    }
    line->at = input + input_at;
    line->length = end == NULL ? seen : (size_t)(end - line->at);
    input_at += end == NULL ? seen : line->length + 1;
    return end != NULL || line->length > 0;
}

/* Words. */

static int is(word w, const char *name) {
    return w.length == strlen(name) && memcmp(w.at, name, w.length) == 0;
}

/* Which of these names the word is, or -1. */
static int name_of(word w, const char *const *names, int count) {
    while (--count >= 0 && !is(w, names[count])) {
    }
    return count;
}

static int number_of(word w, uint64_t most, uint64_t *n) {
    size_t i;
    if (w.length == 0 || (w.length > 1 && w.at[0] == '0')) {
        return 0;
    }
    for (*n = 0, i = 0; i < w.length; i++) {
        uint64_t digit = (uint64_t)(w.at[i] - '0');
        if (digit > 9 || *n > most / 10 || 10 * *n > most - digit) {
            return 0;
        }
        *n = 10 * *n + digit;
    }
    return 1;
}

/* A number of 32 bits. */
static int number32_of(word w, uint32_t *n) {
    uint64_t value;
    if (!number_of(w, UINT32_MAX, &value)) {
        return 0;
    }
    *n = (uint32_t)value;
    return 1;
}

static int digit_of(char c) {
    return c >= '0' && c <= '9' ? c - '0' : c >= 'A' && c <= 'F' ? c - 'A' + 10 : -1;
}

/* The bytes of a word, at most so many. */
static int bytes_of(word w, size_t most, uint8_t *bytes, size_t *length) {
    size_t i;
    if (w.length % 2 != 0 || w.length / 2 > most) {
        return 0;
    }
    *length = w.length / 2;
    for (i = 0; i < *length; i++) {
        int high = digit_of(w.at[2 * i]), low = digit_of(w.at[2 * i + 1]);
        if (high < 0 || low < 0) {
            return 0;
        }
        bytes[i] = (uint8_t)(high << 4 | low);
    }
    return 1;
}

static int byte_of(word w, uint8_t *byte) {
    size_t length;
    return bytes_of(w, 1, byte, &length) && length == 1;
}

/* The number of so many bytes, at most four. */
static int whole_of(word w, size_t size, uint32_t *n) {
    uint8_t bytes[4];
    size_t i, length;
    if (!bytes_of(w, size, bytes, &length) || length != size) {
        return 0;
    }
    for (*n = 0, i = 0; i < size; i++) {
        *n = *n << 8 | bytes[i];
    }
    return 1;
}

static int address_of(word w, uint32_t *a) { return whole_of(w, 4, a); }

static int half_of(word w, uint16_t *half) {
    uint32_t n;
    if (!whole_of(w, 2, &n)) {
        return 0;
    }
    *half = (uint16_t)n;
    return 1;
}

/* Run kinds, by word or by number. */
static int kind_of(word w, uint32_t *kind) {
    static const char *const kinds[] = {"reset", "jump", "hold"};
    static const uint32_t values[] = {GREMOLUNDE_RESET, GREMOLUNDE_JUMP, GREMOLUNDE_HOLD};
    int i = name_of(w, kinds, COUNT(kinds));
    uint64_t n = 0;
    if (i < 0 && !number_of(w, UINT32_MAX, &n)) {
        return 0;
    }
    *kind = i < 0 ? (uint32_t)n : values[i];
    return 1;
}

/* Buffers. */

#define CAPACITY 131072

/* The first eight have parts that calls lend; what a line brings is lent from the ninth. */
enum { FLASH, ANSWER, IMAGE, MAP, PACKET, RECORD, LOG, TABLE, INPUT, OTHER, SPARE, BUFFERS };

static const char *const buffers[] = {"flash", "answer", "image", "map",   "packet", "record",
                                      "log",   "table",  "input", "other", "spare"};

/* What each buffer holds, and what it held before the last call. */
static uint8_t held[BUFFERS][CAPACITY], before[BUFFERS][CAPACITY];

/* Bytes of a buffer, or the null pointer. */
typedef struct part {
    int buffer;
    uint8_t *bytes;
    size_t length;
} part;

static part part_at(int buffer, size_t place, size_t length) {
    part p = {buffer, held[buffer] + place, length};
    return p;
}

static size_t place_of(part p) { return (size_t)(p.bytes - held[p.buffer]); }

/* So many bytes of a buffer from a place on. */
static int part_of(word buffer, word place, size_t length, part *p) {
    int which = name_of(buffer, buffers, BUFFERS);
    uint32_t at;
    if (which < 0 || !address_of(place, &at) || at > CAPACITY || length > CAPACITY - at) {
        return 0;
    }
    *p = part_at(which, at, length);
    return 1;
}

static int span_of(const word *words, part *p) {
    uint64_t length;
    return number_of(words[2], CAPACITY, &length) && part_of(words[0], words[1], (size_t)length, p);
}

/* What lines put into buffers, no call has changed. */

static void settle(part p) { memcpy(before[p.buffer] + place_of(p), p.bytes, p.length); }

static void fill(part p, uint8_t byte) {
    memset(p.bytes, byte, p.length);
    settle(p);
}

static void store(part p, const uint8_t *bytes) {
    memcpy(p.bytes, bytes, p.length);
    settle(p);
}

/* Calls. */

/* What is lent for each part from now on, and the parts that the call in hand lends, one bit a part. */
static part parts[INPUT + 1];
static unsigned lent;

#define BIT(part) (1u << (part))
#define LENT(part) parts[part].bytes, parts[part].length

/* The bytes that the line in hand brings, and where such bytes are lent from. */
static uint8_t brought[CAPACITY];
static part brought_to;

static int bring(size_t length) {
    size_t place = place_of(brought_to);
    if (length > CAPACITY - place) {
        return 0;
    }
    parts[INPUT] = part_at(brought_to.buffer, place, length);
    if (length == 0) {
        parts[INPUT].bytes = NULL;
    }
    return 1;
}

static int bring_bytes(word w) {
    size_t length;
    return bytes_of(w, CAPACITY, brought, &length) && bring(length);
}

static int bring_text(word w) {
    if (w.length > CAPACITY) {
        return 0;
    }
    memcpy(brought, w.at, w.length);
    return bring(w.length);
}

static int overlap(part a, part b) {
    return a.length > 0 && b.length > 0 && a.buffer == b.buffer && a.bytes < b.bytes + b.length &&
           b.bytes < a.bytes + a.length;
}

/* What the last call changed lies here; the rest of the buffer is as before. */
static part changes[BUFFERS];

/* Lends these parts to a call; 0 where bytes that it may write overlap others. */
static int lend(unsigned reads, unsigned writes) {
    int a, b;
    for (a = 0; a <= INPUT; a++) {
        for (b = 0; b <= INPUT; b++) {
            if (a != b && (writes & BIT(a)) && ((reads | writes) & BIT(b)) && overlap(parts[a], parts[b])) {
                return 0;
            }
        }
    }
    for (a = 0; a < BUFFERS; a++) {
        settle(changes[a]);
        changes[a].length = 0;
    }
    lent = reads | writes;
    if ((reads & BIT(INPUT)) && parts[INPUT].length > 0) {
        store(parts[INPUT], brought);
    }
    return 1;
}

/* A call is watched in what it is lent and so many bytes on either side, a block at a time. */
#define AROUND 4096
#define BLOCK 512

/* Eight bytes a step. */
static int as_before(int buffer, size_t place) {
    const uint8_t *now = held[buffer] + place, *then = before[buffer] + place;
    uint64_t unlike = 0, a, b;
    size_t i;
    for (i = 0; i < BLOCK; i += sizeof a) {
        memcpy(&a, now + i, sizeof a);
        memcpy(&b, then + i, sizeof b);
        unlike |= a ^ b;
    }
    return unlike == 0;
}

/* Finds what the call has changed in a part and around it. */
static void watch(part p) {
    size_t from = place_of(p), to = from + p.length + AROUND;
    part known = changes[p.buffer];
    from = from < AROUND ? 0 : (from - AROUND) / BLOCK * BLOCK;
    to = to > CAPACITY ? CAPACITY : (to + BLOCK - 1) / BLOCK * BLOCK;
    while (from < to && as_before(p.buffer, from)) {
        from += BLOCK;
    }
    while (from < to && as_before(p.buffer, to - BLOCK)) {
        to -= BLOCK;
    }
    if (from < to && known.length > 0) {
        size_t start = place_of(known), end = start + known.length;
        from = from < start ? from : start;
        to = to > end ? to : end;
    }
    if (from < to) {
        changes[p.buffer] = part_at(p.buffer, from, to - from);
    }
}

static void watch_all(void) {
    int p;
    for (p = 0; p <= INPUT; p++) {
        if ((lent & BIT(p)) && parts[p].bytes != NULL) {
            watch(parts[p]);
        }
    }
    lent = 0;
}

/* Set where a call breaks a promise that its line has no other word for. */
static int broken;

static void hold(int holds) { broken |= !holds; }

/* The first bytes that a call has written where there is room for so many. */
static void give_first(const uint8_t *bytes, size_t room, size_t length) {
    hold(length <= room);
    if (length <= room) {
        give_bytes(bytes, length);
    }
}

static void give_part(part p, size_t length) { give_first(p.bytes, p.length, length); }

/* Structs, field by field. */

#define STRUCT(type, size) type##_fields,
#define FIELD(type, name, place, size)
enum {
#include "fields.h"
};

static const struct field {
    int of;
    size_t place, size;
} fields[] = {
#define STRUCT(type, size)
#define FIELD(type, name, place, size) {type##_fields, offsetof(type, name), size},
#include "fields.h"
};

static int same(int of, const void *a, const void *b) {
    const struct field *f;
    for (f = fields; f < fields + COUNT(fields); f++) {
        if (f->of == of && memcmp((const char *)a + f->place, (const char *)b + f->place, f->size) != 0) {
            return 0;
        }
    }
    return 1;
}

#define SAME(type, a, b) same(type##_fields, &(a), &(b))
#define ZERO(type, a) same(type##_fields, &(a), &(type){0})

/* What is kept. */

static uint32_t board = GREMOLUNDE_SHORT;
static gremolunde_loader loader;
static gremolunde_hex reader;

/* A call works on the receiver where it stands, so it stands between bytes that no call may change. */
static struct guarded {
    uint8_t before[BLOCK];
    gremolunde_receiver receiver;
    uint8_t behind[BLOCK];
} guarded;
static gremolunde_receiver *const receiver = &guarded.receiver;
static uint8_t guard[BLOCK];

static void set_guards(void) {
    memcpy(guarded.before, guard, sizeof guard);
    memcpy(guarded.behind, guard, sizeof guard);
}

static int guards_stand(void) {
    return memcmp(guarded.before, guard, sizeof guard) == 0 && memcmp(guarded.behind, guard, sizeof guard) == 0;
}

/* Of records whose fields are numbers; the library is for x86-64, so the lowest byte of a field is its first. */
static void give_fields(int of, const void *from) {
    const struct field *f;
    for (f = fields; f < fields + COUNT(fields); f++) {
        if (f->of == of) {
            uint64_t value = 0;
            memcpy(&value, (const char *)from + f->place, f->size);
            give_number(value);
        }
    }
}

/* Such a record from a word for each field, and no word more. */
static int fields_of(const word *words, int of, void *to) {
    const struct field *f;
    uint64_t value;
    for (f = fields; f < fields + COUNT(fields); f++) {
        if (f->of != of) {
            continue;
        }
        if (!number_of(*words++, UINT64_MAX >> (64 - 8 * f->size), &value)) {
            return 0;
        }
        memcpy((char *)to + f->place, &value, f->size);
    }
    return words->at == NULL;
}

/* Gives the fields that are kept where there are no words, else keeps what the words say. */
static int keep(const word *words, int of, void *kept, size_t size) {
    uint64_t next[8] = {0};
    if (words[0].at != NULL && !fields_of(words, of, next)) {
        return 0;
    }
    give_number(0);
    if (words[0].at == NULL) {
        give_fields(of, kept);
    } else {
        memcpy(kept, next, size);
    }
    return 1;
}

#define KEEP(words, type, kept) keep(words, type##_fields, &(kept), sizeof(kept))

/* Requests: what is kept. */

static int lend_input(const word *words) {
    part next;
    if (words[1].at == NULL || words[2].at != NULL || !part_of(words[0], words[1], 0, &next)) {
        return 0;
    }
    brought_to = next;
    give_number(0);
    return 1;
}

static int ask_lend(const word *words) {
    int p = name_of(words[0], buffers, INPUT);
    uint64_t length;
    part next;
    if (p < 0) {
        return is(words[0], buffers[INPUT]) && lend_input(words + 1);
    }
    next = part_at(p, 0, 0);
    if (words[2].at != NULL) {
        if (words[3].at == NULL || !span_of(words + 1, &next)) {
            return 0;
        }
    } else if (is(words[1], "null")) {
        next.bytes = NULL;
    } else if (number_of(words[1], CAPACITY, &length)) {
        next.length = (size_t)length;
    } else {
        return 0;
    }
    parts[p] = next;
    give_number(0);
    return 1;
}

static int ask_fill(const word *words) {
    uint8_t byte;
    part p;
    if (!span_of(words, &p) || !byte_of(words[3], &byte)) {
        return 0;
    }
    fill(p, byte);
    give_number(0);
    return 1;
}

static int ask_put(const word *words) {
    size_t length;
    part p;
    if (!bytes_of(words[2], CAPACITY, brought, &length) || !part_of(words[0], words[1], length, &p)) {
        return 0;
    }
    store(p, brought);
    give_number(0);
    return 1;
}

static int ask_look(const word *words) {
    part p;
    if (!span_of(words, &p)) {
        return 0;
    }
    give_number(0);
    give_bytes(p.bytes, p.length);
    return 1;
}

/* Each stretch of bytes that are not as before. */
static void give_changes(part c) {
    const uint8_t *now = held[c.buffer], *then = before[c.buffer];
    size_t i = place_of(c), end = i + c.length, from;
    while (i < end) {
        for (from = i; i < end && now[i] != then[i]; i++) {
        }
        if (i == from) {
            i++;
            continue;
        }
        give_word(buffers[c.buffer]);
        give_address((uint32_t)from);
        give_bytes(now + from, i - from);
    }
}

static int ask_changed(const word *words) {
    int b;
    (void)words;
    give_number(0);
    for (b = 0; b < BUFFERS; b++) {
        give_changes(changes[b]);
    }
    return 1;
}

static int ask_board(const word *words) {
    uint32_t pages;
    if (!number32_of(words[0], &pages)) {
        return 0;
    }
    board = pages;
    give_number(0);
    return 1;
}

/* The receiver's bytes without the 00s at their end, and its length. */
static void give_receiver(void) {
    size_t end = sizeof receiver->bytes;
    while (end > 0 && receiver->bytes[end - 1] == 0) {
        end--;
    }
    give_bytes(receiver->bytes, end);
    give_number(receiver->length);
}

static int ask_receiver(const word *words) {
    gremolunde_receiver next = {{0}, 0};
    size_t given;
    uint64_t length;
    if (words[0].at == NULL) {
        give_number(0);
        give_receiver();
        return 1;
    }
    if (!bytes_of(words[0], sizeof next.bytes, next.bytes, &given) || !number_of(words[1], UINT64_MAX, &length)) {
        return 0;
    }
    next.length = (size_t)length;
    *receiver = next;
    give_number(0);
    return 1;
}

static int ask_loader(const word *words) { return KEEP(words, gremolunde_loader, loader); }

static int ask_reader(const word *words) { return KEEP(words, gremolunde_hex, reader); }

/* Requests: packets. */

static int turn(word w, uint8_t (*turned)(uint8_t)) {
    uint8_t byte;
    if (!byte_of(w, &byte) || !lend(0, 0)) {
        return 0;
    }
    byte = turned(byte);
    give_number(0);
    give_bytes(&byte, 1);
    return 1;
}

static int ask_turned(const word *words) { return turn(words[0], gremolunde_turned); }

static int ask_restored(const word *words) { return turn(words[0], gremolunde_restored); }

static int give_length(gremolunde_length written, part p) {
    give_number(written.number);
    if (written.number == 0) {
        give_part(p, written.length);
    }
    hold(written.number == 0 || written.length == 0);
    return 1;
}

static int ask_build(const word *words) {
    uint8_t command;
    uint32_t address;
    if (!byte_of(words[0], &command) || !address_of(words[1], &address) || !bring_bytes(words[2]) ||
        !lend(BIT(INPUT), BIT(PACKET))) {
        return 0;
    }
    return give_length(gremolunde_packet_build(LENT(PACKET), command, address, LENT(INPUT)), parts[PACKET]);
}

static int ask_read(const word *words) {
    gremolunde_parts said;
    if (!bring_bytes(words[0]) || !lend(BIT(INPUT), 0)) {
        return 0;
    }
    said = gremolunde_packet_read(LENT(INPUT));
    give_number(said.number);
    if (said.number == 0) {
        give_bytes(&said.command, 1);
        give_address(said.address);
        give_number(said.place);
        give_number(said.length);
        return 1;
    }
    said.number = 0;
    hold(ZERO(gremolunde_parts, said));
    return 1;
}

/* Requests: the loader. */

static int ask_factory(const word *words) {
    uint8_t byte;
    if (!byte_of(words[0], &byte) || !lend(0, 0)) {
        return 0;
    }
    loader = gremolunde_loader_new();
    fill(part_at(FLASH, 0, CAPACITY), byte);
    give_number(0);
    return 1;
}

static int ask_reset(const word *words) {
    (void)words;
    lend(0, 0);
    loader = gremolunde_loader_reset(loader);
    give_number(0);
    return 1;
}

static int ask_take(const word *words) {
    gremolunde_taken taken;
    if (!bring_bytes(words[0]) || !lend(BIT(INPUT), BIT(FLASH) | BIT(ANSWER))) {
        return 0;
    }
    taken = gremolunde_loader_take(board, loader, LENT(INPUT), LENT(FLASH), LENT(ANSWER));
    give_number(taken.number);
    give_part(parts[ANSWER], taken.answered);
    if (taken.number == 0) {
        loader = taken.loader;
    }
    hold(SAME(gremolunde_loader, taken.loader, loader));
    return 1;
}

/* Requests: the receiver. */

static int ask_hunt(const word *words) {
    (void)words;
    lend(0, 0);
    *receiver = gremolunde_receiver_new();
    give_number(0);
    return 1;
}

/* The packet that the receiver has handed on; it stands at the start of its bytes. */
static void give_packet(size_t length) { give_first(receiver->bytes, sizeof receiver->bytes, length); }

static int ask_byte(const word *words) {
    uint8_t byte;
    size_t packet;
    if (!byte_of(words[0], &byte) || !lend(0, 0)) {
        return 0;
    }
    set_guards();
    packet = gremolunde_receiver_byte(receiver, byte);
    hold(guards_stand());
    give_number(0);
    give_packet(packet);
    return 1;
}

static int ask_bytes(const word *words) {
    gremolunde_received received;
    if (!bring_bytes(words[0]) || !lend(BIT(INPUT), 0)) {
        return 0;
    }
    received = gremolunde_receiver_bytes(*receiver, LENT(INPUT));
    *receiver = received.receiver;
    give_number(0);
    give_number(received.taken);
    give_packet(received.packet);
    return 1;
}

/* A refusal hands the loader back; one that took no byte, the receiver too. */
static int ask_port(const word *words) {
    gremolunde_port port = {loader, *receiver};
    gremolunde_port_taken taken;
    if (!bring_bytes(words[0]) || !lend(BIT(INPUT), BIT(FLASH) | BIT(ANSWER))) {
        return 0;
    }
    taken = gremolunde_port_take(board, port, LENT(INPUT), LENT(FLASH), LENT(ANSWER));
    give_number(taken.number);
    give_number(taken.taken);
    give_part(parts[ANSWER], taken.answered);
    if (taken.number == 0) {
        loader = taken.port.loader;
    }
    hold(SAME(gremolunde_loader, taken.port.loader, loader));
    hold(taken.number == 0 || taken.taken > 0 || SAME(gremolunde_receiver, taken.port.receiver, *receiver));
    *receiver = taken.port.receiver;
    return 1;
}

/* Requests: hex files. */

/* The next reader; a refusal gives its column and hands this one back. */
static int give_reader(gremolunde_hex_read read, gremolunde_hex back) {
    give_number(read.number);
    if (read.number == 0) {
        reader = read.reader;
        hold(read.column == 0);
        return 1;
    }
    give_number(read.column);
    hold(SAME(gremolunde_hex, read.reader, back));
    return 1;
}

static int ask_hex(const word *words) {
    uint64_t rules = GREMOLUNDE_RULES_1;
    return (words[0].at == NULL || number_of(words[0], UINT32_MAX, &rules)) && lend(0, BIT(IMAGE) | BIT(MAP)) &&
           give_reader(gremolunde_hex_start(board, (uint32_t)rules, LENT(IMAGE), LENT(MAP)), (gremolunde_hex){0});
}

static int take_record(void) {
    return lend(BIT(INPUT), BIT(IMAGE) | BIT(MAP)) &&
           give_reader(gremolunde_hex_record(reader, LENT(INPUT), LENT(IMAGE), LENT(MAP)), reader);
}

static int ask_record(const word *words) { return bring_text(words[0]) && take_record(); }

static int ask_line(const word *words) { return bring_bytes(words[0]) && take_record(); }

static int ask_close(const word *words) {
    (void)words;
    return lend(0, 0) && give_reader(gremolunde_hex_close(reader), reader);
}

static int ask_write(const word *words) {
    gremolunde_hex_written written;
    const char *text;
    uint32_t from;
    uint16_t upper;
    if (!address_of(words[0], &from) || !half_of(words[1], &upper) ||
        !lend(BIT(IMAGE) | BIT(MAP), BIT(RECORD))) {
        return 0;
    }
    written = gremolunde_hex_write(board, LENT(IMAGE), LENT(MAP), from, upper, LENT(RECORD));
    give_number(written.number);
    hold(written.number == 0 || (written.next == from && written.upper == upper && written.length == 0));
    hold(written.length <= parts[RECORD].length);
    if (written.number != 0 || written.length > parts[RECORD].length) {
        return 1;
    }
    text = (const char *)parts[RECORD].bytes;
    give_text(text, written.length - (written.length > 0 && text[written.length - 1] == '\n'));
    give_address(written.next);
    give_half(written.upper);
    return 1;
}

/* Requests: sessions. */

/* One kind of session: whether there is one that is kept, and the calls that ask it, over what is lent. */
struct host {
    int *started;
    int (*keep)(const word *words);
    int (*start)(uint32_t run);
    int (*step)(uint8_t silent);
    gremolunde_session_mark (*proved)(uint32_t address);
    uint32_t (*outcome)(void);
    gremolunde_length (*log)(void);
};

/* The kind that the line in hand asks. */
static const struct host *asked;

static void give_ending(uint32_t outcome) {
    give_word("ended");
    give_number(outcome);
}

/* What a session sends, or how it has ended; a refusal hands it back. */
static int give_stepped(uint32_t number, size_t length, int handed_back, int ended, uint32_t outcome) {
    give_number(number);
    if (number != 0) {
        hold(length == 0 && handed_back);
    } else if (ended) {
        hold(length == 0);
        give_ending(outcome);
    } else {
        give_part(parts[PACKET], length);
    }
    return 1;
}

/* The session of a kind that is kept, and its calls. It has ended where a field of it has that value; a refused start
 * gives all 0, a refused step the session as it was. */
#define HOST(kind, field, value, log_write)                                                                         \
    static gremolunde_##kind kind;                                                                                  \
    static int kind##_started;                                                                                      \
                                                                                                                    \
    static int keep_##kind(const word *words) { return KEEP(words, gremolunde_##kind, kind); }                      \
                                                                                                                    \
    static int give_##kind(gremolunde_##kind##_stepped stepped, gremolunde_##kind back) {                           \
        if (stepped.number == 0) {                                                                                  \
            kind = stepped.kind;                                                                                    \
            kind##_started = 1;                                                                                     \
        }                                                                                                           \
        return give_stepped(stepped.number, stepped.length, SAME(gremolunde_##kind, stepped.kind, back),            \
                            stepped.kind.field == (value), stepped.kind.outcome);                                   \
    }                                                                                                               \
                                                                                                                    \
    static int start_##kind(uint32_t run) {                                                                         \
        return give_##kind(gremolunde_##kind##_start(board, run, LENT(IMAGE), LENT(MAP), LENT(PACKET)),             \
                           (gremolunde_##kind){0});                                                                 \
    }                                                                                                               \
                                                                                                                    \
    static int step_##kind(uint8_t silent) {                                                                        \
        return give_##kind(                                                                                         \
            gremolunde_##kind##_step(kind, silent, LENT(INPUT), LENT(IMAGE), LENT(MAP), LENT(PACKET)), kind);       \
    }                                                                                                               \
                                                                                                                    \
    static gremolunde_session_mark mark_##kind(uint32_t address) {                                                  \
        return gremolunde_##kind##_proved(kind, LENT(MAP), address);                                                \
    }                                                                                                               \
                                                                                                                    \
    static uint32_t outcome_##kind(void) { return gremolunde_##kind##_outcome(kind); }                              \
                                                                                                                    \
    static gremolunde_length log_##kind(void) { return log_write(kind, LENT(LOG)); }                                \
                                                                                                                    \
    static const struct host host_##kind = {&kind##_started, keep_##kind, start_##kind, step_##kind,                \
                                            mark_##kind,     outcome_##kind, log_##kind}

HOST(session, phase, GREMOLUNDE_ENDED, gremolunde_log_write);
HOST(plain, stage, GREMOLUNDE_PLAIN_ENDED, gremolunde_plain_log_write);

static int ask_kept(const word *words, const struct host *host) {
    if ((words[0].at == NULL && !*host->started) || !host->keep(words)) {
        return 0;
    }
    *host->started = 1;
    return 1;
}

static int ask_session(const word *words) { return ask_kept(words, &host_session); }

static int ask_plain(const word *words) { return ask_kept(words, &host_plain); }

static int ask_start(const word *words) {
    uint32_t run;
    return kind_of(words[0], &run) && lend(BIT(IMAGE) | BIT(MAP), BIT(PACKET)) && asked->start(run);
}

static int step(uint8_t silent, word answer) {
    return *asked->started && bring_bytes(answer) && lend(BIT(INPUT) | BIT(IMAGE) | BIT(MAP), BIT(PACKET)) &&
           asked->step(silent);
}

static int ask_answer(const word *words) { return step(0, words[0]); }

static int ask_silence(const word *words) { return step(1, words[0]); }

static int ask_event(const word *words) {
    uint64_t silent;
    return number_of(words[0], UINT8_MAX, &silent) && step((uint8_t)silent, words[1]);
}

static int ask_proved(const word *words) {
    gremolunde_session_mark mark;
    uint32_t address;
    if (!*asked->started || !address_of(words[0], &address) || !lend(BIT(MAP), 0)) {
        return 0;
    }
    mark = asked->proved(address);
    give_number(mark.number);
    if (mark.number == 0) {
        give_number(mark.proved);
    }
    hold(mark.number == 0 || mark.proved == 0);
    return 1;
}

static int ask_outcome(const word *words) {
    static const uint32_t unfinished = 45;
    uint32_t outcome;
    (void)words;
    if (!*asked->started || !lend(0, 0)) {
        return 0;
    }
    outcome = asked->outcome();
    give_number(outcome == unfinished ? unfinished : 0);
    if (outcome != unfinished) {
        give_ending(outcome);
    }
    return 1;
}

static int ask_log(const word *words) {
    (void)words;
    return *asked->started && lend(0, BIT(LOG)) && give_length(asked->log(), parts[LOG]);
}

/* Requests: whole loads. */

/* Loader and session at the end of a load; a refusal hands the loader back. */
static int give_load(gremolunde_rehearsal load) {
    give_number(load.number);
    if (load.number != 0) {
        hold(SAME(gremolunde_loader, load.loader, loader) && ZERO(gremolunde_session, load.session));
        return 1;
    }
    loader = load.loader;
    session = load.session;
    session_started = 1;
    hold(session.phase == GREMOLUNDE_ENDED);
    give_ending(session.outcome);
    give_number(session.acknowledged);
    return 1;
}

static int ask_rehearse(const word *words) {
    uint32_t kind;
    return kind_of(words[0], &kind) && bring_bytes(words[1]) &&
           lend(BIT(INPUT) | BIT(IMAGE) | BIT(MAP), BIT(FLASH)) &&
           give_load(gremolunde_rehearse(board, kind, loader, LENT(INPUT), LENT(IMAGE), LENT(MAP), LENT(FLASH)));
}

/* Two words' bytes, the second's right behind the first's. */
static int bring_both(word first, word second, size_t *firsts, size_t *seconds) {
    return bytes_of(first, CAPACITY, brought, firsts) &&
           bytes_of(second, CAPACITY - *firsts, brought + *firsts, seconds) && bring(*firsts + *seconds);
}

/* So many of the brought bytes from a place on; none are the null pointer. */
static const uint8_t *brought_from(size_t place, size_t length) {
    return length > 0 ? parts[INPUT].bytes + place : NULL;
}

static int ask_noisy(const word *words) {
    size_t losses, rubbish;
    uint32_t kind;
    uint64_t each;
    return kind_of(words[0], &kind) && number_of(words[1], UINT64_MAX, &each) &&
           bring_both(words[2], words[3], &losses, &rubbish) &&
           lend(BIT(INPUT) | BIT(IMAGE) | BIT(MAP), BIT(FLASH)) &&
           give_load(gremolunde_rehearse_noisy(board, kind, loader, brought_from(0, losses), losses,
                                               brought_from(losses, rubbish), rubbish, (size_t)each, LENT(IMAGE),
                                               LENT(MAP), LENT(FLASH)));
}

/* Requests: the service log. */

static int ask_logread(const word *words) {
    gremolunde_log said;
    if (!bring_bytes(words[0]) || !lend(BIT(INPUT), 0)) {
        return 0;
    }
    said = gremolunde_log_read(LENT(INPUT));
    give_number(said.number);
    if (said.number != 0) {
        said.number = 0;
        hold(ZERO(gremolunde_log, said));
        return 1;
    }
    give_word("VERSION");
    give_number(said.version);
    give_word("OUTCOME");
    give_number(said.outcome);
    give_word("ACKED");
    give_number(said.acknowledged);
    give_word("TOTAL");
    give_number(said.total);
    give_word("BYTES");
    give_number(said.bytes);
    return 1;
}

/* Requests: stations. */

/* The fields of a station; a refusal has none. */
static int give_station(gremolunde_station_answer given) {
    give_number(given.number);
    if (given.number == 0) {
        give_fields(gremolunde_station_fields, &given.station);
    }
    hold(given.number == 0 || ZERO(gremolunde_station, given.station));
    return 1;
}

/* A number that a refusal does not have. */
static int give_value(uint32_t number, uint32_t value) {
    give_number(number);
    if (number == 0) {
        give_number(value);
    }
    hold(number == 0 || value == 0);
    return 1;
}

static int give_done(gremolunde_done done) {
    give_number(done.number);
    return 1;
}

static int ask_station_read(const word *words) {
    return bring_bytes(words[0]) && lend(BIT(INPUT), 0) && give_station(gremolunde_station_read(LENT(INPUT)));
}

static int ask_station_write(const word *words) {
    gremolunde_station station;
    return fields_of(words, gremolunde_station_fields, &station) && lend(0, BIT(RECORD)) &&
           give_length(gremolunde_station_write(station, LENT(RECORD)), parts[RECORD]);
}

static int ask_station_open(const word *words) {
    uint32_t station;
    return number32_of(words[0], &station) && lend(BIT(TABLE), BIT(IMAGE) | BIT(MAP)) &&
           give_reader(gremolunde_station_open(LENT(TABLE), station, LENT(IMAGE), LENT(MAP)), (gremolunde_hex){0});
}

static int ask_station_start(const word *words) {
    uint32_t station;
    return number32_of(words[0], &station) && lend(BIT(TABLE) | BIT(IMAGE) | BIT(MAP), BIT(PACKET)) &&
           give_session(gremolunde_station_start(LENT(TABLE), station, LENT(IMAGE), LENT(MAP), LENT(PACKET)),
                        (gremolunde_session){0});
}

static int ask_stations_empty(const word *words) {
    (void)words;
    return lend(0, BIT(TABLE)) && give_done(gremolunde_stations_empty(LENT(TABLE)));
}

static int ask_stations_find(const word *words) {
    uint32_t station;
    return number32_of(words[0], &station) && lend(BIT(TABLE), 0) &&
           give_station(gremolunde_stations_find(LENT(TABLE), station));
}

static int ask_stations_list(const word *words) {
    uint32_t place;
    return number32_of(words[0], &place) && lend(BIT(TABLE), 0) &&
           give_station(gremolunde_stations_list(LENT(TABLE), place));
}

static int ask_stations_place(const word *words) {
    gremolunde_station_place found;
    uint32_t place;
    if (!number32_of(words[0], &place) || !lend(BIT(TABLE), 0)) {
        return 0;
    }
    found = gremolunde_stations_place(LENT(TABLE), place);
    return give_value(found.number, found.condition);
}

static int ask_stations_store(const word *words) {
    gremolunde_station_stored stored;
    if (!bring_bytes(words[0]) || !lend(BIT(INPUT), BIT(TABLE))) {
        return 0;
    }
    stored = gremolunde_stations_store(LENT(TABLE), LENT(INPUT));
    return give_value(stored.number, stored.place);
}

static int ask_stations_delete(const word *words) {
    uint32_t station;
    return number32_of(words[0], &station) && lend(0, BIT(TABLE)) &&
           give_done(gremolunde_stations_delete(LENT(TABLE), station));
}

static int ask_stations_free(const word *words) {
    uint32_t place;
    return number32_of(words[0], &place) && lend(0, BIT(TABLE)) &&
           give_done(gremolunde_stations_free(LENT(TABLE), place));
}

/* Lines. */

/* A record has no more fields. */
#define WORDS 9

/* Each request with how many words it takes, at least and at most. */
static const struct request {
    const char *name;
    size_t least, most;
    int (*ask)(const word *words);
} requests[] = {
    {"lend", 2, 4, ask_lend},
    {"fill", 4, 4, ask_fill},
    {"put", 3, 3, ask_put},
    {"look", 3, 3, ask_look},
    {"changed", 0, 0, ask_changed},
    {"board", 1, 1, ask_board},
    {"receiver", 0, 2, ask_receiver},
    {"loader", 0, WORDS, ask_loader},
    {"reader", 0, WORDS, ask_reader},
    {"session", 0, WORDS, ask_session},
    {"plain", 0, WORDS, ask_plain},
    {"turned", 1, 1, ask_turned},
    {"restored", 1, 1, ask_restored},
    {"build", 3, 3, ask_build},
    {"read", 1, 1, ask_read},
    {"factory", 1, 1, ask_factory},
    {"reset", 0, 0, ask_reset},
    {"take", 1, 1, ask_take},
    {"hunt", 0, 0, ask_hunt},
    {"byte", 1, 1, ask_byte},
    {"bytes", 1, 1, ask_bytes},
    {"port", 1, 1, ask_port},
    {"hex", 0, 1, ask_hex},
    {"record", 1, 1, ask_record},
    {"line", 1, 1, ask_line},
    {"close", 0, 0, ask_close},
    {"write", 2, 2, ask_write},
    {"logread", 1, 1, ask_logread},
    {"rehearse", 2, 2, ask_rehearse},
    {"noisy", 4, 4, ask_noisy},
};

/* The same of those that a session is asked, the plain one where the word `plain` goes before. */
static const struct request of_sessions[] = {
    {"start", 1, 1, ask_start},
    {"answer", 1, 1, ask_answer},
    {"silence", 0, 0, ask_silence},
    {"event", 2, 2, ask_event},
    {"proved", 1, 1, ask_proved},
    {"outcome", 0, 0, ask_outcome},
    {"log", 0, 0, ask_log},
};

/* The same of those behind the word `station`, and behind `stations`. */
static const struct request of_station[] = {
    {"read", 1, 1, ask_station_read},
    {"write", 6, 6, ask_station_write},
    {"open", 1, 1, ask_station_open},
    {"start", 1, 1, ask_station_start},
};

static const struct request of_stations[] = {
    {"empty", 0, 0, ask_stations_empty},
    {"find", 1, 1, ask_stations_find},
    {"list", 1, 1, ask_stations_list},
    {"place", 1, 1, ask_stations_place},
    {"store", 1, 1, ask_stations_store},
    {"delete", 1, 1, ask_stations_delete},
    {"free", 1, 1, ask_stations_free},
};

/* The request of that name, or NULL. */
static const struct request *find(const struct request *r, size_t count, word name) {
    while (count > 0 && !is(name, r->name)) {
        count--;
        r++;
    }
    return count > 0 ? r : NULL;
}

#define FIND(table, name) find(table, COUNT(table), name)

/* Splits a word at its first space: what stands before it, and what is left behind it, if there is one. */
static word split(word *left) {
    const char *space = memchr(left->at, ' ', left->length);
    word first = *left;
    left->at = space == NULL ? NULL : space + 1;
    left->length = space == NULL ? 0 : first.length - (size_t)(space + 1 - first.at);
    first.length -= space == NULL ? 0 : left->length + 1;
    return first;
}

/* The last word takes all that is left, so a word too many makes it none that a request takes. */
static int ask_with(const struct request *r, word left) {
    word words[WORDS + 1] = {{NULL, 0}};
    size_t count = 0;
    while (left.at != NULL && count + 1 < r->most) {
        words[count++] = split(&left);
    }
    if (left.at != NULL) {
        words[count++] = left;
    }
    return count >= r->least && count <= r->most && r->ask(words);
}

/* What one kind of session is asked, or NULL where that is no request of theirs. */
static const struct request *of_session(const struct host *host, word name) {
    asked = host;
    return FIND(of_sessions, name);
}

/* What a line asks by its first two words, or NULL. */
static const struct request *of_two(word first, word second) {
    if (is(first, "plain")) {
        return of_session(&host_plain, second);
    }
    if (is(first, "station")) {
        return FIND(of_station, second);
    }
    return is(first, "stations") ? FIND(of_stations, second) : NULL;
}

static int ask(word line) {
    word name = split(&line), left = line;
    const struct request *r = NULL;
    if (line.at != NULL) {
        r = of_two(name, split(&left));
    }
    if (r == NULL) {
        left = line;
        r = FIND(requests, name);
    }
    if (r == NULL) {
        r = of_session(&host_session, name);
    }
    return r != NULL && ask_with(r, left);
}

static void answer(word line) {
    put(line.at, line.length);
    if (line.length == 0 || line.at[0] != '#') {
        put(" ->", 3);
        broken = 0;
        if (!ask(line)) {
            give_word("?");
        }
        watch_all();
        if (broken) {
            give_word("!");
        }
    }
    put("\n", 1);
}

static void begin(void) {
    static const uint8_t bytes[] = {0xFF, 0xAA, 0xFF, 0x00, 0xAA, 0xAA, 0xAA, 0x00, 0xAA, 0xAA, 0xAA};
    static const size_t lengths[] = {GREMOLUNDE_SHORT_FLASH, GREMOLUNDE_ANSWER, GREMOLUNDE_SHORT_IMAGE,
                                     GREMOLUNDE_SHORT_MAP,   GREMOLUNDE_PACKET, GREMOLUNDE_HEX_RECORD,
                                     GREMOLUNDE_SHORT_LOG,   GREMOLUNDE_TABLE};
    int b;
    for (b = 0; b < BUFFERS; b++) {
        fill(part_at(b, 0, CAPACITY), bytes[b]);
        changes[b] = part_at(b, 0, 0);
    }
    for (b = 0; b < INPUT; b++) {
        parts[b] = part_at(b, 0, lengths[b]);
    }
    brought_to = part_at(INPUT, 0, 0);
    memset(guard, 0x5A, sizeof guard);
    loader = gremolunde_loader_new();
    *receiver = gremolunde_receiver_new();
    reader = gremolunde_hex_start(board, GREMOLUNDE_RULES_1, LENT(IMAGE), LENT(MAP)).reader;
}

int main(void) {
    word line;
    begin();
    while (next_line(&line)) {
        answer(line);
    }
    flush();
    return 0;
}
