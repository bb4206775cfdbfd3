/* Does one job of the library so many times, for ./bench to count: bench JOB TIMES.
 *
 *   read, write              the full hex file, record by record, read under rule set 1
 *   read-2                   the same file read under rule set 2
 *   w, v                     one packet of 250 bytes taken by the loader
 *   step-full, step-worst    one step of a session, turn after turn at another piece
 *   plain-full, plain-worst  the same step of a plain session; both give the same bytes
 *   full, worst              a whole session of the host, every packet acknowledged
 *   receive                  all W packets of the full file, rubbish before each, byte by byte through the receiver
 *
 * These are for the short board; all but w, v and receive are there for the long one too, with `-long` behind the name.
 * On the long one alone a record can wrap inside its segment: read-wraps-long reads such records, a 02 record before
 * each.
 *
 * Each writes one line: the bytes that its turns gave, a sum over all buffers or over all that was received, and the
 * nanoseconds of all turns. `second bench` has the same jobs over the same bytes, but for whole sessions of the long
 * board and steps of plain ones, and must give the same two numbers. `bench hex 0` and `bench hex-long 0` write the
 * full hex file instead. */
#define _POSIX_C_SOURCE 199309L
#include "gremolunde.h"
#include <stdio.h>
#include <stdlib.h>
#include <string.h>
#include <time.h>

#define MOST_RECORDS (GREMOLUNDE_LONG_IMAGE / 16 + 2)
#define PIECE 250
#define WORST_MAP 0x55 /* every second byte */
#define FULL_MAP 0xFF
#define ACK 0x06
#define W 0x57

/* So many bytes of rubbish stand before each packet of the stream. */
#define RUBBISH 8
#define PIECES (GREMOLUNDE_SHORT_IMAGE / PIECE + 1)

/* Each record that wraps has so many bytes on either side of its segment's end. */
#define SEGMENT 65536
#define PARAGRAPH 16
#define HALF 8

/* A board: its sizes, the records of its full hex file, and how it greets. */
typedef struct sizes {
    uint32_t pages;
    uint32_t image; /* and flash */
    uint32_t map;
    size_t records; /* the last is the end record; past 64 KiB one is of type 04 */
    const char *greeting;
} sizes;

static const sizes short_board = {GREMOLUNDE_SHORT, GREMOLUNDE_SHORT_IMAGE, GREMOLUNDE_SHORT_MAP,
                                  GREMOLUNDE_SHORT_IMAGE / 16 + 1, "ADuC702x   -62 I31    \n\r"};
static const sizes long_board = {GREMOLUNDE_LONG, GREMOLUNDE_LONG_IMAGE, GREMOLUNDE_LONG_MAP,
                                 GREMOLUNDE_LONG_IMAGE / 16 + 2, "ADuC702x   -124I31    \n\r"};

/* The board of the job in hand, and what is lent for it; of the arrays it has their first bytes. */
static sizes board;
static uint8_t image[GREMOLUNDE_LONG_IMAGE], map[GREMOLUNDE_LONG_MAP], flash[GREMOLUNDE_LONG_FLASH];
static uint8_t packet[GREMOLUNDE_PACKET], answer[GREMOLUNDE_ANSWER];
static uint8_t lines[MOST_RECORDS][GREMOLUNDE_HEX_RECORD];
static size_t lengths[MOST_RECORDS];
static uint64_t data_bytes; /* of all lines */
static gremolunde_loader loader;
static gremolunde_session begun;
static gremolunde_plain plain_begun;
static uint8_t stream[PIECES * (RUBBISH + GREMOLUNDE_PACKET)];
static size_t stream_length;
static uint64_t received; /* the sum of all bytes that the receiver handed on */

#define FILE_LENT image, board.image, map, board.map

static void must(int good, const char *what) {
    if (!good) {
        fprintf(stderr, "bench: %s went wrong\n", what);
        exit(1);
    }
}

static void make_file(sizes of, int named) {
    uint32_t i;
    board = of;
    for (i = 0; i < board.image; i++) {
        image[i] = (uint8_t)(i * 167 + i / 256 * 13);
    }
    memset(map, named, board.map);
}

/* Each byte added to 31 times what was before. */
static uint64_t summed(const uint8_t *bytes, size_t length) {
    uint64_t sum = 0;
    size_t i;
    for (i = 0; i < length; i++) {
        sum = (sum * 31 + bytes[i]) & 0xFFFFFFFF;
    }
    return sum;
}

static uint64_t write_records(uint64_t k) {
    gremolunde_hex_written written = {0, 0, 0, 0};
    uint64_t characters = 0;
    size_t i, records = board.records;
    (void)k;
    for (i = 0; i < records; i++) {
        written = gremolunde_hex_write(board.pages, FILE_LENT, written.next, written.upper, lines[i], sizeof lines[i]);
        lengths[i] = written.length;
        characters += written.length;
    }
    must(written.number == 0 && written.next == board.image + 1, "writing");
    return characters;
}

static uint64_t read_records(uint32_t rules) {
    gremolunde_hex_read read = gremolunde_hex_start(board.pages, rules, FILE_LENT);
    size_t i, records = board.records;
    for (i = 0; i < records; i++) {
        read = gremolunde_hex_record(read.reader, lines[i], lengths[i] - 1, FILE_LENT);
    }
    must(read.number == 0 && gremolunde_hex_close(read.reader).number == 0, "reading");
    return data_bytes;
}

static uint64_t read_1(uint64_t k) {
    (void)k;
    return read_records(GREMOLUNDE_RULES_1);
}

static uint64_t read_2(uint64_t k) {
    (void)k;
    return read_records(GREMOLUNDE_RULES_2);
}

static gremolunde_taken take_input(const uint8_t *input, size_t length) {
    return gremolunde_loader_take(board.pages, loader, input, length, flash, board.image, answer, sizeof answer);
}

/* A loader that serves, and whose flash holds the bytes that V asks for. */
static void make_loader(uint8_t command) {
    uint8_t hello = 0x08;
    gremolunde_length built =
        gremolunde_packet_build(packet, sizeof packet, command, 0x1234, image + 0x1234, PIECE);
    memcpy(flash, image, board.image);
    loader = gremolunde_loader_new();
    loader = take_input(&hello, 1).loader;
    must(built.length == sizeof packet, "building");
}

static uint64_t take(uint64_t k) {
    gremolunde_taken taken = take_input(packet, sizeof packet);
    (void)k;
    must(taken.number == 0, "taking");
    loader = taken.loader;
    return taken.answered;
}

static gremolunde_session_stepped start(void) {
    gremolunde_session_stepped now =
        gremolunde_session_start(board.pages, GREMOLUNDE_RESET, FILE_LENT, packet, sizeof packet);
    must(now.number == 0, "starting");
    return now;
}

static gremolunde_session_stepped step(gremolunde_session session, const uint8_t *heard, size_t length) {
    return gremolunde_session_step(session, 0, heard, length, FILE_LENT, packet, sizeof packet);
}

static const uint8_t ack[] = {ACK};

/* Where step k of so many is taken, two of W and two of V: after E and so many pieces written, or all written and so
 * many verified. A factor that shares no divisor with the pieces brings each in turn. */
typedef struct spot {
    uint32_t piece;
    int verifying;
    uint32_t acknowledged;
} spot;

static spot spot_of(uint64_t k, uint32_t pieces) {
    spot at = {(uint32_t)(k * 12289 % pieces), (k & 2) != 0, 0};
    at.acknowledged = 1 + at.piece + (at.verifying ? pieces : 0);
    return at;
}

static uint64_t step_spread(uint64_t k, uint32_t pieces, uint32_t apart) {
    spot at = spot_of(k, pieces);
    gremolunde_session session = begun;
    gremolunde_session_stepped now;
    session.phase = at.verifying ? GREMOLUNDE_VERIFY : GREMOLUNDE_WRITE;
    session.address = at.piece * apart;
    session.acknowledged = at.acknowledged;
    now = step(session, ack, sizeof ack);
    must(now.number == 0, "stepping");
    return now.length;
}

static uint64_t plain_spread(uint64_t k, uint32_t pieces) {
    gremolunde_plain plain = plain_begun;
    gremolunde_plain_stepped now;
    plain.stage = GREMOLUNDE_PLAIN_UNDER_WAY;
    plain.acknowledged = spot_of(k, pieces).acknowledged;
    now = gremolunde_plain_step(plain, 0, ack, sizeof ack, FILE_LENT, packet, sizeof packet);
    must(now.number == 0, "stepping a plain session");
    return now.length;
}

/* A whole session; gives the bytes that went over the line, both ways. */
static uint64_t whole_session(uint64_t k) {
    gremolunde_session_stepped now = start();
    uint64_t bytes = now.length + GREMOLUNDE_ANSWER;
    (void)k;
    now = step(now.session, (const uint8_t *)board.greeting, GREMOLUNDE_ANSWER);
    while (now.length > 0) {
        bytes += now.length + sizeof ack;
        now = step(now.session, ack, sizeof ack);
    }
    must(gremolunde_session_outcome(now.session) == 0, "a session");
    return bytes;
}

static uint32_t full_pieces(void) { return (board.image + PIECE - 1) / PIECE; }

static uint32_t worst_pieces(void) { return board.image / 2; }

static uint64_t step_full(uint64_t k) { return step_spread(k, full_pieces(), PIECE); }

static uint64_t step_worst(uint64_t k) { return step_spread(k, worst_pieces(), 2); }

static uint64_t plain_full(uint64_t k) { return plain_spread(k, full_pieces()); }

static uint64_t plain_worst(uint64_t k) { return plain_spread(k, worst_pieces()); }

static void prepare_records(void) {
    write_records(0);
    data_bytes = board.image;
}

/* A line of a record: its count, address, type and data, and the checksum over them. */
static void make_line(size_t line, uint16_t address, uint8_t type, const uint8_t *data, size_t count) {
    static const char digits[] = "0123456789ABCDEF";
    uint8_t bytes[5 + 2 * HALF] = {(uint8_t)count, (uint8_t)(address >> 8), (uint8_t)address, type}, sum = 0;
    uint8_t *to = lines[line];
    size_t i;
    if (count > 0) {
        memcpy(bytes + 4, data, count);
    }
    for (i = 0; i < 4 + count; i++) {
        sum = (uint8_t)(sum + bytes[i]);
    }
    bytes[4 + count] = (uint8_t)-sum;
    *to++ = ':';
    for (i = 0; i < 5 + count; i++) {
        *to++ = (uint8_t)digits[bytes[i] >> 4];
        *to++ = (uint8_t)digits[bytes[i] & 15];
    }
    *to++ = '\n';
    lengths[line] = (size_t)(to - lines[line]);
}

/* In each segment that ends on the board a record over its end. */
static void prepare_wraps(void) {
    uint32_t base;
    size_t line = 0;
    data_bytes = 0;
    for (base = 0; base + SEGMENT <= board.image; base += PARAGRAPH) {
        uint8_t value[] = {(uint8_t)(base / PARAGRAPH >> 8), (uint8_t)(base / PARAGRAPH)}, data[2 * HALF];
        memcpy(data, image + base + SEGMENT - HALF, HALF);
        memcpy(data + HALF, image + base, HALF);
        make_line(line++, 0, 0x02, value, sizeof value);
        make_line(line++, SEGMENT - HALF, 0x00, data, sizeof data);
        data_bytes += sizeof data;
    }
    make_line(line++, 0, 0x01, NULL, 0);
    board.records = line;
}

static void prepare_w(void) { make_loader(W); }

static void prepare_v(void) { make_loader(0x56); }

static void prepare_session(void) { begun = start().session; }

static void prepare_plain(void) {
    gremolunde_plain_stepped now =
        gremolunde_plain_start(board.pages, GREMOLUNDE_RESET, FILE_LENT, packet, sizeof packet);
    must(now.number == 0, "starting a plain session");
    plain_begun = now.plain;
}

/* Rubbish, and behind it the packet that was sent last. */
static void append_packet(size_t piece, size_t length) {
    size_t j;
    for (j = 0; j < RUBBISH; j++) {
        stream[stream_length++] = (uint8_t)('0' + (piece + j) % 10);
    }
    memcpy(stream + stream_length, packet, length);
    stream_length += length;
}

static void prepare_stream(void) {
    static const uint8_t ack[] = {ACK};
    gremolunde_session_stepped now = start();
    size_t pieces = 0;
    now = step(now.session, (const uint8_t *)board.greeting, GREMOLUNDE_ANSWER);
    while (now.length > 0) {
        if (packet[3] == W) {
            append_packet(pieces++, now.length);
        }
        now = step(now.session, ack, sizeof ack);
    }
    must(pieces == PIECES, "a stream");
}

static uint64_t receive(uint64_t k) {
    gremolunde_receiver receiver = gremolunde_receiver_new();
    size_t i, j, length;
    (void)k;
    for (i = 0; i < stream_length; i++) {
        length = gremolunde_receiver_byte(&receiver, stream[i]);
        for (j = 0; j < length; j++) {
            received += receiver.bytes[j];
        }
    }
    return stream_length;
}

static const struct job {
    const char *name;
    const sizes *board;
    int map;
    void (*prepare)(void);
    uint64_t (*turn)(uint64_t k);
} jobs[] = {
    {"read", &short_board, FULL_MAP, prepare_records, read_1},
    {"read-2", &short_board, FULL_MAP, prepare_records, read_2},
    {"write", &short_board, FULL_MAP, prepare_records, write_records},
    {"w", &short_board, FULL_MAP, prepare_w, take},
    {"v", &short_board, FULL_MAP, prepare_v, take},
    {"step-full", &short_board, FULL_MAP, prepare_session, step_full},
    {"step-worst", &short_board, WORST_MAP, prepare_session, step_worst},
    {"plain-full", &short_board, FULL_MAP, prepare_plain, plain_full},
    {"plain-worst", &short_board, WORST_MAP, prepare_plain, plain_worst},
    {"full", &short_board, FULL_MAP, prepare_session, whole_session},
    {"worst", &short_board, WORST_MAP, prepare_session, whole_session},
    {"receive", &short_board, FULL_MAP, prepare_stream, receive},
    {"read-long", &long_board, FULL_MAP, prepare_records, read_1},
    {"read-2-long", &long_board, FULL_MAP, prepare_records, read_2},
    {"read-wraps-long", &long_board, FULL_MAP, prepare_wraps, read_2},
    {"write-long", &long_board, FULL_MAP, prepare_records, write_records},
    {"step-full-long", &long_board, FULL_MAP, prepare_session, step_full},
    {"step-worst-long", &long_board, WORST_MAP, prepare_session, step_worst},
    {"plain-full-long", &long_board, FULL_MAP, prepare_plain, plain_full},
    {"plain-worst-long", &long_board, WORST_MAP, prepare_plain, plain_worst},
    {"full-long", &long_board, FULL_MAP, prepare_session, whole_session},
    {"worst-long", &long_board, WORST_MAP, prepare_session, whole_session},
};

static uint64_t nanoseconds(void) {
    struct timespec now;
    clock_gettime(CLOCK_MONOTONIC, &now);
    return (uint64_t)now.tv_sec * 1000000000 + (uint64_t)now.tv_nsec;
}

static void repeat(const struct job *job, uint64_t times) {
    uint64_t k, began, took, given = 0, sum;
    make_file(*job->board, job->map);
    job->prepare();
    began = nanoseconds();
    for (k = 0; k < times; k++) {
        given += job->turn(k);
    }
    took = nanoseconds() - began;
    sum = summed(image, board.image) + summed(flash, board.image) + summed(packet, sizeof packet);
    sum = stream_length > 0 ? received : sum;
    printf("%llu %llu %llu\n", (unsigned long long)given, (unsigned long long)sum, (unsigned long long)took);
}

static void print_file(sizes of) {
    size_t i;
    make_file(of, FULL_MAP);
    write_records(0);
    for (i = 0; i < board.records; i++) {
        must(fwrite(lines[i], 1, lengths[i], stdout) == lengths[i], "printing");
    }
}

int main(int count, char **words) {
    size_t i;
    for (i = 0; count == 3 && i < sizeof jobs / sizeof *jobs; i++) {
        if (strcmp(words[1], jobs[i].name) == 0) {
            repeat(&jobs[i], strtoull(words[2], NULL, 10));
            return 0;
        }
    }
    if (count == 3 && (strcmp(words[1], "hex") == 0 || strcmp(words[1], "hex-long") == 0)) {
        print_file(strcmp(words[1], "hex") == 0 ? short_board : long_board);
        return 0;
    }
    fprintf(stderr, "usage: bench JOB TIMES\n");
    return 2;
}
