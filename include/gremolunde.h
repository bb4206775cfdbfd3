/* Gremolunde: the serial loader, its files and its host, for C99 and later.
 *
 * The library behind this header, libgremolunde.a for x86-64 Linux, is proved: no call reads or writes outside the
 * bytes that are lent to it, none traps, none fails to return, and each answer is the one that the paper gives. It
 * keeps no state of its own, allocates nothing and calls nothing but memcpy and memset.
 *
 * Answers. Each function answers by value. The first field of an answer is `number`: 0 when it was done, else the
 * paper's number of the refusal. A refusal hands a state back as it was passed, gives 0 in every other field unless
 * the function says otherwise, and leaves all lent bytes as they were unless the function says otherwise. A function
 * that cannot refuse gives its value itself.
 *
 * States. gremolunde_loader, gremolunde_receiver, gremolunde_port, gremolunde_hex, gremolunde_session,
 * gremolunde_plain and gremolunde_station are values that the caller keeps, copies and stores. Every value of every
 * field is safe to pass. Where a field is a flag, 0 is false and all else is true; an answer has 0 or 1 there. One
 * function, gremolunde_receiver_byte, works on a state where it stands.
 *
 * Lent bytes. A pointer and the length after it lend so many bytes for the time of the call. With a length of 0 the
 * pointer may be null. Bytes that a function may write (a pointer without const) must not overlap other bytes that
 * the same call lends; those that it only reads may overlap each other. A buffer is written from its start, and its
 * bytes past what is written stay as they were.
 */
#ifndef GREMOLUNDE_H
#define GREMOLUNDE_H

#include <stddef.h>
#include <stdint.h>

#ifdef __cplusplus
extern "C" {
#endif

/* Rises when a struct changes, or what a number in one means. */
#define GREMOLUNDE_VERSION 5

/* A board is told by its number of pages; a number that is not listed is refused with 65, before all else. A session,
 * a plain session and a hex reader carry the board that they were started for. */
enum { GREMOLUNDE_SHORT = 124, GREMOLUNDE_LONG = 248 };

/* The sizes that the paper asks for, in bytes: flash, image and map exactly so for their board, the others at least
 * so. The sizes of the other board are wrong sizes. */
#define GREMOLUNDE_SHORT_FLASH 63488
#define GREMOLUNDE_SHORT_IMAGE 63488
#define GREMOLUNDE_SHORT_MAP 7936
#define GREMOLUNDE_SHORT_LOG 10
#define GREMOLUNDE_LONG_FLASH 126976
#define GREMOLUNDE_LONG_IMAGE 126976
#define GREMOLUNDE_LONG_MAP 15872
#define GREMOLUNDE_LONG_LOG 16
#define GREMOLUNDE_PACKET 259
#define GREMOLUNDE_ANSWER 24
#define GREMOLUNDE_HEX_RECORD 44
#define GREMOLUNDE_STATION_RECORD 9

/* A table of stations: exactly so many bytes, so many places. */
#define GREMOLUNDE_TABLE 1024
#define GREMOLUNDE_PLACES 64

/* A loader, without its flash; the flash that it is lent is its board's. */
typedef struct gremolunde_loader {
    uint64_t groups;    /* the protected groups, one bit a group, group 0 the lowest */
    uint64_t added;     /* the groups added to the protect sequence that is open */
    uint32_t key;       /* 0xFFFFFFFF when cleared */
    uint8_t condition;  /* 0 waiting, 1 serving, 2 left; any other value counts as left */
    uint8_t read;       /* flag: read protection is in force */
    uint8_t opened;     /* flag: a protect sequence is open */
    uint8_t added_read; /* flag: read protection is added to the sequence */
} gremolunde_loader;

/* A receiver: fed one byte at a time, it hunts for 07 0E, gathers N + 4 bytes and hands the packet on. It is fed only
 * while a loader is serving, and has gathered nothing when that begins: gremolunde_port_take sees to both, and who
 * feeds it without a port begins with a new one when the board is opened. It has no clock: what was begun waits for its
 * last byte, so noise that looks like a start swallows what follows until its count is full. Noise that is a whole
 * packet with a right checksum it cannot tell from the host's: the loader obeys it, an R too. The first `length` bytes
 * are gathered, all of them where `length` is larger than there are; those behind them count for nothing, and a packet
 * that is handed on stands at the start, with a `length` of 0. Where a caller made one up, what stands third in it is
 * N, and what stands first and second is taken for the start, whatever it is; where more is gathered than N + 3 bytes
 * it is dropped with the next byte, which is hunted. */
typedef struct gremolunde_receiver {
    uint8_t bytes[GREMOLUNDE_PACKET];
    size_t length;
} gremolunde_receiver;

/* A port: a loader behind a receiver. */
typedef struct gremolunde_port {
    gremolunde_loader loader;
    gremolunde_receiver receiver;
} gremolunde_port;

/* The rule set for the addresses of a hex file, chosen when it is opened; a number that is not listed is refused with
 * 34, after 20. Byte i of a data record has its place at
 * - GREMOLUNDE_RULES_1: linear base + segment base + AAAA + i, and nothing wraps;
 * - GREMOLUNDE_RULES_2: where the latest of 02 and 04 was 02, segment base + (AAAA + i) modulo 65,536; where it was 04,
 *   or neither came, linear base + AAAA + i, and nothing wraps. */
enum { GREMOLUNDE_RULES_1 = 1, GREMOLUNDE_RULES_2 = 2 };

/* A hex reader, without its image and map. Either base is kept as it was last set. */
typedef struct gremolunde_hex {
    uint32_t board;    /* GREMOLUNDE_SHORT or GREMOLUNDE_LONG; any other value is 65 */
    uint32_t rules;    /* GREMOLUNDE_RULES_1 or GREMOLUNDE_RULES_2; any other value is 34 */
    uint32_t linear;   /* the linear base */
    uint32_t segment;  /* the segment base */
    uint8_t segmented; /* flag: the latest of 02 and 04 was 02, in either rule set */
    uint8_t ended;     /* flag: the end record was read */
    uint8_t taken;     /* flag: a data byte was taken */
} gremolunde_hex;

/* Where a session stands: what it waits for. */
enum {
    GREMOLUNDE_GREETING = 0, /* the greeting */
    GREMOLUNDE_ERASE = 1,    /* the answer to E at `page`, its first */
    GREMOLUNDE_WRITE = 2,    /* the answer to W at `address` */
    GREMOLUNDE_VERIFY = 3,   /* the answer to V at `address` */
    GREMOLUNDE_RUN = 4,      /* the answer to R; not with GREMOLUNDE_HOLD */
    GREMOLUNDE_ENDED = 5     /* nothing; `outcome` is 0 valid, 1 verified and held, or 40 to 43 */
};

/* The run kind: what the board does after the last V. With GREMOLUNDE_HOLD no R is sent and nothing is started; it is
 * the default, so any value that is not listed holds. Reset and jump must be asked for: a run kind left at 0 asks for
 * a reset. */
enum { GREMOLUNDE_RESET = 0, GREMOLUNDE_JUMP = 1, GREMOLUNDE_HOLD = 2 };

/* A session, without its file. One with a phase or an outcome that is not listed, or with anything but 0 in a field
 * that its phase does not use, came from no start: a step gives 46 and so does asking what is proved; its outcome and
 * its log record are 45. One that has ended otherwise than its run kind can (held with GREMOLUNDE_RESET or
 * GREMOLUNDE_JUMP, valid with GREMOLUNDE_HOLD) came from none either: asking what is proved gives 46, its outcome and
 * its log record are 45, and a step is 44. */
typedef struct gremolunde_session {
    uint32_t board;        /* GREMOLUNDE_SHORT or GREMOLUNDE_LONG; any other value is 65, its outcome 45 */
    uint32_t run;          /* GREMOLUNDE_RESET, GREMOLUNDE_JUMP or GREMOLUNDE_HOLD; any other value is hold */
    uint32_t phase;        /* GREMOLUNDE_GREETING to GREMOLUNDE_ENDED */
    uint32_t page;         /* of GREMOLUNDE_ERASE, else 0 */
    uint32_t address;      /* of GREMOLUNDE_WRITE and GREMOLUNDE_VERIFY, else 0 */
    uint32_t outcome;      /* of GREMOLUNDE_ENDED, else 0 */
    uint32_t acknowledged; /* packets acknowledged */
    uint32_t total;        /* packets of the file, with R where the run kind sends it */
    uint32_t named;        /* named bytes of the file */
} gremolunde_session;

/* How far a plain session is. */
enum {
    GREMOLUNDE_PLAIN_WAITING = 0,   /* it waits for the greeting */
    GREMOLUNDE_PLAIN_UNDER_WAY = 1, /* it waits for the answer to the packet with number `acknowledged` */
    GREMOLUNDE_PLAIN_ENDED = 2      /* nothing; `outcome` is 0 valid, 1 verified and held, or 40 to 43 */
};

/* A plain session, without its file: the bench version, to check the quick one by. At each step it lists every packet
 * of the file afresh, E, W, V and R, numbered from 0, and picks the next by its number; it is slow. Started over the
 * same file and told the same events, a gremolunde_session and a gremolunde_plain give the same packets, endings,
 * refusals and log records; neither record says where the other stands, so keep one for each. It keeps counts alone:
 * two maps with the same number of packets and of named bytes are never told apart, where a gremolunde_session is 46
 * at E, W and V; so step, and ask, with the file that it was started over. One with a stage or an outcome that is not
 * listed, or with an `outcome` other than 0 before its end, came from no start: a step gives 46 and so does asking
 * what is proved; its outcome and its log record are 45. One that has ended otherwise than its run kind can came from
 * none either: asking what is proved gives 46, its outcome and its log record are 45, and a step is 44. */
typedef struct gremolunde_plain {
    uint32_t board;        /* GREMOLUNDE_SHORT or GREMOLUNDE_LONG; any other value is 65, its outcome 45 */
    uint32_t run;          /* GREMOLUNDE_RESET, GREMOLUNDE_JUMP or GREMOLUNDE_HOLD; any other value is hold */
    uint32_t stage;        /* GREMOLUNDE_PLAIN_WAITING to GREMOLUNDE_PLAIN_ENDED */
    uint32_t outcome;      /* of GREMOLUNDE_PLAIN_ENDED, else 0 */
    uint32_t acknowledged; /* packets acknowledged, at the end too */
    uint32_t total;        /* packets of the file, with R where the run kind sends it */
    uint32_t named;        /* named bytes of the file */
} gremolunde_plain;

/* A station's settings. A record of them has big-endian two bytes for the length of what follows (6 or 7), then the
 * version, the station's number (two bytes), run kind, rule set and first page, and in version 2 the last page, a byte
 * each: 8 bytes in version 1, 9 in version 2. A station of version 1 whose `last` is 123 is written in version 1, with
 * any other `last`, and of version 2, in version 2. Stations are of the short board. */
typedef struct gremolunde_station {
    uint32_t version; /* of the record that it was read from: 1 or 2; any other value is 62 */
    uint32_t station; /* its number, 0 to 65,535 */
    uint32_t run;     /* GREMOLUNDE_RESET, GREMOLUNDE_JUMP or GREMOLUNDE_HOLD */
    uint32_t rules;   /* GREMOLUNDE_RULES_1 or GREMOLUNDE_RULES_2 */
    uint32_t first;   /* the first page that a session may touch, at most `last` */
    uint32_t last;    /* the last one, at most 123; a record of version 1 reads as 123 */
} gremolunde_station;

/* A table of stations is GREMOLUNDE_TABLE bytes that the caller keeps: GREMOLUNDE_PLACES places of 16 bytes each, place
 * 0 first. A place is free where its 16 bytes are 0. It has a station where a record stands at its start, as long as
 * its length field says, and all bytes behind that are 0. Any other place is damaged, one with the record of a later
 * version among them: it is no station, no store takes it, and gremolunde_stations_free alone frees it. A number is
 * held by the lowest place that has a station of that number. */
enum { GREMOLUNDE_PLACE_FREE = 0, GREMOLUNDE_PLACE_STATION = 1, GREMOLUNDE_PLACE_DAMAGED = 2 };

/* How many bytes were written. */
typedef struct gremolunde_length {
    uint32_t number;
    size_t length;
} gremolunde_length;

/* What a packet says; its data are the `length` bytes of the input from `place` on, those of V still turned. */
typedef struct gremolunde_parts {
    uint32_t number;
    uint8_t command;
    uint32_t address;
    size_t place;
    size_t length;
} gremolunde_parts;

/* How many answer bytes were written, and the next loader. */
typedef struct gremolunde_taken {
    uint32_t number;
    size_t answered;
    gremolunde_loader loader;
} gremolunde_taken;

/* The length of the packet that was handed on, 0 where none was, how many bytes were taken, and the next receiver, at
 * the start of whose bytes the packet stands. */
typedef struct gremolunde_received {
    size_t packet;
    size_t taken;
    gremolunde_receiver receiver;
} gremolunde_received;

/* How many bytes were taken, how many answer bytes were written, and the next port. */
typedef struct gremolunde_port_taken {
    uint32_t number;
    size_t taken;
    size_t answered;
    gremolunde_port port;
} gremolunde_port_taken;

/* The next hex reader. A refusal from 22 to 28 has the column where its line is wrong, counted from 0. */
typedef struct gremolunde_hex_read {
    uint32_t number;
    size_t column;
    gremolunde_hex reader;
} gremolunde_hex_read;

/* The address to go on from, the upper half to go on with, and how many characters were written. */
typedef struct gremolunde_hex_written {
    uint32_t number;
    uint32_t next;
    uint16_t upper;
    size_t length;
} gremolunde_hex_written;

/* The length of the packet to send, 0 at an end, and the next session. */
typedef struct gremolunde_session_stepped {
    uint32_t number;
    size_t length;
    gremolunde_session session;
} gremolunde_session_stepped;

/* The length of the packet to send, 0 at an end, and the next plain session. */
typedef struct gremolunde_plain_stepped {
    uint32_t number;
    size_t length;
    gremolunde_plain plain;
} gremolunde_plain_stepped;

/* Whether a byte is marked proved. */
typedef struct gremolunde_session_mark {
    uint32_t number;
    uint8_t proved;
} gremolunde_session_mark;

/* What a log record says. */
typedef struct gremolunde_log {
    uint32_t number;
    uint8_t version;
    uint8_t outcome;
    uint32_t acknowledged;
    uint32_t total;
    uint32_t bytes;
} gremolunde_log;

/* A station; all 0 where it is refused. */
typedef struct gremolunde_station_answer {
    uint32_t number;
    gremolunde_station station;
} gremolunde_station_answer;

/* The place where a record was stored. */
typedef struct gremolunde_station_stored {
    uint32_t number;
    uint32_t place;
} gremolunde_station_stored;

/* GREMOLUNDE_PLACE_FREE, GREMOLUNDE_PLACE_STATION or GREMOLUNDE_PLACE_DAMAGED. */
typedef struct gremolunde_station_place {
    uint32_t number;
    uint32_t condition;
} gremolunde_station_place;

/* Whether it was done. */
typedef struct gremolunde_done {
    uint32_t number;
} gremolunde_done;

/* Loader and session at the end of a rehearsal. */
typedef struct gremolunde_rehearsal {
    uint32_t number;
    gremolunde_loader loader;
    gremolunde_session session;
} gremolunde_rehearsal;

/* The byte turned for V. */
uint8_t gremolunde_turned(uint8_t byte);

/* A turned byte turned back. */
uint8_t gremolunde_restored(uint8_t byte);

/* Builds a packet; for V the data are given plain. 20 buffer under 259; 5, 6 as the command table says. */
gremolunde_length gremolunde_packet_build(uint8_t *buffer, size_t buffer_length, uint8_t command, uint32_t address,
                                          const uint8_t *plain, size_t plain_length);

/* Reads a packet. 1 to 6 as the loader's table says. */
gremolunde_parts gremolunde_packet_read(const uint8_t *input, size_t input_length);

/* A loader as it leaves the factory: waiting, nothing protected, the key cleared. */
gremolunde_loader gremolunde_loader_new(void);

/* A reset: waiting, an open protect sequence dropped, protection and key kept; flash stays too. */
gremolunde_loader gremolunde_loader_reset(gremolunde_loader loader);

/* Takes one input of a loader on a board. 65, 20, 11, 1, 2 with no answer; 3 to 10 with the answer BEL 07, so that
 * `answered` is 1 and the answer's first byte is written. Flash stays on every refusal. */
gremolunde_taken gremolunde_loader_take(uint32_t board, gremolunde_loader loader, const uint8_t *input,
                                        size_t input_length, uint8_t *flash, size_t flash_length, uint8_t *answer,
                                        size_t answer_length);

/* A receiver that has gathered nothing; its bytes are 0. */
gremolunde_receiver gremolunde_receiver_new(void);

/* Feeds one byte to a receiver where it stands, so that an interrupt can keep it in its own storage: `receiver` points
 * to one, and is not null. Gives the length of the packet that this byte completes, which then stands at the start of
 * the receiver's bytes until the next byte is fed, or 0. A count below 5 completes a packet of three bytes at once, so
 * that the loader says 3. All bytes behind those gathered, or behind the packet, stay as they were. */
size_t gremolunde_receiver_byte(gremolunde_receiver *receiver, uint8_t byte);

/* Feeds bytes as they came, one after another, up to and with the one that completes a packet, or all of them. Where
 * the bytes are cut between calls changes nothing. */
gremolunde_received gremolunde_receiver_bytes(gremolunde_receiver receiver, const uint8_t *bytes, size_t bytes_length);

/* Takes bytes as they came from the line, up to and with the one that brings the loader an input, or all of them. While
 * the loader serves they go to the receiver, and a packet that it hands on goes to the loader; else the first of them
 * alone goes to the loader as it comes, and the receiver has then gathered nothing, its bytes as they were. So the
 * single byte 08 opens the board, the receiver is fed after the greeting, and not after R. `number` is 0 where the
 * loader got no input. 65, 20 with no byte taken; else as gremolunde_loader_take says, with `taken` and the next
 * receiver on those refusals too, the loader as it came. Call again with the rest until all are taken. */
gremolunde_port_taken gremolunde_port_take(uint32_t board, gremolunde_port port, const uint8_t *bytes,
                                           size_t bytes_length, uint8_t *flash, size_t flash_length, uint8_t *answer,
                                           size_t answer_length);

/* Opens a file for a board, under a rule set: fills image with 0xFF and map with 0. 65 unknown board, 20 wrong sizes,
 * 34 unknown rule set; the reader is then all 0. */
gremolunde_hex_read gremolunde_hex_start(uint32_t board, uint32_t rules, uint8_t *image, size_t image_length,
                                         uint8_t *map, size_t map_length);

/* Takes one record, its line end removed. 65, 20, 34, 21 to 30. 29 is given where the place of a byte lies past the
 * board, 30 where the place of one was named before; a data record of no bytes is neither. Of the types 01 to 05, BB
 * is 0 for 01, 2 for 02 and 04, 4 for 03 and 05, whose start address is checked and ignored; AAAA is 0 for all five,
 * else 28. The column of 22 is 0, that of 23 and 25 `line_length`, of 24 the first character behind the colon that is
 * no digit, of 26 the checksum's first digit, of 27 the type's (7), of 28 the count's (1) if the count is wrong, else
 * the address's (3); other refusals have column 0. */
gremolunde_hex_read gremolunde_hex_record(gremolunde_hex reader, const uint8_t *line, size_t line_length,
                                          uint8_t *image, size_t image_length, uint8_t *map, size_t map_length);

/* Closes a file. 65 unknown board, 34 unknown rule set, 31 no end record, 32 no data byte taken. */
gremolunde_hex_read gremolunde_hex_close(gremolunde_hex reader);

/* Writes the next record from an address. `upper` is the upper half that the last 04 record set, 0 at first. Where the
 * next data record lies in another it is a 04 record that sets it: `upper` is then the new one and `next` the address
 * that was given. All else hands `upper` back. 65 unknown board, 20 wrong sizes, 33 buffer under 44; a refusal hands
 * the address back too. After the end record `next` is one past the board's bytes (0xF801 or 0x1F001), from where
 * nothing more is written. */
gremolunde_hex_written gremolunde_hex_write(uint32_t board, const uint8_t *image, size_t image_length,
                                            const uint8_t *map, size_t map_length, uint32_t from, uint16_t upper,
                                            uint8_t *buffer, size_t buffer_length);

/* Starts a session of a run kind for a board: writes the single byte 08. 65 unknown board, 20 wrong sizes, 32 nothing
 * named; the session is then all 0. */
gremolunde_session_stepped gremolunde_session_start(uint32_t board, uint32_t run, const uint8_t *image,
                                                    size_t image_length, const uint8_t *map, size_t map_length,
                                                    uint8_t *buffer, size_t buffer_length);

/* Takes one event: an answer, or silence where the flag `silent` is set, whatever the answer. 65 unknown board, 20
 * wrong sizes, 44 after the end, 46 not this file's session. A greeting of the other board ends with 42. The endings
 * 0, 1 and 40 to 43 are no refusals: see gremolunde_session_outcome. With GREMOLUNDE_HOLD the ACK to the last V ends
 * with 1, else the ACK to R with 0. */
gremolunde_session_stepped gremolunde_session_step(gremolunde_session session, uint8_t silent,
                                                   const uint8_t *answer, size_t answer_length,
                                                   const uint8_t *image, size_t image_length, const uint8_t *map,
                                                   size_t map_length, uint8_t *buffer, size_t buffer_length);

/* Whether the byte at an address is marked proved: the V that holds it was acknowledged. 65 unknown board, 20 map of
 * another size, 46 no start and events over this map lead to such a session. A record keeps counts and where it
 * stands, no map and no bytes: two files with one map are never told apart, and two maps with the same number of
 * packets and of named bytes only at E, W and V, by the page or the address. So ask with the map that the session was
 * started over. */
gremolunde_session_mark gremolunde_session_proved(gremolunde_session session, const uint8_t *map, size_t map_length,
                                                  uint32_t address);

/* How a session ended: 0 valid, 1 verified and held, 40 silence, 41 BEL, 42 no greeting, 43 other bytes or none; 45
 * unfinished, of an unknown board, or ended otherwise than its run kind can. */
uint32_t gremolunde_session_outcome(gremolunde_session session);

/* Writes the log record of a session that has ended: version 1, 10 bytes, for the short board, version 2, 16 bytes,
 * for the long one. 65 unknown board, 45 unfinished, ended otherwise than its run kind can or counts that make no
 * record, 20 buffer under 10 or 16. */
gremolunde_length gremolunde_log_write(gremolunde_session session, uint8_t *buffer, size_t buffer_length);

/* Starts a plain session of a run kind for a board: writes the single byte 08. 65 unknown board, 20 wrong sizes, 32
 * nothing named; the plain session is then all 0. */
gremolunde_plain_stepped gremolunde_plain_start(uint32_t board, uint32_t run, const uint8_t *image,
                                                size_t image_length, const uint8_t *map, size_t map_length,
                                                uint8_t *buffer, size_t buffer_length);

/* Takes one event, as gremolunde_session_step does. 65 unknown board, 20 wrong sizes, 44 after the end, 46 no start and
 * events over this file lead to such a plain session. */
gremolunde_plain_stepped gremolunde_plain_step(gremolunde_plain plain, uint8_t silent, const uint8_t *answer,
                                               size_t answer_length, const uint8_t *image, size_t image_length,
                                               const uint8_t *map, size_t map_length, uint8_t *buffer,
                                               size_t buffer_length);

/* Whether the byte at an address is marked proved. 65 unknown board, 20 map of another size, 46 no start and events
 * over this map lead to such a plain session. */
gremolunde_session_mark gremolunde_plain_proved(gremolunde_plain plain, const uint8_t *map, size_t map_length,
                                                uint32_t address);

/* How a plain session ended: as gremolunde_session_outcome tells it of a session. */
uint32_t gremolunde_plain_outcome(gremolunde_plain plain);

/* Writes the log record of a plain session that has ended, as gremolunde_log_write does of a session. 65 unknown
 * board, 45 unfinished, ended otherwise than its run kind can or counts that make no record, 20 buffer under 10 or
 * 16. */
gremolunde_length gremolunde_plain_log_write(gremolunde_plain plain, uint8_t *buffer, size_t buffer_length);

/* Reads a log record of either version. 50 to 53. */
gremolunde_log gremolunde_log_read(const uint8_t *input, size_t input_length);

/* Rehearses a whole load of the file into the flash of a board: the loader is reset, a session of the run kind
 * started, and exchange follows exchange until the session has ended. Each byte of `losses` tells what befalls one
 * exchange: 0 nothing, 1 the packet is lost, any other value the answer is lost; past their end nothing is lost. 65
 * unknown board, 20 wrong sizes, 32 nothing named; the session is then all 0. */
gremolunde_rehearsal gremolunde_rehearse(uint32_t board, uint32_t run, gremolunde_loader loader,
                                         const uint8_t *losses, size_t losses_length, const uint8_t *image,
                                         size_t image_length, const uint8_t *map, size_t map_length,
                                         uint8_t *flash, size_t flash_length);

/* Rehearses a whole load with rubbish on the line, the loader behind a receiver that has gathered nothing. Before what
 * the session sends in exchange i, counted from 0, the board gets `each` bytes of `rubbish` from place i * `each` on,
 * fewer or none where they end. What is lost is the packet, and not the rubbish before it; or the answers of the
 * exchange, all of them. The answers to rubbish and packet that are not lost reach the session one after another as
 * one. All else is as in gremolunde_rehearse. */
gremolunde_rehearsal gremolunde_rehearse_noisy(uint32_t board, uint32_t run, gremolunde_loader loader,
                                               const uint8_t *losses, size_t losses_length, const uint8_t *rubbish,
                                               size_t rubbish_length, size_t each, const uint8_t *image,
                                               size_t image_length, const uint8_t *map, size_t map_length,
                                               uint8_t *flash, size_t flash_length);

/* Reads a station's record. 63 under three bytes; 62 a version other than 1 and 2; 63 a length field that is not the
 * version's, an input that is not two bytes longer than it says, a run kind above 2, a rule set other than 1 and 2, a
 * page above 123, or a first page above the last. */
gremolunde_station_answer gremolunde_station_read(const uint8_t *input, size_t input_length);

/* Writes a station's record. 20 buffer under 9, or under 8 where `version` is 1 and `last` is 123; 62 a version other
 * than 1 and 2; 63 a field out of range. What is written reads back with the same number, run kind, rule set, first and
 * last; a record that was read is written with the same bytes. */
gremolunde_length gremolunde_station_write(gremolunde_station station, uint8_t *buffer, size_t buffer_length);

/* Makes a table empty, whatever its bytes are. 20 a table of another size. */
gremolunde_done gremolunde_stations_empty(uint8_t *table, size_t table_length);

/* The station that holds a number. 60 none does, or a table of another size. */
gremolunde_station_answer gremolunde_stations_find(const uint8_t *table, size_t table_length, uint32_t station);

/* The station at a place. 60 none is there, a place past 63, or a table of another size. */
gremolunde_station_answer gremolunde_stations_list(const uint8_t *table, size_t table_length, uint32_t place);

/* What is at a place. 60 a place past 63, or a table of another size. */
gremolunde_station_place gremolunde_stations_place(const uint8_t *table, size_t table_length, uint32_t place);

/* Stores a record: in the place that holds its number, else in the lowest free one. 20 a table of another size; 63, 62,
 * 63 as gremolunde_station_read says; 61 no place holds the number and none is free. */
gremolunde_station_stored gremolunde_stations_store(uint8_t *table, size_t table_length, const uint8_t *input,
                                                    size_t input_length);

/* Deletes a number: frees every place that has a station of that number. 60 there is none, or a table of another
 * size. */
gremolunde_done gremolunde_stations_delete(uint8_t *table, size_t table_length, uint32_t station);

/* Frees a place, whether it has a station or is damaged. 60 it is free, a place past 63, or a table of another size. */
gremolunde_done gremolunde_stations_free(uint8_t *table, size_t table_length, uint32_t place);

/* Opens a file for a station, on the short board under its rule set, as gremolunde_hex_start does. 60 no place of the
 * table holds the number, 20 wrong sizes; the reader is then all 0. */
gremolunde_hex_read gremolunde_station_open(const uint8_t *table, size_t table_length, uint32_t station,
                                            uint8_t *image, size_t image_length, uint8_t *map, size_t map_length);

/* Starts a session for a station, on the short board with its run kind, as gremolunde_session_start does. 60 no place
 * of the table holds the number, 20 wrong sizes, 32 nothing named, 64 a page that holds a named byte is below `first`
 * or above `last`; the session is then all 0. Step it with gremolunde_session_step. */
gremolunde_session_stepped gremolunde_station_start(const uint8_t *table, size_t table_length, uint32_t station,
                                                    const uint8_t *image, size_t image_length, const uint8_t *map,
                                                    size_t map_length, uint8_t *buffer, size_t buffer_length);

#ifdef __cplusplus
}
#endif

#endif
