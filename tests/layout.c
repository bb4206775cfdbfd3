/* Checks of the library as C links it what a case line cannot say: the place and size of every field that
 * fields.h lists, as the header has them, and that bytes lent as const may stand in memory that nobody can
 * write, and overlap. Prints nothing and returns 0 if all holds. */
#include "gremolunde.h"
#include <stdio.h>

static int failed;

static void hold(int holds, const char *what) {
    if (!holds) {
        fprintf(stderr, "not so: %s\n", what);
        failed = 1;
    }
}

#define HOLD(fact) hold((fact) ? 1 : 0, #fact)

static void structs(void) {
    /* whoever changes a struct that fields.h has, or the meaning of a number in one, raises it */
    HOLD(GREMOLUNDE_VERSION == 5);
    HOLD(sizeof(size_t) == 8);
#define STRUCT(type, size) HOLD(sizeof(type) == (size));
#define FIELD(type, name, place, size)     \
    HOLD(offsetof(type, name) == (place)); \
    HOLD(sizeof(((type *)0)->name) == (size));
#include "fields.h"
}

/* A board with the sizes that the header gives for it. */
typedef struct sizes {
    uint32_t board;
    size_t flash, image, map;
} sizes;

static const sizes boards[] = {
    {GREMOLUNDE_SHORT, GREMOLUNDE_SHORT_FLASH, GREMOLUNDE_SHORT_IMAGE, GREMOLUNDE_SHORT_MAP},
    {GREMOLUNDE_LONG, GREMOLUNDE_LONG_FLASH, GREMOLUNDE_LONG_IMAGE, GREMOLUNDE_LONG_MAP},
};

/* An image whose first bytes are its map too: address 0 alone is named. */
static const uint8_t both[GREMOLUNDE_LONG_IMAGE] = {0x01};

/* As long as the longer board asks for; the other is lent their first bytes. */
static uint8_t image[GREMOLUNDE_LONG_IMAGE], map[GREMOLUNDE_LONG_MAP], flash[GREMOLUNDE_LONG_FLASH];
static uint8_t packet[GREMOLUNDE_PACKET], answer[GREMOLUNDE_ANSWER], text[GREMOLUNDE_HEX_RECORD];
static uint8_t table[GREMOLUNDE_TABLE];

static void packets(void) {
    static const uint8_t plain[] = {0x12};
    static const uint8_t input[] = {0x07, 0x0E, 0x05, 0x52, 0, 0, 0, 1, 0xA8};
    HOLD(gremolunde_packet_build(packet, sizeof packet, 'W', 0, plain, sizeof plain).number == 0);
    HOLD(gremolunde_packet_read(input, sizeof input).number == 0);
    HOLD(gremolunde_receiver_bytes(gremolunde_receiver_new(), input, sizeof input).packet == sizeof input);
}

static void loaders(sizes s) {
    static const uint8_t hello[] = {0x08};
    gremolunde_loader loader = gremolunde_loader_new();
    gremolunde_port port = {loader, gremolunde_receiver_new()};
    HOLD(gremolunde_loader_take(s.board, loader, hello, 1, flash, s.flash, answer, sizeof answer).number == 0);
    HOLD(gremolunde_port_take(s.board, port, hello, 1, flash, s.flash, answer, sizeof answer).number == 0);
}

static void files(sizes s, uint32_t rules) {
    static const uint8_t line[] = {':', '0', '0', '0', '0', '0', '0', '0', '1', 'F', 'F'};
    gremolunde_hex reader = gremolunde_hex_start(s.board, rules, image, s.image, map, s.map).reader;
    HOLD(gremolunde_hex_record(reader, line, sizeof line, image, s.image, map, s.map).number == 0);
    HOLD(gremolunde_hex_write(s.board, both, s.image, both, s.map, 0, 0, text, sizeof text).number == 0);
}

/* A step whose answer lies in the image and in the map as well. */
static void sessions(sizes s) {
    gremolunde_session_stepped now = gremolunde_session_start(s.board, GREMOLUNDE_RESET, both, s.image, both,
                                                              s.map, packet, sizeof packet);
    gremolunde_rehearsal load;
    HOLD(now.number == 0 && now.session.named == 1);
    now = gremolunde_session_step(now.session, 0, both, 1, both, s.image, both, s.map, packet, sizeof packet);
    HOLD(now.number == 0 && gremolunde_session_outcome(now.session) == 42);
    HOLD(gremolunde_session_proved(now.session, both, s.map, 0).number == 0);
    load = gremolunde_rehearse(s.board, GREMOLUNDE_RESET, gremolunde_loader_new(), both, 2, both, s.image, both,
                               s.map, flash, s.flash);
    HOLD(load.number == 0);
    load = gremolunde_rehearse_noisy(s.board, GREMOLUNDE_RESET, gremolunde_loader_new(), both, 2, both, 2, 1, both,
                                     s.image, both, s.map, flash, s.flash);
    HOLD(load.number == 0);
}

static void logs(void) {
    static const uint8_t first[GREMOLUNDE_SHORT_LOG] = {0, 0x08, 1, 0, 0, 4, 0, 4, 0, 2};
    static const uint8_t second[GREMOLUNDE_LONG_LOG] = {0, 0x0E, 2, 0, 0, 0, 0, 4, 0, 0, 0, 4, 0, 0, 0, 2};
    HOLD(gremolunde_log_read(first, sizeof first).number == 0);
    HOLD(gremolunde_log_read(second, sizeof second).number == 0);
}

/* A table with station 7 alone, which is an image and its map too: seven bytes of page 0 are named. */
static const uint8_t station[GREMOLUNDE_SHORT_IMAGE] = {0, 6, 1, 0, 7, 0, 1, 0};

static void stations(void) {
    const size_t image_length = GREMOLUNDE_SHORT_IMAGE, map_length = GREMOLUNDE_SHORT_MAP;
    gremolunde_session_stepped now = gremolunde_station_start(station, GREMOLUNDE_TABLE, 7, station, image_length,
                                                              station, map_length, packet, sizeof packet);
    HOLD(now.number == 0 && now.session.named == 7);
    HOLD(gremolunde_station_read(station, 8).station.station == 7);
    HOLD(gremolunde_stations_find(station, GREMOLUNDE_TABLE, 7).number == 0);
    HOLD(gremolunde_stations_list(station, GREMOLUNDE_TABLE, 0).number == 0);
    HOLD(gremolunde_stations_place(station, GREMOLUNDE_TABLE, 0).condition == GREMOLUNDE_PLACE_STATION);
    HOLD(gremolunde_station_open(station, GREMOLUNDE_TABLE, 7, image, image_length, map, map_length).number == 0);
    HOLD(gremolunde_stations_store(table, sizeof table, station, 8).number == 0);
}

int main(void) {
    size_t i;
    structs();
    packets();
    logs();
    stations();
    for (i = 0; i < sizeof boards / sizeof *boards; i++) {
        loaders(boards[i]);
        files(boards[i], GREMOLUNDE_RULES_1);
        files(boards[i], GREMOLUNDE_RULES_2);
        sessions(boards[i]);
    }
    return failed;
}
