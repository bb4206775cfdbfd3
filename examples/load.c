/* Loads a hex file as a host does: load FILE.hex [hold | reset | jump] [short | long] [1 | 2]. Without a run kind it
 * holds: the file is written and verified, and nothing is started. Without a board it is the short one. The number is
 * the rule set for the file's addresses, 1 without it. Or by the settings of a station: load FILE.hex station TABLE
 * NUMBER, where TABLE is a file that `stations` keeps. The board is a loader in this process; over a serial line
 * `exchange` sends the packet and waits for the answer. Writes the service log's record to standard output. */
#include "gremolunde.h"
#include <stdio.h>
#include <stdlib.h>
#include <string.h>

/* Room for either board. */
static uint8_t image[GREMOLUNDE_LONG_IMAGE], map[GREMOLUNDE_LONG_MAP], flash[GREMOLUNDE_LONG_FLASH];
static uint8_t packet[GREMOLUNDE_PACKET], answer[GREMOLUNDE_ANSWER], record[GREMOLUNDE_LONG_LOG];
static gremolunde_loader loader;

/* One byte more than a table has, so that a longer one is told. */
static uint8_t table[GREMOLUNDE_TABLE + 1];

/* A board by its number of pages, and how much of the room is its own. */
typedef struct board {
    const char *name;
    uint32_t pages;
    size_t bytes, map_bytes;
} board;

static const board boards[] = {
    {"short", GREMOLUNDE_SHORT, GREMOLUNDE_SHORT_IMAGE, GREMOLUNDE_SHORT_MAP},
    {"long", GREMOLUNDE_LONG, GREMOLUNDE_LONG_IMAGE, GREMOLUNDE_LONG_MAP},
};

/* What the words ask for; by a station where there is a table, of so many bytes. */
typedef struct asked {
    uint32_t run;
    const board *on;
    uint32_t rules;
    size_t table;
    uint32_t station;
} asked;

/* More characters than any record has. */
enum { KEPT = 600 };

static int say(const char *what, uint32_t number) {
    fprintf(stderr, "%s: %lu\n", what, (unsigned long)number);
    return 1;
}

/* The next line without its end, or 0: its whole length, and as many of its characters as are kept. */
static int next_line(FILE *file, uint8_t line[KEPT], size_t *length) {
    int c, last = EOF;
    for (*length = 0; (c = getc(file)) != EOF; last = c) {
        if (c == '\n') {
            *length -= last == '\r';
            return 1;
        }
        if (*length < KEPT) {
            line[*length] = (uint8_t)c;
        }
        ++*length;
    }
    return *length > 0;
}

/* The file's reader at its start. */
static gremolunde_hex_read open_file(const asked *ask) {
    const board *on = ask->on;
    if (ask->table > 0) {
        return gremolunde_station_open(table, ask->table, ask->station, image, on->bytes, map, on->map_bytes);
    }
    return gremolunde_hex_start(on->pages, ask->rules, image, on->bytes, map, on->map_bytes);
}

/* The number that the file is refused with, 0 if it is taken; says which line is wrong, and where. */
static uint32_t read_file(FILE *file, const asked *ask) {
    const board *on = ask->on;
    uint8_t line[KEPT];
    size_t length, lines = 0;
    gremolunde_hex_read read = open_file(ask);
    for (; read.number == 0 && next_line(file, line, &length); ++lines) {
        read = gremolunde_hex_record(read.reader, line, length < KEPT ? length : KEPT, image, on->bytes, map,
                                     on->map_bytes);
        if (read.number != 0) {
            /* 23 has the length of the whole line, of which the reader saw no more than was kept */
            fprintf(stderr, "line %zu, column %zu\n", lines + 1, read.number == 23 ? length : read.column);
        }
    }
    return read.number != 0 ? read.number : gremolunde_hex_close(read.reader).number;
}

/* The run kind that a word asks for, or 0 for a word that is none. */
static int run_kind(const char *word, uint32_t *run) {
    static const char *const kinds[] = {"reset", "jump", "hold"};
    static const uint32_t values[] = {GREMOLUNDE_RESET, GREMOLUNDE_JUMP, GREMOLUNDE_HOLD};
    for (size_t i = 0; i < sizeof kinds / sizeof *kinds; ++i) {
        if (strcmp(word, kinds[i]) == 0) {
            *run = values[i];
            return 1;
        }
    }
    return 0;
}

/* The board that a word names, or the null pointer for a word that names none. */
static const board *board_of(const char *word) {
    for (size_t i = 0; i < sizeof boards / sizeof *boards; ++i) {
        if (strcmp(word, boards[i].name) == 0) {
            return &boards[i];
        }
    }
    return NULL;
}

/* The rule set that a word names, or 0 for a word that names none. */
static uint32_t rules_of(const char *word) {
    return strcmp(word, "1") == 0 ? GREMOLUNDE_RULES_1 : strcmp(word, "2") == 0 ? GREMOLUNDE_RULES_2 : 0;
}

/* Takes a table's file and a station's number; 0 where there is no such file or no number. */
static int station_of(char **words, asked *ask) {
    FILE *file = words[0] != NULL && words[1] != NULL && words[2] == NULL ? fopen(words[0], "rb") : NULL;
    unsigned long number;
    char *end = NULL;
    if (file == NULL) {
        return 0;
    }
    ask->table = fread(table, 1, sizeof table, file);
    fclose(file);
    number = strtoul(words[1], &end, 10);
    ask->station = (uint32_t)number;
    return ask->table > 0 && end != words[1] && *end == 0 && number <= UINT32_MAX;
}

/* Takes the words behind the file's name: `station` and what it needs, or a run kind, then a board, then a rule set,
 * each if it is there; 0 for any other word. */
static int options(char **words, asked *ask) {
    if (*words != NULL && strcmp(*words, "station") == 0) {
        return station_of(words + 1, ask);
    }
    words += *words != NULL && run_kind(*words, &ask->run);
    if (*words != NULL && board_of(*words) != NULL) {
        ask->on = board_of(*words++);
    }
    if (*words != NULL && rules_of(*words) != 0) {
        ask->rules = rules_of(*words++);
    }
    return *words == NULL;
}

/* Sends the packet; gives the length of the answer, 0 for silence. */
static size_t exchange(size_t length, const board *on) {
    gremolunde_taken taken =
        gremolunde_loader_take(on->pages, loader, packet, length, flash, on->bytes, answer, sizeof answer);
    loader = taken.loader;
    return taken.answered;
}

/* The session at its start. */
static gremolunde_session_stepped start(const asked *ask) {
    const board *on = ask->on;
    if (ask->table > 0) {
        return gremolunde_station_start(table, ask->table, ask->station, image, on->bytes, map, on->map_bytes, packet,
                                        sizeof packet);
    }
    return gremolunde_session_start(on->pages, ask->run, image, on->bytes, map, on->map_bytes, packet, sizeof packet);
}

int main(int count, char **words) {
    uint32_t number;
    asked ask = {GREMOLUNDE_HOLD, &boards[0], GREMOLUNDE_RULES_1, 0, 0};
    FILE *file = count >= 2 && options(words + 2, &ask) ? fopen(words[1], "rb") : NULL;
    const board *on = ask.on;
    gremolunde_session_stepped now;
    gremolunde_length log;
    if (file == NULL) {
        fprintf(stderr, "usage: load FILE.hex [hold | reset | jump] [short | long] [1 | 2]\n"
                        "       load FILE.hex station TABLE NUMBER\n");
        return 2;
    }
    number = read_file(file, &ask);
    if (number != 0) {
        return say("the file is refused", number);
    }
    loader = gremolunde_loader_new();
    now = start(&ask);
    if (now.number != 0) {
        return say("no session", now.number);
    }
    while (now.length > 0) {
        size_t length = exchange(now.length, on);
        now = gremolunde_session_step(now.session, length == 0, answer, length, image, on->bytes, map, on->map_bytes,
                                      packet, sizeof packet);
    }
    log = gremolunde_log_write(now.session, record, sizeof record);
    if (log.number != 0 || fwrite(record, 1, log.length, stdout) != log.length) {
        return say("no record", log.number);
    }
    number = gremolunde_session_outcome(now.session);
    return number <= 1 ? 0 : say("neither valid nor held", number);
}
