/* Keeps the settings of stations in a file, which `load` reads:
 *   stations TABLE new                                  makes an empty table, where there is no such file
 *   stations TABLE list                                 says what each place has that is not free
 *   stations TABLE store NUMBER RUN RULES FIRST [LAST]  stores a station; RUN is 0 reset, 1 jump, 2 hold
 *   stations TABLE delete NUMBER                        deletes one
 *   stations TABLE free PLACE                           frees a place that has a station or is damaged
 * A number of the paper on standard error says why one is refused; the file then stays as it was. */
#include "gremolunde.h"
#include <stdio.h>
#include <stdlib.h>
#include <string.h>

/* One byte more than a table has, so that a longer one is told. */
static uint8_t table[GREMOLUNDE_TABLE + 1];
static size_t length;

/* The words behind the request, as numbers. */
enum { MOST = 5 };
static uint32_t numbers[MOST];
static int given;

static int numbers_of(char **words) {
    for (given = 0; *words != NULL; ++words, ++given) {
        char *end = NULL;
        unsigned long number = strtoul(*words, &end, 10);
        if (given == MOST || end == *words || *end != 0 || number > UINT32_MAX) {
            return 0;
        }
        numbers[given] = (uint32_t)number;
    }
    return 1;
}

static void show(uint32_t place) {
    gremolunde_station station = gremolunde_stations_list(table, length, place).station;
    uint32_t condition = gremolunde_stations_place(table, length, place).condition;
    if (condition == GREMOLUNDE_PLACE_DAMAGED) {
        printf("PLACE %u DAMAGED\n", (unsigned)place);
    } else if (condition == GREMOLUNDE_PLACE_STATION) {
        printf("PLACE %u STATION %u VERSION %u RUN %u RULES %u FIRST %u LAST %u\n", (unsigned)place,
               (unsigned)station.station, (unsigned)station.version, (unsigned)station.run, (unsigned)station.rules,
               (unsigned)station.first, (unsigned)station.last);
    }
}

static uint32_t list(void) {
    for (uint32_t place = 0; place < GREMOLUNDE_PLACES; ++place) {
        show(place);
    }
    return gremolunde_stations_place(table, length, 0).number;
}

/* A station that is held keeps its version, and its last page where none is given. */
static uint32_t store(void) {
    uint8_t record[GREMOLUNDE_STATION_RECORD];
    gremolunde_station_answer held = gremolunde_stations_find(table, length, numbers[0]);
    gremolunde_station fresh = {1, numbers[0], 0, 0, 0, GREMOLUNDE_SHORT - 1};
    gremolunde_station station = held.number == 0 ? held.station : fresh;
    gremolunde_length written;
    station.run = numbers[1];
    station.rules = numbers[2];
    station.first = numbers[3];
    station.last = given > 4 ? numbers[4] : station.last;
    written = gremolunde_station_write(station, record, sizeof record);
    return written.number != 0 ? written.number
                               : gremolunde_stations_store(table, length, record, written.length).number;
}

/* A file that is there is not made empty: its stations would be gone. */
static uint32_t make(void) {
    if (length > 0) {
        fprintf(stderr, "there is such a file\n");
        exit(1);
    }
    length = GREMOLUNDE_TABLE;
    return gremolunde_stations_empty(table, length).number;
}

static uint32_t erase(void) {
    return gremolunde_stations_delete(table, length, numbers[0]).number;
}

static uint32_t release(void) {
    return gremolunde_stations_free(table, length, numbers[0]).number;
}

/* What can be asked for, with so many numbers at least and at most; each gives the refusal's number. */
static const struct request {
    const char *name;
    int least, most;
    uint32_t (*does)(void);
} requests[] = {
    {"new", 0, 0, make},
    {"list", 0, 0, list},
    {"store", 4, 5, store},
    {"delete", 1, 1, erase},
    {"free", 1, 1, release},
};

static const struct request *request_of(const char *name) {
    for (size_t i = 0; i < sizeof requests / sizeof *requests; ++i) {
        if (strcmp(name, requests[i].name) == 0) {
            return &requests[i];
        }
    }
    return NULL;
}

/* A table that there is not has no bytes. */
static void load(const char *name) {
    FILE *file = fopen(name, "rb");
    if (file != NULL) {
        length = fread(table, 1, sizeof table, file);
        fclose(file);
    }
}

/* Beside the old one first, so that a table is there whole whatever happens. */
static int save(const char *name) {
    char beside[FILENAME_MAX];
    int wide = snprintf(beside, sizeof beside, "%s.new", name);
    FILE *file = wide > 0 && (size_t)wide < sizeof beside ? fopen(beside, "wb") : NULL;
    int written = file != NULL && fwrite(table, 1, length, file) == length;
    return file != NULL && fclose(file) == 0 && written && rename(beside, name) == 0;
}

int main(int count, char **words) {
    const struct request *r = count >= 3 ? request_of(words[2]) : NULL;
    uint32_t number;
    if (r == NULL || !numbers_of(words + 3) || given < r->least || given > r->most) {
        fprintf(stderr, "usage: stations TABLE new | list | store NUMBER RUN RULES FIRST [LAST]\n"
                        "                          | delete NUMBER | free PLACE\n");
        return 2;
    }
    load(words[1]);
    number = r->does();
    if (number != 0) {
        fprintf(stderr, "refused: %u\n", (unsigned)number);
        return 1;
    }
    if (r->does != list && !save(words[1])) {
        fprintf(stderr, "not written\n");
        return 1;
    }
    return 0;
}
