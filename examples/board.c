/* A board at the end of a line that picks up rubbish: board [short | long]. Bytes come in on standard input as a serial
 * port reads them, each answer goes out on standard output at once; the loader stands behind a receiver, which is fed
 * only while the loader serves. Ends with the input, or when a packet has started the controller. */
#define _POSIX_C_SOURCE 200112L
#include "gremolunde.h"
#include <stdio.h>
#include <string.h>
#include <unistd.h>

static uint8_t flash[GREMOLUNDE_LONG_FLASH], answer[GREMOLUNDE_ANSWER];

/* How many bytes one read of the port brings at most. */
enum { READ = 16, LEFT = 2 };

/* One read of the port, as it came: a call takes bytes up to an input of the loader, so there may be several. */
static int take(uint32_t board, size_t size, gremolunde_port *port, const uint8_t *bytes, size_t count) {
    while (count > 0 && port->loader.condition != LEFT) {
        gremolunde_port_taken taken =
            gremolunde_port_take(board, *port, bytes, count, flash, size, answer, sizeof answer);
        if (taken.taken == 0) {
            fprintf(stderr, "refused: %lu\n", (unsigned long)taken.number);
            return 0;
        }
        /* the host sends no more until it has this */
        fwrite(answer, 1, taken.answered, stdout);
        fflush(stdout);
        *port = taken.port;
        bytes += taken.taken;
        count -= taken.taken;
    }
    return port->loader.condition != LEFT;
}

int main(int count, char **words) {
    int is_long = count == 2 && strcmp(words[1], "long") == 0;
    uint32_t board = is_long ? GREMOLUNDE_LONG : GREMOLUNDE_SHORT;
    size_t size = is_long ? GREMOLUNDE_LONG_FLASH : GREMOLUNDE_SHORT_FLASH;
    gremolunde_port port = {gremolunde_loader_new(), gremolunde_receiver_new()};
    uint8_t bytes[READ];
    ssize_t came;
    if (count > 2 || (count == 2 && !is_long && strcmp(words[1], "short") != 0)) {
        fprintf(stderr, "usage: board [short | long]\n");
        return 2;
    }
    memset(flash, 0xFF, sizeof flash);
    /* a read gives what has come, and does not wait for more */
    do {
        came = read(STDIN_FILENO, bytes, sizeof bytes);
    } while (came > 0 && take(board, size, &port, bytes, (size_t)came));
    return came < 0;
}
