/* Runs a command by the library: as `ipswitch WORDS`, it reads standard input, writes standard output, and ends with the
 * command's status.
 *
 *     library/build && cc -Ilibrary -o example library/example.c library/out/libipswitch.a
 *     ./example replay < examples/two-routers.script
 */
#include "ipswitch.h"

#include <stdint.h>
#include <stdio.h>
#include <stdlib.h>
#include <string.h>

/* Octets that grow. There are some from the start, since no argument of a call may be null. */
struct octets {
    uint8_t *at;
    size_t length, room;
};

static int has_room(struct octets *octets, size_t room) {
    uint8_t *at = realloc(octets->at, room);
    if (at == NULL) return 0;
    octets->at = at;
    octets->room = room;
    return 1;
}

/* The words behind the program's name, with spaces between them. */
static int join_words(struct octets *words, int count, char **arguments) {
    if (!has_room(words, 1)) return 0;
    for (int number = 1; number < count; number++) {
        size_t length = strlen(arguments[number]);
        if (!has_room(words, words->length + length + 1)) return 0;
        memcpy(words->at + words->length, arguments[number], length);
        words->at[words->length + length] = ' ';
        words->length += length + 1;
    }
    return 1;
}

static int read_all(struct octets *input, FILE *from) {
    if (!has_room(input, 65536)) return 0;
    for (;;) {
        size_t count = fread(input->at + input->length, 1, input->room - input->length, from);
        input->length += count;
        if (count == 0) return !ferror(from);
        if (input->length == input->room && !has_room(input, 2 * input->room)) return 0;
    }
}

int main(int count, char **arguments) {
    struct octets words = {0}, input = {0}, output = {0};
    if (!join_words(&words, count, arguments) || !has_room(&output, 65536)) return IPSWITCH_NO_MEMORY;
    if (!read_all(&input, stdin)) return 3;

    uint8_t status = ipswitch_call(words.at, words.length, input.at, input.length, output.at, output.room, &output.length);
    /* A second call has room enough, since the output is the same. */
    if (status == IPSWITCH_NO_ROOM) {
        if (!has_room(&output, output.length)) return IPSWITCH_NO_MEMORY;
        status = ipswitch_call(words.at, words.length, input.at, input.length, output.at, output.room, &output.length);
    }

    if (fwrite(output.at, 1, output.length, stdout) != output.length || fflush(stdout) != 0) return 4;
    free(words.at);
    free(input.at);
    free(output.at);
    return status;
}
