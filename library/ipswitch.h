/* The commands of ipswitch as a call: octets in, octets out.
 *
 * The call is proved: the function ipswitch_call of crates/ipswitch_c, which this header declares, has the contract
 * IsCall (crates/true_commands/specs/Call.antt). In words: with status 0, 1, 2 or 6 what stands at the front of the room is
 * the output of that command for that input, octet for octet, and the status is the one it ends with. A replay's output is
 * the report of the run that its script describes, and that run is true to routing (docs/CLAIMS.md, "The headline").
 *
 * The proof takes for granted what Rattle's types say of the arguments. In C nothing checks it, so a caller keeps to it:
 *
 * - Each pointer with a length leads to that many octets, all inside one object, and isn't null, also where the length is 0.
 * - `count` leads to a size_t, aligned as C wants it.
 * - The room and the count overlap neither each other nor the words and the input. (The words and the input may overlap.)
 * - While a call runs, no other thread touches the room or the count, and none writes the words or the input.
 * - malloc, realloc and free are those of one allocator, and blocks are aligned as C wants it, up to 16 octets. No call is made
 *   in a handler of a signal, nor in the forked child of a process that had threads.
 *
 * Nothing is kept of a call: it gives back all memory that it took, and calls in several threads at once share nothing. How
 * much stack a call takes isn't claimed; the examples run with the 8 MiB that a program usually has. */
#ifndef IPSWITCH_H
#define IPSWITCH_H

#include <stddef.h>
#include <stdint.h>

#ifdef __cplusplus
extern "C" {
#endif

enum ipswitch_status {
    IPSWITCH_DONE = 0,      /* the input was read to its end, and the room has the output; of a trace: it is good */
    IPSWITCH_USAGE = 1,     /* the words are no command's, and the room has the line that tells which there are */
    IPSWITCH_REFUSED = 2,   /* a line of the input is refused; the output's last line says which, and why */
    IPSWITCH_NO_ROOM = 4,   /* the output has more octets than the room: the count says how many; the room is as it was */
    IPSWITCH_NO_MEMORY = 5, /* malloc gave none; the room is as it was, and the count is 0 */
    IPSWITCH_DENIED = 6,    /* a trace isn't good; the output says which line shows it */
    IPSWITCH_NO_TEXT = 7    /* a word isn't UTF-8; the room is as it was, and the count is 0 */
};

/* Runs a command, and returns one of the statuses above (3, a failed read, doesn't come).
 *
 * words         the command's words, with spaces or tabs between them: "replay", "replay toml", "drill 5".
 *               docs/SCRIPTS.md has all commands. No 0 ends them.
 * words_length  how many octets they have.
 * input         what the command reads, as the program reads it from standard input: a script, a document, a trace.
 * input_length  how many octets it has. A command reads 16,777,217 at most, and refuses an input that has them.
 * room          where the output goes, what the program writes to standard output. Octets behind the output stay.
 * room_length   how many octets the room has. A report may be longer than its script, and a journal have millions of octets.
 *               Where they are too few the call can be made again, with as many as the count says.
 * count         is set to how many octets the output has, also where they are more than the room's. */
uint8_t ipswitch_call(const uint8_t *words, size_t words_length, const uint8_t *input, size_t input_length,
                      uint8_t *room, size_t room_length, size_t *count);

#ifdef __cplusplus
}
#endif

#endif
