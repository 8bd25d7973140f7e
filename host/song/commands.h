/*
 * The commands of a score: how they stand in bytes, and what they are in full.
 *
 * A score is 4,096 words of sample memory, high byte first, and then commands
 * of four bytes: a kind, a number of two bytes, high byte first, and one byte.
 * A repeat stands for as many commands as its byte says, the first of which is
 * as many back as its number says, counted in full. One that goes back past the
 * first command, or asks for more than it goes back by, stands for itself.
 */
#ifndef SONG_COMMANDS_H
#define SONG_COMMANDS_H

#include <stddef.h>
#include <stdint.h>

/* WRITE writes the byte at the address that the number gives, and READ reads
   there; POT sets the pot result to the number; FRAMES runs as many frames as
   the number says. From REPEAT on, a kind is that of no call. */
enum kind {
    RESET, WRITE, READ, POT, FRAME, WAITING, FRAMES, REPEAT, KINDS
};

#define COMMAND_BYTES 4u
#define SCORE_WORDS   4096u /* of sample memory */
#define SCORE_MEMORY  (2u * SCORE_WORDS)
#define MOST_BYTES    65536u
#define MOST_COMMANDS 65536u /* in full */
#define MOST_NUMBER   65535u /* of one command */
#define MOST_REPEATED 255u   /* by one command */

/* So many bytes of a number, to standard output. */
void put_number(uint32_t number, uint32_t bytes);
void put_command(uint32_t kind, uint32_t number, uint32_t byte);

uint32_t number_of(const unsigned char *bytes, uint32_t count);

/* The number of a command. */
uint32_t number_in(const unsigned char *command);

/* Puts so many commands in full, and answers how many these are; where they are
   more than MOST_COMMANDS, that and one more. */
size_t put_in_full(unsigned char full[MOST_COMMANDS * COMMAND_BYTES],
                   const unsigned char *commands, size_t count);

#endif
