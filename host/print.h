/* The words of the output, for the files of `replay`. A line begins with a bare word; each further word brings the
 * blank before it, so that one blank stands between words and none at a line's end. */
#ifndef CATALOGUE_HOST_PRINT_H
#define CATALOGUE_HOST_PRINT_H

#include <stddef.h>
#include <stdint.h>

/* Which record is being answered, from 1; messages on standard error name it. */
extern uint64_t record_number;

/* The engine did what catalogue.h or docs/IMAGES.md rule out: says so on standard error and ends the program. */
_Noreturn void fail(const char *what, uint64_t number);

/* `number`, if it is no more than `most`; else fails. For each count that says how far to read. */
size_t within(uint64_t number, size_t most, const char *what);

void print_number(uint64_t number);
void print_hex(const uint8_t *bytes, size_t count);
void print_dash(void);                                /* for what is not there */
void print_text(const uint8_t *bytes, size_t length); /* hexadecimal, or - if empty */
void print_key(const uint8_t *key);                   /* its bytes on the wire */
void print_bits(uint32_t bits);                       /* of an f32 */

/* A line of a word and a number. */
void print_line(const char *word, uint64_t number);

#endif
