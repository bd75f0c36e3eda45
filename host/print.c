/* The words of the output of `replay`, and how it fails: see print.h. */
#include "print.h"

#include "catalogue.h"

#include <inttypes.h>
#include <stdio.h>
#include <stdlib.h>

uint64_t record_number;

_Noreturn void fail(const char *what, uint64_t number)
{
    fflush(stdout); /* the lines before it come first where both go to one place */
    fprintf(stderr, "replay: record %" PRIu64 ": %s: %" PRIu64 "\n", record_number, what, number);
    exit(EXIT_FAILURE);
}

size_t within(uint64_t number, size_t most, const char *what)
{
    if (number > most)
        fail(what, number);
    return (size_t)number;
}

void print_number(uint64_t number)
{
    printf(" %" PRIu64, number);
}

void print_hex(const uint8_t *bytes, size_t count)
{
    static const char digits[] = "0123456789abcdef";
    putchar(' ');
    for (size_t i = 0; i < count; i++) {
        putchar(digits[bytes[i] >> 4]);
        putchar(digits[bytes[i] & 15]);
    }
}

void print_dash(void)
{
    fputs(" -", stdout);
}

void print_text(const uint8_t *bytes, size_t length)
{
    if (length == 0)
        print_dash();
    else
        print_hex(bytes, length);
}

void print_key(const uint8_t *key)
{
    print_hex(key, CATALOGUE_KEY);
}

void print_bits(uint32_t bits)
{
    printf(" %08" PRIx32, bits);
}

void print_line(const char *word, uint64_t number)
{
    printf("%s %" PRIu64 "\n", word, number);
}
