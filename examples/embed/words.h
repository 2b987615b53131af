/* The words that a program is called with: numbers, and octets as hexadecimal digits. */
#ifndef WORDS_H
#define WORDS_H

#include <stdbool.h>
#include <stddef.h>
#include <stdint.h>
#include <stdlib.h>
#include <string.h>

/* Reads a word of decimal digits alone, whose number is at most the greatest, which is below UINT64_MAX. Gives whether it is one;
 * a null is none. */
static inline bool read_number(const char *word, uint64_t greatest, uint64_t *number)
{
    if (word == NULL || *word == '\0' || word[strspn(word, "0123456789")] != '\0')
        return false;
    *number = strtoull(word, NULL, 10);
    return *number <= greatest;
}

/* Reads pairs of digits, as many as there are at the start of a text and as the buffer takes. Gives the number of octets. */
static inline size_t read_digits(const char *text, uint8_t *octets, size_t most)
{
    size_t count = strspn(text, "0123456789abcdefABCDEF") / 2;
    if (count > most)
        count = most;
    for (size_t at = 0; at < count; at++)
        octets[at] = (uint8_t)strtoul((char[]){text[2 * at], text[2 * at + 1], '\0'}, NULL, 16);
    return count;
}

#endif
