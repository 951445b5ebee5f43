/* text.h - a text that is made up of pieces in room that is there, and cut where it gets longer. */
#ifndef NAMBROIT_TEXT_H
#define NAMBROIT_TEXT_H
#include <stddef.h>
#include <stdint.h>
#include <string.h>

/* It is `letters` from the first to the one before `length`, with a byte 0 behind. */
typedef struct {
    char *letters;
    size_t length, room;
} text;

/* An empty text in some room, of one letter at least. */
static inline void text_begin(text *it, char *letters, size_t room)
{
    *it = (text){letters, 0, room};
    letters[0] = '\0';
}

static inline void text_add_letters(text *it, const char *piece, size_t length)
{
    size_t left = it->room - 1 - it->length;
    if (length > left)
        length = left;
    memcpy(it->letters + it->length, piece, length);
    it->length += length;
    it->letters[it->length] = '\0';
}

static inline void text_add(text *it, const char *piece)
{
    text_add_letters(it, piece, strlen(piece));
}

static inline void text_add_letter(text *it, char letter)
{
    text_add_letters(it, &letter, 1);
}

void text_add_number(text *it, uint64_t number);
/* At least so many hexadecimal digits. */
void text_add_hex(text *it, uint64_t number, int digits);
/* The bits of octets from one on, as 0 and 1; at most 64 of them, and `..` where there are more. */
void text_add_bits(text *it, const uint8_t *octets, uint32_t place, uint32_t bits);
/* Bits in their octets, as Wireshark draws them, with dots for the others; more than 64 by the numbers of their places. */
void text_add_mask(text *it, const uint8_t *octets, uint32_t place, uint32_t bits);

/* Writes bits of octets as 0 and 1, all of them, with no byte 0 behind. */
void write_bits(char *letters, const uint8_t *octets, uint32_t place, uint32_t bits);
#endif
