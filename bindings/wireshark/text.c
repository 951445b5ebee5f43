/* text.c - see text.h. Texts are made for each part of each block, and printf took most of the time of a block. */
#include "text.h"

enum { MOST_DRAWN = 64, NIBBLE = 4, OCTET = 8 };

/* The bits of each number of four bits. */
static const char nibbles[16][NIBBLE + 1] = {"0000", "0001", "0010", "0011", "0100", "0101", "0110", "0111",
                                             "1000", "1001", "1010", "1011", "1100", "1101", "1110", "1111"};

/* A number by a base, with at least so many digits. */
static inline void add_digits(text *it, uint64_t number, unsigned base, int least)
{
    char digits[20];
    int at = (int)sizeof digits;
    while (at > 0 && (number != 0 || (int)sizeof digits - at < least)) {
        digits[--at] = "0123456789abcdef"[number % base];
        number /= base;
    }
    text_add_letters(it, digits + at, sizeof digits - (size_t)at);
}

void text_add_number(text *it, uint64_t number)
{
    add_digits(it, number, 10, 1);
}

void text_add_hex(text *it, uint64_t number, int digits)
{
    add_digits(it, number, 16, digits);
}

static const char *nibble_of(const uint8_t *octets, uint32_t place)
{
    return nibbles[octets[place / OCTET] >> (place % OCTET < NIBBLE ? NIBBLE : 0) & 15];
}

void write_bits(char *letters, const uint8_t *octets, uint32_t place, uint32_t bits)
{
    uint32_t end = place + bits;
    while (place < end) {
        uint32_t skipped = place % NIBBLE, taken = NIBBLE - skipped;
        if (taken > end - place)
            taken = end - place;
        memcpy(letters, nibble_of(octets, place) + skipped, taken);
        letters += taken;
        place += taken;
    }
}

void text_add_bits(text *it, const uint8_t *octets, uint32_t place, uint32_t bits)
{
    char letters[MOST_DRAWN];
    uint32_t many = bits < MOST_DRAWN ? bits : MOST_DRAWN;
    write_bits(letters, octets, place, many);
    text_add_letters(it, letters, many);
    if (bits > MOST_DRAWN)
        text_add(it, "..");
}

/* Bits by the numbers of their places. */
static void add_places(text *it, uint32_t place, uint32_t bits)
{
    text_add(it, "Bits ");
    text_add_number(it, place);
    text_add(it, bits == 0 && place == 0 ? " to -" : " to ");
    text_add_number(it, bits == 0 && place == 0 ? 1 : place + bits - 1);
    text_add(it, " = ");
}

/* Four bits of an octet, with dots for those that are not from one place to before another. */
static void draw_nibble(char *letters, const uint8_t *octets, uint32_t at, uint32_t place, uint32_t end)
{
    const char *nibble = nibble_of(octets, at);
    uint32_t first = at < place ? place - at : 0, last = at + NIBBLE > end ? end - at : NIBBLE;
    if (at + NIBBLE <= place || at >= end) {
        memcpy(letters, "....", NIBBLE);
        return;
    }
    for (uint32_t bit = 0; bit < NIBBLE; bit++)
        letters[bit] = bit < first || bit >= last ? '.' : nibble[bit];
}

void text_add_mask(text *it, const uint8_t *octets, uint32_t place, uint32_t bits)
{
    char letters[(MOST_DRAWN + 2 * OCTET) / NIBBLE * (NIBBLE + 1) + 2];
    uint32_t end = place + bits;
    size_t length = 0;
    if (bits == 0 || bits > MOST_DRAWN) {
        add_places(it, place, bits);
        return;
    }
    for (uint32_t at = place - place % OCTET; at < end || at % OCTET != 0; at += NIBBLE) {
        draw_nibble(letters + length, octets, at, place, end);
        letters[length + NIBBLE] = ' ';
        length += NIBBLE + 1;
    }
    memcpy(letters + length, "= ", 2);
    text_add_letters(it, letters, length + 2);
}
