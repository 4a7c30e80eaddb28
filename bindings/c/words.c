#include "words.h"

#include <inttypes.h>
#include <stdio.h>
#include <stdlib.h>

/* more than any case lends */
#define MOST_LENT 1000000

static unsigned long offset;

static int next_byte(void)
{
    int byte = getchar();
    if (byte != EOF) {
        offset++;
    }
    return byte;
}

static void put_back(int byte)
{
    if (byte != EOF) {
        ungetc(byte, stdin);
        offset--;
    }
}

static int is_blank(int byte)
{
    return byte == ' ' || byte == '\n' || byte == '\r' || byte == '\t';
}

static int is_digit(int byte)
{
    return byte >= '0' && byte <= '9';
}

void bad_text(const char *why)
{
    printf("the cases can not be read at byte %lu: %s\n", offset, why);
    exit(2);
}

int word_follows(void)
{
    int byte = next_byte();
    while (is_blank(byte)) {
        byte = next_byte();
    }
    put_back(byte);
    return byte != EOF;
}

uint64_t next_word(uint64_t most)
{
    uint64_t word = 0;
    int byte;
    if (!word_follows()) {
        bad_text("a word is missing");
    }
    byte = next_byte();
    if (!is_digit(byte)) {
        bad_text("this is no decimal word");
    }
    while (is_digit(byte)) {
        uint64_t digit = (uint64_t)(byte - '0');
        if (word > (UINT64_MAX - digit) / 10) {
            bad_text("a word is too large");
        }
        word = word * 10 + digit;
        byte = next_byte();
    }
    put_back(byte);
    if (word > most) {
        bad_text("a word is too large for its place");
    }
    return word;
}

size_t next_length(void)
{
    return (size_t)next_word(MOST_LENT);
}

void next_words(uint64_t *words, size_t count)
{
    size_t i;
    for (i = 0; i < count; i++) {
        words[i] = next_word(UINT64_MAX);
    }
}
