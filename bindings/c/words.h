/* The recorded cases on standard input: decimal words between blanks. A text that is no such thing ends the program with
 * status 2 and a message that has the offset. */
#ifndef WORDS_H
#define WORDS_H

#include <stddef.h>
#include <stdint.h>

/* Whether a word follows; 0 where nothing but blanks does. */
int word_follows(void);

/* The next word, which must be there and at most `most`. */
uint64_t next_word(uint64_t most);

/* The next word as a length of something that is lent. */
size_t next_length(void);

void next_words(uint64_t *words, size_t count);

/* Ends the program. */
void bad_text(const char *why);

#endif
