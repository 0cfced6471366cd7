/* What a refusal means, in words for whoever runs a program. */
#ifndef WORDS_H
#define WORDS_H

#include <stdint.h>

/* The service card's number, its word and its meaning, as "7 Group: a group is not within one row of the live table". */
#define CARD_TEXT 128
const char *card_text(char text[CARD_TEXT], uint32_t number);

#endif
