#include "words.h"

#include <stdio.h>

#include "windrow_card.h"

static const char *const meanings[] = {
    [WINDROW_DONE] = "done",
    [WINDROW_MEMORY] = "archive memory of the wrong length (fresh takes 11,000 to 1,048,576 bytes, of firmware 73 from 3,300 on)",
    [WINDROW_FOREIGN] = "a state against the rules, a firmware that is neither 73 nor 74, or a unit that is not 1-247",
    [WINDROW_TABLE] = "a live table that is not 1,424 bytes",
    [WINDROW_CLOCK] = "no such date from 2000 to 2099, or no such time",
    [WINDROW_FILE] = "the file is not 1-10",
    [WINDROW_LOCKED] = "files can be defined only while unlocked",
    [WINDROW_GROUP] = "a group is not within one row of the live table",
    [WINDROW_LONG] = "the groups make a record of more than 250 bytes",
    [WINDROW_TRIGGER] = "the trigger is neither 0 nor a flag",
    [WINDROW_RUNNING] = "the gateway is running",
    [WINDROW_ROOM] = "the files do not fit the archive memory",
    [WINDROW_ALARM] = "the slot is not 1-32, or its flag, type or transducer is not one",
    [WINDROW_REPLY] = "a reply buffer of under 256 bytes",
    [WINDROW_GARBLED] = "no reply with a record of these groups, or one whose date or time does not exist",
    [WINDROW_EMPTY] = "nothing has been captured there",
    [WINDROW_BEYOND] = "there is no such place or point",
};

const char *card_text(char text[CARD_TEXT], uint32_t number)
{
    const char *meaning = number < sizeof meanings / sizeof meanings[0] ? meanings[number] : "not on the card";
    snprintf(text, CARD_TEXT, "%lu %s: %s", (unsigned long)number, windrow_card_word(number), meaning);
    return text;
}
