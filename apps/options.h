/* A program's command line: options of the form --name or --name VALUE, anywhere among the plain words. */
#ifndef OPTIONS_H
#define OPTIONS_H

#include <stdbool.h>
#include <stdint.h>

/* An option with a value, or, where `value` is null, a flag. A list ends with a null name. */
struct known_option {
    const char *name;
    const char **value;
    bool *flag;
};

/*
 * Takes the options out, and answers how many plain words are left; they are moved to words[1] and on. --help prints the pages
 * (a list that ends with null) and ends the program well; an option that is not known or lacks its value ends it as misused.
 */
int options_take(int count, char **words, const struct known_option *known, const char *const *help);

/* A number from `least` to `most` of an option; ends the program as misused where the text is none. */
double option_number(const char *name, const char *text, double least, double most);

/* The same for a whole number. */
uint32_t option_whole(const char *name, const char *text, uint32_t least, uint32_t most);

/* The option of several programs that names a gateway's firmware. Any number is taken: which are good is for the library to say. */
#define FIRMWARE_OPTION "--firmware"
uint32_t option_firmware(const char *text);

#endif
