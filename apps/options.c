#include "options.h"

#include <stdio.h>
#include <stdlib.h>
#include <string.h>

#include "report.h"

static void print_help(const char *const *help)
{
    for (; *help != NULL; help++)
        fputs(*help, stdout);
    finish_output();
    exit(EXIT_FINE);
}

static const struct known_option *find(const struct known_option *known, const char *word)
{
    for (; known->name != NULL; known++)
        if (strcmp(known->name, word) == 0)
            return known;
    misused("there is no option %s", word);
}

int options_take(int count, char **words, const struct known_option *known, const char *const *help)
{
    int plain = 0;
    for (int i = 1; i < count; i++) {
        if (strncmp(words[i], "--", 2) != 0) {
            words[++plain] = words[i];
            continue;
        }
        if (strcmp(words[i], "--help") == 0)
            print_help(help);
        const struct known_option *option = find(known, words[i]);
        if (option->value == NULL)
            *option->flag = true;
        else if (i + 1 == count || strncmp(words[i + 1], "--", 2) == 0)
            misused("%s needs a value", words[i]);
        else
            *option->value = words[++i];
    }
    return plain;
}

double option_number(const char *name, const char *text, double least, double most)
{
    char *end;
    double value = strtod(text, &end);
    if (end == text || *end != 0 || !(value >= least && value <= most))
        misused("%s takes a number from %.10g to %.10g, not `%s`", name, least, most, text);
    return value;
}

uint32_t option_whole(const char *name, const char *text, uint32_t least, uint32_t most)
{
    double value = option_number(name, text, least, most);
    if (value != (uint32_t)value)
        misused("%s takes a whole number, not `%s`", name, text);
    return (uint32_t)value;
}

uint32_t option_firmware(const char *text)
{
    return option_whole(FIRMWARE_OPTION, text, 0, UINT32_MAX);
}
