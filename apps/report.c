#include "report.h"

#include <errno.h>
#include <stdarg.h>
#include <stdio.h>
#include <stdlib.h>
#include <string.h>

static const char *name = "windrow";

void report_as(const char *program)
{
    name = program;
}

static void say(const char *format, va_list arguments)
{
    fflush(stdout); /* so that what was said before stands before it, where both go to one place */
    fprintf(stderr, "%s: ", name);
    vfprintf(stderr, format, arguments);
    fputc('\n', stderr);
}

void complain(const char *format, ...)
{
    va_list arguments;
    va_start(arguments, format);
    say(format, arguments);
    va_end(arguments);
}

void give_up(const char *format, ...)
{
    va_list arguments;
    va_start(arguments, format);
    say(format, arguments);
    va_end(arguments);
    exit(EXIT_TROUBLE);
}

void misused(const char *format, ...)
{
    va_list arguments;
    va_start(arguments, format);
    say(format, arguments);
    va_end(arguments);
    fprintf(stderr, "%s: `%s --help` says how it is used\n", name, name);
    exit(EXIT_USAGE);
}

void finish_output(void)
{
    errno = 0;
    if (fflush(stdout) != 0 || ferror(stdout))
        give_up("standard output could not be written%s%s", errno != 0 ? ": " : "", errno != 0 ? strerror(errno) : "");
}
