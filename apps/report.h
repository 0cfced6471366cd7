/* Messages to the user: standard error, the program's name in front. */
#ifndef REPORT_H
#define REPORT_H

#include <stdnoreturn.h>

/* What a program's exit status tells. */
enum { EXIT_FINE = 0, EXIT_TROUBLE = 1, EXIT_USAGE = 2 };

/* The name that messages begin with; every main sets it first. */
void report_as(const char *program);

/* Says what is wrong, as printf does, and goes on. */
void complain(const char *format, ...) __attribute__((format(printf, 1, 2)));

/* Says what is wrong and ends the program with EXIT_TROUBLE. */
noreturn void give_up(const char *format, ...) __attribute__((format(printf, 1, 2)));

/* Says what is wrong with the command line, points to --help, and ends the program with EXIT_USAGE. */
noreturn void misused(const char *format, ...) __attribute__((format(printf, 1, 2)));

/* Ends the program with EXIT_TROUBLE where what was written to standard output did not all get out (a full disk, a closed pipe). */
void finish_output(void);

#endif
