/* A CSV file as windrow-read writes it: a heading and rows, read whole. Cells stay as they are written, quotes and all. */
#ifndef CSVFILE_H
#define CSVFILE_H

#include <stddef.h>
#include <stdint.h>

struct csv_row {
    char **cells;
    size_t count;
};

struct csv_file {
    const char *path;
    struct csv_row heading;
    struct csv_row *rows; /* those below the heading; their counts of cells may differ from its */
    size_t count;
    char *bytes; /* all cells are in here */
};

/* Reads a file; where it can't be read, is empty or no text, says so and ends the program. */
void csv_read(struct csv_file *file, const char *path);

void csv_free(struct csv_file *file);

/* The column of a heading; SIZE_MAX where there is none of that name. */
#define NO_COLUMN SIZE_MAX
size_t csv_column(const struct csv_file *file, const char *heading);

/* Memory for `count` things of `size` bytes; where there is none, says so and ends the program. */
void *memory_for(size_t count, size_t size);

#endif
