#include "csvfile.h"

#include <errno.h>
#include <stdbool.h>
#include <stdio.h>
#include <stdlib.h>
#include <string.h>

#include "report.h"

void *memory_for(size_t count, size_t size)
{
    void *memory = calloc(count + 1, size); /* one more, so that none is asked for where there is nothing to hold */
    if (memory == NULL)
        give_up("there is no memory for %zu things of %zu bytes", count, size);
    return memory;
}

/* The file's bytes and a zero behind them; a pipe will do as well, so its size is not asked for. */
static char *whole_file(const char *path, size_t *length)
{
    FILE *file = fopen(path, "rb");
    if (file == NULL)
        give_up("%s can't be read: %s", path, strerror(errno));
    size_t room = 1 << 16;
    char *bytes = memory_for(room, 1);
    *length = 0;
    for (size_t got; (got = fread(bytes + *length, 1, room - *length, file)) > 0;) {
        *length += got;
        if (*length < room)
            continue;
        room *= 2;
        bytes = realloc(bytes, room + 1);
        if (bytes == NULL)
            give_up("there is no memory for %s", path);
    }
    if (ferror(file))
        give_up("%s can't be read: %s", path, strerror(errno));
    fclose(file);
    bytes[*length] = 0;
    return bytes;
}

static size_t count_of(const char *text, char sought)
{
    size_t count = 0;
    for (; *text != 0; text++)
        count += *text == sought;
    return count;
}

/* Ends the line that starts here, without its line end, and answers where the next one starts. */
static char *cut_line(char *line)
{
    char *end = strchr(line, '\n'), *next;
    if (end == NULL)
        next = end = line + strlen(line);
    else
        next = end + 1;
    if (end > line && end[-1] == '\r')
        end--;
    *end = 0;
    return next;
}

/* Splits at the commas that are in no quotes; `cells` has room for every comma and one more. Answers the end of the cells. */
static char **split_line(char *line, char **cells, struct csv_row *row)
{
    bool quoted = false;
    row->cells = cells;
    *cells++ = line;
    for (; *line != 0; line++) {
        if (*line == '"')
            quoted = !quoted;
        if (*line != ',' || quoted)
            continue;
        *line = 0;
        *cells++ = line + 1;
    }
    row->count = (size_t)(cells - row->cells);
    return cells;
}

void csv_read(struct csv_file *file, const char *path)
{
    size_t length;
    file->path = path;
    file->bytes = whole_file(path, &length);
    if (length == 0)
        give_up("%s is empty", path);
    if (strlen(file->bytes) != length)
        give_up("%s is no CSV file: there are zero bytes in it", path);
    size_t lines = count_of(file->bytes, '\n') + 1;
    char **cells = memory_for(count_of(file->bytes, ',') + lines, sizeof *cells);
    char *next = cut_line(file->bytes), *line = file->bytes;
    cells = split_line(line, cells, &file->heading);
    file->rows = memory_for(lines, sizeof *file->rows);
    for (file->count = 0; next < file->bytes + length; file->count++) {
        line = next;
        next = cut_line(line);
        cells = split_line(line, cells, &file->rows[file->count]);
    }
}

void csv_free(struct csv_file *file)
{
    free(file->heading.cells); /* the first of all cells */
    free(file->rows);
    free(file->bytes);
}

size_t csv_column(const struct csv_file *file, const char *heading)
{
    for (size_t i = 0; i < file->heading.count; i++)
        if (strcmp(file->heading.cells[i], heading) == 0)
            return i;
    return NO_COLUMN;
}
