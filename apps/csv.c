#include "csv.h"

#include <math.h>

static void text_cell(char *cell, const uint8_t *text, size_t length)
{
    char *end = cell;
    while (length > 0 && text[length - 1] == 0)
        length--;
    *end++ = '"';
    for (size_t i = 0; i < length; i++) {
        if (text[i] < 0x20 || text[i] > 0x7E || text[i] == '\\')
            end += sprintf(end, "\\x%02X", text[i]);
        else if (text[i] == '"')
            end += sprintf(end, "\"\"");
        else
            *end++ = (char)text[i];
    }
    *end++ = '"';
    *end = 0;
}

void cell_of(char cell[CELL_BYTES], struct value value)
{
    switch (value.kind) {
    case WINDROW_FLAG:
    case WINDROW_INT16:
    case WINDROW_INT32:
        snprintf(cell, CELL_BYTES, "%ld", (long)value.number);
        return;
    case WINDROW_FLOAT:
        if (isnan(value.real))
            snprintf(cell, CELL_BYTES, "nan");
        else
            snprintf(cell, CELL_BYTES, "%.9g", (double)value.real);
        return;
    case WINDROW_TEXT:
        text_cell(cell, value.text, value.length);
        return;
    case WINDROW_NONE:
        break;
    }
    cell[0] = 0;
}

void point_cell(char cell[CELL_BYTES], const uint8_t *table, uint32_t point)
{
    struct windrow_row row = windrow_row_of(point);
    struct value value = {row.kind, 0, 0, NULL, 0};
    char text[17];
    int16_t word = 0;
    bool on = false;
    switch (row.kind) {
    case WINDROW_FLAG: windrow_get_flag(table, point, &on); value.number = on; break;
    case WINDROW_INT16: windrow_get_int16(table, point, &word); value.number = word; break;
    case WINDROW_INT32: windrow_get_int32(table, point, &value.number); break;
    case WINDROW_FLOAT: windrow_get_float(table, point, &value.real); break;
    case WINDROW_TEXT:
        windrow_get_text(table, point, text);
        value.text = (const uint8_t *)text;
        value.length = row.size;
        break;
    case WINDROW_NONE: break;
    }
    cell_of(cell, value);
}

const char *kind_word(enum windrow_kind kind)
{
    static const char *const words[] = {
        [WINDROW_NONE] = "none",    [WINDROW_FLAG] = "flag",   [WINDROW_INT16] = "16-bit",
        [WINDROW_INT32] = "32-bit", [WINDROW_FLOAT] = "float", [WINDROW_TEXT] = "text",
    };
    return words[kind];
}

void write_points(FILE *out, const uint8_t *table, uint32_t first, uint32_t count)
{
    char cell[CELL_BYTES];
    for (uint32_t point = first; point < first + count; point++) {
        point_cell(cell, table, point);
        fprintf(out, "%lu,%s,%s\n", (unsigned long)point, kind_word(windrow_row_of(point).kind), cell);
    }
}
