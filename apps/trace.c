#include "trace.h"

#include <errno.h>
#include <string.h>

#include "report.h"

FILE *trace_open(const char *path)
{
    FILE *trace = fopen(path, "rb");
    if (trace == NULL || fseek(trace, 0, SEEK_END) != 0)
        give_up("the trace %s can't be read: %s", path, strerror(errno));
    long size = ftell(trace);
    rewind(trace);
    if (size < 0 || size % TRACE_BYTES != 0)
        give_up("%s is no trace: its %ld bytes are not whole records of %d", path, size, TRACE_BYTES);
    if (size == 0)
        give_up("the trace %s is empty", path);
    return trace;
}

bool trace_next(FILE *trace, struct windrow_stamp *stamp, uint8_t table[WINDROW_TABLE_BYTES])
{
    uint8_t record[TRACE_BYTES];
    if (fread(record, 1, sizeof record, trace) != sizeof record) {
        if (ferror(trace))
            give_up("the trace could not be read further: %s", strerror(errno));
        return false;
    }
    struct windrow_stamp read = {record[0], record[1], record[2], record[3], record[4], record[5]};
    *stamp = read;
    memcpy(table, record + WINDROW_STAMP_BYTES, WINDROW_TABLE_BYTES);
    return true;
}

bool trace_append(FILE *trace, struct windrow_stamp stamp, const uint8_t table[WINDROW_TABLE_BYTES])
{
    const uint8_t when[WINDROW_STAMP_BYTES] = {stamp.month, stamp.day, stamp.year, stamp.hour, stamp.minute, stamp.second};
    return fwrite(when, 1, sizeof when, trace) == sizeof when
           && fwrite(table, 1, WINDROW_TABLE_BYTES, trace) == WINDROW_TABLE_BYTES;
}
