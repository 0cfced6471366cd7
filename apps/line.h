/* A serial line, or a pseudo-terminal that stands for one: bytes in and out, and where a frame ends. */
#ifndef LINE_H
#define LINE_H

#include <stdbool.h>
#include <stddef.h>
#include <stdint.h>

#include "settings.h"

#define LINE_PATH 128

struct line_end {
    int fd;
    int kept_open; /* a pseudo-terminal's other side, so that a client may come and go; -1 for a device */
    uint32_t gap_ms;
    bool sent; /* something, at sent_at, that a client of the pseudo-terminal may not have taken */
    int64_t sent_at;
    bool overlong; /* the frame that was received last was too long, and its end has not been seen yet */
    char path[LINE_PATH]; /* the device that clients open, or that was opened */
};

/* Opens a serial device with the settings' speed, parity and gap; ends the program where it can't. */
void line_open_device(struct line_end *line, const char *path, const struct settings *settings);

/* Opens a pseudo-terminal; its path is that of the side for clients. Ends the program where it can't. */
void line_open_pty(struct line_end *line, const struct settings *settings);

/* A client of a pseudo-terminal that has not taken a reply after this time, in milliseconds, never will. */
#define LINE_STALE_MS 500

/*
 * A frame as the standard has it: waits up to wait_ms for the first byte, then takes bytes until none has come for the line's
 * gap. Answers their number, 0 where none came or a signal did. Of a longer frame than `size` only `size` bytes are kept, and
 * the next calls drop its rest, a few bytes each, so that a line that babbles on holds nobody up. Ends the program where the
 * device is gone.
 */
size_t line_receive(struct line_end *line, uint8_t *frame, size_t size, int wait_ms);

/* Waits up to wait_ms for bytes and takes those that are there, at most `size`; 0 where none came. */
size_t line_take(struct line_end *line, uint8_t *bytes, size_t size, int wait_ms);

/* Sends bytes; ends the program where the device is gone. */
void line_send(struct line_end *line, const uint8_t *bytes, size_t length);

/* Forgets what has come and was not taken yet. */
void line_forget(struct line_end *line);

/* Drops what comes until nothing has come for silence_ms, and in any case stops after ten times as long. */
void line_settle(struct line_end *line, int silence_ms);

/* Milliseconds of a clock that only goes forward. */
int64_t line_clock(void);

#endif
