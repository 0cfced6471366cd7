#include "line.h"

#include <errno.h>
#include <fcntl.h>
#include <poll.h>
#include <stdbool.h>
#include <stdlib.h>
#include <string.h>
#include <termios.h>
#include <time.h>
#include <unistd.h>

#include "report.h"

static speed_t speed_of(uint32_t baud)
{
    static const struct {
        uint32_t baud;
        speed_t speed;
    } speeds[] = {{1200, B1200},   {2400, B2400},   {4800, B4800},   {9600, B9600},
                  {19200, B19200}, {38400, B38400}, {57600, B57600}, {115200, B115200}};
    for (size_t i = 0; i < sizeof speeds / sizeof speeds[0]; i++)
        if (speeds[i].baud == baud)
            return speeds[i].speed;
    give_up("a line can't have %lu baud", (unsigned long)baud);
}

/* A pseudo-terminal takes no parity, and setting one is an error. */
static bool has_parity(int fd)
{
    const char *name = ttyname(fd);
    return name == NULL || strncmp(name, "/dev/pts/", 9) != 0;
}

/* Bytes as they are, 8 bits each, nothing echoed or changed. Without parity there are two stop bits, as the standard wants. */
static void make_raw(int fd, const char *path, const struct settings *settings)
{
    static const tcflag_t parity[] = {PARENB, PARENB | PARODD, CSTOPB};
    struct termios mode;
    if (tcgetattr(fd, &mode) != 0)
        give_up("%s is no serial device: %s", path, strerror(errno));
    mode.c_iflag = IGNBRK;
    mode.c_oflag = 0;
    mode.c_lflag = 0;
    mode.c_cflag = CS8 | CREAD | CLOCAL | (has_parity(fd) ? parity[settings->parity] : 0);
    mode.c_cc[VMIN] = 1;
    mode.c_cc[VTIME] = 0;
    if (cfsetispeed(&mode, speed_of(settings->baud)) != 0 || cfsetospeed(&mode, speed_of(settings->baud)) != 0
        || tcsetattr(fd, TCSANOW, &mode) != 0)
        give_up("%s can't be set up as a line: %s", path, strerror(errno));
}

/* No gap is shorter than the standard's 3.5 characters of 11 bits, rounded up to whole milliseconds. */
static uint32_t gap_of(const struct settings *settings)
{
    uint32_t least = (38500 + settings->baud - 1) / settings->baud;
    return settings->gap_ms > least ? settings->gap_ms : least;
}

static void keep_path(struct line_end *line, const char *path)
{
    if (strlen(path) >= sizeof line->path)
        give_up("the device's path is too long: %s", path);
    strcpy(line->path, path);
}

void line_open_device(struct line_end *line, const char *path, const struct settings *settings)
{
    line->fd = open(path, O_RDWR | O_NOCTTY | O_NONBLOCK);
    if (line->fd < 0)
        give_up("the device %s can't be opened: %s", path, strerror(errno));
    line->kept_open = -1;
    keep_path(line, path);
    make_raw(line->fd, path, settings);
    line->gap_ms = gap_of(settings);
}

void line_open_pty(struct line_end *line, const struct settings *settings)
{
    line->fd = posix_openpt(O_RDWR | O_NOCTTY);
    if (line->fd < 0 || grantpt(line->fd) != 0 || unlockpt(line->fd) != 0 || ptsname(line->fd) == NULL)
        give_up("no pseudo-terminal can be had: %s", strerror(errno));
    keep_path(line, ptsname(line->fd));
    line->kept_open = open(line->path, O_RDWR | O_NOCTTY);
    if (line->kept_open < 0)
        give_up("%s can't be opened: %s", line->path, strerror(errno));
    make_raw(line->kept_open, line->path, settings);
    if (fcntl(line->fd, F_SETFL, O_NONBLOCK) != 0)
        give_up("%s can't be set up: %s", line->path, strerror(errno));
    line->gap_ms = settings->gap_ms; /* a pseudo-terminal has no speed */
}

size_t line_take(struct line_end *line, uint8_t *bytes, size_t size, int wait_ms)
{
    struct pollfd ready = {line->fd, POLLIN, 0};
    int events = poll(&ready, 1, wait_ms);
    if (events < 0 && errno != EINTR)
        give_up("%s can't be waited for: %s", line->path, strerror(errno));
    if (events <= 0)
        return 0;
    ssize_t length = read(line->fd, bytes, size);
    if (length > 0)
        return (size_t)length;
    if (length < 0 && (errno == EAGAIN || errno == EINTR))
        return 0;
    give_up("the device %s is gone%s%s", line->path, length < 0 ? ": " : "", length < 0 ? strerror(errno) : "");
}

/* Of a frame that was too long the rest, so that it is not taken for a new one; false when its end has come. */
static bool drop_rest(struct line_end *line)
{
    uint8_t rest[64];
    line->overlong = line_take(line, rest, sizeof rest, (int)line->gap_ms) > 0;
    return line->overlong;
}

static void drop_stale(struct line_end *line)
{
    if (line->kept_open < 0 || !line->sent || line_clock() - line->sent_at < LINE_STALE_MS)
        return;
    tcflush(line->kept_open, TCIFLUSH);
    line->sent = false;
}

size_t line_receive(struct line_end *line, uint8_t *frame, size_t size, int wait_ms)
{
    drop_stale(line);
    if (line->overlong && drop_rest(line))
        return 0;
    size_t length = line_take(line, frame, size, wait_ms), more = length;
    while (more > 0 && length < size) {
        more = line_take(line, frame + length, size - length, (int)line->gap_ms);
        length += more;
    }
    line->overlong = length == size;
    return length;
}

void line_send(struct line_end *line, const uint8_t *bytes, size_t length)
{
    if (length > 0) {
        line->sent = true;
        line->sent_at = line_clock();
    }
    while (length > 0) {
        ssize_t sent = write(line->fd, bytes, length);
        if (sent >= 0) {
            bytes += sent;
            length -= (size_t)sent;
            continue;
        }
        if (errno != EAGAIN && errno != EINTR)
            give_up("the device %s is gone: %s", line->path, strerror(errno));
        struct pollfd ready = {line->fd, POLLOUT, 0};
        if (poll(&ready, 1, 1000) == 0)
            return; /* nobody takes what is sent: it is lost, as on a line that is unplugged */
    }
}

void line_forget(struct line_end *line)
{
    tcflush(line->fd, TCIFLUSH);
}

void line_settle(struct line_end *line, int silence_ms)
{
    uint8_t late[64];
    int64_t now = line_clock(), quiet_since = now, until = now + 10 * (int64_t)silence_ms;
    while (now < until && now - quiet_since < silence_ms) {
        size_t came = line_take(line, late, sizeof late, (int)(quiet_since + silence_ms - now));
        now = line_clock();
        if (came > 0)
            quiet_since = now;
    }
}

int64_t line_clock(void)
{
    struct timespec now;
    clock_gettime(CLOCK_MONOTONIC, &now);
    return (int64_t)now.tv_sec * 1000 + now.tv_nsec / 1000000;
}
