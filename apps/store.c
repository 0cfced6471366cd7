#include "store.h"

#include <errno.h>
#include <fcntl.h>
#include <libgen.h>
#include <limits.h>
#include <stdio.h>
#include <stdlib.h>
#include <string.h>
#include <unistd.h>

#include "report.h"
#include "windrow_reader.h"

static const uint8_t mark[8] = "WINDROW";
#define HEAD_BYTES (sizeof mark + 16)
#define CRC_BYTES 2
#define LONGEST_STORE (HEAD_BYTES + WINDROW_STATE_BYTES + WINDROW_MOST_ARCHIVE + CRC_BYTES)

/* Where the head's numbers are. */
enum { FORMAT_AT = 8, STATE_LENGTH_AT = 12, ARCHIVE_LENGTH_AT = 16, SCANS_AT = 20 };

uint8_t *file_bytes(const char *path, size_t most, size_t *length)
{
    FILE *file = fopen(path, "rb");
    if (file == NULL)
        give_up("%s can't be read: %s", path, strerror(errno));
    uint8_t *bytes = malloc(most + 1);
    if (bytes == NULL)
        give_up("there is no memory for %s", path);
    *length = fread(bytes, 1, most + 1, file);
    if (ferror(file))
        give_up("%s can't be read: %s", path, strerror(errno));
    fclose(file);
    if (*length > most)
        give_up("%s is too long: it has more than %zu bytes", path, most);
    return bytes;
}

/* What the head says against what is there. */
static void check_head(const uint8_t *bytes, size_t length, const char *path)
{
    if (length == 0)
        give_up("%s is empty", path);
    if (length < HEAD_BYTES || memcmp(bytes, mark, sizeof mark) != 0)
        give_up("%s is no gateway's store%s", path,
                length == WINDROW_STATE_BYTES ? "; it has the size of a state, which goes with its archive" : "");
    uint32_t format = windrow_get_bytes(bytes + FORMAT_AT, 4), state_length = windrow_get_bytes(bytes + STATE_LENGTH_AT, 4);
    if ((format != WINDROW_STATE_FORMAT_1 && format != WINDROW_STATE_FORMAT) || state_length != WINDROW_STATE_BYTES)
        give_up("%s has a state of format %lu and %lu bytes; this program takes format %d or %d and %d bytes", path,
                (unsigned long)format, (unsigned long)state_length, WINDROW_STATE_FORMAT_1, WINDROW_STATE_FORMAT,
                WINDROW_STATE_BYTES);
    size_t whole = HEAD_BYTES + WINDROW_STATE_BYTES + windrow_get_bytes(bytes + ARCHIVE_LENGTH_AT, 4) + CRC_BYTES;
    if (length != whole)
        give_up("%s is %s: it has %zu bytes and not %zu", path, length < whole ? "cut short" : "too long", length, whole);
}

bool store_load(struct store *store, const char *path)
{
    if (access(path, F_OK) != 0 && errno == ENOENT)
        return false;
    size_t length;
    uint8_t *bytes = file_bytes(path, LONGEST_STORE, &length);
    check_head(bytes, length, path);
    if (!windrow_has_crc(bytes, length))
        give_up("%s is damaged: its CRC is wrong", path);
    if (!windrow_state_from_bytes(&store->state, bytes + HEAD_BYTES, windrow_get_bytes(bytes + FORMAT_AT, 4)))
        give_up("%s has no state: a bool in it is neither 0 nor 1", path);
    store->archive_length = windrow_get_bytes(bytes + ARCHIVE_LENGTH_AT, 4);
    store->scans = windrow_get_bytes(bytes + SCANS_AT, 4);
    store->archive = malloc(store->archive_length + 1);
    if (store->archive == NULL)
        give_up("there is no memory for an archive of %zu bytes", store->archive_length);
    memcpy(store->archive, bytes + HEAD_BYTES + WINDROW_STATE_BYTES, store->archive_length);
    free(bytes);
    return true;
}

/* Where no lock can be had at all, as in a folder that can't be written, the program goes on without. */
void store_lock(const char *path)
{
    char beside[PATH_MAX];
    struct flock lock = {.l_type = F_WRLCK, .l_whence = SEEK_SET};
    if (snprintf(beside, sizeof beside, "%s.lock", path) >= (int)sizeof beside)
        give_up("the store's path is too long: %s", path);
    int fd = open(beside, O_RDWR | O_CREAT, 0644); /* open until the program ends */
    if (fd >= 0 && fcntl(fd, F_SETLK, &lock) != 0 && (errno == EACCES || errno == EAGAIN))
        give_up("the store %s is another gateway's that is running", path);
}

/* The store's bytes, in memory of their own. */
static uint8_t *store_bytes(const struct store *store, size_t *length)
{
    *length = HEAD_BYTES + WINDROW_STATE_BYTES + store->archive_length + CRC_BYTES;
    uint8_t *bytes = malloc(*length);
    if (bytes == NULL)
        give_up("there is no memory for a store of %zu bytes", *length);
    memcpy(bytes, mark, sizeof mark);
    windrow_put_bytes(bytes + FORMAT_AT, 4, WINDROW_STATE_FORMAT);
    windrow_put_bytes(bytes + STATE_LENGTH_AT, 4, WINDROW_STATE_BYTES);
    windrow_put_bytes(bytes + ARCHIVE_LENGTH_AT, 4, (uint32_t)store->archive_length);
    windrow_put_bytes(bytes + SCANS_AT, 4, store->scans);
    memcpy(bytes + HEAD_BYTES, &store->state, WINDROW_STATE_BYTES);
    memcpy(bytes + HEAD_BYTES + WINDROW_STATE_BYTES, store->archive, store->archive_length);
    uint16_t crc = windrow_reader_crc(bytes, *length - CRC_BYTES);
    bytes[*length - 2] = (uint8_t)crc;
    bytes[*length - 1] = (uint8_t)(crc >> 8);
    return bytes;
}

static bool write_synced(const char *path, const uint8_t *bytes, size_t length)
{
    int fd = open(path, O_WRONLY | O_CREAT | O_TRUNC, 0644);
    if (fd < 0)
        return false;
    while (length > 0) {
        ssize_t written = write(fd, bytes, length);
        if (written < 0 && errno != EINTR) {
            close(fd);
            return false;
        }
        if (written > 0) {
            bytes += written;
            length -= (size_t)written;
        }
    }
    bool synced = fsync(fd) == 0;
    return close(fd) == 0 && synced;
}

/* A renamed file's name is safe only when its folder is. */
static void sync_folder(const char *path)
{
    char copy[PATH_MAX];
    snprintf(copy, sizeof copy, "%s", path);
    int fd = open(dirname(copy), O_RDONLY);
    if (fd >= 0) {
        fsync(fd);
        close(fd);
    }
}

void store_save(const struct store *store, const char *path)
{
    char beside[PATH_MAX];
    if (snprintf(beside, sizeof beside, "%s.new", path) >= (int)sizeof beside)
        give_up("the store's path is too long: %s", path);
    size_t length;
    uint8_t *bytes = store_bytes(store, &length);
    if (!write_synced(beside, bytes, length) || rename(beside, path) != 0) {
        int why = errno;
        unlink(beside);
        give_up("the store %s can't be written: %s; what was stored before is still there", path, strerror(why));
    }
    sync_folder(path);
    free(bytes);
}
