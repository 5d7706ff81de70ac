#define _POSIX_C_SOURCE 200809L
#include "evening.h"

#include <errno.h>
#include <fcntl.h>
#include <stdio.h>
#include <string.h>
#include <unistd.h>

/* The checksum of any bytes with their checksum behind them. */
#define CHECKSUM_OF_WHOLE 0x2144df1cu

enum { LENGTH_BYTES = 8, CHECKSUM_BYTES = 4, FRAME = LENGTH_BYTES + EVENING_IMAGE + CHECKSUM_BYTES, PATH_ROOM = EVENING_NAME + 16 };

/* CRC-32 as zlib has it, and on from the one of the bytes before: it finds each change of one to three bits in a file of this size, and each
   change within 32 bits in a row. */
static uint32_t checksum_on(uint32_t before, const uint8_t *bytes, size_t length)
{
    uint32_t sum = ~before;
    for (size_t at = 0; at < length; at++) {
        sum ^= bytes[at];
        for (int bit = 0; bit < 8; bit++)
            sum = sum >> 1 ^ (sum & 1 ? 0xedb88320u : 0);
    }
    return ~sum;
}

static uint32_t checksum(const uint8_t *bytes, size_t length)
{
    return checksum_on(0, bytes, length);
}

static void put_number(uint8_t *bytes, int count, uint64_t number)
{
    for (int at = 0; at < count; at++)
        bytes[at] = (uint8_t)(number >> 8 * at);
}

static uint64_t get_number(const uint8_t *bytes, int count)
{
    uint64_t number = 0;
    for (int at = 0; at < count; at++)
        number |= (uint64_t)bytes[at] << 8 * at;
    return number;
}

/* The frame around an image, and its length. */
static size_t frame(uint8_t bytes[FRAME], const uint8_t *image, size_t length)
{
    put_number(bytes, LENGTH_BYTES, length);
    memcpy(bytes + LENGTH_BYTES, image, length);
    put_number(bytes + LENGTH_BYTES + length, CHECKSUM_BYTES, checksum(bytes, LENGTH_BYTES + length));
    return LENGTH_BYTES + length + CHECKSUM_BYTES;
}

/* Whether the bytes are a whole and undamaged frame. */
static int whole(const uint8_t *bytes, size_t count)
{
    if (count < LENGTH_BYTES + CHECKSUM_BYTES)
        return 0;
    size_t front = count - CHECKSUM_BYTES;
    return get_number(bytes, LENGTH_BYTES) == front - LENGTH_BYTES && get_number(bytes + front, CHECKSUM_BYTES) == checksum(bytes, front);
}

/* Writes all bytes to a file of this name and brings them to the disk. */
static int write_file(const char *path, const uint8_t *bytes, size_t count)
{
    int file = open(path, O_WRONLY | O_CREAT | O_TRUNC, 0666);
    if (file < 0)
        return EVENING_FAILED;
    size_t done = 0;
    while (done < count) {
        ssize_t more = write(file, bytes + done, count - done);
        if (more < 0 && errno == EINTR)
            continue;
        if (more <= 0)
            break;
        done += (size_t)more;
    }
    int synced = done == count && fsync(file) == 0;
    return close(file) == 0 && synced ? EVENING_DONE : EVENING_FAILED;
}

/* Reads a file up to one byte more than a frame may have, so that a longer one is seen. */
static int read_file(const char *path, uint8_t bytes[FRAME + 1], size_t *count)
{
    int file = open(path, O_RDONLY);
    if (file < 0)
        return EVENING_FAILED;
    ssize_t more;
    *count = 0;
    do {
        more = read(file, bytes + *count, FRAME + 1 - *count);
        if (more > 0)
            *count += (size_t)more;
    } while (*count <= FRAME && (more > 0 || (more < 0 && errno == EINTR)));
    int failed = more < 0 ? errno : 0;
    close(file);
    errno = failed;
    return failed ? EVENING_FAILED : EVENING_DONE;
}

/* Judges a file that is longer than a frame here may be, by the length of the image that it says it has: a good one is too long. */
static int judge_long(const char *path, uint64_t length)
{
    uint8_t bytes[FRAME];
    uint64_t count = 0;
    uint32_t sum = 0;
    ssize_t more;
    int file = open(path, O_RDONLY);
    if (file < 0)
        return EVENING_FAILED;
    do {
        more = read(file, bytes, sizeof bytes);
        if (more > 0) {
            sum = checksum_on(sum, bytes, (size_t)more);
            count += (uint64_t)more;
        }
    } while ((more > 0 && count - 1 < length + LENGTH_BYTES + CHECKSUM_BYTES) || (more < 0 && errno == EINTR));
    int failed = more < 0 ? errno : 0;
    close(file);
    errno = failed;
    if (failed)
        return EVENING_FAILED;
    return count == length + LENGTH_BYTES + CHECKSUM_BYTES && sum == CHECKSUM_OF_WHOLE ? EVENING_LONG : EVENING_DAMAGED;
}

/* Brings a file's folder to the disk, and so its names. */
static int sync_folder(const char *name)
{
    char folder[PATH_ROOM] = ".";
    const char *slash = strrchr(name, '/');
    if (slash)
        snprintf(folder, sizeof folder, "%.*s", slash == name ? 1 : (int)(slash - name), name);
    int file = open(folder, O_RDONLY);
    if (file < 0)
        return EVENING_FAILED;
    int synced = fsync(file) == 0;
    return close(file) == 0 && synced ? EVENING_DONE : EVENING_FAILED;
}

/* Gives the file a second name, while it has the first still. Where both were of one file already, a rename leaves both. */
static int second_name(const char *name, const char *tail)
{
    char second[PATH_ROOM], kept[PATH_ROOM];
    snprintf(second, sizeof second, "%s.second", name);
    snprintf(kept, sizeof kept, "%s%s", name, tail);
    if (unlink(second) != 0 && errno != ENOENT)
        return EVENING_FAILED;
    if (link(name, second) != 0 || rename(second, kept) != 0)
        return EVENING_FAILED;
    return unlink(second) == 0 || errno == ENOENT ? EVENING_DONE : EVENING_FAILED;
}

/* Keeps the file that has the name, if there is one, by whether it is good. */
static int keep_old(const char *name)
{
    uint8_t image[EVENING_IMAGE];
    size_t length;
    switch (evening_kept(name, image, sizeof image, &length)) {
    case EVENING_DONE:
        return second_name(name, ".before");
    case EVENING_FAILED:
        return errno == ENOENT ? EVENING_DONE : EVENING_FAILED;
    case EVENING_DAMAGED:
        return second_name(name, ".damaged");
    default:
        return EVENING_LONG;
    }
}

int evening_keep(const char *name, const uint8_t *image, size_t length)
{
    uint8_t bytes[FRAME];
    char beside[PATH_ROOM];
    if (strlen(name) > EVENING_NAME || length > EVENING_IMAGE)
        return EVENING_LONG;
    snprintf(beside, sizeof beside, "%s.new", name);
    if (write_file(beside, bytes, frame(bytes, image, length)) != EVENING_DONE)
        return EVENING_FAILED;
    int old = keep_old(name);
    if (old != EVENING_DONE)
        return old;
    return rename(beside, name) == 0 ? sync_folder(name) : EVENING_FAILED;
}

int evening_kept(const char *name, uint8_t *image, size_t room, size_t *length)
{
    uint8_t bytes[FRAME + 1];
    size_t count;
    if (read_file(name, bytes, &count) != EVENING_DONE)
        return EVENING_FAILED;
    if (count > FRAME)
        return judge_long(name, get_number(bytes, LENGTH_BYTES));
    if (!whole(bytes, count))
        return EVENING_DAMAGED;
    *length = count - LENGTH_BYTES - CHECKSUM_BYTES;
    if (*length > room)
        return EVENING_LONG;
    memcpy(image, bytes + LENGTH_BYTES, *length);
    return EVENING_DONE;
}
