/* The evening file in C, an example to copy from and no part of the library: the store's image in a file that is taken for good only whole
   and undamaged. The file is a frame around the image: its length in 8 bytes, the image, and in 4 bytes the checksum of all that (CRC-32),
   lowest byte first; outside/evening/src writes and reads the same. For POSIX systems. */
#ifndef EVENING_H
#define EVENING_H

#include <stddef.h>
#include <stdint.h>

/* What a call gives must be used: a file that is not kept is not passed over in silence. */
#if defined(__GNUC__)
#define EVENING_MUST_USE __attribute__((warn_unused_result))
#else
#define EVENING_MUST_USE
#endif

/* The longest name of a file, and the longest image. */
enum { EVENING_NAME = 1000, EVENING_IMAGE = 4096 };

/* What a call ends with. */
enum {
    EVENING_DONE = 0,
    EVENING_FAILED = 1,  /* the system says why, in errno; where nothing is kept yet it is ENOENT */
    EVENING_DAMAGED = 2, /* the file is cut, longer or damaged, or no evening file */
    EVENING_LONG = 3     /* a name or an image is too long, also one that another program kept, or there is no room for the image */
};

/* Keeps an image under the name: writes beside, brings it to the disk, renames. If this fails, the old file or the new one has the name, whole.
   When it ends well, the new one has it, on the disk, and the one that had it is kept: its name has ".before" behind it, or ".damaged" if it
   was no good evening file. A good file whose image is too long is left, and nothing is kept. */
EVENING_MUST_USE int evening_keep(const char *name, const uint8_t *image, size_t length);

/* Gives the image that was kept under the name, and its length. Nothing here goes back to the file before by itself: it holds older figures,
   and with them pages that were amended since would be served again. */
EVENING_MUST_USE int evening_kept(const char *name, uint8_t *image, size_t room, size_t *length);

#endif
