/* The host in memory: what the commands init, replay and show make of the three parts of a disk, without a file.
 *
 * Each call is given all that it reads and hands out all that it makes: it keeps nothing for the next call, opens nothing, and
 * starts no thread. Calls may overlap on several threads, but not in a signal handler or in the forked child of a process with
 * threads. It takes memory by malloc and realloc, and lets it go by free.
 *
 * What is handed out stands in `room`: the text, and behind it Root, Left and Right, in these lengths. The answer is the status
 * of the program's command (docs/STATUSES.md), or SWHOST_NO_ROOM where `room` has fewer bytes than are handed out: then the
 * lengths are all that is written, and the same call with their sum as `room_length` has the other answer. After SWHOST_NO_MEMORY
 * nothing is handed out, and the lengths are 0.
 *
 * No pointer is null, also where the length behind it is 0. `room`, and what the last pointer leads to, lie apart from each
 * other and from all else that is passed. Nothing else is asked of a caller: any bytes may be passed.
 */
#ifndef SWHOST_H
#define SWHOST_H

#include <stddef.h>
#include <stdint.h>

#ifdef __cplusplus
extern "C" {
#endif

enum swhost_status {
    SWHOST_DONE = 0,
    SWHOST_NO_MEMORY = 1,
    SWHOST_BAD_LINE = 3,
    SWHOST_DISK_FAULT = 6,
    SWHOST_NOT_FORMATTED = 7,
    SWHOST_BAD_JOURNAL = 8,
    SWHOST_STALLED = 9,
    SWHOST_TOO_LARGE = 10,
    SWHOST_FULL = 11,
    SWHOST_ALREADY_FORMATTED = 12,
    SWHOST_NO_ROOM = 256
};

struct swhost_lengths {
    size_t text, root, left, right;
};

/* What `init` makes of three parts. */
uint32_t swhost_init(const uint8_t *root, size_t root_length, const uint8_t *left, size_t left_length,
                     const uint8_t *right, size_t right_length, uint8_t *room, size_t room_length,
                     struct swhost_lengths *lengths);

/* What `replay` by one worker makes of a recording and three parts. */
uint32_t swhost_replay(const uint8_t *recording, size_t recording_length, const uint8_t *root, size_t root_length,
                       const uint8_t *left, size_t left_length, const uint8_t *right, size_t right_length,
                       uint8_t *room, size_t room_length, struct swhost_lengths *lengths);

/* What `show` prints of three parts. Its text alone is handed out, and `length` is the text's. */
uint32_t swhost_show(const uint8_t *root, size_t root_length, const uint8_t *left, size_t left_length,
                     const uint8_t *right, size_t right_length, uint8_t *room, size_t room_length, size_t *length);

#ifdef __cplusplus
}
#endif

#endif
