/* swhost init | replay | show on the disk of the current folder, as the program does it, by the library: it is an example of a
 * caller, and bin/check_c compares it with the program. */
#include "swhost.h"

#include <stdio.h>
#include <stdlib.h>
#include <string.h>

struct bytes {
    uint8_t *at;
    size_t length;
};

static void fail(const char *what) {
    perror(what);
    exit(125);
}

/* So many bytes, and never none. */
static uint8_t *grown(uint8_t *at, size_t length) {
    at = realloc(at, length ? length : 1);
    if (!at) fail("memory");
    return at;
}

static struct bytes read_all(FILE *file) {
    struct bytes read = {grown(NULL, 65536), 0};
    size_t room = 65536, more;
    while ((more = fread(read.at + read.length, 1, room - read.length, file))) {
        read.length += more;
        if (read.length == room) read.at = grown(read.at, room *= 2);
    }
    if (ferror(file)) fail("read");
    return read;
}

/* A part of the disk, which is empty where there is no file. */
static struct bytes part(const char *name) {
    FILE *file = fopen(name, "rb");
    if (!file) return (struct bytes){grown(NULL, 0), 0};
    struct bytes read = read_all(file);
    fclose(file);
    return read;
}

static void keep(const char *name, const uint8_t *at, size_t length) {
    FILE *file = fopen(name, "wb");
    if (!file || fwrite(at, 1, length, file) != length || fclose(file)) fail(name);
}

int main(int count, char **words) {
    const char *word = count == 2 ? words[1] : "";
    int inits = !strcmp(word, "init"), replays = !strcmp(word, "replay"), shows = !strcmp(word, "show");
    if (!inits && !replays && !shows) {
        fputs("usage: swhost init | replay | show\n", stderr);
        return 125;
    }
    struct bytes root = part("swhost.root"), left = part("swhost.left"), right = part("swhost.right");
    struct bytes recording = replays ? read_all(stdin) : (struct bytes){grown(NULL, 0), 0};

    struct swhost_lengths lengths = {0, 0, 0, 0};
    uint8_t *room = NULL;
    size_t wanted = 0;
    uint32_t status;
    do {
        room = grown(room, wanted);
        if (inits)
            status = swhost_init(root.at, root.length, left.at, left.length, right.at, right.length, room, wanted, &lengths);
        else if (replays)
            status = swhost_replay(recording.at, recording.length, root.at, root.length, left.at, left.length, right.at,
                                   right.length, room, wanted, &lengths);
        else
            status = swhost_show(root.at, root.length, left.at, left.length, right.at, right.length, room, wanted, &lengths.text);
        wanted = lengths.text + lengths.root + lengths.left + lengths.right;
    } while (status == SWHOST_NO_ROOM);

    fwrite(room, 1, lengths.text, stdout);
    if (!shows && status != SWHOST_NO_MEMORY) {
        const uint8_t *at = room + lengths.text;
        keep("swhost.root", at, lengths.root);
        keep("swhost.left", at += lengths.root, lengths.left);
        keep("swhost.right", at + lengths.left, lengths.right);
    }
    return (int)status;
}
