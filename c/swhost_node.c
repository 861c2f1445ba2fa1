/* The library as an addon of Node: init, replay and show of Buffers. c/swhost.mjs is for callers. */
#include "swhost.h"

#include <node_api.h>
#include <stdlib.h>

/* A pointer that is not null, also where there are no bytes. */
static uint8_t nowhere[1];

struct bytes {
    uint8_t *at;
    size_t length;
};

static napi_value thrown(napi_env env, const char *what) {
    napi_throw_error(env, NULL, what);
    return NULL;
}

static void put(napi_env env, napi_value object, const char *name, const uint8_t *at, size_t length) {
    napi_value copy;
    if (napi_create_buffer_copy(env, length, at, NULL, &copy) == napi_ok) napi_set_named_property(env, object, name, copy);
}

static uint32_t called(int wanted, const struct bytes *b, uint8_t *room, size_t length, struct swhost_lengths *lengths) {
    switch (wanted) {
        case 0: return swhost_init(b[0].at, b[0].length, b[1].at, b[1].length, b[2].at, b[2].length, room, length, lengths);
        case 1:
            return swhost_replay(b[0].at, b[0].length, b[1].at, b[1].length, b[2].at, b[2].length, b[3].at, b[3].length, room,
                                 length, lengths);
        default: return swhost_show(b[0].at, b[0].length, b[1].at, b[1].length, b[2].at, b[2].length, room, length, &lengths->text);
    }
}

/* Calls until the room has place for all that is handed out: { status, text, root, left, right }. */
static napi_value answer(napi_env env, napi_callback_info info, int wanted, size_t wants) {
    napi_value words[4], made, status;
    struct bytes given[4];
    size_t count = 4, room_length = 65536;
    napi_get_cb_info(env, info, &count, words, NULL, NULL);
    if (count != wants) return thrown(env, "wrong number of arguments");
    for (size_t at = 0; at < count; at++) {
        void *data;
        if (napi_get_buffer_info(env, words[at], &data, &given[at].length) != napi_ok) return thrown(env, "not a Buffer");
        given[at].at = given[at].length ? data : nowhere;
        room_length += given[at].length;
    }
    struct swhost_lengths lengths = {0, 0, 0, 0};
    uint8_t *room = NULL;
    uint32_t answered;
    do {
        uint8_t *grown = realloc(room, room_length);
        if (!grown) {
            free(room);
            return thrown(env, "no memory");
        }
        room = grown;
        answered = called(wanted, given, room, room_length, &lengths);
        if (answered == SWHOST_NO_ROOM) room_length = lengths.text + lengths.root + lengths.left + lengths.right;
    } while (answered == SWHOST_NO_ROOM);
    napi_create_object(env, &made);
    napi_create_uint32(env, answered, &status);
    napi_set_named_property(env, made, "status", status);
    const uint8_t *at = room;
    put(env, made, "text", at, lengths.text);
    if (wanted != 2) {
        put(env, made, "root", at += lengths.text, lengths.root);
        put(env, made, "left", at += lengths.root, lengths.left);
        put(env, made, "right", at + lengths.left, lengths.right);
    }
    free(room);
    return made;
}

static napi_value init(napi_env env, napi_callback_info info) { return answer(env, info, 0, 3); }

static napi_value replay(napi_env env, napi_callback_info info) { return answer(env, info, 1, 4); }

static napi_value show(napi_env env, napi_callback_info info) { return answer(env, info, 2, 3); }

NAPI_MODULE_INIT() {
    const napi_callback calls[] = {init, replay, show};
    const char *names[] = {"init", "replay", "show"};
    for (int at = 0; at < 3; at++) {
        napi_value function;
        napi_create_function(env, names[at], NAPI_AUTO_LENGTH, calls[at], NULL, &function);
        napi_set_named_property(env, exports, names[at], function);
    }
    return exports;
}
