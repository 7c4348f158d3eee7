/* What calls answer at the edges: no engine, no bytes, short buffers, and numbers that are none of theirs. */
#include <stdio.h>
#include <stdlib.h>
#include <string.h>

#include "zt_liveliness.h"

static int line = 0;

/* Ends the program where something doesn't hold, with the number of the line. */
#define HOLDS(what)                                      \
    do {                                                 \
        line = __LINE__;                                 \
        if (!(what)) {                                   \
            fprintf(stderr, "line %d: %s\n", line, #what); \
            exit(1);                                     \
        }                                                \
    } while (0)

static const uint8_t *bytes(const char *text) { return (const uint8_t *)text; }

/* Every call on a handle without an engine does nothing. */
static void without_an_engine(zl_engine *engine) {
    uint32_t number = 77, kind = 78;
    size_t length = 79;
    uint8_t key[3] = {1, 2, 3};
    zl_message message = {9, 9, 9, 9, 9, 9, 9, 9}, same = message;
    HOLDS(zl_session_open(engine, &number) == ZL_NOT_OPEN);
    HOLDS(zl_uplink_open(engine, 0, 1, ZL_PEER, ZL_NORTH, &number) == ZL_NOT_OPEN);
    HOLDS(zl_face_close(engine, 1) == ZL_NOT_OPEN);
    HOLDS(zl_liveliness_declare_token(engine, 1, NULL, 0, &number) == ZL_NOT_OPEN);
    HOLDS(zl_liveliness_undeclare_token(engine, 1, 1) == ZL_NOT_OPEN);
    HOLDS(zl_liveliness_get(engine, 1, NULL, 0, &number) == ZL_NOT_OPEN);
    HOLDS(zl_reply_try_recv(engine, 1, 1, key, 3, &length) == ZL_NOT_OPEN);
    HOLDS(zl_liveliness_declare_subscriber(engine, 1, NULL, 0, 1, &number) == ZL_NOT_OPEN);
    HOLDS(zl_undeclare_subscriber(engine, 1, 1) == ZL_NOT_OPEN);
    HOLDS(zl_sample_try_recv(engine, 1, 1, &kind, key, 3, &length) == ZL_NOT_OPEN);
    HOLDS(zl_uplink_send(engine, 1, &message, key, 3, &length) == ZL_NOT_OPEN);
    HOLDS(zl_uplink_receive(engine, 1, &message, NULL, 0) == ZL_NOT_OPEN);
    HOLDS(zl_expire(engine, 1) == ZL_NOT_OPEN);
    HOLDS(zl_close(engine) == ZL_NOT_OPEN);
    HOLDS(number == 77 && kind == 78 && length == 79 && key[0] == 1 && key[1] == 2 && key[2] == 3);
    HOLDS(memcmp(&message, &same, sizeof message) == 0);
}

/* Keys of no bytes, at NULL or elsewhere, and bytes that are no key. */
static void bad_keys(zl_engine *engine) {
    static const struct {
        const char *text;
        size_t length;
    } wrong[] = {{NULL, 0}, {"x", 0}, {"a//b", 4}, {"/", 1}, {"a\0b", 0}, {"\xff", 1}, {"**/**", 5}, {"a$b", 3}, {"a?", 2}};
    for (size_t i = 0; i < sizeof wrong / sizeof *wrong; i++) {
        uint32_t number = 5;
        HOLDS(zl_liveliness_declare_token(engine, 1, bytes(wrong[i].text), wrong[i].length, &number) == ZL_BAD_KEY && number == 5);
        HOLDS(zl_liveliness_get(engine, 1, bytes(wrong[i].text), wrong[i].length, &number) == ZL_BAD_KEY && number == 5);
        HOLDS(zl_liveliness_declare_subscriber(engine, 1, bytes(wrong[i].text), wrong[i].length, 0, &number) == ZL_BAD_KEY && number == 5);
    }
}

/* A key that is too long for the buffer stays, and the answer says how long it is. */
static void short_buffers(zl_engine *engine) {
    uint32_t subscriber = 0, query = 0, token = 0, kind = 9;
    uint8_t key[8];
    HOLDS(zl_liveliness_declare_token(engine, 1, bytes("k/a"), 3, &token) == ZL_OK && token == 1);
    HOLDS(zl_liveliness_declare_subscriber(engine, 1, bytes("**"), 2, 7, &subscriber) == ZL_OK && subscriber == 1);
    HOLDS(zl_liveliness_get(engine, 1, bytes("**"), 2, &query) == ZL_OK && query == 2);
    for (size_t room = 0; room < 3; room++) {
        size_t length = 0;
        memset(key, 'x', sizeof key);
        HOLDS(zl_sample_try_recv(engine, 1, subscriber, &kind, room == 0 ? NULL : key, room, &length) == ZL_SHORT_BUFFER);
        HOLDS(length == 3 && kind == ZL_PUT);
        HOLDS(zl_reply_try_recv(engine, 1, query, room == 0 ? NULL : key, room, &length) == ZL_SHORT_BUFFER && length == 3);
        for (size_t i = 0; i < sizeof key; i++) HOLDS(key[i] == 'x');
    }
    size_t length = 0;
    HOLDS(zl_sample_try_recv(engine, 1, subscriber, &kind, key, 3, &length) == ZL_OK && memcmp(key, "k/axxxxx", 8) == 0);
    HOLDS(zl_sample_try_recv(engine, 1, subscriber, &kind, key, 8, &length) == ZL_NOTHING);
    memset(key, 'x', sizeof key);
    HOLDS(zl_reply_try_recv(engine, 1, query, key, 8, &length) == ZL_OK && memcmp(key, "k/axxxxx", 8) == 0);
    HOLDS(zl_reply_try_recv(engine, 1, query, NULL, 0, &length) == ZL_ENDED);
    HOLDS(zl_reply_try_recv(engine, 1, query, key, 8, &length) == ZL_NO_SUCH_GET && length == 3);
    HOLDS(zl_liveliness_undeclare_token(engine, 1, token) == ZL_OK);
    HOLDS(zl_sample_try_recv(engine, 1, subscriber, &kind, key, 8, &length) == ZL_OK && kind == ZL_DELETE);
    HOLDS(zl_undeclare_subscriber(engine, 1, subscriber) == ZL_OK);
    HOLDS(zl_undeclare_subscriber(engine, 1, subscriber) == ZL_NO_SUCH_SUBSCRIBER);
}

/* An uplink, messages that are none, and messages of each kind. */
static void messages(zl_engine *engine) {
    uint32_t uplink = 0, number = 0;
    zl_message sent, none = {0, 0, 0, 0, 0, 0, 0, 0};
    uint8_t key[8];
    size_t length = 9;
    HOLDS(zl_uplink_open(engine, 0, 0, ZL_ROUTER, ZL_SOUTH, &uplink) == ZL_BAD_ARGUMENT);
    HOLDS(zl_uplink_open(engine, 0, 2, 0, ZL_SOUTH, &uplink) == ZL_BAD_ARGUMENT);
    HOLDS(zl_uplink_open(engine, 0, 2, ZL_ROUTER, 3, &uplink) == ZL_BAD_ARGUMENT && uplink == 0);
    HOLDS(zl_uplink_open(engine, 1, 0, ZL_ROUTER, ZL_SOUTH, &uplink) == ZL_OK && uplink == 2);
    HOLDS(zl_uplink_open(engine, 0, 3, ZL_ROUTER, ZL_SOUTH, &number) == ZL_REFUSED + ZL_NORTH_TAKEN && number == 0);
    HOLDS(zl_uplink_send(engine, uplink, &sent, key, 8, &length) == ZL_NOTHING && length == 9);
    HOLDS(zl_liveliness_get(engine, 1, bytes("k"), 1, &number) == ZL_OK);
    HOLDS(zl_uplink_send(engine, uplink, &sent, NULL, 0, &length) == ZL_SHORT_BUFFER && length == 1);
    HOLDS(sent.kind == ZL_INTEREST && sent.mode == 1 && sent.options == 8);
    HOLDS(zl_uplink_send(engine, 1, &sent, key, 8, &length) == ZL_NOTHING);
    HOLDS(zl_uplink_send(engine, uplink, &sent, key, 8, &length) == ZL_OK && length == 1 && key[0] == 'k');
    for (uint32_t kind = 0; kind < 12; kind += kind == 0 ? 9 : 1) {
        none.kind = kind;
        HOLDS(zl_uplink_receive(engine, uplink, &none, NULL, 0) == ZL_BAD_ARGUMENT);
    }
    none.kind = 0xffffffff;
    HOLDS(zl_uplink_receive(engine, uplink, &none, NULL, 0) == ZL_BAD_ARGUMENT);
    none.kind = ZL_TOKEN;
    HOLDS(zl_uplink_receive(engine, uplink, &none, NULL, 0) == ZL_BAD_ARGUMENT);
    HOLDS(zl_uplink_receive(engine, uplink, &none, bytes("//"), 2) == ZL_BAD_KEY);
    none.node_id = 65536;
    HOLDS(zl_uplink_receive(engine, uplink, &none, bytes("k"), 1) == ZL_BAD_ARGUMENT);
    zl_message answer = {ZL_ANSWER, 0, sent.id, 0, 0, 0, 0, 0}, last = {ZL_FINAL, 0, sent.id, 0, 0, 0, 0, 0};
    HOLDS(zl_uplink_receive(engine, 1, &answer, bytes("k"), 1) == ZL_NO_SUCH_FACE);
    HOLDS(zl_uplink_receive(engine, uplink, &last, bytes("k"), 1) == ZL_BAD_ARGUMENT);
    HOLDS(zl_uplink_receive(engine, uplink, &answer, bytes("k"), 1) == ZL_OK);
    HOLDS(zl_reply_try_recv(engine, 1, number, key, 8, &length) == ZL_OK && length == 1);
    HOLDS(zl_reply_try_recv(engine, 1, number, key, 8, &length) == ZL_NOTHING);
    HOLDS(zl_uplink_receive(engine, uplink, &last, NULL, 0) == ZL_OK);
    HOLDS(zl_uplink_receive(engine, uplink, &last, NULL, 0) == ZL_REFUSED + ZL_UNKNOWN_ASK);
    HOLDS(zl_reply_try_recv(engine, 1, number, key, 8, &length) == ZL_ENDED);
    zl_message queryable = {ZL_QUERYABLE, 1, 1, 0, 0, 0, 5, 65535};
    HOLDS(zl_uplink_receive(engine, uplink, &queryable, bytes("k"), 1) == ZL_OK);
    HOLDS(zl_face_close(engine, uplink) == ZL_OK);
    HOLDS(zl_face_close(engine, uplink) == ZL_NO_SUCH_FACE);
}

/* A script with room for its transcript, for a part of it and for nothing, and scripts that no run carries out whole. */
static void runs(void) {
    static const struct {
        const char *script;
        size_t length, room;
        uint32_t status;
        size_t written;
        const char *out;
    } rows[] = {
        {"gateway client 1\nsession 1\ndeclare 1 1 k\n", 41, 30, ZL_OK, 27, "1 ok\n2 ok\n3 ok\ntotal 3 0 0\nxxx"},
        {"gateway client 1\nsession 1\ndeclare 1 1 k\n", 41, 27, ZL_OK, 27, "1 ok\n2 ok\n3 ok\ntotal 3 0 0\n"},
        {"gateway client 1\nsession 1\ndeclare 1 1 k\n", 41, 26, ZL_SHORT_BUFFER, 27, "1 ok\n2 ok\n3 ok\ntotal 3 0 0"},
        {"gateway client 1\nsession 1\ndeclare 1 1 k\n", 41, 5, ZL_SHORT_BUFFER, 27, "1 ok\n"},
        {"gateway client 1\nsession 1\ndeclare 1 1 k\n", 41, 0, ZL_SHORT_BUFFER, 27, ""},
        {"", 0, 0, ZL_SHORT_BUFFER, 12, ""},
        {"", 0, 12, ZL_OK, 12, "total 0 0 0\n"},
        {"gateway client 1\nsession\n", 25, 6, ZL_MALFORMED_LINE, 5, "1 ok\nx"},
        {"\n", 1, 1, ZL_MALFORMED_LINE, 0, "x"},
        {"\xff", 1, 1, ZL_MALFORMED_LINE, 0, "x"},
    };
    for (size_t i = 0; i < sizeof rows / sizeof *rows; i++) {
        uint8_t out[30];
        size_t written = 0;
        memset(out, 'x', sizeof out);
        HOLDS(zl_run(bytes(rows[i].script), rows[i].length, out, rows[i].room, &written) == rows[i].status);
        HOLDS(written == rows[i].written && memcmp(out, rows[i].out, rows[i].room) == 0);
        for (size_t k = rows[i].room; k < sizeof out; k++) HOLDS(out[k] == 'x');
    }
}

int main(void) {
    runs();
    zl_engine engine = ZL_CLOSED;
    uint32_t session = 0;
    without_an_engine(&engine);
    HOLDS(zl_open(&engine, 0, 0, ZL_CLIENT, 10) == ZL_BAD_ARGUMENT);
    HOLDS(zl_open(&engine, 0, 1, 3, 10) == ZL_BAD_ARGUMENT);
    HOLDS(zl_open(&engine, 0, 1, 0xffffffff, 10) == ZL_BAD_ARGUMENT);
    without_an_engine(&engine);
    HOLDS(zl_open(&engine, 0, 1, ZL_CLIENT, 10) == ZL_OK);
    HOLDS(zl_open(&engine, 0, 2, ZL_CLIENT, 10) == ZL_ALREADY_OPEN);
    HOLDS(zl_session_open(&engine, &session) == ZL_OK && session == 1);
    bad_keys(&engine);
    short_buffers(&engine);
    messages(&engine);
    HOLDS(zl_expire(&engine, 5) == ZL_OK);
    HOLDS(zl_expire(&engine, 4) == ZL_REFUSED + ZL_MOMENT_BACK);
    HOLDS(zl_face_close(&engine, 0xffffffff) == ZL_NO_SUCH_FACE);
    HOLDS(zl_face_close(&engine, session) == ZL_OK);
    zl_engine moved = engine;
    engine = (zl_engine)ZL_CLOSED;
    without_an_engine(&engine);
    HOLDS(zl_session_open(&moved, &session) == ZL_OK && session == 3);
    HOLDS(zl_close(&moved) == ZL_OK);
    without_an_engine(&moved);
    return 0;
}
