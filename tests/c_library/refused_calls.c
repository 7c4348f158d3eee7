/*
 * Every allocation of every call fails once: each time the call answers ZL_OUT_OF_MEMORY, and made again it does what it would
 * have done at first. Prints what the calls give, which has to be the same as without failures.
 *
 *     refused_calls        no allocation fails
 *     refused_calls all    each fails once
 *
 * Link with -Wl,--wrap=malloc,--wrap=realloc.
 */
#include <stdio.h>
#include <stdlib.h>
#include <string.h>

#include "zt_liveliness.h"

/* The allocation that fails, counted from 1; 0 for none. */
static unsigned long failing = 0, made = 0;
static bool all = false;

void *__real_malloc(size_t size);
void *__real_realloc(void *at, size_t size);
void *__wrap_malloc(size_t size);
void *__wrap_realloc(void *at, size_t size);

void *__wrap_malloc(size_t size) { return failing != 0 && ++made == failing ? NULL : __real_malloc(size); }

void *__wrap_realloc(void *at, size_t size) { return failing != 0 && ++made == failing ? NULL : __real_realloc(at, size); }

/* Makes a call until it is carried out, with its first allocation failing, its second, and so on. */
#define CALL(call)                                                                       \
    do {                                                                                 \
        uint32_t status_ = ZL_OUT_OF_MEMORY;                                             \
        for (unsigned long n = 1; all && status_ == ZL_OUT_OF_MEMORY && n < 1000; n++) { \
            failing = n;                                                                 \
            made = 0;                                                                    \
            status_ = (call);                                                            \
            failing = 0;                                                                 \
        }                                                                                \
        if (!all) status_ = (call);                                                      \
        printf("%s: %u\n", #call, (unsigned)status_);                                    \
    } while (0)

static zl_engine one = ZL_CLOSED, two = ZL_CLOSED;
static uint32_t session, other, uplink, above, token, query, subscriber, kind;
static uint8_t key[64];
static size_t length;
static zl_message message;

static const uint8_t *bytes(const char *text) { return (const uint8_t *)text; }

/* Carries all that waits from one uplink to the other. */
static void carry(zl_engine *from, uint32_t by, zl_engine *to, uint32_t at) {
    while (zl_uplink_send(from, by, &message, key, sizeof key, &length) == ZL_OK) {
        printf("kind %u id %u key %.*s\n", (unsigned)message.kind, (unsigned)message.id, (int)length, (const char *)key);
        CALL(zl_uplink_receive(to, at, &message, key, length));
    }
}

static void settle(void) {
    for (int i = 0; i < 4; i++) {
        carry(&one, uplink, &two, above);
        carry(&two, above, &one, uplink);
    }
    while (zl_sample_try_recv(&one, session, subscriber, &kind, key, sizeof key, &length) == ZL_OK)
        printf("sample %u %.*s\n", (unsigned)kind, (int)length, (const char *)key);
}

int main(int count, char **words) {
    (void)words;
    all = count > 1;
    CALL(zl_open(&one, 0, 1, ZL_PEER, 10));
    CALL(zl_open(&two, 0, 2, ZL_PEER, 10));
    CALL(zl_session_open(&one, &session));
    CALL(zl_session_open(&two, &other));
    CALL(zl_uplink_open(&one, 0, 2, ZL_PEER, ZL_NORTH, &uplink));
    CALL(zl_uplink_open(&two, 0, 1, ZL_PEER, ZL_NORTH, &above));
    settle();
    CALL(zl_liveliness_declare_subscriber(&one, session, bytes("k/*"), 3, 1, &subscriber));
    settle();
    for (int i = 0; i < 9; i++) {
        char name[] = "k/0";
        name[2] = (char)('0' + i);
        CALL(zl_liveliness_declare_token(&two, other, bytes(name), 3, &token));
        CALL(zl_liveliness_declare_token(&one, session, bytes(name), 3, &token));
    }
    settle();
    CALL(zl_liveliness_get(&two, other, bytes("**"), 2, &query));
    settle();
    CALL(zl_expire(&two, 10));
    while (zl_reply_try_recv(&two, other, query, key, sizeof key, &length) == ZL_OK) printf("reply %.*s\n", (int)length, (const char *)key);
    CALL(zl_liveliness_undeclare_token(&two, other, 3));
    CALL(zl_liveliness_undeclare_token(&one, session, 3));
    settle();
    CALL(zl_undeclare_subscriber(&one, session, subscriber));
    settle();
    CALL(zl_face_close(&two, above));
    CALL(zl_face_close(&one, session));
    CALL(zl_close(&one));
    CALL(zl_close(&two));
    return 0;
}
