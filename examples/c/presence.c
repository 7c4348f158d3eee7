/*
 * Two sessions of one gateway see each other come and go.
 *
 *     presence
 *
 * Each session declares a token, subscribes to all tokens below room/, and asks who is there. Then the first one leaves.
 */
#include <stdio.h>
#include <stdlib.h>
#include <string.h>

#include "zt_liveliness.h"

/* Ends the program where a call came to something else. */
static void expect(const char *call, uint32_t status, uint32_t wanted) {
    if (status != wanted) {
        fprintf(stderr, "%s: status %u\n", call, (unsigned)status);
        exit(1);
    }
}

static uint32_t declare(zl_engine *engine, uint32_t session, const char *key) {
    uint32_t token = 0;
    expect("declare", zl_liveliness_declare_token(engine, session, (const uint8_t *)key, strlen(key), &token), ZL_OK);
    return token;
}

static uint32_t subscribe(zl_engine *engine, uint32_t session, const char *key) {
    uint32_t subscriber = 0;
    expect("subscribe", zl_liveliness_declare_subscriber(engine, session, (const uint8_t *)key, strlen(key), 1, &subscriber), ZL_OK);
    return subscriber;
}

/* Prints all samples that wait for a subscriber. The first buffer is short, so that longer keys need a second call. */
static void print_samples(zl_engine *engine, uint32_t session, uint32_t subscriber) {
    size_t room = 8;
    uint8_t *key = malloc(room);
    for (;;) {
        uint32_t kind = 0;
        size_t length = 0;
        uint32_t status = key == NULL ? ZL_OUT_OF_MEMORY : zl_sample_try_recv(engine, session, subscriber, &kind, key, room, &length);
        if (status == ZL_SHORT_BUFFER) {
            free(key);
            room = length;
            key = malloc(room);
            continue;
        }
        if (status == ZL_NOTHING) {
            break;
        }
        expect("sample", status, ZL_OK);
        printf("session %u: %s %.*s\n", (unsigned)session, kind == ZL_PUT ? "here is" : "gone is", (int)length, (const char *)key);
    }
    free(key);
}

/* Prints the replies of a query up to its end. */
static void print_replies(zl_engine *engine, uint32_t session, uint32_t query) {
    uint8_t key[64];
    size_t length = 0;
    uint32_t status;
    while ((status = zl_reply_try_recv(engine, session, query, key, sizeof key, &length)) == ZL_OK) {
        printf("session %u: reply %.*s\n", (unsigned)session, (int)length, (const char *)key);
    }
    expect("reply", status, ZL_ENDED);
    printf("session %u: end of replies\n", (unsigned)session);
}

int main(void) {
    zl_engine engine = ZL_CLOSED;
    uint32_t ann = 0, bob = 0, query = 0;
    expect("open", zl_open(&engine, 0, 1, ZL_PEER, 10000), ZL_OK);
    expect("session", zl_session_open(&engine, &ann), ZL_OK);
    expect("session", zl_session_open(&engine, &bob), ZL_OK);

    uint32_t token = declare(&engine, ann, "room/ann");
    uint32_t seen_by_bob = subscribe(&engine, bob, "room/*");
    uint32_t seen_by_ann = subscribe(&engine, ann, "room/*");
    declare(&engine, bob, "room/bob-with-a-long-name");
    print_samples(&engine, bob, seen_by_bob);
    print_samples(&engine, ann, seen_by_ann);

    expect("get", zl_liveliness_get(&engine, ann, (const uint8_t *)"room/**", 7, &query), ZL_OK);
    print_replies(&engine, ann, query);

    expect("undeclare", zl_liveliness_undeclare_token(&engine, ann, token), ZL_OK);
    print_samples(&engine, bob, seen_by_bob);
    expect("close", zl_face_close(&engine, bob), ZL_OK);
    print_samples(&engine, ann, seen_by_ann);
    expect("close", zl_close(&engine), ZL_OK);
    return 0;
}
