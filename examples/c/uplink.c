/*
 * Two gateways, joined by this program's own queue: a token that is declared at one is seen at the other, and seen to go.
 *
 *     uplink
 *
 * The gateways are peers, each above the other. A program with a network would send what is queued here over it.
 */
#include <stdio.h>
#include <stdlib.h>
#include <string.h>

#include "zt_liveliness.h"

#define MOST_WAITING 16
#define MOST_BYTES 64

/* A message on its way. */
struct parcel {
    zl_message message;
    uint8_t key[MOST_BYTES];
    size_t length;
};

/* What one end sent and the other hasn't got yet, the oldest first. */
struct queue {
    struct parcel parcels[MOST_WAITING];
    size_t waiting;
};

/* One gateway with a session, and its uplink to the other. */
struct end {
    const char *name;
    zl_engine engine;
    uint32_t session, uplink, subscriber;
    struct queue sent;
};

static void expect(const char *call, uint32_t status, uint32_t wanted) {
    if (status != wanted) {
        fprintf(stderr, "%s: status %u\n", call, (unsigned)status);
        exit(1);
    }
}

static void open_end(struct end *end, uint64_t zid, uint64_t other) {
    expect("open", zl_open(&end->engine, 0, zid, ZL_PEER, 10000), ZL_OK);
    expect("session", zl_session_open(&end->engine, &end->session), ZL_OK);
    expect("uplink", zl_uplink_open(&end->engine, 0, other, ZL_PEER, ZL_NORTH, &end->uplink), ZL_OK);
    expect("subscribe", zl_liveliness_declare_subscriber(&end->engine, end->session, (const uint8_t *)"lamp/*", 6, 1, &end->subscriber), ZL_OK);
}

/* Moves what an uplink has to send into the queue. What has no room there stays at the uplink. */
static void collect(struct end *end) {
    while (end->sent.waiting < MOST_WAITING) {
        struct parcel *parcel = &end->sent.parcels[end->sent.waiting];
        uint32_t status = zl_uplink_send(&end->engine, end->uplink, &parcel->message, parcel->key, sizeof parcel->key, &parcel->length);
        if (status == ZL_NOTHING) {
            return;
        }
        expect("send", status, ZL_OK);
        end->sent.waiting++;
    }
}

/* Gives the other end all that is queued. Answers how many messages that were. */
static size_t deliver(struct end *from, struct end *to) {
    collect(from);
    size_t count = from->sent.waiting;
    for (size_t i = 0; i < count; i++) {
        const struct parcel *parcel = &from->sent.parcels[i];
        printf("%s sends kind %u, id %u, key '%.*s'\n", from->name, (unsigned)parcel->message.kind, (unsigned)parcel->message.id, (int)parcel->length, (const char *)parcel->key);
        expect("receive", zl_uplink_receive(&to->engine, to->uplink, &parcel->message, parcel->key, parcel->length), ZL_OK);
    }
    from->sent.waiting = 0;
    return count;
}

/* Delivers until both queues are empty. */
static void settle(struct end *one, struct end *two) {
    size_t moved;
    do {
        moved = deliver(one, two);
        moved += deliver(two, one);
    } while (moved > 0);
}

static void print_samples(struct end *end) {
    uint8_t key[MOST_BYTES];
    uint32_t kind = 0, status;
    size_t length = 0;
    while ((status = zl_sample_try_recv(&end->engine, end->session, end->subscriber, &kind, key, sizeof key, &length)) == ZL_OK) {
        printf("%s sees: %s %.*s\n", end->name, kind == ZL_PUT ? "here is" : "gone is", (int)length, (const char *)key);
    }
    expect("sample", status, ZL_NOTHING);
}

int main(void) {
    static struct end first = {.name = "one", .engine = ZL_CLOSED}, second = {.name = "two", .engine = ZL_CLOSED};
    uint32_t token = 0;
    open_end(&first, 1, 2);
    open_end(&second, 2, 1);
    settle(&first, &second);

    expect("declare", zl_liveliness_declare_token(&second.engine, second.session, (const uint8_t *)"lamp/desk", 9, &token), ZL_OK);
    settle(&first, &second);
    print_samples(&first);
    print_samples(&second);

    expect("undeclare", zl_liveliness_undeclare_token(&second.engine, second.session, token), ZL_OK);
    settle(&first, &second);
    print_samples(&first);
    print_samples(&second);
    expect("close", zl_close(&first.engine), ZL_OK);
    expect("close", zl_close(&second.engine), ZL_OK);
    return 0;
}
