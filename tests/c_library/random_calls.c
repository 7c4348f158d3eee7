/*
 * Ten thousand random calls of three sessions of one gateway, against a plain model: how often each key is declared, and what a
 * subscriber keeps.
 *
 *     random_calls SEED
 *
 * Each session has a subscriber with history to all keys. After each call the samples that wait have to make what each
 * subscriber keeps into the keys that are alive.
 */
#include <stdio.h>
#include <stdlib.h>
#include <string.h>

#include "zt_liveliness.h"

#define SESSIONS 3
#define KEYS 5
#define MOST_TOKENS 4096
#define CALLS 10000

struct session {
    uint32_t number, subscriber, made, tokens, ids[MOST_TOKENS];
    int keys[MOST_TOKENS];
    bool kept[KEYS];
};

static zl_engine engine = ZL_CLOSED;
static struct session sessions[SESSIONS];
static uint64_t state;

static const char *const names[KEYS] = {"k/a", "k/b", "k/c/d", "e", "e/f"};
static const struct {
    const char *text;
    bool matches[KEYS];
} exprs[] = {{"**", {1, 1, 1, 1, 1}}, {"k/*", {1, 1, 0, 0, 0}}, {"k/**", {1, 1, 1, 0, 0}}, {"e", {0, 0, 0, 1, 0}}, {"*/f", {0, 0, 0, 0, 1}}, {"none", {0, 0, 0, 0, 0}}};

static uint32_t below(uint32_t bound) {
    state = state * 6364136223846793005u + 1442695040888963407u;
    return (uint32_t)(state >> 33) % bound;
}

#define HOLDS(what)                                             \
    do {                                                        \
        if (!(what)) {                                          \
            fprintf(stderr, "line %d: %s\n", __LINE__, #what); \
            exit(1);                                            \
        }                                                       \
    } while (0)

static int key_of(const uint8_t *text, size_t length) {
    for (int i = 0; i < KEYS; i++)
        if (strlen(names[i]) == length && memcmp(names[i], text, length) == 0) return i;
    return -1;
}

static bool is_alive(int key) {
    for (int s = 0; s < SESSIONS; s++)
        for (uint32_t t = 0; t < sessions[s].tokens; t++)
            if (sessions[s].keys[t] == key) return true;
    return false;
}

static void open_session(struct session *s) {
    memset(s, 0, sizeof *s);
    HOLDS(zl_session_open(&engine, &s->number) == ZL_OK);
    HOLDS(zl_liveliness_declare_subscriber(&engine, s->number, (const uint8_t *)"**", 2, 1, &s->subscriber) == ZL_OK && s->subscriber == 1);
    s->made = 1;
}

/* Each sample alters what the subscriber keeps, and in the end that is what is alive. */
static void read_samples(struct session *s) {
    uint8_t text[8];
    uint32_t kind, status;
    size_t length;
    while ((status = zl_sample_try_recv(&engine, s->number, s->subscriber, &kind, text, below(9), &length)) != ZL_NOTHING) {
        int key = key_of(text, length);
        if (status == ZL_SHORT_BUFFER) continue;
        HOLDS(status == ZL_OK && key >= 0 && s->kept[key] == (kind == ZL_DELETE));
        s->kept[key] = kind == ZL_PUT;
    }
    for (int key = 0; key < KEYS; key++) HOLDS(s->kept[key] == is_alive(key));
}

/* A query is answered each key that is alive and matches, once. */
static void ask(struct session *s) {
    uint32_t query = 0, status, e = below(sizeof exprs / sizeof *exprs);
    bool answered[KEYS] = {0};
    uint8_t text[8];
    size_t length;
    HOLDS(zl_liveliness_get(&engine, s->number, (const uint8_t *)exprs[e].text, strlen(exprs[e].text), &query) == ZL_OK);
    HOLDS(query == ++s->made);
    while ((status = zl_reply_try_recv(&engine, s->number, query, text, below(9), &length)) != ZL_ENDED) {
        int key = key_of(text, length);
        if (status == ZL_SHORT_BUFFER) continue;
        HOLDS(status == ZL_OK && key >= 0 && !answered[key]);
        answered[key] = true;
    }
    for (int key = 0; key < KEYS; key++) HOLDS(answered[key] == (exprs[e].matches[key] && is_alive(key)));
}

static void declare(struct session *s, uint32_t *last) {
    int key = (int)below(KEYS);
    uint32_t token = 0;
    HOLDS(zl_liveliness_declare_token(&engine, s->number, (const uint8_t *)names[key], strlen(names[key]), &token) == ZL_OK);
    HOLDS(token == ++*last && s->tokens < MOST_TOKENS);
    s->ids[s->tokens] = token;
    s->keys[s->tokens++] = key;
}

static void undeclare(struct session *s) {
    uint32_t place = below(s->tokens);
    uint32_t id = s->ids[place];
    s->tokens--;
    s->ids[place] = s->ids[s->tokens];
    s->keys[place] = s->keys[s->tokens];
    HOLDS(zl_liveliness_undeclare_token(&engine, s->number, id) == ZL_OK);
    HOLDS(zl_liveliness_undeclare_token(&engine, s->number, id) == ZL_NO_SUCH_TOKEN);
}

static void reopen(struct session *s, uint32_t *last) {
    uint32_t number = s->number, token;
    HOLDS(zl_face_close(&engine, number) == ZL_OK);
    HOLDS(zl_liveliness_declare_token(&engine, number, (const uint8_t *)"e", 1, &token) == ZL_NO_SUCH_FACE);
    s->tokens = 0;
    open_session(s);
    HOLDS(s->number > number);
    *last = 0;
}

int main(int count, char **words) {
    uint32_t last[SESSIONS] = {0};
    state = count > 1 ? strtoull(words[1], NULL, 10) : 1;
    HOLDS(zl_open(&engine, 0, 1, ZL_PEER, 1000) == ZL_OK);
    for (int s = 0; s < SESSIONS; s++) open_session(&sessions[s]);
    for (int call = 0; call < CALLS; call++) {
        uint32_t n = below(SESSIONS), choice = below(20);
        struct session *s = &sessions[n];
        if (choice < 7) declare(s, &last[n]);
        else if (choice < 14 && s->tokens > 0) undeclare(s);
        else if (choice < 18) ask(s);
        else if (choice == 18) HOLDS(zl_expire(&engine, (uint64_t)call) == ZL_OK);
        else if (below(10) == 0) reopen(s, &last[n]);
        for (int i = 0; i < SESSIONS; i++) read_samples(&sessions[i]);
    }
    HOLDS(zl_close(&engine) == ZL_OK);
    return 0;
}
