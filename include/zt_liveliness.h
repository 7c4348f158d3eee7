/*
 * The liveliness engine of zt for C, C++ and all that can call C.
 *
 * zl_run carries out a whole script in memory. All other functions are calls on an engine: a gateway with sessions and uplinks.
 *
 * The library is proved: what is said here of answers, numbers and bytes is what crates/zt_liveliness_c/specs/Running.antt and
 * Handles.antt say, for every argument. Nothing checks that a caller passes what is asked for here.
 *
 * Link with the library and with the Rattle kit's C part (see README.md, 'Use it from C'). It calls malloc, realloc and free
 * of the program, and starts no thread. Calls on different engines share nothing, so several threads may make them at the same
 * time. Calls on one engine come one after another, from the thread that opened it.
 */
#ifndef ZT_LIVELINESS_H
#define ZT_LIVELINESS_H

#include <stdbool.h>
#include <stddef.h>
#include <stdint.h>

#ifdef __cplusplus
extern "C" {
#endif

/** What a call came to. zl_run gives the first five, all other calls those but 1 and 2. */
enum zl_status {
    /** zl_run: the whole transcript was written. Else: the call was carried out. */
    ZL_OK = 0,
    /** A line isn't in the grammar: the one after the last entry. The transcript has the lines before it. */
    ZL_MALFORMED_LINE = 1,
    /** The script is longer than 1,048,576 bytes. The transcript has the lines that end within these. */
    ZL_TOO_LONG = 2,
    /**
     * zl_run: what one of the statuses above gives is longer than the buffer, which has its first bytes. Else: the key that
     * waits is longer than the buffer, which is as it was, and nothing was taken.
     */
    ZL_SHORT_BUFFER = 4,
    /**
     * Memory ran out. zl_run: whatever the room, the run wrote a beginning of the transcript; the buffer has what fits of it.
     * Else: nothing changed.
     */
    ZL_OUT_OF_MEMORY = 5,
    /** The handle has no engine. */
    ZL_NOT_OPEN = 6,
    /** The handle has an engine already, and keeps it. */
    ZL_ALREADY_OPEN = 7,
    /** A number is none of those that the argument may have. */
    ZL_BAD_ARGUMENT = 8,
    /** The bytes are no key expression. */
    ZL_BAD_KEY = 9,
    /** The number isn't that of an open session or uplink, whichever the call takes. */
    ZL_NO_SUCH_FACE = 10,
    /** The token's session is closed, or it has no live token of this id. */
    ZL_NO_SUCH_TOKEN = 11,
    /** The session has no subscriber of this id. */
    ZL_NO_SUCH_SUBSCRIBER = 12,
    /** The session has no query of this id, or its end was given. */
    ZL_NO_SUCH_GET = 13,
    /** 4,294,967,295 tokens, or queries and subscribers, were made on the session: there is no id left. */
    ZL_SPENT = 14,
    /** Nothing waits. */
    ZL_NOTHING = 15,
    /** All replies of the query were given. It comes once. */
    ZL_ENDED = 16,
    /** The gateway refuses the call. The status is this and one of `enum zl_refusal`. */
    ZL_REFUSED = 100
};

/** Why the gateway refuses a call, after ZL_REFUSED. README.md and docs/MEANING.md say more. The others come from zl_run alone. */
enum zl_refusal {
    /** The remote doesn't fit the north of this gateway. */
    ZL_REGION_CONFLICT = 7,
    /** A client gateway has one uplink. */
    ZL_NORTH_TAKEN = 8,
    /** A message comes from an uplink that may not send it. */
    ZL_ANSWER_FROM_SOUTH = 10,
    ZL_FINAL_FROM_SOUTH = 11,
    ZL_INTEREST_FROM_ROUTER = 12,
    ZL_INTEREST_FROM_NORTH = 13,
    /** A current interest asks for tokens, and for no subscribers or queryables. */
    ZL_ILLEGAL_CURRENT = 14,
    /** An interest of the face has this id still. */
    ZL_INTEREST_ID_IN_USE = 15,
    /** The face doesn't hold an interest with this id. */
    ZL_UNKNOWN_INTEREST = 16,
    /** The id is that of no interest that was sent to the uplink. */
    ZL_UNKNOWN_ASK = 17,
    /** The node id names no router. */
    ZL_UNKNOWN_ROUTER = 18,
    /** Ids of tokens begin at 1. */
    ZL_TOKEN_ID_ZERO = 19,
    /** The id is that of a live token of the face with another key. */
    ZL_TOKEN_ID_IN_USE = 20,
    /** The id is that of no live token of the face, and no key is given. */
    ZL_UNKNOWN_TOKEN = 21,
    /** The moment is before the last one. */
    ZL_MOMENT_BACK = 22,
    /** The gateway's dictionary would hold more than 65,535 keys. */
    ZL_DICTIONARY_FULL = 23,
    /** A face has too few ids left for what the call would send it. */
    ZL_IDS_SPENT = 24,
    /** All numbers of sessions and uplinks were given out. */
    ZL_NUMBERS_SPENT = 25
};

/**
 * Carries out a script and writes its transcript.
 *
 * @param script   the bytes of the script: lines as README.md lists them, each ended by a line feed
 * @param length   how many bytes the script has
 * @param out      where the transcript goes
 * @param room     how many bytes fit there
 * @param written  is set to the length of all that the run wrote in bytes, also where it is longer than the room
 *
 * @return  one of `enum zl_status`
 *
 * At ZL_SHORT_BUFFER the same call with room for `*written` bytes gives the rest too, and its status, unless memory runs
 * out. At ZL_OUT_OF_MEMORY `*written` is the length of a beginning of the transcript. Only the first `room` or `*written`
 * bytes of `out`, whichever is less, are written; the rest stays as it was.
 *
 * `script` and `out` are pointers to so many bytes that don't overlap, or anything, also NULL, where the length is 0.
 * `written` is a pointer to a size_t, outside both.
 */
uint32_t zl_run(const uint8_t *script, size_t length, uint8_t *out, size_t room, size_t *written);

/**
 * An engine, or none. Begin with ZL_CLOSED. Only the functions below read or write the fields. A handle may be moved, but not
 * be used in two places.
 */
typedef struct zl_engine {
    uint8_t *at;
    bool there;
} zl_engine;

/** A handle that has no engine. */
#define ZL_CLOSED {0, 0}

/*
 * What holds of all calls below:
 *
 * - The pointers to numbers, messages and handles are valid, and no two of them, nor a buffer, overlap.
 * - A key is `length` bytes at `key`, or anything, also NULL, where `length` is 0. The same holds of a buffer and its `room`.
 * - Each call on a handle without an engine answers ZL_NOT_OPEN and writes nothing, except zl_open.
 * - After a status other than ZL_OK and ZL_ENDED the engine is as it was, and so are the numbers that the call gives, except
 *   the length of a key at ZL_SHORT_BUFFER, and what zl_sample_try_recv and zl_uplink_send say.
 */

/** The modes of nodes, as zenoh-c numbers them. */
enum zl_whatami { ZL_ROUTER = 1, ZL_PEER = 2, ZL_CLIENT = 4 };

/** The bounds of regions. */
enum zl_bound { ZL_NORTH = 1, ZL_SOUTH = 2 };

/**
 * Opens an engine: a gateway without faces.
 *
 * @param engine    a handle without an engine
 * @param zid_high  the upper half of the number of the gateway, which isn't 0 as a whole
 * @param zid_low   the lower half
 * @param mode      one of `enum zl_whatami`
 * @param timeout   how long an interest that was sent upstream may wait for its end, in the unit of zl_expire
 *
 * @return  ZL_OK, ZL_ALREADY_OPEN, ZL_BAD_ARGUMENT or ZL_OUT_OF_MEMORY
 */
uint32_t zl_open(zl_engine *engine, uint64_t zid_high, uint64_t zid_low, uint32_t mode, uint64_t timeout);

/** Frees the engine. @return ZL_OK or ZL_NOT_OPEN. The handle has none then, and may be opened again. */
uint32_t zl_close(zl_engine *engine);

/**
 * Opens a session, in Zenoh a session of the application.
 *
 * @param session  is set to its number, from 1. Sessions and uplinks are numbered together, and no number comes twice
 *
 * @return  ZL_OK, ZL_NOT_OPEN, ZL_OUT_OF_MEMORY, or ZL_REFUSED + ZL_NUMBERS_SPENT
 */
uint32_t zl_session_open(zl_engine *engine, uint32_t *session);

/**
 * Opens an uplink, a face to a gateway above.
 *
 * @param zid_high, zid_low  the number of that gateway
 * @param mode    its mode, one of `enum zl_whatami`
 * @param bound   in which region that gateway has this one, one of `enum zl_bound`: ZL_SOUTH, or ZL_NORTH between two peers
 * @param uplink  is set to the number of the uplink
 *
 * @return  ZL_OK, ZL_NOT_OPEN, ZL_BAD_ARGUMENT, ZL_OUT_OF_MEMORY, or ZL_REFUSED + ZL_REGION_CONFLICT, ZL_NORTH_TAKEN,
 *          ZL_IDS_SPENT or ZL_NUMBERS_SPENT
 */
uint32_t zl_uplink_open(zl_engine *engine, uint64_t zid_high, uint64_t zid_low, uint32_t mode, uint32_t bound, uint32_t *uplink);

/**
 * Closes a session or an uplink. All that it declared and asked for is gone, and what waits for it.
 *
 * @return  ZL_OK, ZL_NOT_OPEN, ZL_NO_SUCH_FACE, ZL_OUT_OF_MEMORY, or ZL_REFUSED + ZL_IDS_SPENT
 */
uint32_t zl_face_close(zl_engine *engine, uint32_t face);

/**
 * Declares a token of a session. It is alive until zl_liveliness_undeclare_token, or until its session is closed.
 *
 * @param token  is set to its id in the session, from 1
 *
 * @return  ZL_OK, ZL_NOT_OPEN, ZL_BAD_KEY, ZL_NO_SUCH_FACE, ZL_SPENT, ZL_OUT_OF_MEMORY, or ZL_REFUSED + a refusal
 */
uint32_t zl_liveliness_declare_token(zl_engine *engine, uint32_t session, const uint8_t *key, size_t length, uint32_t *token);

/** Undeclares a token. @return ZL_OK, ZL_NOT_OPEN, ZL_NO_SUCH_TOKEN, ZL_OUT_OF_MEMORY, or ZL_REFUSED + a refusal */
uint32_t zl_liveliness_undeclare_token(zl_engine *engine, uint32_t session, uint32_t token);

/**
 * Asks which tokens are there that match a key.
 *
 * @param query  is set to the id of the query in the session, from 1. Queries and subscribers are numbered together
 *
 * @return  as zl_liveliness_declare_token
 */
uint32_t zl_liveliness_get(zl_engine *engine, uint32_t session, const uint8_t *key, size_t length, uint32_t *query);

/**
 * Takes the next reply of a query, the key of a token, and then its end. This takes no memory.
 *
 * @param key     where the key goes
 * @param room    how many bytes fit there
 * @param length  is set to the length of the key, also where it is longer than the room
 *
 * @return  ZL_OK where a key was written; ZL_SHORT_BUFFER where it is longer than the room, and stays; ZL_ENDED at the end, once;
 *          ZL_NOTHING where no reply waits and the end hasn't come; ZL_NO_SUCH_GET or ZL_NOT_OPEN
 */
uint32_t zl_reply_try_recv(zl_engine *engine, uint32_t session, uint32_t query, uint8_t *key, size_t room, size_t *length);

/**
 * Declares a subscriber of a session to the tokens that match a key.
 *
 * @param history     with 0 it is given what its session is told from now on, else it begins with the tokens that are there
 * @param subscriber  is set to the id of the subscriber in the session
 *
 * @return  as zl_liveliness_declare_token
 */
uint32_t zl_liveliness_declare_subscriber(zl_engine *engine, uint32_t session, const uint8_t *key, size_t length,
                                          uint32_t history, uint32_t *subscriber);

/**
 * Undeclares a subscriber, and drops what waits for it.
 *
 * @return  ZL_OK, ZL_NOT_OPEN, ZL_NO_SUCH_FACE, ZL_NO_SUCH_SUBSCRIBER, ZL_OUT_OF_MEMORY, or ZL_REFUSED + a refusal
 */
uint32_t zl_undeclare_subscriber(zl_engine *engine, uint32_t session, uint32_t subscriber);

/** The kinds of samples, as zenoh-c numbers them: a token is alive, or gone. */
enum zl_sample_kind { ZL_PUT = 0, ZL_DELETE = 1 };

/**
 * Takes the next sample of a subscriber. This takes no memory.
 *
 * @param kind    is set to one of `enum zl_sample_kind`, also at ZL_SHORT_BUFFER
 * @param key     where the key goes
 * @param room    how many bytes fit there
 * @param length  is set to the length of the key, also where it is longer than the room
 *
 * @return  ZL_OK; ZL_SHORT_BUFFER where the key is longer than the room, and the sample stays; ZL_NOTHING where none waits, or
 *          there is no such subscriber; ZL_NOT_OPEN
 */
uint32_t zl_sample_try_recv(zl_engine *engine, uint32_t session, uint32_t subscriber, uint32_t *kind, uint8_t *key, size_t room,
                            size_t *length);

/** The kinds of messages between gateways. In brackets the fields that each uses. */
enum zl_message_kind {
    /** A token is alive. (id, node_id, a key) */
    ZL_TOKEN = 1,
    /** A token is alive, in answer to an interest. (id, interest_id, node_id, a key) */
    ZL_ANSWER = 2,
    /** The token of an id is gone, or with the id 0 that of the key. (id, node_id, a key or none) */
    ZL_UNTOKEN = 3,
    /** An interest got all its answers. (interest_id) */
    ZL_FINAL = 4,
    /** An interest in what matches a key, or without one in all. (id, mode, options, a key or none) */
    ZL_INTEREST = 5,
    /** The end of an interest. (id) */
    ZL_INTEREST_FINAL = 6,
    /** A subscriber, in answer to an interest. (id, interest_id, a key) */
    ZL_SUBSCRIBER = 7,
    /** A queryable, in answer to an interest. (id, interest_id, complete, distance, a key) */
    ZL_QUERYABLE = 8
};

/** A message without its key. A field that its kind doesn't use is 0 in what is sent, and isn't looked at in what is received. */
typedef struct zl_message {
    /** One of `enum zl_message_kind`. */
    uint32_t kind;
    uint32_t id;
    uint32_t interest_id;
    /** Up to 65535. */
    uint32_t node_id;
    /** 1 asks for what is there now, 2 for what comes, 3 for both. */
    uint32_t mode;
    /** Bits: 1 key expressions, 2 subscribers, 4 queryables, 8 tokens, 16 aggregated. Up to 255. */
    uint32_t options;
    /** 0 or 1; received, all but 0 is 1. */
    uint32_t complete;
    /** Up to 65535. */
    uint32_t distance;
} zl_message;

/**
 * Takes the oldest message for the gateway above an uplink. The program carries it there. This takes no memory.
 *
 * @param message  is set to the message, also at ZL_SHORT_BUFFER
 * @param key      where its key goes
 * @param room     how many bytes fit there
 * @param length   is set to the length of the key, 0 where the message has none, also where it is longer than the room
 *
 * @return  ZL_OK; ZL_SHORT_BUFFER where the key is longer than the room, and the message stays; ZL_NOTHING where none waits, or
 *          there is no such uplink; ZL_NOT_OPEN
 */
uint32_t zl_uplink_send(zl_engine *engine, uint32_t uplink, zl_message *message, uint8_t *key, size_t room, size_t *length);

/**
 * Gives the engine a message that the gateway above an uplink sent.
 *
 * @param key, length  the key of the message; a length of 0 where it has none
 *
 * @return  ZL_OK, ZL_NOT_OPEN, ZL_BAD_KEY, ZL_BAD_ARGUMENT where the fields and the key are no message, ZL_NO_SUCH_FACE,
 *          ZL_OUT_OF_MEMORY, or ZL_REFUSED + a refusal
 */
uint32_t zl_uplink_receive(zl_engine *engine, uint32_t uplink, const zl_message *message, const uint8_t *key, size_t length);

/**
 * Sets the moment, and ends what has waited for the timeout.
 *
 * @param now  a time in a unit of the program's choice, not before the last one. The first is 0
 *
 * @return  ZL_OK, ZL_NOT_OPEN, ZL_OUT_OF_MEMORY, or ZL_REFUSED + ZL_MOMENT_BACK or another refusal
 */
uint32_t zl_expire(zl_engine *engine, uint64_t now);

#ifdef __cplusplus
}
#endif

#endif
