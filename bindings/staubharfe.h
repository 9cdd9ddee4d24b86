/* The boundary for C and C++: what `tools/build bridge` writes to target/staticlib/libbridge.a. The structs are those
 * of crates/world/src, crates/protocol/src/ending.rt and crates/bridge/src/lib.rt, field by field; src/world.rs says
 * the same for Rust. A code is an answer's or a refusal's; a number is what the orderer gives; a serial is a client's
 * own number of its request.
 *
 * A slice is two parameters, a pointer to its first byte and its length; the pointer is not null, even where the length
 * is 0. A const pointer's bytes are read and never written. Worlds pass by value. No function keeps a pointer,
 * allocates, or has a precondition. */
#ifndef STAUBHARFE_H
#define STAUBHARFE_H

#include <stdbool.h>
#include <stddef.h>
#include <stdint.h>

#ifdef __cplusplus
#define STAUBHARFE_ASSERT static_assert
extern "C" {
#else
#define STAUBHARFE_ASSERT _Static_assert
#endif

/* The answers to a step (0 to 13) and the refusals (20 to 28), each with its name: docs/PROTOCOL.md says when. */
#define STAUBHARFE_EACH_CODE(X)                                                                                        \
    X(DONE, 0) X(DROPPED, 1) X(WAIT, 2) X(DISMISSED, 3) X(BAD_SERVER, 4) X(WRONG_SIDE, 5) X(NO_SUCH, 6)                \
    X(BAD_FIELD, 7) X(SAME_DIGEST, 8) X(NO_ROOM, 9) X(QUOTA, 10) X(UNKNOWN, 11) X(WRONG_DIGEST, 12) X(RECALL, 13)      \
    X(TOO_LONG, 20) X(NO_START, 21) X(BAD_KIND, 22) X(SECOND_START, 23) X(CUT, 24) X(BAD_START, 25) X(OUT_SMALL, 26)   \
    X(BAD_WORLD, 27) X(DIGEST_LONG, 28)

/* STAUBHARFE_DONE, STAUBHARFE_DROPPED and so on. */
enum staubharfe_code {
#define STAUBHARFE_ONE(name, code) STAUBHARFE_##name = code,
    STAUBHARFE_EACH_CODE(STAUBHARFE_ONE)
#undef STAUBHARFE_ONE
};

/* A code's name as text, or a null pointer where no answer and no refusal has it. */
static inline const char *staubharfe_name(uint8_t code)
{
    switch (code) {
#define STAUBHARFE_ONE(name, code) \
    case code:                     \
        return #name;
        STAUBHARFE_EACH_CODE(STAUBHARFE_ONE)
#undef STAUBHARFE_ONE
    default:
        return NULL;
    }
}

/* The sizes of document 01. */
enum {
    STAUBHARFE_SERVERS = 8,
    STAUBHARFE_REQUESTS = 128,
    STAUBHARFE_EXECUTIONS = 16,
    STAUBHARFE_PLACES = 64,
    STAUBHARFE_DELIVERIES = STAUBHARFE_SERVERS * STAUBHARFE_EXECUTIONS,
    STAUBHARFE_COMMAND = 24,
    STAUBHARFE_DIGEST = 32
};

/* Who takes part, and who of them is faulty. */
struct staubharfe_roster {
    uint8_t n;
    uint8_t faulty;
};

/* A slot of a request; the serial is the client's own number of it. */
struct staubharfe_request {
    uint32_t serial;
    uint8_t client;
    uint8_t seals;
    uint8_t command[STAUBHARFE_COMMAND];
    uint8_t digest[STAUBHARFE_DIGEST];
};

/* The stored requests, by slot. */
struct staubharfe_requests {
    struct staubharfe_request slots[STAUBHARFE_REQUESTS];
    uint8_t count;
};

/* What the orderer keeps of one sending; number 0 is none. */
struct staubharfe_execution {
    uint32_t number;
    uint16_t id;
    uint8_t called;
    uint8_t mask;
    uint8_t digest[STAUBHARFE_DIGEST];
};

/* The executions of one sender, the oldest first. */
struct staubharfe_executions {
    struct staubharfe_execution table[STAUBHARFE_EXECUTIONS];
    uint8_t count;
};

/* A sending: who sent it, under which id, the request of which slot. */
struct staubharfe_sending {
    uint16_t id;
    uint8_t sender;
    uint8_t slot;
};

/* An outgoing place: a packet, or none. */
struct staubharfe_packet {
    struct staubharfe_sending sending;
    bool there;
    uint8_t to;
};

/* The outgoing places of one origin. */
struct staubharfe_outgoing {
    struct staubharfe_packet places[STAUBHARFE_PLACES];
};

/* A hold place: an entry at stage one to three, or, at stage 0, none. */
struct staubharfe_entry {
    uint32_t number;
    struct staubharfe_sending sending;
    uint8_t stage;
};

/* The hold places of one server. */
struct staubharfe_hold {
    struct staubharfe_entry places[STAUBHARFE_PLACES];
};

/* What one server has delivered, the first first. */
struct staubharfe_delivered {
    struct staubharfe_sending items[STAUBHARFE_DELIVERIES];
    uint32_t count;
};

/* The whole world between two steps; numbered is M. */
struct staubharfe_world {
    struct staubharfe_roster roster;
    uint32_t numbered;
    struct staubharfe_requests requests;
    struct staubharfe_executions executions[STAUBHARFE_SERVERS];
    struct staubharfe_outgoing outgoing[STAUBHARFE_SERVERS];
    struct staubharfe_hold holds[STAUBHARFE_SERVERS];
    struct staubharfe_delivered delivered[STAUBHARFE_SERVERS];
};

/* A step's or a start's end: the code of its answer or refusal, and the world after. */
struct staubharfe_outcome {
    uint8_t code;
    struct staubharfe_world world;
};

/* How a run ended: 0 and the count of records behind the start, or a refusal's code and offset; and the world at its
 * end, a world of zeros where it is refused. */
struct staubharfe_ran {
    size_t offset;
    size_t records;
    uint8_t code;
    struct staubharfe_world world;
};

STAUBHARFE_ASSERT(sizeof(struct staubharfe_requests) == 8196, "as in src/world.rs");
STAUBHARFE_ASSERT(sizeof(struct staubharfe_executions) == 644, "as in src/world.rs");
STAUBHARFE_ASSERT(sizeof(struct staubharfe_sending) == 4, "as in src/world.rs");
STAUBHARFE_ASSERT(sizeof(struct staubharfe_packet) == 6, "as in src/world.rs");
STAUBHARFE_ASSERT(sizeof(struct staubharfe_entry) == 12, "as in src/world.rs");
STAUBHARFE_ASSERT(sizeof(struct staubharfe_world) == 26700, "as in src/world.rs");

/* The digest of a message of at most 55 bytes into out, and 0; for a longer one zeros, and 28. */
uint8_t staubharfe_sha256(const uint8_t *message, size_t length, uint8_t out[STAUBHARFE_DIGEST]);

/* A fresh world with 0; 25 and a world of zeros where no world may start so. */
struct staubharfe_outcome staubharfe_start(uint8_t n, uint8_t faulty);

/* The step of one record: its answer's code, or why it is refused (22, 23, 24, 27), and the world after. */
struct staubharfe_outcome staubharfe_step(struct staubharfe_world world, const uint8_t *record, size_t length);

/* Runs a schedule and writes one answer for each record behind the start; refused (20 to 26), it writes nothing. */
struct staubharfe_ran staubharfe_run(const uint8_t *schedule, size_t length, uint8_t *answers, size_t room);

/* Whether a world is quiet. */
bool staubharfe_quiet(struct staubharfe_world world);

#ifdef __cplusplus
}
#endif

#endif
