/* keystate.h: a KERI key-state machine for a device, in five calls over buffers that the caller lends.
 *
 * The library keeps nothing, allocates nothing and calls nothing but memcpy and memset. A key state lives in a buffer of yours
 * as a run of bytes (a "KS" record, at most KEYSTATE_STATE_BYTES); a buffer of which 0 bytes are used holds no state yet. Every
 * call is proved to answer for every input: there is nothing to check before a call. What comes back is a number of the table
 * below. A number other than KEYSTATE_ACCEPTED is a refusal, and a refusal changes no byte of the state.
 *
 * The order of calls
 *   1. `uint8_t state[KEYSTATE_STATE_BYTES]; size_t used = 0;`   or fill both from flash
 *   2. keystate_offer for each record, in the order in which they come
 *   3. after KEYSTATE_ACCEPTED write the first `used` bytes of `state` to flash: all that is to be kept
 *   4. keystate_ask says whether a state is held, and its number
 *
 * A record is two letters (IC, RO, IX, DI, DR or KS), the body's length as two bytes, high byte first, and the body. Signatures
 * are not verified here: each of a record's signatures ends in two bytes, which your code sets before the call.
 *   second last byte   1 where the signature verifies under the key (of a receipt: the witness) that its index names, else 0
 *   last byte          1 where that key's digest is the one that its ondex names among the digests committed to, else 0
 * They are as trustworthy as what sets them. Never take them over from the wire.
 *
 * The pointers of one call must be valid for their lengths, must not be NULL and must not overlap. All calls may be made from
 * any thread, and from several at a time on different buffers. The deepest call needs KEYSTATE_STACK_BYTES of stack.
 *
 * Link with libkeystate.a (x86-64 Linux), or with the same module compiled for your processor: see docs/DEVICE.md.
 */
#ifndef KEYSTATE_H
#define KEYSTATE_H

#include <stddef.h>
#include <stdint.h>

#ifdef __cplusplus
extern "C" {
#endif

/* A state buffer of this size is never too short (41 never comes). */
#define KEYSTATE_STATE_BYTES 2285
/* No record that can be accepted is longer, with its 4 leading bytes. */
#define KEYSTATE_RECORD_BYTES 10089
/* Measured by measure/stack, rounded up; it is no part of what is proved. */
#define KEYSTATE_STACK_BYTES 14336

/* The numbers. a and b are the details: 0 unless named here. b of 27 and 28 is the first clause of a weighted threshold that is not
 * satisfied, counted from 1; 0 where there is none to name, since the threshold is a number or has no clauses. 27 speaks of the
 * record's own threshold (of the state's for an interaction), 28 of the next threshold that the state holds. */
enum keystate_number {
  KEYSTATE_ACCEPTED = 0,
  KEYSTATE_TRUNCATED = 1,                              /* fewer bytes than the record says; or `used` above the buffer's size */
  KEYSTATE_UNKNOWN_MARK = 2,                           /* two letters that are no mark, or not one for this place */
  KEYSTATE_BAD_FIELD = 3,                              /* a short body, a byte outside its class, bytes left over */
  KEYSTATE_TOO_MANY = 4,                               /* a count above its limit */
  KEYSTATE_STATE_HELD = 5,                             /* a KS while a state is held */
  KEYSTATE_EVIDENCE_REQUIRED = 6,                      /* a delegated inception */
  KEYSTATE_DELEGATOR_UNKNOWN = 7,                      /* a delegated rotation */
  KEYSTATE_NOT_INCEPTION = 8,                          /* no state is held and the record is no inception; keystate_ask: no state */
  KEYSTATE_DUPLICATE_INCEPTION = 9,
  KEYSTATE_NON_TRANSFERABLE_STATE = 10,                /* the state takes no event any more */
  KEYSTATE_NON_ZERO_GENESIS_SN = 11,                   /* a: the inception's number */
  KEYSTATE_BASIC_KEY_COUNT = 12,                       /* a: how many keys */
  KEYSTATE_BASIC_THRESHOLD = 13,
  KEYSTATE_BASIC_KEY_MISMATCH = 14,
  KEYSTATE_NON_TRANSFERABLE_NEXT_KEYS = 15,
  KEYSTATE_NON_TRANSFERABLE_WITNESSES = 16,
  KEYSTATE_NON_TRANSFERABLE_ANCHORS = 17,
  KEYSTATE_DUPLICATE = 18,                             /* a: 1 witnesses, 2 removals, 3 additions */
  KEYSTATE_TRANSFERABLE_WITNESS = 19,                  /* a: as in 18 */
  KEYSTATE_CUT_ADD_OVERLAP = 20,
  KEYSTATE_REMOVAL_NOT_CURRENT = 21,
  KEYSTATE_ADDITION_ALREADY_PRESENT = 22,
  KEYSTATE_BELOW_MINIMUM = 23,                         /* a threshold of 0 */
  KEYSTATE_EXCEEDS_KEY_COUNT = 24,                     /* a: required, b: keys */
  KEYSTATE_EMPTY_CLAUSE_LIST = 25,
  KEYSTATE_EMPTY_CLAUSE = 26,
  KEYSTATE_MISSING_SIGNATURES = 27,                    /* a: how many keys signed, b: the clause that is short */
  KEYSTATE_PRIOR_NEXT_THRESHOLD_UNSATISFIED = 28,      /* a: how many committed keys were shown, b: as in 27 */
  KEYSTATE_NON_TRANSFERABLE_COMMITS_NEXT_KEYS = 29,    /* reserved: never answered, since 12 to 15 come first (docs/NUMBERS.md) */
  KEYSTATE_WITNESS_THRESHOLD_ZERO_WITH_WITNESSES = 30, /* a: witnesses */
  KEYSTATE_WITNESS_THRESHOLD_EXCEEDED = 31,            /* a: the threshold, b: witnesses */
  KEYSTATE_INSUFFICIENT_WITNESS_RECEIPTS = 32,         /* a: valid ones, b: required */
  KEYSTATE_IDENTIFIER_MISMATCH = 33,
  KEYSTATE_SEQUENCE_NUMBER_OVERFLOW = 34,              /* the state has the last number of all */
  KEYSTATE_OUT_OF_ORDER = 35,                          /* a: expected, b: actual */
  KEYSTATE_PRIOR_DIGEST_MISMATCH = 36,
  KEYSTATE_INTERACTION_ON_ESTABLISHMENT_ONLY = 37,
  KEYSTATE_TOO_MANY_WITNESSES = 38,                    /* a: how many there would be */
  /* 39 and 40 belong to calls that this library does not have */
  KEYSTATE_NO_ROOM = 41                                /* the state buffer is too short; a: bytes needed */
};

/* Where a and b stand in `details`. Each is a number of 128 bits: a high word and a low word. */
enum keystate_detail { KEYSTATE_A_HIGH = 0, KEYSTATE_A_LOW = 1, KEYSTATE_B_HIGH = 2, KEYSTATE_B_LOW = 3 };

/* Offers the first record of `input` to the state in `state`, of whose `capacity` bytes the first `*used` are the state.
 * Accepted: the state's bytes are replaced by the next state's, `*used` is their number, and the bytes of `state` behind them
 * are as they were. Otherwise `state` and `*used` are as they were. `details` is written in every case.
 * Bytes that are no state come first: 1 to 4 speak of `state` then, else of the record (keystate_ask tells the two apart).
 * What stands in `input` behind its first record is not looked at. */
uint8_t keystate_offer(uint8_t *state, size_t capacity, size_t *used, const uint8_t *input, size_t length, uint64_t details[4]);

/* The same without the checks: sets the fields that the record would set, for a history that was checked before. An inception
 * starts afresh, even over a state; a KS is 2, DI and DR are 6, RO and IX on no state are 8, too many witnesses are 38. */
uint8_t keystate_fold(uint8_t *state, size_t capacity, size_t *used, const uint8_t *input, size_t length, uint64_t details[4]);

/* What the first `used` bytes of `state` are: 0, a state, with its number as a; 8, no state (used is 0); 1 to 4, no state's bytes. */
uint8_t keystate_ask(const uint8_t *state, size_t used, uint64_t details[4]);

/* How many bytes the first record of `input` takes, whatever it gets; all of them where it is cut short. For input that holds
 * several records one after the other. */
size_t keystate_length(const uint8_t *input, size_t length);

/* Whether `keys` keys can satisfy a threshold at all; `threshold` holds its bytes as they stand in a record, and nothing else.
 * 0 with *yes 1 or 0; 3 or 4 (more than 16 keys too) with *yes 0. */
uint8_t keystate_attainable(const uint8_t *threshold, size_t length, size_t keys, uint8_t *yes);

#ifdef __cplusplus
}
#endif
#endif
