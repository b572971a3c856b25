/* The keeper's calls, as C sees them, in libkeeper.a (make library). docs/RULES.md has the rules.
   A lent slice is two arguments, a pointer and a length: of bytes, its name ends in _len and counts bytes; of numbers of 32 or 64 bits, it ends in
   _count and counts the numbers. Each call returns a number: KEEPER_DONE, or the first refusal that applies, in the order that stands at the call. A
   refusal changes no lent byte and no result. No call keeps anything when it returns: any number of threads may call at once, each with its own
   bytes.
   What the caller owes, and nothing checks:
   - each pointer is good for its length, to read or to write; one of length 0 is not looked at and may be NULL;
   - no length is longer than the object behind its pointer, which C keeps below 2^63 bytes;
   - a mode, a keeper_parts and a result pointer are not NULL; they, and the numbers of a slice, are aligned as their types are;
   - what a call writes, results too, overlaps nothing else that it is lent: so a finder's two buffers lie apart.
   No proof compares this file with the calls in crates/keeper, crates/parts_c and crates/passage_c; outside/ calls every function by it. */
#ifndef KEEPER_H
#define KEEPER_H
#include <stddef.h>
#include <stdint.h>
#ifdef __cplusplus
extern "C" {
#endif

/* The numbers, and what a caller does about each. */
enum {
    /* done: use the results */
    KEEPER_DONE = 0,
    /* no leaf count up to 2^32 has this size: the size that was kept is wrong, and the log is not to be used with it */
    KEEPER_NO_SUCH_SIZE = 1,
    /* append at 2^32 leaves, or a count above 2^32: the log is full; begin another */
    KEEPER_TOO_MANY_LEAVES = 2,
    /* record or stated record length above 16,384: cut the record, or log its digest; a letter or a node that states it is damaged */
    KEEPER_RECORD_TOO_LONG = 3,
    /* node buffer under 32 x size bytes (append: new size): lend more */
    KEEPER_NODES_TOO_SHORT = 4,
    /* index not below the leaf count (position of a leaf alone: not below 2^32): ask for a leaf that the log has; a letter for it shows nothing */
    KEEPER_NO_SUCH_LEAF = 5,
    /* output buffer too short: lend as many bytes, or places, as stand at the call */
    KEEPER_OUTPUT_TOO_SHORT = 6,
    /* letter under 20 bytes, passage letter under 10 or ending within a record, or either not of its exact length: it was cut, or something was put
       behind it; ask for it again */
    KEEPER_NOT_A_LETTER = 7,
    /* letter names another size: it is about another state of the log; ask for one of the size that is trusted */
    KEEPER_OTHER_SIZE = 8,
    /* root worked out from the letter differs: the letter shows nothing about this log, and its records are not to be taken for the logged ones */
    KEEPER_OTHER_ROOT = 9,
    /* root of an empty log: append a record first */
    KEEPER_EMPTY_LOG = 10,
    /* stored node with unknown flag or wrong length: the bytes are damaged; take them from a copy */
    KEEPER_NOT_A_NODE = 11,
    /* trusted root, or the digest of an inner node, not 32 bytes: lend the 32 */
    KEEPER_NOT_A_DIGEST = 12,
    /* record's digest isn't the leaf at its place: this is not the record that was logged at the index */
    KEEPER_OTHER_RECORD = 13,
    /* finder: a node that it looks into, within its peak, isn't the digest of its two children: the nodes are damaged; take them from a copy */
    KEEPER_DAMAGED_NODES = 14,
    /* 15 is struck: it was for a letter of more than 32 items, which no log needs. No call answers it, and it will never mean anything else */
    /* lengths do not add up to the joined records; in a passage also, not one length for each index: a record was left out or cut, or a length is
       another's; join them again, one length for each */
    KEEPER_LENGTHS_OFF = 16,
    /* digest in parts: a part that would pass 2^40 bytes in all, a state with a total above that, or one whose counts are not its total's: the input
       is too long for it, or the state is damaged; begin again, with the first byte */
    KEEPER_PARTS_OFF = 17,
    /* digest in a stored leaf isn't that of its record: the record or the digest in it was changed, or the leaf was written in another mode (another
       league's key, or none): do not use its record; take the leaf from a copy, and read it in the log's own mode */
    KEEPER_OTHER_DIGEST = 18,
    /* list of indexes empty, of more than 256, or not rising strictly: sort the indexes, leave out doubles, ask for at most 256 in one letter; a
       letter that names such a list is damaged */
    KEEPER_NOT_RISING = 19,
    /* key not 32 bytes: take the league's key whole, and nothing with it */
    KEEPER_NOT_A_KEY = 24
};

/* A mode of the digest: BLAKE3's plain hash where keyed is 0, and the key then means nothing; where it is any other number, BLAKE3's keyed hash under
   the key. Any bytes are a mode. A log is in one mode from its first record on: its nodes, roots and letters are of no use in another. The bytes of
   a key are the caller's to wipe. */
typedef struct keeper_mode {
    uint32_t keyed;
    uint8_t key[32];
} keeper_mode;

/* The digest of input that comes in parts, between two of them: keeper_parts_begin makes it, keeper_parts_add and keeper_parts_end go on from it. It
   is the caller's own, holds no pointer, and may be copied: each copy goes on by itself. A caller may read total. The other fields are for those
   calls (RULES 5.7): held and stacked have to be those of the total, or the number is 17; the rest is hashed as it stands, so that a state which was
   changed, or never begun, may get an answer that is no digest of anybody's input. Any bytes get an answer. In a keyed mode the key is among them,
   and in every mode some of the input: the bytes of a state are the caller's to wipe. */
typedef struct keeper_parts {
    uint64_t total;      /* byte 0: how many bytes were taken in all */
    uint64_t held;       /* byte 8: how many of them the block holds */
    uint32_t stacked;    /* byte 16: how many finished subtrees the stack holds */
    uint32_t keyed;      /* byte 20: 0 is plain, any other number keyed */
    uint32_t key[8];     /* byte 24: the key's words */
    uint32_t chain[8];   /* byte 56: the chaining words of the held block */
    uint32_t stack[240]; /* byte 88: finished subtrees, eight words each */
    uint8_t block[64];   /* byte 1,048: the held block. 1,112 bytes in all, none of them between fields */
} keeper_parts;

/* The kinds of a stored node. */
enum {
    KEEPER_INNER = 0,
    KEEPER_LEAF = 1
};

/* What a finder finds. */
enum {
    KEEPER_SAME = 1,
    KEEPER_RECORDS = 2,
    KEEPER_PAIR = 3
};

/* The plain mode: all 36 bytes are 0. It is never refused. */
uint32_t keeper_mode_plain(keeper_mode *mode);

/* The keyed mode of a key: keyed is 1. 24, and then the mode is as it was. */
uint32_t keeper_mode_keyed(const uint8_t *key, size_t key_len, keeper_mode *mode);

/* The digest, BLAKE3's hash of 32 bytes in that mode, of any bytes, into the first 32 bytes of out. 6. */
uint32_t keeper_digest(const keeper_mode *mode, const uint8_t *bytes, size_t bytes_len, uint8_t *out, size_t out_len);

/* A digest in parts, begun in that mode: nothing is taken yet. The state keeps the mode, and the two calls below take none. Every byte of the state
   is written, whatever it was. It is never refused. */
uint32_t keeper_parts_begin(const keeper_mode *mode, keeper_parts *state);

/* The next bytes of the input, from none up. However an input is cut into parts, the state behind the last of them is the same, to the byte. A part
   of no bytes leaves every byte of the state. 17, and then the state is as it was. */
uint32_t keeper_parts_add(keeper_parts *state, const uint8_t *part, size_t part_len);

/* The digest of all bytes that were added, as keeper_digest gives it for them at once in the mode that the state was begun in, into the first 32
   bytes of out. The state is only read: more may be added. 17, 6. */
uint32_t keeper_parts_end(const keeper_parts *state, uint8_t *out, size_t out_len);

/* The size of so many leaves: 2n minus the number of ones in n. 2. */
uint32_t keeper_size(uint64_t leaves, uint64_t *size);

/* Where a leaf stands: leaf i at 2i minus the ones in i. 5. */
uint32_t keeper_leaf_position(uint64_t index, uint64_t *position);

/* How many leaves have this size. 1. */
uint32_t keeper_leaf_count(uint64_t size, uint64_t *leaves);

/* One more record. nodes holds the log's digests, the one at position p in bytes 32p to 32p + 31; bytes beyond the size mean nothing. Writes the
   leaf, then as many parents as the leaf count has trailing ones, from byte 32 x size on. new_size is the size with them, hashes how many
   digests were worked out. 1, 2, 3, 4. */
uint32_t keeper_append(const keeper_mode *mode, uint64_t size, const uint8_t *rec, size_t rec_len, uint8_t *nodes, size_t nodes_len,
                       uint64_t *new_size, uint64_t *hashes);

/* Many records in one call: records has them joined, one behind the other, and lengths how many bytes each has, in the same order. Writes what
   keeper_append writes for one after the other; new_size and hashes are the size after the last and the hashes of all together. Nothing is written
   unless every record is taken. No record at all is done, at 2^32 leaves too: new_size is size and hashes 0, whatever nodes holds. 1, 16, then the
   first of 2, 3, 4 that appending one by one would meet, which is that of the first record that has any. */
uint32_t keeper_append_many(const keeper_mode *mode, uint64_t size, const uint8_t *records, size_t records_len, const uint32_t *lengths,
                            size_t lengths_count, uint8_t *nodes, size_t nodes_len, uint64_t *new_size, uint64_t *hashes);

/* The root, into the first 32 bytes of out: the rightmost peak, folded leftward. 1, 10, 4, 6. */
uint32_t keeper_root(const keeper_mode *mode, uint64_t size, const uint8_t *nodes, size_t nodes_len, uint8_t *out, size_t out_len);

/* A stored leaf, into the first bytes of out: byte 01, digest, record length (4 bytes, big-endian), record. The digest is worked out from the
   record. length is how many bytes were written, 37 + rec_len. 3, 6. */
uint32_t keeper_store_leaf(const keeper_mode *mode, const uint8_t *rec, size_t rec_len, uint8_t *out, size_t out_len, size_t *length);

/* A stored inner node, into the first bytes of out: byte 00, digest. length is how many bytes were written, 33. 12, 6. */
uint32_t keeper_store_inner(const uint8_t *digest, size_t digest_len, uint8_t *out, size_t out_len, size_t *length);

/* A stored node, read: its kind, KEEPER_INNER or KEEPER_LEAF; its digest, into the first 32 bytes of out: for a leaf it is that of its record,
   worked out in that mode, for an inner node taken as it stands in every mode; its record, which is the record_len bytes from bytes + record_at on,
   none for an inner node. 11 (its form), 3, 11 (the exact length), 18, 6. */
uint32_t keeper_read_node(const keeper_mode *mode, const uint8_t *bytes, size_t bytes_len, uint32_t *kind, uint8_t *out, size_t out_len,
                          size_t *record_at, size_t *record_len);

/* The letter of an index, into the first bytes of out: size (8), index (8), record length (4), all big-endian; record; items of 32 bytes. The
   record is the one that was logged there, and nodes the log's. length is how many bytes were written, 20 + rec_len + 32 for each item, of
   which there are at most 32. 1, 5, 3, 4, 13, 6. */
uint32_t keeper_letter_write(const keeper_mode *mode, uint64_t size, uint64_t index, const uint8_t *rec, size_t rec_len, const uint8_t *nodes,
                             size_t nodes_len, uint8_t *out, size_t out_len, size_t *length);

/* A letter, checked against a size and a root that the caller trusts: its index, and its record, which is the record_len bytes from
   letter + record_at on. 1, 12, 7 (under 20 bytes), 8, 5, 3, 7 (the exact length), 9. */
uint32_t keeper_letter_check(const keeper_mode *mode, uint64_t size, const uint8_t *root, size_t root_len, const uint8_t *letter, size_t letter_len,
                             uint64_t *index, size_t *record_at, size_t *record_len);

/* A letter compared with the log, where the log's own nodes accept it: rec is the record that the log has at the letter's index. Compares, from the
   root down, each 64-byte input of the log with that of the letter. At the first difference found is KEEPER_PAIR, with the log's input in the first
   64 bytes of first and the letter's in those of second: two different strings with one digest in that mode. With none it compares the records:
   KEEPER_RECORDS if they differ (rec and the letter's are then the two strings), else KEEPER_SAME. The buffers change only for KEEPER_PAIR.
   1, 10, 4, then with the root of its own nodes 7 (under 20 bytes), 8, 5, 3, 7 (the exact length), 9, then for rec 3 and 13, then 14,
   6 (either buffer under 64, whatever the outcome). */
uint32_t keeper_find(const keeper_mode *mode, uint64_t size, const uint8_t *nodes, size_t nodes_len, const uint8_t *rec, size_t rec_len,
                     const uint8_t *letter, size_t letter_len, uint8_t *first, size_t first_len, uint8_t *second, size_t second_len,
                     uint32_t *found);

/* One letter for a passage: several records of the log, into the first bytes of out: size (8), number of records (2), for each record its index (8),
   length (4) and bytes, numbers big-endian; then digests of 32 bytes. indexes rise strictly, 1 to 256 of them; records has the records that were
   logged there, joined in that order, and lengths how many bytes each has. nodes are the log's. length is how many bytes were written: 10, 12 + its
   length for each record, and 32 for each largest subtree of the folded tree that holds none of them (RULES 12.4); at most 4,393,994.
   1, 19, 16 (also unless one length for each index), then of the first record that has any 5, 3, then 4, 13 for any record, 6. */
uint32_t keeper_passage_write(const keeper_mode *mode, uint64_t size, const uint64_t *indexes, size_t indexes_count, const uint8_t *records,
                              size_t records_len, const uint32_t *lengths, size_t lengths_count, const uint8_t *nodes, size_t nodes_len,
                              uint8_t *out, size_t out_len, size_t *length);

/* A passage letter, checked against a size and a root that the caller trusts: how many records it has. Bytes 8 and 9 tell which check a letter is
   for: in keeper_letter_check's letters both are 0, in these they are not; what one of the two accepts the other refuses.
   1, 12, 7 (under 10 bytes), 8, 19 (the number), then for each record in turn 7 (its 12 bytes cut off), 19 (its index is not above the last one), 5,
   3, 7 (the record cut off), then 7 (the exact length), 9. */
uint32_t keeper_passage_check(const keeper_mode *mode, uint64_t size, const uint8_t *root, size_t root_len, const uint8_t *letter, size_t letter_len,
                              uint64_t *count);

/* Record k of a passage letter, counted from 0: its index, and its bytes, which are the record_len bytes from letter + record_at on. Past the last
   record all three are 0. The letter is checked each time: whoever wants all records takes the call below. The numbers of keeper_passage_check. */
uint32_t keeper_passage_entry(const keeper_mode *mode, uint64_t size, const uint8_t *root, size_t root_len, const uint8_t *letter, size_t letter_len,
                              uint64_t k, uint64_t *index, size_t *record_at, size_t *record_len);

/* All records of a passage letter, checked once: the index of record k into indexes[k], where its bytes begin in the letter into starts[k], and how
   many there are into lengths[k]; count is how many records there are, and what is behind them in the three slices stays. 256 places each are always
   enough. The numbers of keeper_passage_check, then 6 (one of the three slices has fewer places than there are records). */
uint32_t keeper_passage_entries(const keeper_mode *mode, uint64_t size, const uint8_t *root, size_t root_len, const uint8_t *letter,
                                size_t letter_len, uint64_t *indexes, size_t indexes_count, uint64_t *starts, size_t starts_count,
                                uint64_t *lengths, size_t lengths_count, uint64_t *count);

/* A passage letter compared with the log, where the log's own nodes accept it: records are those that the log has at the letter's indexes, joined,
   with their lengths. Compares, from the root, left before right, each 64-byte input of the log with that of the letter, wherever the letter looks
   into the folded tree. At the first difference found is KEEPER_PAIR, with the log's input in the first 64 bytes of log_input and the letter's in
   those of letter_input: two different strings with one digest in that mode. With none it compares the records, by rising index: at the first two
   that differ found is KEEPER_RECORDS and index theirs; else KEEPER_SAME. index is 0 unless found is KEEPER_RECORDS. The buffers change only for
   KEEPER_PAIR. 1, 10, 4, then with the root of its own nodes keeper_passage_check's from 7 on, 16 (also unless one length for each index that the
   letter names), then of the first record that has any 3, 13, then 14, 6 (either buffer under 64, whatever the outcome). */
uint32_t keeper_passage_find(const keeper_mode *mode, uint64_t size, const uint8_t *nodes, size_t nodes_len, const uint8_t *records,
                             size_t records_len, const uint32_t *lengths, size_t lengths_count, const uint8_t *letter, size_t letter_len,
                             uint8_t *log_input, size_t log_input_len, uint8_t *letter_input, size_t letter_input_len, uint32_t *found,
                             uint64_t *index);

#ifdef __cplusplus
}
#endif
#endif
