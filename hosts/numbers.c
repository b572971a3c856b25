/* The numbers that a call of the library answers, in words. */
#include "keeper.h"
#include "numbers.h"

static const Words words[] = {
    [KEEPER_DONE] = {"done", "Nothing."},
    [KEEPER_NO_SUCH_SIZE] = {"no log has this size",
                             "Compare the size with the one that was noted; a log file with such a size is damaged: take its copy."},
    [KEEPER_TOO_MANY_LEAVES] = {"the log is full, at 4,294,967,296 records", "Begin another log."},
    [KEEPER_RECORD_TOO_LONG] = {"the record is longer than 16,384 bytes",
                                "Cut the record into parts, or log its digest in its place; a letter or a stored node that states such a length is "
                                "damaged."},
    [KEEPER_NODES_TOO_SHORT] = {"the log holds fewer nodes than this size says",
                                "Compare the size with the one that was noted: the log has not grown to it, or it is another log."},
    [KEEPER_NO_SUCH_LEAF] = {"the log has no record with this index", "Indexes begin with 0 and end one below the number of records."},
    [KEEPER_OUTPUT_TOO_SHORT] = {"the room for the answer is too short", "This is a fault of the host: report it."},
    [KEEPER_NOT_A_LETTER] = {"the letter does not have the length that it must have",
                              "Do not accept it: it was cut, or something was added. Ask for the whole letter."},
    [KEEPER_OTHER_SIZE] = {"the letter is for a log of another size",
                           "Do not accept it: ask for a letter for the size that was noted."},
    [KEEPER_OTHER_ROOT] = {"the root worked out from the letter is another one",
                           "Do not accept it: a record in it was not logged at its index, or size and root, or the key, are another log's."},
    [KEEPER_EMPTY_LOG] = {"the log is empty and has no root", "Append a record first."},
    [KEEPER_NOT_A_NODE] = {"the stored node has an unknown flag or a wrong length", "The stored node is damaged: take its copy."},
    [KEEPER_NOT_A_DIGEST] = {"the trusted root, or the digest of an inner node, is not of 32 bytes", "Give it as 64 hexadecimal digits."},
    [KEEPER_OTHER_RECORD] = {"the record is not the one that was logged at this index",
                             "Give the record as it was appended, byte for byte, and its own index."},
    [KEEPER_DAMAGED_NODES] = {"a node above a record is not the digest of the two nodes below it",
                            "The log file is damaged: keeper verify looks further."},
    [KEEPER_LENGTHS_OFF] = {"the lengths of the records do not add up to their joined bytes, or there is not one for each index",
                            "Give one record for each index that the letter names; where that is done it is a fault of the host: report it."},
    [KEEPER_PARTS_OFF] = {"the input is longer than 1,099,511,627,776 bytes", "Cut it into files that are not, and take the digest of each."},
    [KEEPER_OTHER_DIGEST] = {"the digest in the stored leaf is not that of its record",
                             "Do not use its record: it or the digest was changed since the leaf was written, or the leaf was written under another "
                             "key or none. Take the leaf from a copy, and name the log's own key, or none where the log is plain."},
    [KEEPER_NOT_RISING] = {"the list of indexes is empty, has more than 256, or does not rise strictly",
                           "Sort the indexes, leave out doubles, and ask for at most 256 in one letter; a letter that names such a list is damaged."},
    [KEEPER_NOT_A_KEY] = {"the key is not of 32 bytes", "Name the file that has the league's key: 32 bytes and nothing else, not even a line end."},
};

static const Words unknown = {"a number that this host does not know", "Host and library are of different versions: build both."};

const Words *words_of(uint32_t number) {
    return number < sizeof words / sizeof *words && words[number].meaning ? &words[number] : &unknown;
}
