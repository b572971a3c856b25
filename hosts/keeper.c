/* The keeper on files, for a person: which command is asked for. What matters is in the library; here are files and words. */
#include <stdio.h>
#include <string.h>
#include "answer.h"
#include "commands.h"
#include "key.h"
#include "options.h"
#include "progress.h"
#include "say.h"
#include "start.h"

/* The version is given to the compiler as it stands in the file VERSION. */
#define TEXT(X) #X
#define TEXT_OF(X) TEXT(X)
#ifndef VERSION
#define VERSION unknown
#endif

static const char usage[] =
    "keeper append LOG [FILE..]             one more record: each file, or standard input\n"
    "keeper append LOG --folder FOLDER      each file of a folder, in the order of their names\n"
    "keeper append LOG --stream             records on standard input, each 4 bytes of length, big-endian, and its bytes\n"
    "           --acknowledge               with --stream: a line with the size after each group that is kept\n"
    "           --keep-records              keeps the records beside the log, from now on; without it a log keeps digests alone\n"
    "           --wait SECONDS              waits so long for another program that appends\n"
    "keeper root LOG                        the size and the root, which the panel notes\n"
    "keeper root LOG --bytes >NOTED         the same as 40 bytes, which the panel's program reads before a letter\n"
    "keeper root LOG --records [FILE..]     the root worked out from the records by the plain rule, each file one, and whether it is the log's;\n"
    "                                       without a file from those kept beside the log, without LOG it is only worked out\n"
    "           --folder FOLDER, --stream   with --records: the records of a folder or on standard input, as append takes them\n"
    "keeper info LOG                        records, size, root, file and state\n"
    "keeper letter LOG INDEX <RECORD >LETTER\n"
    "                                       the proof letter of a record; where records are kept, none need be given\n"
    "           --record FILE               the record, in place of standard input\n"
    "keeper passage LOG INDEX FILE [INDEX FILE..] >LETTER\n"
    "                                       one letter for a passage of play: the records in these files, 256 at the most, their indexes rising\n"
    "keeper passage LOG --records INDEX.. >LETTER\n"
    "                                       the same of the records that are kept beside the log\n"
    "keeper check SIZE ROOT <LETTER         checks a letter, of a record or of a passage, against the size and root that were noted\n"
    "keeper check SIZE ROOT LETTER..        the same for many, files or folders: a line each, and a total\n"
    "           --show                      the letter in words, with its records\n"
    "           --record FILE               hands the record out, - to standard output; --records-to FOLDER those of many letters\n"
    "           --to FOLDER                 hands the records out by their indexes, each to INDEX.record\n"
    "           --page FILE.html            a page for the hearing, of a letter of one record\n"
    "keeper find LOG RECORD.. LETTER        compares an accepted letter with the log, given the log's own record for each that the letter has:\n"
    "                                       the same, or two strings of one digest\n"
    "keeper find LOG --records LETTER       the same with the records that are kept beside the log\n"
    "keeper verify LOG [--records]          works every inner node out anew, and with the kept records every leaf\n"
    "keeper repair LOG COPY                 mends a damaged log, after it is copied to COPY\n"
    "keeper digest [FILE..]                 the digest of each file, or of standard input, -, of any length: a line each, as b3sum has it\n"
    "keeper digest --check [LIST..]         takes such lists, and says of each file in them whether it is as listed: OK, or FAILED\n"
    "keeper node --leaf [RECORD] >NODE      the stored leaf of a record, a file or standard input\n"
    "keeper node --inner DIGEST >NODE       the stored inner node of a digest, 64 hexadecimal digits\n"
    "keeper node [NODE..]                   reads stored nodes, files or standard input: kind, digest and record's length, or why it is refused\n"
    "           --record FILE               hands the record of a leaf out, - to standard output; with one node\n"
    "\n"
    "root, letter, passage and find take --size N: the log as it was at that size. Every command takes --json: one object, as keeper(1) has it.\n"
    "All that work on a log, a letter, a digest or a node take --key FILE, of exactly 32 bytes, - for standard input: the log is keyed, from its\n"
    "first append on. info tells of a keyed log without the key too.\n"
    "append, verify, root --records and digest say on a terminal every second how far they are; with --quiet they do not, and digest --check\n"
    "leaves out the files that are as listed.\n"
    "LOG is a file, made by the first append. Files and folders are appended whole or not at all; of a stream all is kept\n"
    "that came in whole. Exit status: 0 done; 1 refused, with the number of the rules; 2 wrong use, or something failed;\n"
    "3 another program appends to the log.\n";

static int help(const Asked *asked) {
    (void)asked;
    put_text("usage", usage);
    if (!json_asked()) fputs(usage, stdout);
    return DONE;
}

static int version(const Asked *asked) {
    (void)asked;
    line("keeper (Cinchcleat) %s", TEXT_OF(VERSION));
    put_text("version", TEXT_OF(VERSION));
    return DONE;
}

static const struct {
    const char *word, *takes;
    int (*run)(const Asked *asked);
} commands[] = {
    {"append", "--stream --folder --acknowledge --keep-records --wait --quiet --key", append},
    {"root", "--size --bytes --records --folder --stream --quiet --key", root},
    {"info", "--key", info},
    {"letter", "--size --record --key", write_letter},
    {"passage", "--size --records --key", passage},
    {"check", "--show --record --records-to --to --page --key", check},
    {"find", "--size --records --key", find},
    {"verify", "--records --quiet --key", verify},
    {"repair", "--wait --key", repair},
    {"digest", "--check --quiet --key", digest},
    {"node", "--leaf --inner --record --key", node},
    {"help", "", help},
    {"--help", "", help},
    {"-h", "", help},
    {"version", "", version},
    {"--version", "", version},
};

int main(int count, char **words) {
    start();
    for (size_t i = 0; count > 1 && i < sizeof commands / sizeof *commands; i++) {
        if (strcmp(words[1], commands[i].word) != 0) continue;
        Asked asked = {.command = commands[i].word + strspn(commands[i].word, "-")};
        take_options(&asked, commands[i].takes, count - 2, words + 2);
        if (asked.help) return answer_end(help(&asked));
        if (asked.quiet) progress_quiet();
        int status = take_key(asked.key);
        if (status == DONE) status = commands[i].run(&asked);
        forget_key();
        return answer_end(status);
    }
    if (count > 1) wrong_use("there is no command %s", words[1]);
    fprintf(stderr, "%s", usage);
    wrong_use("a command is missing");
}
