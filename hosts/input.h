/* Records, letters and stored nodes as they come in: a whole file, the files of a folder. */
#ifndef INPUT_H
#define INPUT_H
#include <stddef.h>
#include <stdint.h>
#include <sys/types.h>

/* One byte more than the longest is read: what is longer gets the same number from the library. */
enum { LONGEST_RECORD = 16384, LONGEST_LETTER = 20 + LONGEST_RECORD + 32 * 32 };

typedef struct {
    uint8_t bytes[LONGEST_LETTER + 1];
    size_t length;
} Input;

/* A file, or standard input where the path is NULL, up to so many bytes. The first fails, with words; the second returns 0, or -1 with errno, the
   third has the words for that, and the fourth fails with them. */
void read_input(Input *input, const char *path, size_t most);
int try_input(Input *input, const char *path, size_t most);
const char *why_unread(const char *path);
_Noreturn void fail_unread(const char *path);

/* The same into bytes of the caller's own, and nowhere else: how many came, or -1 with errno. */
ssize_t try_bytes(const char *path, uint8_t *bytes, size_t most);

/* Standard input is one thing: where it was the key, it is wrong use to read a record, a letter or a stream from it. */
void take_standard_input(void);

/* Standard input among the names of files: it is "-", its path is NULL, and in words it is called what it is. It can be read once: whether these name
   it; twice is wrong use. */
int is_input(const char *name);
const char *path_of(const char *name);
const char *called(const char *name);
int name_input(char *const *names, size_t count);

/* The paths of a folder's files in the order of their names, as the bytes of the names order them. */
typedef struct {
    char **paths;
    size_t count;
} Files;
Files folder_files(const char *folder);
void free_files(Files *files);

/* Fails, with words, where a path leads to a log or to what is kept beside one: no output is written over it. */
void demand_no_log(const char *path);

/* A folder's file of that name. */
char *path_in(const char *folder, const char *name);

#endif
