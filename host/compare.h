/* Samples: files given as something, read by the inspector's checks and by the library, whose numbers must be the same. */
#ifndef COMPARE_H
#define COMPARE_H

#include <stdbool.h>
#include <stddef.h>
#include <stdint.h>

enum { MOST = 12300, MOST_FILES = 10 };

/* What a sample is given as. */
enum subject {
    AS_PART, AS_WHOLE, AS_PATH, AS_CALLS, AS_FIRSTS, AS_SECONDS, AS_PATHS, AS_DESKS, AS_CUT, AS_GROUPS, AS_ASKED, AS_TRIPLES, AS_SAID, AS_WALK,
    SUBJECTS
};

/* The inspector's options for them. */
extern const char *const options[SUBJECTS];

struct file {
    size_t count;
    uint32_t words[MOST];
};

/* The files of a bundle stand one after another, and are one input; a cut list has a word for each byte. AS_GROUPS has a path behind the groups;
   AS_ASKED and AS_WALK have four files where groups stand behind the first. A walk is checked as one to the node. */
struct sample {
    enum subject subject;
    uint32_t site, node;
    int files;
    struct file file[MOST_FILES];
    size_t cut_off;     /* bytes taken off the end of one input: */
    int cut_file;
};

/* Whether a file has no header: a cut list, groups, or triples. */
bool headless(const struct sample *s, int k);

/* Appends an or of so many labels. Once `most` wait an or stands behind each label; the other ors come at the end. */
void put_or(struct file *f, uint32_t label, size_t labels, size_t most);

/* The library's number, or for a bundle of paths its result, with the number of each. Stops the program where the inspector's is another, where just
   one of the two takes words for a walk, or where a call that reads paths leaves something else than the one that is handed our groups, which some of
   them are held to. */
uint64_t compare(const struct sample *s);
/* The same, and stops the program where it is not this one. */
void expect(const struct sample *s, uint64_t result);
/* What the checker said of the walk that was last compared. */
bool said_yes(void);

/* Writes some of the samples from now on, and a list: number, option, files. Of walks that were checked there is another,
   `walks`: what the checker said, yes or no, the node, files. */
void write_into(const char *directory);
void print_compared(void);

#endif
