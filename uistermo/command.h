/*
 * What the commands of bin/uistermo share: how one is described, how it ends, and what is said on standard error.
 */
#ifndef COMMAND_H
#define COMMAND_H

#include <stdint.h>

/* How a command ends. */
enum status {
    DONE = 0,
    REFUSED = 1, /* by the library */
    WRONG = 2,   /* a wrong word, a line that is no UID, or a file that cannot be read or written */
};

/* A number or a UID in digits. */
struct figure {
    char text[24];
};

/* A command. main.c has the table of them. */
struct command {
    const char *name;
    const char *words; /* what follows the name */
    const char *about; /* a line for the list of commands */
    const char *help;  /* what --help says below the usage; an example is its end */
    enum status (*run)(const struct command *self, char **words, int count); /* words: those after the name */
};

extern const struct command factory_command, show_command, header_command, run_command, tray_command;

/* ---- on standard error; each gives the status that goes with it */

/* A word that the command does not take, or words too many or too few, and why; then its usage. */
enum status wrong_word(const struct command *c, const char *word, const char *why);
enum status wrong_words(const struct command *c, const char *why);

/* A file that could not be read or written, and why. */
enum status unread(const char *path, const char *why);
enum status unwritten(const char *path, const char *why);

/* A call that the library refused, with the documents' number and its words, and what more there is to say. */
enum status refused(const char *path, uint64_t result, const char *more);

/* The documents' number of a result that is refused: "4", "5a". */
struct figure refusal_number(uint64_t result);

/* ---- words */

/* For commands that take files and no options: a word that begins with - is wrong. */
enum status no_options(const struct command *c, char **words, int count);

/* For commands that take one image file and nothing else. */
enum status one_image(const struct command *c, char **words, int count);

/* The value of a digit in upper-case hex, or -1. */
int hex_digit(char c);

/* A UID as on a label: 16 hex digits, highest byte first, with any spaces and colons between bytes. Gives 0 where the text is none. */
int read_uid(const char *text, uint64_t *uid);

/* What is said where a text is none. */
#define UID_FORM "a UID is 16 hex digits, as E002230401D6C8F0 or E0:02:23:04:01:D6:C8:F0"

/* A UID as far as its text has come. Begins with zeros; with UID_DIGITS digits it is whole. */
enum { UID_DIGITS = 16 };
struct uid {
    uint64_t number;
    int digits;
};

/* Takes the next character. Gives 0 where no UID goes on so. */
int take_uid(struct uid *uid, char c);

/* ---- standard output */

/* Writes out what was printed; says so where that cannot be. */
enum status flush_output(void);

/* A number as document 01 writes it, with a comma before its last three digits. */
struct figure figure(unsigned n);

/* A UID in hex digits, highest byte first. */
struct figure uid_digits(uint64_t uid);

#endif
