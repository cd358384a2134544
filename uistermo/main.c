/*
 * bin/uistermo: the tool for the people at the bench, over the proved tag. This file has the table of commands; each has a file of its own.
 * session.c runs a session's lines, trace.c prints the search of a tray, image.c loads and saves image files by the library, meaning.c and fault.c
 * say what the bytes of a header mean and what is wrong with one, frame.c has bytes as they travel, file.c reads and replaces files, words.c and
 * say.c read words and say what is wrong.
 */
#include <signal.h>
#include <stdio.h>
#include <string.h>

#include "command.h"

static const struct command *const commands[] = {&factory_command, &show_command, &header_command, &run_command, &tray_command};

enum { COMMANDS = sizeof commands / sizeof *commands };

static void list(FILE *to)
{
    fputs("Proved ST25TV16KC and ST25TV64KC tags: one kept in an image file, or many on a tray.\n\nusage: bin/uistermo COMMAND WORDS..\n\n", to);
    for (int i = 0; i < COMMANDS; i++) {
        fprintf(to, "  %s %s\n", commands[i]->name, commands[i]->words);
        fprintf(to, "      %s\n", commands[i]->about);
    }
    fputs("\nbin/uistermo COMMAND --help says more of one, with an example.\n"
          "Exit status: 0 done; 1 refused by the library, with the documents' number and its words, and for a wrong byte of an image's header its\n"
          "place; 2 a wrong word, a line that is no UID, or a file that cannot be read or written.\n",
          to);
}

static int is_help(const char *word) { return strcmp(word, "--help") == 0 || strcmp(word, "-h") == 0; }

static const struct command *find(const char *name)
{
    for (int i = 0; i < COMMANDS; i++)
        if (strcmp(commands[i]->name, name) == 0)
            return commands[i];
    return NULL;
}

static enum status run(const struct command *c, char **words, int count)
{
    for (int i = 0; i < count; i++)
        if (is_help(words[i])) {
            printf("usage: bin/uistermo %s %s\n\n%s", c->name, c->words, c->help);
            return DONE;
        }
    return c->run(c, words, count);
}

static enum status start(char **words, int count)
{
    if (count < 1) {
        list(stderr);
        return WRONG;
    }
    if (is_help(words[0]) || strcmp(words[0], "help") == 0) {
        list(stdout);
        return DONE;
    }
    const struct command *c = find(words[0]);
    if (!c) {
        fprintf(stderr, "uistermo: there is no command '%s'; bin/uistermo --help lists them\n", words[0]);
        return WRONG;
    }
    return run(c, words + 1, count - 1);
}

int main(int count, char **words)
{
    signal(SIGPIPE, SIG_IGN); /* a reader that goes away is no interrupt: writing then fails, and that is said */
    enum status status = start(words + 1, count - 1);
    return (int)(status == DONE ? flush_output() : status);
}
