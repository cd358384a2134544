/* bin/uistermo run: a session of tagrun's lines over the tag of an image. */
#define _XOPEN_SOURCE 700 /* sigaction */
#include <errno.h>
#include <fcntl.h>
#include <signal.h>
#include <stdio.h>
#include <string.h>
#include <unistd.h>

#include "file.h"
#include "session.h"

static const char help[] =
    "Runs a session over the tag of an image, prints what the tag answers, and writes the image back.\n"
    "\n"
    "  IMAGE        the tag; the field is off at the start\n"
    "  SESSION      the file with the session's lines; without it, or with -, standard input (from a keyboard, Ctrl-D ends it)\n"
    "  --out FILE   writes the image to FILE, and IMAGE stays as it is; an image that is there is replaced, but no file of another\n"
    "               length, unless it is empty\n"
    "\n"
    "A line of a session is ON or OFF (the field), EOF (an end of frame), or a request in upper-case hex without its CRC, 2 to\n"
    "128 digits, an even number. It ends in a newline alone, which the last may lack. Each is answered by its number and the\n"
    "tag's answer in hex, with its CRC; - is silence, and ? is a line of no such form, which is no event.\n"
    "The image keeps the lasting parts: after the session the field is off. It is written when all lines are answered, beside\n"
    "the old one and then in its place: after an interrupt, or where lines cannot be read, answers not be printed or the image\n"
    "not be written, the old one is as it was.\n"
    "\n"
    "An Inventory may ask for an AFI, a byte that says what a tag is for. 36013000 does: flags 36h, code 01h, AFI 30h, mask length\n"
    "00h. A tag that is not meant stays silent:\n"
    "  asked for      meant are the tags with\n"
    "  00h            any AFI\n"
    "  X0h, X not 0   an AFI of X0h to XFh: of 30h those with 30h to 3Fh\n"
    "  any other      that AFI alone\n"
    "022735 writes the AFI 35h. A factory tag has 00h: an Inventory for 00h finds it, or one without an AFI, as 260100. Flags 16h\n"
    "ask with 16 slots: without a mask a tag answers in the slot of the last digit of its UID. Slot 0 is the request's own line,\n"
    "and each EOF the next slot. An Inventory with a byte too few or too many meets silence too, as does every request before ON.\n"
    "\n"
    "Examples:\n"
    "  bin/uistermo factory 16 E002230401D6C8F0 tag.img\n"
    "  bin/uistermo run tag.img examples/session.txt\n"
    "  printf 'ON\\n022107AABBCCDD\\n022007\\n' | bin/uistermo run tag.img --out next.img\n"
    "  printf 'ON\\n022735\\n36013000\\n' | bin/uistermo run tag.img\n";

/* ---- interrupts */

static void interrupted(int number)
{
    static const char line[] = "uistermo: interrupted; no image is written\n";
    struct sigaction usual = {.sa_handler = SIG_DFL};
    ssize_t said = write(STDERR_FILENO, line, sizeof line - 1);
    (void)said; /* it ends all the same */
    sigaction(number, &usual, NULL);
    raise(number);
}

/* An interrupt ends the program as it would anyway, with a word about the image; one that was ignored before, as by nohup, still is. */
static void catch_interrupts(void)
{
    static const int numbers[] = {SIGINT, SIGTERM, SIGHUP, SIGQUIT};
    struct sigaction caught = {.sa_handler = interrupted}, before;
    for (size_t i = 0; i < sizeof numbers / sizeof *numbers; i++)
        if (sigaction(numbers[i], NULL, &before) == 0 && before.sa_handler != SIG_IGN)
            sigaction(numbers[i], &caught, NULL);
}

/* ---- the command */

struct asked {
    const char *image, *session, *out; /* NULL where not named */
};

static enum status read_words(const struct command *self, char **words, int count, struct asked *a)
{
    for (int i = 0; i < count; i++) {
        if (strcmp(words[i], "--out") == 0) {
            if (a->out)
                return wrong_word(self, words[i], "it is there twice");
            if (++i == count || words[i][0] == '-')
                return wrong_word(self, "--out", "a file has to follow");
            a->out = words[i];
        } else if (a->image && strcmp(words[i], "-") == 0 && !a->session) {
            a->session = words[i];
        } else if (no_options(self, words + i, 1) != DONE) {
            return WRONG;
        } else if (!a->image) {
            a->image = words[i];
        } else if (!a->session) {
            a->session = words[i];
        } else {
            return wrong_word(self, words[i], "one image and one session are enough");
        }
    }
    return a->image ? DONE : wrong_words(self, "an image file is needed");
}

/* Looked at before the first line is read. An image that comes through a pipe cannot be written back. */
static enum status can_end(const struct command *self, const struct asked *a)
{
    size_t length;
    if (!a->out && !is_plain_file(a->image, &length))
        return wrong_word(self, a->image, "it is no file that the image can be written back to; --out FILE names one");
    return can_save(a->out ? a->out : a->image);
}

static enum status no_image(enum status why)
{
    fprintf(stderr, "uistermo: no image is written\n");
    return why;
}

/* Who else wrote the image meanwhile, in another session perhaps, is not to lose that. */
static enum status write_back(const char *path, const struct image *loaded, const struct tag *tag)
{
    struct image now;
    enum status status = read_file(path, now.bytes, sizeof now.bytes, &now.length);
    if (status != DONE)
        return no_image(status);
    if (now.length != loaded->length || memcmp(now.bytes, loaded->bytes, now.length) != 0)
        return unwritten(path, "it was changed during the session");
    return save_image(path, tag);
}

static enum status end(const struct asked *a, const struct image *loaded, const struct tag *tag)
{
    if (a->out && !is_same_file(a->out, a->image))
        return save_image(a->out, tag);
    int lock = lock_folder(a->image); /* two sessions that end at once look and write one after the other */
    enum status status = write_back(a->image, loaded, tag);
    unlock_folder(lock);
    return status;
}

static enum status run_session(const struct asked *a, const struct image *loaded, struct session *s)
{
    int standard = !a->session || strcmp(a->session, "-") == 0;
    const char *name = standard ? "standard input" : a->session;
    catch_interrupts();
    int source = standard ? STDIN_FILENO : open(a->session, O_RDONLY);
    if (source < 0)
        return unread(name, strerror(errno));
    if (isatty(source))
        fprintf(stderr, "uistermo: lines from the keyboard: Ctrl-D ends the session and writes the image, Ctrl-C ends it and writes none\n");
    enum status status = run_lines(s, source, name);
    if (!standard)
        close(source);
    if (status != DONE)
        return no_image(status);
    say_formless(s, name);
    return end(a, loaded, &s->tag);
}

static enum status run(const struct command *self, char **words, int count)
{
    struct asked a = {NULL, NULL, NULL};
    struct image image;
    enum status status = read_words(self, words, count, &a);
    struct session s = {.image = a.image};
    if (status == DONE)
        status = load_image(a.image, &image, &s.tag);
    if (status == DONE)
        status = can_end(self, &a);
    return status == DONE ? run_session(&a, &image, &s) : status;
}

const struct command run_command = {
    .name = "run",
    .words = "IMAGE [SESSION] [--out FILE]",
    .about = "runs a session over the tag of an image, and writes the image back",
    .help = help,
    .run = run,
};
