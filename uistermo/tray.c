/* bin/uistermo tray: every tag on a tray. */
#include "tray.h"

#include <errno.h>
#include <fcntl.h>
#include <inttypes.h>
#include <stdio.h>
#include <string.h>
#include <unistd.h>

#include "file.h"

static const char help[] =
    "Finds every tag on a tray, as a reader does: it asks with 16 slots, in which tags answer by the last digit of their UID. In a\n"
    "slot with two or more answers nothing can be read, and it asks again, of those tags alone, by the digit before. Prints the\n"
    "UIDs found, one a line, and how many requests that took. No file is written.\n"
    "\n"
    "  UID       a tag, by 16 hex digits, highest byte first; spaces (inside quotes) and colons between bytes are taken too\n"
    "  FILE      the tag of an image, or a text with a UID a line; a file whose name is a UID is written with ./ before it\n"
    "  -         UIDs from standard input, one a line, also without UID or FILE (from a keyboard, Ctrl-D ends them). They are taken\n"
    "            after all other words\n"
    "  --trace   prints the search before the UIDs\n"
    "\n"
    "A file with a 00h byte among its first 8,257 bytes is taken for an image, any other for a text. In a text, spaces, tabs and\n"
    "carriage returns at a line's ends and empty lines are passed over. A line that is no UID is named by its number, and the exit\n"
    "status is 2; from a keyboard it is named and not taken, and the others are. A tray has at most 256 tags, no two of one UID.\n"
    "The reader asks for no AFI: tags of any AFI are found.\n"
    "The search of --trace is what the tags answered. Each request has its number, its frame in hex with its CRC, its mask (the\n"
    "digits that a UID has to end in to be meant, - for all) and a sign for each slot, from 0 to 15: . nobody, 1 one answer,\n"
    "* a collision, of two or more. Below it, further in, stand the slots with an answer: the UID, or the request sent again.\n"
    "\n"
    "Examples:\n"
    "  bin/uistermo tray E002230401D6C8F0 E0:02:23:04:01:D6:C8:F1\n"
    "  bin/uistermo factory 16 E002230401D6C8E0 other.img\n"
    "  printf 'E002230401D6C8F0\\nE002230401D6C8F1\\n' | bin/uistermo tray --trace other.img -\n";

/* ---- tags */

static int is_full(const struct tray *t) { return t->count > UISTERMO_TAGS; }

/* A tag of which nothing but the UID is known is a factory tag: a search sees no more of it. */
static enum status add_uid(struct tray *t, uint64_t uid)
{
    struct tag *tag = &t->tags[t->count];
    tag->size = UISTERMO_MEMORY_16K;
    uint64_t result = uistermo_factory(tag->record, uid, tag->memory, tag->size);
    if (uistermo_refusal(result))
        return refused("tray", result, "");
    t->uids[t->count++] = uid;
    return DONE;
}

static enum status add_image(struct tray *t, const char *path, const struct image *image)
{
    enum status status = load_read(path, image, &t->tags[t->count]);
    if (status == DONE)
        t->uids[t->count++] = image_uid(image);
    return status;
}

/* ---- lines */

/* A text as far as it has come. */
struct text {
    const char *name;
    int keyboard;   /* whether it is typed at one */
    uint64_t line;  /* the number of its line, from 1, */
    struct uid uid; /* what has come of that, */
    int not_taken;  /* and whether it is no UID, so that the rest of it is passed over */
};

static struct text text_from(const char *name, int source)
{
    struct text x = {.name = name, .keyboard = isatty(source), .line = 1};
    if (x.keyboard)
        fprintf(stderr, "uistermo: UIDs from the keyboard, one a line: Ctrl-D ends them\n");
    return x;
}

/* A line that is mistyped is not to lose those typed before it. */
static enum status no_uid(struct text *x)
{
    fprintf(stderr, "uistermo: %s: line %" PRIu64 ": " UID_FORM "%s\n", x->name, x->line, x->keyboard ? "; this line is not taken" : "");
    x->not_taken = 1;
    return x->keyboard ? DONE : WRONG;
}

static enum status end_line(struct tray *t, struct text *x)
{
    enum status status = DONE;
    if (!x->not_taken && x->uid.digits == UID_DIGITS)
        status = add_uid(t, x->uid.number);
    else if (!x->not_taken && x->uid.digits > 0)
        status = no_uid(x);
    x->line++;
    x->uid = (struct uid){0, 0};
    x->not_taken = 0;
    return status;
}

/* The rest of a line that is not taken; white space before a line's first digit or after its last, as the carriage return of lines of Windows. */
static int is_passed_over(const struct text *x, char c)
{
    int at_an_end = x->uid.digits == 0 || x->uid.digits == UID_DIGITS;
    return x->not_taken || (at_an_end && (c == ' ' || c == '\t' || c == '\r'));
}

/* Once there are too many tags nothing more is looked at: so UIDs without an end come to one. */
static enum status take(struct tray *t, struct text *x, const uint8_t *bytes, size_t length)
{
    enum status status = DONE;
    for (size_t i = 0; status == DONE && !is_full(t) && i < length; i++) {
        char c = (char)bytes[i];
        if (c == '\n')
            status = end_line(t, x);
        else if (!is_passed_over(x, c) && !take_uid(&x->uid, c))
            status = no_uid(x);
    }
    return status;
}

/* The last line may lack its newline. */
static enum status end_text(struct tray *t, struct text *x) { return is_full(t) ? DONE : end_line(t, x); }

/* Takes a text to its end, as it comes. What cannot be read is left to the caller, by the error number of the system. */
static enum status take_rest(struct tray *t, struct text *x, int source, int *error)
{
    uint8_t bytes[4096];
    while (!is_full(t)) {
        ssize_t n = read(source, bytes, sizeof bytes);
        if (n < 0)
            *error = errno;
        if (n <= 0)
            return n < 0 ? WRONG : end_text(t, x);
        enum status status = take(t, x, bytes, (size_t)n);
        if (status != DONE)
            return status;
    }
    return DONE;
}

/* ---- words */

static enum status take_standard(struct tray *t)
{
    struct text x = text_from("standard input", STDIN_FILENO);
    int error = 0;
    enum status status = take_rest(t, &x, STDIN_FILENO, &error);
    return error ? unread(x.name, strerror(error)) : status;
}

/* The file's first bytes say what it is: in an image there is a 00h, in a text there is none. A keyboard gives no image, and its lines are taken as
   they come. */
static enum status take_open(struct tray *t, const char *path, int file, int *error)
{
    struct image first;
    struct text x = text_from(path, file);
    if (x.keyboard)
        return take_rest(t, &x, file, error);
    *error = read_most(file, first.bytes, sizeof first.bytes, &first.length);
    if (*error)
        return WRONG;
    if (memchr(first.bytes, 0, first.length))
        return add_image(t, path, &first);
    enum status status = take(t, &x, first.bytes, first.length);
    if (status != DONE)
        return status;
    return first.length < sizeof first.bytes ? end_text(t, &x) : take_rest(t, &x, file, error);
}

static enum status take_file(struct tray *t, const char *path)
{
    int file = open(path, O_RDONLY), error = file < 0 ? errno : 0;
    enum status status = file < 0 ? WRONG : take_open(t, path, file, &error);
    if (file >= 0)
        close(file);
    if (!error)
        return status;
    char why[256]; /* the system's words have some 50 bytes, those after them 80 */
    snprintf(why, sizeof why, "%s; and " UID_FORM, strerror(error));
    return unread(path, why);
}

static enum status take_word(struct tray *t, const char *word)
{
    uint64_t uid;
    return read_uid(word, &uid) ? add_uid(t, uid) : take_file(t, word);
}

/* Of words that were looked at. Standard input is the last, so that what is wrong with another word is said before anything is typed. */
static enum status take_words(struct tray *t, char **words, int count, int standard)
{
    enum status status = DONE;
    for (int i = 0; status == DONE && !is_full(t) && i < count; i++)
        if (words[i][0] != '-')
            status = take_word(t, words[i]);
    return status == DONE && standard && !is_full(t) ? take_standard(t) : status;
}

struct asked {
    int trace, standard; /* whether for the search, and for standard input */
};

/* Looked at before the first tag is taken. */
static enum status look_at_words(const struct command *self, char **words, int count, struct asked *a)
{
    for (int i = 0; i < count; i++) {
        int *once = strcmp(words[i], "--trace") == 0 ? &a->trace : strcmp(words[i], "-") == 0 ? &a->standard : NULL;
        if (!once && no_options(self, words + i, 1) != DONE)
            return WRONG;
        if (once && *once)
            return wrong_word(self, words[i], "it is there twice");
        if (once)
            *once = 1;
    }
    if (count == a->trace)
        a->standard = 1;
    return DONE;
}

/* ---- the search */

/* In the order taken, the first that comes again. */
static uint64_t repeated_uid(const struct tray *t)
{
    for (size_t i = 0; i < t->count; i++)
        for (size_t j = 0; j < i; j++)
            if (t->uids[i] == t->uids[j])
                return t->uids[i];
    return 0;
}

static enum status refused_search(const struct tray *t, uint64_t result)
{
    char more[64] = "";
    if (uistermo_refusal(result) == UISTERMO_REFUSED_EQUAL)
        snprintf(more, sizeof more, "; %s is there twice", uid_digits(repeated_uid(t)).text);
    return refused("tray", result, more);
}

static enum status search(struct tray *t, int trace)
{
    uint64_t list[UISTERMO_TAGS + 1];
    uint64_t result = uistermo_search(t->uids, t->count, list, t->count);
    if (uistermo_refusal(result))
        return refused_search(t, result);
    enum status status = trace ? print_trace(t) : DONE;
    if (status != DONE)
        return status;
    for (size_t i = 0; i < t->count; i++)
        printf("%s\n", uid_digits(list[i]).text);
    printf("%zu requests\n", uistermo_length(result));
    return DONE;
}

static enum status run(const struct command *self, char **words, int count)
{
    static struct tray tray; /* two megabytes */
    struct asked a = {0, 0};
    enum status status = look_at_words(self, words, count, &a);
    if (status == DONE)
        status = take_words(&tray, words, count, a.standard);
    return status == DONE ? search(&tray, a.trace) : status;
}

const struct command tray_command = {
    .name = "tray",
    .words = "[--trace] [UID | FILE | -]..",
    .about = "finds every tag on a tray, and says how many requests that takes",
    .help = help,
    .run = run,
};
