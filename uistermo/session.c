/* A session of tagrun's lines over a tag. Quoted words are document 01's. */
#include "session.h"

#include <errno.h>
#include <inttypes.h>
#include <stdio.h>
#include <string.h>
#include <unistd.h>

#include "frame.h"

struct event {
    uint32_t kind;
    uint8_t frame[MOST_DIGITS / 2 + CRC_BYTES];
    size_t length;
};

/* ---- from a line to an event */

/* "the program adds the CRC" */
static int read_request(const struct line *l, struct event *e)
{
    if (l->length < FEWEST_DIGITS || l->length > MOST_DIGITS || l->length % 2 != 0)
        return 0;
    size_t n = l->length / 2;
    for (size_t i = 0; i < n; i++) {
        int high = hex_digit(l->text[2 * i]), low = hex_digit(l->text[2 * i + 1]);
        if (high < 0 || low < 0)
            return 0;
        e->frame[i] = (uint8_t)(16 * high + low);
    }
    e->length = add_crc(e->frame, n);
    return 1;
}

static int is_word(const struct line *l, const char *word) { return l->length == strlen(word) && memcmp(l->text, word, l->length) == 0; }

/* "Each input line is ON, OFF, EOF, or a request". Gives 0 for a line of no such form. */
static int read_event(const struct line *l, struct event *e)
{
    e->kind = is_word(l, "ON")    ? UISTERMO_ON
              : is_word(l, "OFF") ? UISTERMO_OFF
              : is_word(l, "EOF") ? UISTERMO_END_OF_FRAME
                                  : UISTERMO_REQUEST;
    e->length = 0;
    return e->kind != UISTERMO_REQUEST || read_request(l, e);
}

/* ---- answers */

static void print_answer(const uint8_t *answer, size_t length)
{
    if (length == 0)
        putchar('-');
    print_hex(answer, length);
    putchar('\n');
}

/* "`?` for a line of no such form, which is no event" */
static void print_formless(struct session *s)
{
    if (s->formless++ == 0) {
        s->first = s->number;
        size_t n = s->line.length;
        s->first_has_return = n > 0 && n < sizeof s->line.text && s->line.text[n - 1] == '\r';
    }
    fputs("?\n", stdout);
}

/* Answers the line that has come, and begins the next. The number stays at its greatest value, as tagrun's does. */
static enum status answer_line(struct session *s)
{
    struct event e;
    int is_event = read_event(&s->line, &e);
    uint64_t result = 0;
    if (is_event)
        result = uistermo_event(s->tag.record, s->tag.memory, s->tag.size, s->room, sizeof s->room, e.kind, e.frame, e.length);
    if (uistermo_refusal(result))
        return refused(s->image, result, "");
    s->number += s->number < UINT64_MAX;
    printf("%" PRIu64 " ", s->number);
    if (is_event)
        print_answer(s->room, uistermo_length(result));
    else
        print_formless(s);
    s->line.length = 0;
    return DONE;
}

static enum status take(struct session *s, const char *bytes, size_t length)
{
    enum status status = DONE;
    for (size_t i = 0; status == DONE && i < length; i++)
        if (bytes[i] == '\n')
            status = answer_line(s);
        else if (s->line.length < sizeof s->line.text)
            s->line.text[s->line.length++] = bytes[i];
    return status;
}

enum status run_lines(struct session *s, int source, const char *name)
{
    char bytes[4096];
    for (;;) {
        enum status status = DONE;
        ssize_t n = read(source, bytes, sizeof bytes);
        if (n < 0)
            return unread(name, strerror(errno));
        if (n > 0)
            status = take(s, bytes, (size_t)n);
        else if (s->line.length > 0) /* "Lines end in a newline; a last one may lack it." */
            status = answer_line(s);
        if (status == DONE)
            status = flush_output();
        if (status != DONE || n == 0)
            return status;
    }
}

void say_formless(const struct session *s, const char *name)
{
    if (s->formless > 0)
        fprintf(stderr,
                "uistermo: %s: lines of no form: %" PRIu64 " of %" PRIu64 ", the first is line %" PRIu64
                "%s; a line is ON, OFF, EOF or upper-case hex, 2 to 128 digits, an even number, and ends in a newline alone\n",
                name, s->formless, s->number, s->first, s->first_has_return ? ", which ends in a carriage return" : "");
}
