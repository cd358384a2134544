/* Words of the command line. */
#include <ctype.h>
#include <string.h>

#include "command.h"

enum status no_options(const struct command *c, char **words, int count)
{
    for (int i = 0; i < count; i++)
        if (words[i][0] == '-')
            return wrong_word(c, words[i], "there is no such option; a file of that name is written with ./ before it");
    return DONE;
}

enum status one_image(const struct command *c, char **words, int count)
{
    if (no_options(c, words, count) != DONE)
        return WRONG;
    if (count < 1)
        return wrong_words(c, "an image file is needed");
    return count > 1 ? wrong_word(c, words[1], "one image file is enough") : DONE;
}

int hex_digit(char c)
{
    static const char digits[] = "0123456789ABCDEF";
    const char *at = c ? strchr(digits, c) : NULL;
    return at ? (int)(at - digits) : -1;
}

static int any_digit(char c) { return hex_digit((char)toupper((unsigned char)c)); }

int take_uid(struct uid *uid, char c)
{
    int digit = any_digit(c), between_bytes = uid->digits % 2 == 0 && uid->digits > 0 && uid->digits < UID_DIGITS;
    if (digit < 0)
        return between_bytes && (c == ' ' || c == ':');
    if (uid->digits == UID_DIGITS)
        return 0;
    uid->number = uid->number << 4 | (uint64_t)digit;
    uid->digits++;
    return 1;
}

int read_uid(const char *text, uint64_t *uid)
{
    struct uid read = {0, 0};
    while (*text != '\0' && take_uid(&read, *text))
        text++;
    *uid = read.number;
    return *text == '\0' && read.digits == UID_DIGITS;
}
