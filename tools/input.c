/* Files read whole, as they are or as hex. */

#include <errno.h>
#include <string.h>
#include "program.h"

/* ---- bytes */

static bool read_bytes(input *in, const char *file)
{
    static bool standard_input_used;
    bool standard = strcmp(file, "-") == 0, good = false;
    char too_large[60];
    FILE *from;

    if (standard && standard_input_used)
        return complain(file, "can be read only once");
    standard_input_used = standard_input_used || standard;
    from = standard ? stdin : fopen(file, "rb");
    if (from == NULL)
        return complain(file, strerror(errno));
    in->length = fread(in->bytes, 1, sizeof in->bytes, from);
    snprintf(too_large, sizeof too_large, "too large: more than %d bytes", INPUT_MAX);
    if (ferror(from))
        complain(file, strerror(errno));
    else if (in->length > INPUT_MAX)
        complain(file, too_large);
    else
        good = true;
    if (!standard)
        fclose(from);
    return good;
}

/* ---- hex */

/* A place in a text, and where its line is. */
typedef struct {
    const input *text;
    size_t at, line, line_start;
} place;

/* The character `ahead` of the place; -1 after the end. */
static int character(const place *p, size_t ahead)
{
    return p->at + ahead < p->text->length ? p->text->bytes[p->at + ahead] : -1;
}

static int digit(int c)
{
    return c >= '0' && c <= '9' ? c - '0' : c >= 'a' && c <= 'f' ? c - 'a' + 10 : c >= 'A' && c <= 'F' ? c - 'A' + 10 : -1;
}

static bool separates(int c)
{
    return c == ' ' || c == '\t' || c == '\r' || c == '\n' || c == ':';
}

static bool wrong(const place *p, size_t ahead, const char *file, const char *what)
{
    char text[120];

    snprintf(text, sizeof text, "line %zu, column %zu: %s", p->line, p->at + ahead - p->line_start + 1, what);
    return complain(file, text);
}

/* There is no digit `ahead` of the place. Where nothing foreign stands instead, those before it are too few. */
static bool no_digit(const place *p, size_t ahead, const char *file, const char *too_few)
{
    int c = character(p, ahead);
    char text[40];

    if (c < 0 || separates(c))
        return wrong(p, 0, file, too_few);
    if (c > ' ' && c <= '~')
        snprintf(text, sizeof text, "'%c' is no hex digit", c);
    else
        snprintf(text, sizeof text, "byte 0x%02x is no hex digit", (unsigned)c);
    return wrong(p, ahead, file, text);
}

/* Two digits, 0x before them or not. */
static bool read_pair(place *p, const char *file, uint8_t *byte)
{
    size_t prefix = character(p, 0) == '0' && (character(p, 1) == 'x' || character(p, 1) == 'X') ? 2 : 0;
    int high = digit(character(p, prefix)), low = digit(character(p, prefix + 1));

    if (high < 0)
        return no_digit(p, prefix, file, "0x without two hex digits");
    if (low < 0)
        return no_digit(p, prefix + 1, file, "one hex digit alone; two make a byte");
    *byte = (uint8_t)(16 * high + low);
    p->at += prefix + 2;
    return true;
}

/* Leaves the bytes where the text was: what is read is always ahead of what is written. */
static bool read_hex(input *in, const char *file)
{
    static const char stray[] = "a colon that is not between two pairs";
    place p = { in, 0, 1, 0 }, colon = p;
    bool after_pair = false, after_colon = false;
    size_t length = 0;

    for (int c; (c = character(&p, 0)) >= 0;) {
        if (!separates(c)) {
            if (!read_pair(&p, file, &in->bytes[length]))
                return false;
            length++;
            after_pair = true;
            after_colon = false;
            continue;
        }
        if (c == ':') {
            if (!after_pair)
                return wrong(&p, 0, file, stray);
            colon = p;
            after_pair = false;
            after_colon = true;
        }
        p.at++;
        if (c == '\n') {
            p.line++;
            p.line_start = p.at;
        }
    }
    if (after_colon)
        return wrong(&colon, 0, file, stray);
    in->length = length;
    return true;
}

bool read_file(input *in, const char *file, bool hex)
{
    return read_bytes(in, file) && (!hex || read_hex(in, file));
}
