/* tumbeliko record: the fields of a record, or what is wrong with it and where. */

#include "program.h"
#include "tumbeliko.h"

static const char help[] =
    "Each FILE holds one record, of a file's broadcast or of a notice's. Prints what it\n"
    "is, and its fields with their offsets and lengths in bytes. Of a record that is\n"
    "refused, prints the number that a board answers (20 to 25), the offset of the field\n"
    "at fault and what is wrong, in words; then the fields before that one, and all bytes\n"
    "from there on as the rest. Of a fragment or a rest above 32 bytes both ends are\n"
    "shown. `-` is standard input.\n"
    "\n"
    "  --hex    the files are text: pairs of hex digits, upper or lower case, each with\n"
    "           0x right in front of it or not; between two pairs blanks, tabs and ends\n"
    "           of lines, as many as one likes or none, and at most one colon\n"
    "  --all    show all bytes, in rows of 32\n"
    "  --help   this text\n"
    "  --       what follows are files\n"
    "\n"
    "Exit status: 0 all are records, 1 one is refused, 2 trouble with files or words.\n";

static bool hex, all;

/* ---- a record's fields */

#define KIND_BYTES  1
#define COUNT_BYTES 2

/* The longest fragment of a record: one board alone, and the longest message. */
#define LONGEST_FRAGMENT TUMBELIKO_S_MAX(1, 0, TUMBELIKO_LONGEST_MAX)

enum { KIND, ROOT_COUNT, ROOT, PATH_COUNT, PATH, FRAGMENT_COUNT, FRAGMENT, NOTICE_COUNT, NOTICE, FIELDS };

typedef struct {
    const char *name;
    size_t start, length;
} field;

/* Which fields a record has, left to right. */
typedef struct {
    int fields[FIELDS], count;
} form;

static const form fragment_form = { { KIND, ROOT_COUNT, ROOT, PATH_COUNT, PATH, FRAGMENT_COUNT, FRAGMENT }, 7 };
static const form notice_form = { { KIND, NOTICE_COUNT, NOTICE }, 3 };

/* What the library says of a record: with a number only the offset, else what it has. `length` is that of its last section. */
typedef struct {
    const form *of;
    uint32_t number, offset, kind, nodes, length;
} verdict;

/* A notice's kind is judged as a notice's record; all else as the other broadcast's. */
static verdict judge(const input *in)
{
    tumbeliko_notice notice = tumbeliko_read_notice(in->bytes, in->length);
    tumbeliko_parts parts;

    if (in->length > 0 && notice.number != TUMBELIKO_BAD_KIND)
        return (verdict){ &notice_form, notice.number, notice.offset, notice.kind, 0, notice.length };
    parts = tumbeliko_read_record(in->bytes, in->length);
    return (verdict){ &fragment_form, parts.number, parts.offset, parts.kind, parts.nodes, parts.fragment_length };
}

/* A record, how many of its bytes are fields without a fault, and where its fields are, as far as those bytes tell. */
typedef struct {
    const uint8_t *bytes;
    size_t length, good;
    const form *of;
    field fields[FIELDS];
} view;

static void lay_out(view *v, size_t nodes, size_t length)
{
    const field fields[FIELDS] = {
        [KIND]           = { "kind", TUMBELIKO_RECORD_KIND, KIND_BYTES },
        [ROOT_COUNT]     = { "root count", TUMBELIKO_RECORD_ROOT_COUNT, COUNT_BYTES },
        [ROOT]           = { "root", TUMBELIKO_RECORD_ROOT, TUMBELIKO_ROOT_BYTES },
        [PATH_COUNT]     = { "path count", TUMBELIKO_RECORD_PATH_COUNT, COUNT_BYTES },
        [PATH]           = { "path", TUMBELIKO_RECORD_PATH, nodes * TUMBELIKO_NODE_BYTES },
        [FRAGMENT_COUNT] = { "fragment count", TUMBELIKO_RECORD_FRAGMENT_COUNT(nodes), COUNT_BYTES },
        [FRAGMENT]       = { "fragment", TUMBELIKO_RECORD_FRAGMENT(nodes), length },
        [NOTICE_COUNT]   = { "notice count", TUMBELIKO_RECORD_NOTICE_COUNT, COUNT_BYTES },
        [NOTICE]         = { "notice", TUMBELIKO_RECORD_NOTICE, length },
    };

    for (int i = 0; i < FIELDS; i++)
        v->fields[i] = fields[i];
}

/* The number in the bytes of a kind or of a count, if they end by `limit`; else 0. */
static uint32_t number_in(const view *v, int which, size_t limit)
{
    const field *f = &v->fields[which];
    uint32_t number = 0;

    if (f->start + f->length > limit)
        return 0;
    for (size_t i = 0; i < f->length; i++)
        number = 256 * number + v->bytes[f->start + i];
    return number;
}

static view view_of(const input *in, verdict said)
{
    view v = { .bytes = in->bytes, .length = in->length, .good = in->length, .of = said.of };

    lay_out(&v, said.nodes, said.length);
    if (said.number != TUMBELIKO_OK) {
        /* A refusal tells no counts: those before the fault are good, and the others play no part. */
        bool notice = said.of == &notice_form;
        uint32_t nodes;

        if (said.offset < v.good)
            v.good = said.offset;
        lay_out(&v, nodes = notice ? 0 : number_in(&v, PATH_COUNT, v.good), 0);
        lay_out(&v, nodes, number_in(&v, notice ? NOTICE_COUNT : FRAGMENT_COUNT, v.good));
    }
    return v;
}

/* ---- in words */

static const struct {
    uint32_t kind;
    const char *name;
} kinds[] = {
    { TUMBELIKO_SEND, "a send" }, { TUMBELIKO_ECHO, "an echo" }, { TUMBELIKO_VOTE, "a vote" },
    { TUMBELIKO_NOTICE_SEND, "a notice's send" }, { TUMBELIKO_NOTICE_ECHO, "a notice's echo" },
    { TUMBELIKO_NOTICE_VOTE, "a notice's vote" },
};

enum { KINDS = sizeof kinds / sizeof *kinds };

static const char *kind_name(uint32_t kind)
{
    int i = 0;

    while (i < KINDS && kinds[i].kind != kind)
        i++;
    return i < KINDS ? kinds[i].name : "a record";
}

static const char *bytes_word(size_t count)
{
    return count == 1 ? "byte" : "bytes";
}

static void say_cut_off(const view *v, size_t offset)
{
    const field *f = v->fields;

    if (v->length == 0) {
        printf("cut off: there are no bytes");
        return;
    }
    /* A path of no nodes is no field that bytes could end before. */
    for (int i = 0; i < v->of->count; i++)
        if (v->fields[v->of->fields[i]].start == offset && v->fields[v->of->fields[i]].length > 0)
            f = &v->fields[v->of->fields[i]];
    printf("cut off after %zu %s, %s the %s (%zu %s from byte %zu on)", v->length, bytes_word(v->length),
           v->length > f->start ? "inside" : "before", f->name, f->length, bytes_word(f->length), f->start);
}

static void say_kind(uint32_t kind)
{
    printf("a kind of %u", kind);
    for (int i = 0; i < KINDS; i++)
        printf("%s %u is %s", i == 0 ? ";" : ",", kinds[i].kind, kinds[i].name);
    if (kind == '0' && !hex)
        printf(" (if the file is hex, --hex reads it)");
}

static void say_fault(const view *v, verdict said)
{
    uint32_t kind = number_in(v, KIND, v->length);
    bool vote = kind == TUMBELIKO_VOTE;

    printf("refused with %u at byte %u: ", said.number, said.offset);
    switch (said.number) {
    case TUMBELIKO_CUT_OFF:
        say_cut_off(v, said.offset);
        break;
    case TUMBELIKO_BAD_KIND:
        say_kind(kind);
        break;
    case TUMBELIKO_BAD_ROOT_COUNT:
        printf("the root count is %u; it must be %d", number_in(v, ROOT_COUNT, v->length), TUMBELIKO_ROOT_BYTES);
        break;
    case TUMBELIKO_BAD_PATH_COUNT:
        printf("the path count is %u; %s has ", number_in(v, PATH_COUNT, v->length), kind_name(kind));
        if (vote)
            printf("no path");
        else
            printf("at most %d nodes", TUMBELIKO_NODES_MAX);
        break;
    case TUMBELIKO_BAD_FRAGMENT_COUNT:
        if (v->of == &notice_form) {
            printf("the notice count is %u; a notice has at most %d bytes", number_in(v, NOTICE_COUNT, v->length),
                   TUMBELIKO_NOTICE_MAX);
            break;
        }
        printf("the fragment count is %u; %s has ", number_in(v, FRAGMENT_COUNT, v->length), kind_name(kind));
        if (vote)
            printf("no fragment");
        else
            printf("a fragment of 1 to %zu bytes", LONGEST_FRAGMENT);
        break;
    case TUMBELIKO_LEFT_OVER:
        printf("%zu %s left over after %s of %zu bytes", v->length - v->good, bytes_word(v->length - v->good),
               kind_name(kind), v->good);
        break;
    default:
        printf("no words for this number");
    }
}

/* What a notice says, between quotes; what is not plain ASCII becomes \xNN, and so do a quote and a backslash. */
static void say_notice(const view *v)
{
    const field *f = &v->fields[NOTICE];

    printf(": \"");
    for (size_t i = 0; i < f->length; i++) {
        uint8_t c = v->bytes[f->start + i];

        if (c < ' ' || c > '~' || c == '"' || c == '\\')
            printf("\\x%02x", c);
        else
            putchar(c);
    }
    printf("\"");
}

/* ---- the table of fields */

#define ROW_BYTES 32
#define END_BYTES 16

static void begin_row(size_t start, size_t length, const char *name)
{
    printf("%8zu%8zu  %-16s", start, length, name);
}

static void print_hex(const uint8_t *bytes, size_t length)
{
    for (size_t i = 0; i < length; i++)
        printf("%02x", bytes[i]);
}

/* All bytes in rows, or both ends of those that are more than a row. */
static void show_bytes(const view *v, const char *name, size_t start, size_t length, bool whole)
{
    const uint8_t *bytes = v->bytes + start;

    if (length > ROW_BYTES && !whole) {
        begin_row(start, length, name);
        print_hex(bytes, END_BYTES);
        printf(" .. ");
        print_hex(bytes + length - END_BYTES, END_BYTES);
        printf("\n");
        return;
    }
    for (size_t done = 0; done < length; done += ROW_BYTES) {
        size_t row = length - done < ROW_BYTES ? length - done : ROW_BYTES;

        begin_row(start + done, row, done == 0 ? name : "");
        print_hex(bytes + done, row);
        printf("\n");
    }
}

static void show_field(const view *v, int which)
{
    const field *f = &v->fields[which];
    uint32_t number;
    char name[40];

    switch (which) {
    case KIND:
        number = number_in(v, which, v->good);
        begin_row(f->start, f->length, f->name);
        printf("%u, %s\n", number, kind_name(number));
        break;
    case ROOT_COUNT:
    case PATH_COUNT:
    case FRAGMENT_COUNT:
    case NOTICE_COUNT:
        begin_row(f->start, f->length, f->name);
        printf("%u\n", number_in(v, which, v->good));
        break;
    case PATH:
        for (size_t node = 0; node < f->length / TUMBELIKO_NODE_BYTES; node++) {
            snprintf(name, sizeof name, "path node %zu", node + 1);
            show_bytes(v, name, f->start + node * TUMBELIKO_NODE_BYTES, TUMBELIKO_NODE_BYTES, true);
        }
        break;
    default:                            /* a notice is short: it is shown whole */
        show_bytes(v, f->name, f->start, f->length, all || which == NOTICE);
    }
}

static void show_fields(const view *v)
{
    if (v->length > 0)
        printf("  offset  length  field\n");
    for (int i = 0; i < v->of->count; i++) {
        const field *f = &v->fields[v->of->fields[i]];

        if (f->start + f->length <= v->good)
            show_field(v, v->of->fields[i]);
    }
    show_bytes(v, "the rest", v->good, v->length - v->good, all);
}

/* ---- files */

static int show_record(const char *file)
{
    static input in;
    verdict said;
    view v;

    if (!read_file(&in, file, hex))
        return TROUBLE;
    said = judge(&in);
    v = view_of(&in, said);
    print_name(stdout, file);
    printf(": ");
    if (said.number == TUMBELIKO_OK)
        printf("%s of %zu bytes", kind_name(said.kind), in.length);
    else
        say_fault(&v, said);
    if (said.number == TUMBELIKO_OK && said.of == &notice_form)
        say_notice(&v);
    printf("\n");
    show_fields(&v);
    return said.number == TUMBELIKO_OK ? FINE : REFUSED;
}

static int run(char **files, int count)
{
    int worst = FINE;

    for (int i = 0; i < count; i++) {
        int status = show_record(files[i]);

        if (status > worst)
            worst = status;
    }
    return worst;
}

static const option options[] = { { "--hex", &hex }, { "--all", &all } };

const subcommand record_subcommand = {
    "record", "[--hex] [--all] FILE..", "the fields of a record with their offsets, or what is wrong and where",
    help, options, sizeof options / sizeof *options, run
};
