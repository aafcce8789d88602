/* Options of the demonstration: who spreads what over which line, and who breaks the rules. */

#include <errno.h>
#include <stdio.h>
#include <stdlib.h>
#include <string.h>
#include <time.h>
#include "line.h"

static const char built_in[] =
    "The bindery's boards must agree on the order sheet: all of them, on the same\n"
    "one, even if the sender or up to t of the boards break the rules.\n";

static void help(const char *program)
{
    printf("usage: %s [-n BOARDS] [-t FAULTY] [--breaks LIST] [--loss PERCENT]\n"
           "       [--poll MS] [--seed NUMBER] [--picture FILE.svg] [FILE | --notice TEXT]\n\n"
           "Board 1 spreads FILE (or a built-in text), or the notice TEXT, to all boards.\n"
           "Records are lost and put out again, repeated, and handed over in any order, and\n"
           "some boards break the rules. Shows what each board heard, put out and delivered,\n"
           "counts records and bytes, and says whether the promises held: exit status 1 if\n"
           "one did not.\n\n"
           "  -n BOARDS       how many boards, 1 to 64; 7 if not given\n"
           "  -t FAULTY       how many of them may break the rules, 3t < n; as many as\n"
           "                  possible if not given\n"
           "  --breaks LIST   who breaks the rules and how, at most t boards, such as\n"
           "                  1:fails,4:lies; or none. If not given, board 1 fails and\n"
           "                  board 4 lies, as far as t allows\n"
           "                    fails    stops for good halfway\n"
           "                    silent   puts out nothing\n"
           "                    lies     tells each board something else\n"
           "                    garbles  (board 1) sends fragments of no block\n"
           "                    splits   (board 1) sends two different files or notices\n"
           "  --loss PERCENT  how many records in 100 are lost, 0 to 90; 10 if not given\n"
           "  --poll MS       records wait in a mailbox, and each board empties its own every\n"
           "                  MS milliseconds, 1 to 1000, by one call; if not given, each\n"
           "                  record is handed over by a call of its own as it arrives\n"
           "  --seed NUMBER   the same run for the same number\n"
           "  --picture FILE  draws the run as SVG, for a browser\n"
           "  --file FILE     the same as FILE: at most 16,384 bytes\n"
           "  --notice TEXT   spreads this text, whole in every record and without a tree: 0 to\n"
           "                  64 bytes. Notices have no mailbox and no fragments: neither\n"
           "                  --poll nor garbles goes with it\n"
           "  --help          this text\n", program);
}

static int complain(const char *what, const char *which)
{
    fprintf(stderr, "line: %s%s%s; --help tells more\n", what, which[0] ? ": " : "", which);
    return 2;
}

/* A number of at most nine digits; -1 if it is none. */
static long number_of(const char *word)
{
    size_t digits = strspn(word, "0123456789");

    return digits == 0 || digits > 9 || word[digits] != 0 ? -1 : strtol(word, NULL, 10);
}

/* ---- who breaks the rules */

static int break_one(const char *word)
{
    char number[4] = "";
    size_t digits = strcspn(word, ":");
    behaviour how = FAILS;
    long board;

    if (word[digits] != ':' || digits >= sizeof number)
        return complain("not NUMBER:HOW", word);
    memcpy(number, word, digits);
    board = number_of(number);
    if (board < 1 || board > (long)play.n)
        return complain("no such board", word);
    while (how <= SPLITS && strcmp(word + digits + 1, behaviour_name(how)) != 0)
        how++;
    if (how > SPLITS)
        return complain("no such way to break the rules", word);
    if (how == GARBLES && play.notice)
        return complain("a notice has no fragments to garble", word);
    if (how > LIES && board != SENDER)
        return complain("only the sender, board 1, can do that", word);
    if (play.behaves[board - 1] != KEEPS)
        return complain("a board named twice", word);
    play.behaves[board - 1] = how;
    return 0;
}

static int break_all(const char *list)
{
    char words[1000];
    uint32_t count = 0;

    if (strlen(list) >= sizeof words)
        return complain("a list too long", "--breaks");
    if (strcmp(list, "none") == 0)
        return 0;
    strcpy(words, list);
    for (char *word = words, *next; word != NULL; word = next) {
        next = strchr(word, ',');
        if (next != NULL)
            *next++ = 0;
        if (break_one(word) != 0)
            return 2;
        count++;
    }
    return count <= play.t ? 0 : complain("more boards than t break the rules", list);
}

/* ---- the other options */

enum { N, T, LOSS, POLL, SEED, NUMBERS };
enum { BREAKS, PICTURE, FILE_NAME, NOTICE, WORDS };

static long numbers[NUMBERS] = { 7, -1, 10, -1, -1 };
static const char *words[WORDS];

static int find(const char *const *names, int count, const char *name)
{
    int i = 0;

    while (i < count && strcmp(names[i], name) != 0)
        i++;
    return i;
}

/* Takes the option and its value; answers how many arguments were taken, 0 after a complaint. */
static int take_option(const char *name, const char *value)
{
    static const char *const with_number[] = { "-n", "-t", "--loss", "--poll", "--seed" };
    static const char *const with_word[] = { "--breaks", "--picture", "--file", "--notice" };
    int number = find(with_number, NUMBERS, name), word = find(with_word, WORDS, name);

    if (name[0] != '-')
        return words[FILE_NAME] == NULL ? (words[FILE_NAME] = name, 1) : (complain("one file at a time", name), 0);
    if (number == NUMBERS && word == WORDS)
        return complain("no such option", name), 0;
    if (value == NULL)
        return complain("something must follow", name), 0;
    if (word < WORDS) {
        if (words[word] != NULL)
            return complain("given twice", name), 0;
        words[word] = value;
        return 2;
    }
    numbers[number] = number_of(value);
    return numbers[number] >= 0 ? 2 : (complain("a number of at most nine digits must follow", name), 0);
}

static int read_file(const char *name)
{
    FILE *file = fopen(name, "rb");

    if (file == NULL)
        return complain(strerror(errno), name);
    play.file_len = fread(play.file, 1, sizeof play.file, file);
    if (ferror(file)) {
        fclose(file);
        return complain("cannot read", name);
    }
    fclose(file);
    return play.file_len <= LONGEST ? 0 : complain("longer than 16,384 bytes", name);
}

/* What is spread: a notice, a file, or the built-in text. */
static int set_message(void)
{
    play.notice = words[NOTICE] != NULL;
    play.name = words[FILE_NAME] != NULL ? words[FILE_NAME] : play.notice ? "a notice" : "a built-in text";
    if (!play.notice) {
        memcpy(play.file, built_in, play.file_len = sizeof built_in - 1);
        return words[FILE_NAME] != NULL ? read_file(words[FILE_NAME]) : 0;
    }
    if (words[FILE_NAME] != NULL)
        return complain("a notice or a file, not both", words[FILE_NAME]);
    if (play.poll > 0)
        return complain("notices have no mailbox: --poll does not go with --notice", "");
    play.file_len = strlen(words[NOTICE]);
    if (play.file_len > TUMBELIKO_NOTICE_MAX)
        return complain("a notice has at most 64 bytes", words[NOTICE]);
    memcpy(play.file, words[NOTICE], play.file_len);
    return 0;
}

static int set_up(void)
{
    if (numbers[N] < 1 || numbers[N] > BOARDS)
        return complain("there must be 1 to 64 boards", "");
    if (numbers[T] < 0)
        numbers[T] = (numbers[N] - 1) / 3;
    if (3 * numbers[T] >= numbers[N])
        return complain("3t must be below n", "");
    if (numbers[LOSS] > 90)
        return complain("at most 90 of 100 records can be lost", "");
    if (numbers[POLL] == 0 || numbers[POLL] > 1000)
        return complain("there must be 1 to 1000 ms from poll to poll", "");
    play.n = (uint32_t)numbers[N];
    play.t = (uint32_t)numbers[T];
    play.loss = (uint32_t)numbers[LOSS];
    play.poll = numbers[POLL] < 0 ? 0 : (uint64_t)numbers[POLL] * 1000;
    play.seed = (uint64_t)(numbers[SEED] >= 0 ? numbers[SEED] : (long)(time(NULL) % 1000000));
    play.picture = words[PICTURE];
    if (set_message() != 0)
        return 2;
    return break_all(words[BREAKS] != NULL ? words[BREAKS] : play.t == 0 ? "none" : play.t == 1 ? "1:fails"
                     : "1:fails,4:lies");
}

int main(int argc, char **argv)
{
    bool held;

    for (int i = 1, taken; i < argc; i += taken) {
        if (strcmp(argv[i], "--help") == 0) {
            help(argv[0]);
            return 0;
        }
        taken = take_option(argv[i], i + 1 < argc ? argv[i + 1] : NULL);
        if (taken == 0)
            return 2;
    }
    if (set_up() != 0)
        return 2;
    run_line();
    show_table();
    held = show_promises();
    if (play.picture != NULL && !draw_picture())
        return complain(strerror(errno), play.picture);
    return held ? 0 : 1;
}
