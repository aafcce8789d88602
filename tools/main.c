/* tumbeliko: one program, with a subcommand for each question of a technician. */

#include <errno.h>
#include <string.h>
#include "program.h"

static const subcommand *const subcommands[] = { &record_subcommand };

enum { SUBCOMMANDS = sizeof subcommands / sizeof *subcommands };

/* The one that the words are for; none before it is found. */
static const subcommand *at_work;

/* ---- what is printed */

static void show_usage(FILE *to)
{
    if (at_work != NULL)
        fprintf(to, "usage: tumbeliko %s %s\n", at_work->name, at_work->words);
    else
        fprintf(to, "usage: tumbeliko SUBCOMMAND [OPTION].. FILE..\n"
                    "       tumbeliko help [SUBCOMMAND]\n");
}

static int usage_wanted(void)
{
    show_usage(stderr);
    return TROUBLE;
}

/* Of the subcommand, or of all. */
static int help(void)
{
    show_usage(stdout);
    if (at_work != NULL) {
        printf("\n%s", at_work->help);
        return FINE;
    }
    printf("\nA technician's view of the bytes that the boards of a line hand to each other.\n\n");
    for (int i = 0; i < SUBCOMMANDS; i++)
        printf("  %-10s%s\n", subcommands[i]->name, subcommands[i]->summary);
    printf("\n`tumbeliko SUBCOMMAND --help` tells more.\n"
           "Exit status: 0 fine, 1 something was refused, 2 trouble with files or words.\n");
    return FINE;
}

void print_name(FILE *to, const char *name)
{
    for (; *name != 0; name++) {
        unsigned char c = (unsigned char)*name;

        if (c < ' ' || c == 0x7f)
            fprintf(to, "\\x%02x", c);
        else
            putc(c, to);
    }
}

bool complain(const char *which, const char *what)
{
    /* What was printed before comes first where both go to one place. */
    fflush(stdout);
    fprintf(stderr, "tumbeliko: ");
    if (at_work != NULL)
        fprintf(stderr, "%s: ", at_work->name);
    print_name(stderr, which);
    fprintf(stderr, ": %s\n", what);
    return false;
}

/* ---- words */

static const subcommand *find_subcommand(const char *name)
{
    for (int i = 0; i < SUBCOMMANDS; i++)
        if (strcmp(subcommands[i]->name, name) == 0)
            return subcommands[i];
    complain(name, name[0] == '-' ? "no such option; `tumbeliko --help` tells more"
                                  : "no such subcommand; `tumbeliko --help` lists them");
    return NULL;
}

static bool set_option(const char *word)
{
    for (size_t i = 0; i < at_work->option_count; i++)
        if (strcmp(at_work->options[i].word, word) == 0)
            return *at_work->options[i].given = true;
    return complain(word, "no such option; --help tells more");
}

/* The words after the subcommand: options may stand between files, until `--` ends them. */
static int run_subcommand(char **words, int count)
{
    int files = 0;
    bool options_ended = false;

    for (int i = 0; i < count && strcmp(words[i], "--") != 0; i++)
        if (strcmp(words[i], "--help") == 0)
            return help();
    for (int i = 0; i < count; i++) {
        if (options_ended || words[i][0] != '-' || strcmp(words[i], "-") == 0)
            words[files++] = words[i];
        else if (strcmp(words[i], "--") == 0)
            options_ended = true;
        else if (!set_option(words[i]))
            return TROUBLE;
    }
    return files == 0 ? usage_wanted() : at_work->run(words, files);
}

static int run(char **words, int count)
{
    bool helps;

    if (count < 1)
        return usage_wanted();
    if (strcmp(words[0], "--help") == 0)
        return help();
    helps = strcmp(words[0], "help") == 0;
    if (helps && count == 1)
        return help();
    if (helps && count > 2)
        return usage_wanted();
    at_work = find_subcommand(words[helps]);
    return at_work == NULL ? TROUBLE : helps ? help() : run_subcommand(words + 1, count - 1);
}

int main(int argc, char **argv)
{
    int status = run(argv + 1, argc - 1);
    bool lost = ferror(stdout) != 0;

    errno = 0;
    if (fclose(stdout) != 0 || lost) {
        fprintf(stderr, "tumbeliko: standard output: %s\n", errno != 0 ? strerror(errno) : "could not be written");
        return TROUBLE;
    }
    return status;
}
