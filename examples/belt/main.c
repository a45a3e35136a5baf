/*
 * The belt's week on the model: an image counts rejected packs, and a hostile
 * twin of its barcode routine tries to reach the count. See README.md.
 */
#include "belt.h"

#include <stdio.h>
#include <string.h>

static const char usage[] =
    "usage: belt [--state] ROM RAM PACKS CELL     the week; CELL has the count of the cell\n"
    "       belt --twin [--state] ROM RAM PACKS   the hostile twin, attempt by attempt\n"
    "       belt -h, belt --help                  this text\n"
    "--state also prints steps and the machine record. Exit status: 0 the counts are equal, or the\n"
    "twin reached nothing; 1 the counts differ; 2 usage; 3 an input is refused; 4 anything else failed.\n";

struct options {
    int help;
    int state;
    int twin;
};

/* Takes the options off the arguments. Answers the one that is unknown, or null. */
static const char *take_options(int *argc, char ***argv, struct options *options)
{
    for (; *argc > 0 && (**argv)[0] == '-'; --*argc, ++*argv) {
        if (strcmp(**argv, "-h") == 0 || strcmp(**argv, "--help") == 0)
            options->help = 1;
        else if (strcmp(**argv, "--state") == 0)
            options->state = 1;
        else if (strcmp(**argv, "--twin") == 0)
            options->twin = 1;
        else
            return **argv;
    }
    return NULL;
}

static int end(int status)
{
    if (fflush(stdout) == 0 && !ferror(stdout))
        return status;
    fprintf(stderr, "belt: FAILED: what was printed could not be written\n");
    return FAILED;
}

static int bad_usage(const char *unknown)
{
    if (unknown != NULL)
        fprintf(stderr, "belt: unknown option %s\n", unknown);
    fprintf(stderr, "%s", usage);
    return BAD_USAGE;
}

int main(int argc, char **argv)
{
    static struct cell c;
    struct count cell = {0, 0};
    struct options options = {0, 0, 0};
    const char *unknown;

    argc--;
    argv++;
    unknown = take_options(&argc, &argv, &options);
    if (options.help) {
        printf("%s", usage);
        return end(0);
    }
    if (unknown != NULL || argc != (options.twin ? 3 : 4))
        return bad_usage(unknown);
    /* All input is read before anything is run. */
    read_image(argv[0], c.rom, sizeof c.rom);
    read_image(argv[1], c.ram, sizeof c.ram);
    c.packs = read_packs(argv[2], c.belt);
    if (options.twin) {
        run_twin(&c, argv[0], options.state);
        return end(0);
    }
    cell = read_count(argv[3]);
    monday(&c, argv[0], argv[1]);
    tuesday(&c);
    wednesday(&c);
    thursday(&c, options.state);
    return end(friday(&c, cell) ? 0 : COUNTS_DIFFER);
}
