#include "commands.h"

#include "check.h"
#include "compare.h"
#include "help.h"
#include "load.h"
#include "show.h"
#include "split.h"
#include "statement.h"
#include "write.h"

#include <string.h>

#define ANY SIZE_MAX
#define TABLES (BIT(OPTION_CSV) | BIT(OPTION_JSON))

const struct option_words options[OPTIONS] = {
    [OPTION_CSV] = {"--csv", NULL, "print a table as CSV, with a heading line"},
    [OPTION_JSON] = {"--json", NULL, "print a table as JSON"},
    [OPTION_NAMES] = {"--names", "FILE", "take names from lines such as 'participant 0 is Town'"},
    [OPTION_OUTPUT] = {"-o", "FILE", "write this file; - is standard output"},
    [OPTION_CENTS] = {"--cents", NULL, "the sheet's amounts are in cents"},
    [OPTION_DOLLARS] = {"--dollars", NULL, "the sheet's amounts are in dollars"},
};

#define FILE_NEEDED "give the name of a file"
#define TEXT_NEEDED "give the name of a text"
#define FILE_PAGE                                                                                 \
    "FILE is an exercise file, or an hour's text, which needs no 'write' first.\n"                \
    "With several files, each answer stands under its file's name.\n"

const struct command commands[] = {
    {
        .name = "statement",
        .words = "FILE..",
        .summary = "the statement in cents, a line for each participant",
        .page =
            "A line has the participant's number, congestion charge, loss charge, loss credit\n"
            "and net (charges less credit); the last line has their sums.\n" FILE_PAGE,
        .options = TABLES | BIT(OPTION_NAMES),
        .least = 1,
        .most = ANY,
        .needed = FILE_NEEDED,
        .act_on = print_statement,
    },
    {
        .name = "settle",
        .words = "FILE..",
        .summary = "the statement in dollars, aligned",
        .page = "What each participant pays for congestion and for losses, the loss credit that\n"
                "it gets, and the net of them.\n" FILE_PAGE,
        .options = TABLES | BIT(OPTION_NAMES),
        .least = 1,
        .most = ANY,
        .needed = FILE_NEEDED,
        .act_on = print_settled,
    },
    {
        .name = "check",
        .words = "FILE..",
        .summary = "whether a file can be settled, and if not, where",
        .page = "What is in the file; or 'refused' and a number, and on standard error where the\n"
                "file is wrong and what might stand there.\n" FILE_PAGE,
        .options = TABLES | BIT(OPTION_NAMES),
        .least = 1,
        .most = ANY,
        .needed = FILE_NEEDED,
        .act_on = check_hour,
    },
    {
        .name = "write",
        .words = "TEXT.. [-o FILE]",
        .summary = "exercise files from texts",
        .page = "The file of hour.text is hour.exercise, beside it; a name without .text gets\n"
                ".exercise added. What stands there and is no exercise file isn't replaced.\n",
        .options = BIT(OPTION_OUTPUT) | BIT(OPTION_NAMES),
        .least = 1,
        .most = ANY,
        .needed = TEXT_NEEDED,
        .act_on = write_hour,
    },
    {
        .name = "show",
        .words = "FILE..",
        .summary = "an exercise file as text",
        .page =
            "From this text 'write' makes the same file again.\n"
            "Prices in dollars, power in MW; with --csv or --json in mills and kW.\n" FILE_PAGE,
        .options = TABLES | BIT(OPTION_NAMES),
        .least = 1,
        .most = ANY,
        .needed = FILE_NEEDED,
        .act_on = show_hour,
    },
    {
        .name = "split",
        .words = "AMOUNT SHARE..",
        .summary = "an amount split over shares, in whole units",
        .page = "Whole numbers, as cents: 'wunzelihle split 1390 30 30 30' splits 13.90 dollars.\n"
                "The parts are in a line.\n",
        .options = TABLES,
        .least = 1,
        .most = ANY,
        .needed = "give an amount and the shares that it is split over",
        .has_numbers = 1,
        .act = split_words,
    },
    {
        .name = "load",
        .words = "TEXT..",
        .summary = "a distributor's load, handed out at its buses",
        .page = "A line for each participant that gets any load, with its kW at each bus, and\n"
                "last the kW at each bus. examples/document-01.load is such a text.\n",
        .options = TABLES,
        .least = 1,
        .most = ANY,
        .needed = TEXT_NEEDED,
        .act_on = assign_load,
    },
    {
        .name = "compare",
        .words = "FILE SHEET",
        .summary = "a sheet (CSV) beside the statement, cell by cell",
        .page =
            "The cells that differ: line of the sheet, participant, figure, what the sheet has,\n"
            "what the statement has, the difference. The sheet has columns participant,\n"
            "congestion, loss, credit and net: with a heading in any order, without one in\n"
            "this order. An amount with a point or a $ makes it a sheet in dollars, otherwise it is\n"
            "in cents.\n",
        .options = TABLES | BIT(OPTION_NAMES) | BIT(OPTION_CENTS) | BIT(OPTION_DOLLARS),
        .least = 2,
        .most = 2,
        .needed = "give the names of a file and of a sheet",
        .act = compare_words,
    },
    {
        .name = "help",
        .words = "[COMMAND]",
        .summary = "this, or a command's own page",
        .page = "",
        .most = 1,
        .act = help_words,
    },
};

const size_t command_count = sizeof commands / sizeof *commands;

const struct command *find_command(const char *name)
{
    size_t i = 0;

    while (i < command_count && strcmp(name, commands[i].name) != 0)
        i++;
    return i < command_count ? &commands[i] : NULL;
}
