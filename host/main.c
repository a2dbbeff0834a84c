/*
 * wunzelihle: settles an hour, checks, writes, shows or compares its file,
 * splits an amount or assigns a load through the engine's archive, as its words
 * ask. README.md describes it.
 */
#include "commands.h"
#include "files.h"
#include "help.h"

#include <ctype.h>
#include <string.h>

/* What reading the words came to. */
enum reading { READ, HELPED, SLIPPED };

/* ---- options */

/* The options that an option can't stand beside: another of its kind, and itself. */
static const unsigned rivals[OPTIONS] = {
    [OPTION_CSV] = BIT(OPTION_CSV) | BIT(OPTION_JSON),
    [OPTION_JSON] = BIT(OPTION_CSV) | BIT(OPTION_JSON),
    [OPTION_NAMES] = BIT(OPTION_NAMES),
    [OPTION_OUTPUT] = BIT(OPTION_OUTPUT),
    [OPTION_CENTS] = BIT(OPTION_CENTS) | BIT(OPTION_DOLLARS),
    [OPTION_DOLLARS] = BIT(OPTION_CENTS) | BIT(OPTION_DOLLARS),
};

/* Sets an option of the job. Gives 0 where one of its kind is set already. */
static int set_option(struct job *job, enum option option, const char *value)
{
    if (job->options & rivals[option])
        return 0;
    job->options |= BIT(option);
    switch (option) {
    case OPTION_CSV:
        job->answer.format = CSV;
        break;
    case OPTION_JSON:
        job->answer.format = JSON;
        break;
    case OPTION_NAMES:
        job->names_file = value;
        break;
    case OPTION_OUTPUT:
        job->output = value;
        break;
    case OPTION_CENTS:
        job->unit = CENTS;
        break;
    case OPTION_DOLLARS:
        job->unit = DOLLARS;
        break;
    case OPTIONS:
        break;
    }
    return 1;
}

/*
 * The option that a word is, OPTIONS where it is none. Its value may stand in
 * the word: --names=FILE, -oFILE.
 */
static enum option option_of(const char *word, const char **value)
{
    enum option option = OPTION_CSV;

    *value = NULL;
    for (; option < OPTIONS; option++) {
        size_t len = strlen(options[option].word);
        const char *rest = word + len;
        int is_long = options[option].word[1] == '-';

        if (strncmp(word, options[option].word, len) != 0)
            continue;
        if (*rest == '\0')
            return option;
        if (!options[option].value || (is_long && *rest != '='))
            continue;
        *value = rest + is_long;
        return option;
    }
    return OPTIONS;
}

/*
 * Says that there is no such option, and which one is near; where there is no
 * command yet, that may be a command.
 */
static enum reading unknown_option(const struct job *job, const char *word)
{
    const char *near[OPTIONS + 2 + MOST_COMMANDS] = {"--help", "--version"};
    size_t count = 2, i;

    for (i = 0; i < command_count && !job->command; i++)
        near[count++] = commands[i].name;
    for (i = 0; i < OPTIONS; i++) {
        if (options[i].word[1] == '-')
            near[count++] = options[i].word;
    }
    slip_near(job->command, word, "no such option", near, count);
    return SLIPPED;
}

/* Says what is wrong with the option at hand. */
static enum reading wrong_option(const struct job *job, const char *word, const char *why)
{
    slip(job->command, word, why);
    return SLIPPED;
}

/* Reads the option at hand, and the word after it where that is its value. */
static enum reading read_option(struct job *job, char ***word)
{
    const char *value, *first = **word;
    enum option option = option_of(first, &value);

    if (option == OPTIONS)
        return unknown_option(job, first);
    if (options[option].value && !value) {
        value = (*word)[1];
        if (!value)
            return wrong_option(job, first, "give the name of a file after it");
        ++*word;
    }
    return set_option(job, option, value) ? READ
                                          : wrong_option(job, first, "one such option is enough");
}

/* ---- words */

/* Whether a word is a number below 0, where a command is about numbers. */
static int is_number(const struct job *job, const char *word)
{
    return job->command && job->command->has_numbers && word[0] == '-' &&
           isdigit((unsigned char)word[1]);
}

static int is_option(const struct job *job, const char *word)
{
    return word[0] == '-' && word[1] != '\0' && !is_number(job, word);
}

/* Takes the first word, which is the command. */
static enum reading read_command(struct job *job, const char *word)
{
    job->command = find_command(word);
    if (job->command)
        return READ;
    if (strpbrk(word, "./") || is_standard(word))
        slip(NULL, word,
             "no such command; a file stands after one, as in '" PROGRAM " settle FILE'");
    else
        unknown_command(word);
    return SLIPPED;
}

/* Takes a word that is no option; the words of the job take the place of those read. */
static enum reading read_word(struct job *job, char *word)
{
    if (!job->command)
        return read_command(job, word);
    job->words[job->count++] = word;
    return READ;
}

/* Takes -h, --help and --version; gives READ for all other words. */
static enum reading read_question(const struct job *job, const char *word)
{
    if (strcmp(word, "--version") == 0) {
        print_version();
        return HELPED;
    }
    if (strcmp(word, "-h") != 0 && strcmp(word, "--help") != 0)
        return READ;
    if (job->command)
        print_page(job->command);
    else
        print_overview(stdout);
    return HELPED;
}

static enum reading read_words(struct job *job, char **word)
{
    enum reading reading = READ;
    int options_end = 0;

    for (; *word && reading == READ; word++) {
        if (options_end || !is_option(job, *word)) {
            reading = read_word(job, *word);
        } else if (strcmp(*word, "--") == 0) {
            options_end = 1;
        } else {
            reading = read_question(job, *word);
            if (reading == READ)
                reading = read_option(job, &word);
        }
    }
    job->words[job->count] = NULL;
    return reading;
}

/* ---- whether they fit */

/* What to do in the place of an option that isn't the command's; of any command where it is "". */
static const struct {
    enum option option;
    const char *command;
    const char *instead;
} advice[] = {
    {OPTION_OUTPUT, "", "it is for write; to save what is printed, put > FILE at the end"},
    {OPTION_DOLLARS, "settle", "settle prints dollars already"},
    {OPTION_DOLLARS, "statement", "settle prints dollars"},
    {OPTION_DOLLARS, "", "it is for the sheet of compare"},
    {OPTION_CENTS, "statement", "statement prints cents already"},
    {OPTION_CENTS, "settle", "statement prints cents"},
    {OPTION_CENTS, "", "it is for the sheet of compare"},
    {OPTION_CSV, "write", "write makes an exercise file; 'show --csv' prints it as a table"},
    {OPTION_JSON, "write", "write makes an exercise file; 'show --json' prints it as a table"},
};

static const char *instead_of(enum option option, const struct command *command)
{
    size_t i;

    for (i = 0; i < sizeof advice / sizeof *advice; i++) {
        if (advice[i].option == option &&
            (*advice[i].command == '\0' || strcmp(advice[i].command, command->name) == 0))
            return advice[i].instead;
    }
    return "not an option of this command";
}

/* Whether the options that are set are the command's. Otherwise it has said so. */
static int has_options(const struct job *job)
{
    unsigned others = job->options & ~job->command->options;
    enum option option = OPTION_CSV;

    while (option < OPTIONS && !(others & BIT(option)))
        option++;
    return option == OPTIONS || slip(job->command, options[option].word,
                                     instead_of(option, job->command)) == STATUS_DONE;
}

/* Whether standard input is read at most once. */
static int reads_input_once(const struct job *job)
{
    int times = job->names_file && is_standard(job->names_file);
    size_t i;

    for (i = 0; i < job->count && !job->command->has_numbers; i++)
        times += is_standard(job->words[i]);
    return times < 2 || slip(job->command, "-", "standard input can be read once") == STATUS_DONE;
}

static int has_words(const struct job *job)
{
    const struct command *command = job->command;

    if (job->count < command->least)
        return slip(command, command->name, command->needed) == STATUS_DONE;
    if (job->count > command->most)
        return slip(command, job->words[command->most], "one word too many") == STATUS_DONE;
    if (job->output && job->count > 1)
        return slip(command, job->words[1], "-o takes one text alone") == STATUS_DONE;
    return reads_input_once(job);
}

/* ---- what is done */

/* Acts on a file; where it can't be used, a table of several files has a line of it, too. */
static enum status act_on_file(struct job *job, const char *name)
{
    enum status status;

    job->answer.file = name;
    status = job->command->act_on(job, name);
    if (status == STATUS_FAULT)
        print_unusable(&job->answer, last_message());
    return status;
}

static enum status act(struct job *job)
{
    enum status status = STATUS_DONE;
    size_t i;

    if (job->names_file && !read_names(job->names_file, &job->names))
        return STATUS_FAULT;
    job->answer.several = job->command->act_on && job->count > 1;
    if (job->command->act)
        status = job->command->act(job);
    for (i = 0; job->command->act_on && i < job->count; i++)
        status = worse(status, act_on_file(job, job->words[i]));
    end_answer(&job->answer, status != STATUS_FAULT);
    return status;
}

static enum status run(char **word)
{
    struct job job = {.words = word};
    enum reading reading;

    if (!*word) {
        print_overview(stderr);
        return STATUS_FAULT;
    }
    reading = read_words(&job, word);
    if (reading != READ)
        return reading == HELPED ? STATUS_DONE : STATUS_FAULT;
    if (!job.command)
        return slip(NULL, "no command", "give one");
    return has_options(&job) && has_words(&job) ? act(&job) : STATUS_FAULT;
}

int main(int argc, char **argv)
{
    return (int)flushed(run(argv + (argc > 0)));
}
