/* The program: judges the command line and hands it to its verb. */
#include "arguments.h"
#include "fail.h"
#include "help.h"
#include "memory.h"
#include "numbers.h"
#include "output_file.h"
#include "progress.h"
#include "report.h"
#include "verb_table.h"

#include <fcntl.h>
#include <signal.h>
#include <stdio.h>
#include <stdlib.h>
#include <string.h>
#include <sys/stat.h>
#include <unistd.h>

static void check_options(const struct verb *verb, const struct arguments *arguments)
{
    int others = arguments->options & ~verb->options & ~OPTIONS_OF_EVERY_VERB;
    for (size_t i = 0; i < option_count; i++)
        if ((options[i].option & others) != 0)
            fail("%s takes no %s", verb->name, options[i].name);
}

static bool is_folder(const char *name)
{
    struct stat status;
    return stat(name, &status) == 0 && S_ISDIR(status.st_mode);
}

/* Names the files of a case that is one folder. */
static void name_files_in(const char *folder, int count, char **files)
{
    static const char *const names[FILES_OF_CASE] = {"sheet", "image", "pagefile"};
    for (int i = 0; i < count; i++) {
        size_t length = strlen(folder) + 1 + strlen(names[i]);
        files[i] = allocate(length + 1, 1);
        snprintf(files[i], length + 1, "%s/%s", folder, names[i]);
    }
}

/* Names the verb's files; gives the count of operands that this takes. */
static int name_files(const struct verb *verb, const struct arguments *arguments, char **files)
{
    int count = verb->files - ((arguments->options & NO_PAGEFILE) != 0);
    if (verb->files == FILES_OF_CASE && arguments->operand_count > 0 && is_folder(arguments->operands[0])) {
        name_files_in(arguments->operands[0], count, files);
        return 1;
    }
    for (int i = 0; i < count && i < arguments->operand_count; i++)
        files[i] = arguments->operands[i];
    return count;
}

static void parse_operands(struct command *command, char **operands, int count)
{
    command->numbers = allocate((uint64_t)count, sizeof *command->numbers);
    command->number_count = (size_t)count;
    for (int i = 0; i < count; i++) {
        const char *fault = parse_number(operands[i], strlen(operands[i]), &command->numbers[i]);
        if (fault != NULL)
            fail("'%s': %s", operands[i], fault);
    }
}

static struct command judge(const struct verb *verb, const struct arguments *arguments)
{
    struct command command = {.output = arguments->output,
                              .cr3 = arguments->cr3,
                              .all = (arguments->options & ALL) != 0,
                              .in_pages = (arguments->options & PAGES) != 0,
                              .plain = (arguments->options & PLAIN) != 0,
                              .pae = (arguments->options & PAE) != 0};
    int files = name_files(verb, arguments, command.files);
    int numbers = arguments->operand_count - files;
    /* --cr3 stands in place of an operand. */
    int fewest = verb->fewest_numbers - (command.cr3 != NULL);
    if (numbers < fewest || (verb->most_numbers >= 0 && numbers > verb->most_numbers))
        fail("%s: too %s operands; 'glintloom help %s' lists them", verb->name, numbers < fewest ? "few" : "many",
             verb->name);
    if (takes_addresses(verb) && command.output != NULL && numbers != 1)
        fail("%s: -o takes exactly one address", verb->name);
    command.words = arguments->operands + files;
    command.word_count = (size_t)numbers;
    if (!takes_ranges(verb))
        parse_operands(&command, command.words, numbers);
    return command;
}

/* Opens a closed standard descriptor so that no file takes its number, the wrong way round so that its use is an error. */
static void hold_standard_descriptors(void)
{
    static const int modes[] = {O_WRONLY, O_RDONLY, O_RDONLY};
    for (int descriptor = 0; descriptor <= STDERR_FILENO; descriptor++)
        if (fcntl(descriptor, F_GETFD) < 0 && open("/dev/null", modes[descriptor]) != descriptor)
            exit(FAILED);
}

static int report_about_program(const struct arguments *arguments, const struct verb *topic)
{
    bool about_version = (arguments->options & VERSION) != 0;
    char *text = NULL;
    size_t length;
    FILE *stream = open_memstream(&text, &length);
    if (stream == NULL)
        fail("not enough memory");
    if (about_version)
        print_version(stream);
    else
        print_help(stream, topic);
    if (fclose(stream) != 0)
        fail("not enough memory");
    begin_report(about_version ? "version" : "help", (arguments->options & JSON) != 0);
    report_text(text);
    end_report();
    free(text);
    return ANSWERED;
}

/* `help`, whose operand is a verb. */
static int help_on_operand(const struct verb *help, const struct arguments *arguments)
{
    check_options(help, arguments);
    if (arguments->operand_count > 1)
        fail("help: too many operands; it takes one verb");
    return report_about_program(arguments, arguments->operand_count == 1 ? verb_named(arguments->operands[0]) : NULL);
}

static int run(const struct verb *verb, const struct arguments *arguments)
{
    if (arguments->output != NULL && is_standard_output(arguments->output))
        report_on_standard_error();
    begin_report(verb->name, (arguments->options & JSON) != 0);
    check_options(verb, arguments);
    struct command command = judge(verb, arguments);
    bool from_input = takes_addresses(verb) ? command.word_count == 0
                                            : takes_ranges(verb) && command.word_count == (command.cr3 == NULL);
    if (!from_input || !isatty(STDIN_FILENO))
        start_progress();
    int status = verb->run(&command);
    end_progress();
    end_report();
    free(command.numbers);
    return status;
}

int main(int count, char **words)
{
    hold_standard_descriptors();
    /* A write past a limit is told by its error. */
    signal(SIGXFSZ, SIG_IGN);
    struct arguments arguments = split_words(words + 1, count - 1);
    bool about_program = (arguments.options & (HELP | VERSION)) != 0;
    if (arguments.operand_count == 0 && !about_program) {
        print_help(stderr, NULL);
        return FAILED;
    }
    const struct verb *verb = NULL;
    if (arguments.operand_count > 0) {
        verb = verb_named(arguments.operands[0]);
        arguments.operands++;
        arguments.operand_count--;
    }
    if (about_program)
        return report_about_program(&arguments, verb);
    return verb->run == NULL ? help_on_operand(verb, &arguments) : run(verb, &arguments);
}
