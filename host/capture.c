/*
 * capture TABLE < LOG
 *
 * Follows a log while it is written: TABLE is a rule table as it was drawn, LOG is read byte by byte, each byte one
 * letter. It ends at the first letter that is not taken, or with the log, and prints one line:
 *
 *   accepted after K letters    the log is one that the table accepts                       exit status 0
 *   unfinished after K letters  it could go on to be accepted, but it ended                 exit status 1
 *   stopped at letter K         no accepted log begins so; K is 0 if there is none at all   exit status 1
 *   refused N at letter K       the reader refused this letter and did not take it          exit status 2
 *   table refused N             TABLE is not a rule table                                   exit status 2
 *   trim refused N              its trimmed table would be too large                        exit status 2
 *
 * Letter K is counted from 0; N is a refusal's number from nomyugereka.h. If the program is called wrongly, or cannot
 * read or write, it says so on standard error, and the exit status is 2.
 */
#include "nomyugereka.h"

#include <inttypes.h>
#include <stdio.h>

enum { ACCEPTED = 0, NOT_ACCEPTED = 1, FAILED = 2 };

/* There is room for one byte more than the largest table has, to notice a file that is too long. */
struct table {
    uint8_t bytes[NOMYUGEREKA_TABLE_BYTES + 1];
    size_t length;
};

static int failed(const char *message, const char *name)
{
    /* Where this cannot be written either, the exit status still tells. */
    (void)fprintf(stderr, "%s%s\n", message, name);
    return FAILED;
}

/* The exit status once the result's line is printed; `printed` is what printf gave. */
static int reported(int printed, int status)
{
    if (printed < 0 || fflush(stdout) != 0)
        return failed("capture: cannot write the result", "");
    return status;
}

/* Whether the file was read. */
static int read_table(const char *name, struct table *table)
{
    FILE *file = fopen(name, "rb");
    if (file == NULL)
        return 0;
    table->length = fread(table->bytes, 1, sizeof table->bytes, file);
    int good = !ferror(file);
    return fclose(file) == 0 && good;
}

/* A file longer than every table gets the number for a wrong length, whatever its bytes say. */
static uint64_t check_table(const struct table *table)
{
    if (table->length > NOMYUGEREKA_TABLE_BYTES)
        return NOMYUGEREKA_REFUSAL_LENGTH;
    return nomyugereka_check(table->bytes, table->length);
}

/*
 * The loop to copy. The reader's state is all that is kept between two letters, so a capture program may make each
 * call from where it writes the letter to its log. A stop is final. After a refusal the reader is as it was before the
 * letter: a program that can leave the letter out of the log may go on with the next one.
 */
static int follow_log(const struct table *rules, FILE *log)
{
    static uint8_t state[NOMYUGEREKA_STATE_BYTES];
    uint64_t answer = nomyugereka_begin(rules->bytes, rules->length, state, sizeof state);
    uint32_t taken = 0;
    int byte;

    while (nomyugereka_kind(answer) == NOMYUGEREKA_GOING && (byte = getc(log)) != EOF) {
        answer = nomyugereka_letter(rules->bytes, rules->length, state, sizeof state, (uint8_t)byte);
        if (nomyugereka_kind(answer) == NOMYUGEREKA_GOING)
            taken++;
    }
    if (ferror(log))
        return failed("capture: cannot read the log", "");
    if (nomyugereka_kind(answer) == NOMYUGEREKA_GOING)
        answer = nomyugereka_finish(rules->bytes, rules->length, state, sizeof state);

    switch (nomyugereka_kind(answer)) {
    case NOMYUGEREKA_ACCEPTED:
        return reported(printf("accepted after %" PRIu32 " letters\n", taken), ACCEPTED);
    case NOMYUGEREKA_UNFINISHED:
        return reported(printf("unfinished after %" PRIu32 " letters\n", taken), NOT_ACCEPTED);
    case NOMYUGEREKA_STOP:
        return reported(printf("stopped at letter %" PRIu32 "\n", nomyugereka_value(answer)), NOT_ACCEPTED);
    default:
        return reported(printf("refused %" PRIu32 " at letter %" PRIu32 "\n", nomyugereka_value(answer), taken),
                        FAILED);
    }
}

int main(int argc, char **argv)
{
    static struct table drawn, rules;
    static uint16_t scratch[NOMYUGEREKA_SCRATCH_NUMBERS];

    if (argc != 2)
        return failed("usage: capture TABLE < LOG", "");
    if (!read_table(argv[1], &drawn))
        return failed("capture: cannot read the table ", argv[1]);
    uint64_t answer = check_table(&drawn);
    if (nomyugereka_kind(answer) != NOMYUGEREKA_GOOD)
        return reported(printf("table refused %" PRIu32 "\n", nomyugereka_value(answer)), FAILED);

    /* Only a reader on the trimmed table stops in time: on the drawn one it follows branches that lead nowhere. */
    answer = nomyugereka_trim(drawn.bytes, drawn.length, scratch, NOMYUGEREKA_SCRATCH_NUMBERS, rules.bytes,
                              NOMYUGEREKA_TABLE_BYTES);
    if (nomyugereka_kind(answer) != NOMYUGEREKA_WRITTEN)
        return reported(printf("trim refused %" PRIu32 "\n", nomyugereka_value(answer)), FAILED);
    rules.length = nomyugereka_value(answer);
    return follow_log(&rules, stdin);
}
