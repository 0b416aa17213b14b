/* Says why a decision is Indeterminate: decides BOOK.HEX in the current folder for the request on standard input, as
 * the program decide does, and prints the decision with its code, in words too.
 *
 *   gcc -O2 -Iinclude examples/why/why.c target/staticlib/libhost.a -o why
 */
#include <bachumoi.h>

#include <stdio.h>
#include <string.h>

/* Reads lines of hexadecimal digits, a record each: 40 digits, or 32 without the issuer, whose bytes are then zero. Returns
 * how many bytes they give. That all lines are of one length is the programs' to judge. */
static size_t read_records(FILE *file, uint8_t *bytes, size_t most)
{
    char line[2 * BACHUMOI_RECORD + 2];
    size_t len = 0;
    while (len < most && fgets(line, sizeof line, file)) {
        memset(bytes + len, 0, BACHUMOI_RECORD);
        for (size_t i = 0; i < BACHUMOI_RECORD; i++)
            if (sscanf(line + 2 * i, "%2hhx", &bytes[len + i]) != 1)
                break;
        len += BACHUMOI_RECORD;
    }
    return len;
}

static const char *decision(enum bachumoi_answer answer)
{
    switch (answer) {
    case BACHUMOI_PERMIT:
        return "Permit";
    case BACHUMOI_DENY:
        return "Deny";
    case BACHUMOI_NOT_APPLICABLE:
        return "NotApplicable";
    case BACHUMOI_INDETERMINATE:
        return "Indeterminate";
    case BACHUMOI_RUNNING:
    case BACHUMOI_REFUSED:
        break;
    }
    return "no decision";
}

static const char *why(enum bachumoi_status status)
{
    switch (status) {
    case BACHUMOI_NO_STATUS:
        return "0";
    case BACHUMOI_MISSING_ATTRIBUTE:
        return "1: missing attribute";
    case BACHUMOI_PROCESSING_ERROR:
        return "2: processing error";
    }
    return "no such code";
}

int main(void)
{
    /* A record and an entry more than there may be, so that too many are seen. */
    static uint8_t book[(BACHUMOI_MOST_RECORDS + 1) * BACHUMOI_RECORD];
    static uint8_t request[(BACHUMOI_MOST_ENTRIES + 1) * BACHUMOI_RECORD], out[2 * BACHUMOI_MOST_RECORDS];
    FILE *file = fopen("BOOK.HEX", "r");
    size_t book_len = file ? read_records(file, book, sizeof book) : 0;
    size_t request_len = read_records(stdin, request, sizeof request);
    if (file)
        fclose(file);

    uint64_t number = bachumoi_decide(book, book_len, request, request_len, out, sizeof out);
    if (bachumoi_refused(number))
        printf("refused %u, part %u, line %u\n", bachumoi_number(number), bachumoi_part(number),
               bachumoi_line(number));
    else
        printf("%s, %s\n", decision(bachumoi_answer(number)), why(bachumoi_decide_status(number)));
    return 0;
}
