/* Does one thing once, by one side or by neither: bench/instructions counts what that takes.
 *   once plain|bachumoi|neither judge|salvage|decide|translate|run BOOK REQUEST
 * The files hold bytes, not text: little is done besides what is counted. */
#include "machine.h"
#include "plain.h"
#include "plain_salvage.h"

#include <fcntl.h>
#include <stdbool.h>
#include <string.h>
#include <unistd.h>

uint64_t probe_judge_book(const uint8_t *book, size_t book_len);

/* Reads a whole file: how many bytes it has. */
static size_t load(const char *path, uint8_t *bytes, size_t most)
{
    int file = open(path, O_RDONLY);
    ssize_t count = file < 0 ? 0 : read(file, bytes, most);
    close(file);
    return count < 0 ? 0 : (size_t)count;
}

static uint8_t book[MOST_BOOK], request[MOST_REQUEST], pairs[MOST_OUT];
static size_t book_len, request_len;
static struct programme programme;

static uint64_t judge(bool proved)
{
    return proved ? probe_judge_book(book, book_len) : plain_judge_book(book, book_len);
}

static uint64_t salvage(bool proved)
{
    static uint8_t mended[MOST_BOOK], replaced[MOST_OUT];
    return proved ? bachumoi_salvage(book, book_len, mended, MOST_BOOK, replaced, MOST_OUT)
                  : plain_salvage(book, book_len, mended, MOST_BOOK, replaced, MOST_OUT);
}

static uint64_t decide(bool proved)
{
    return proved ? bachumoi_decide(book, book_len, request, request_len, pairs, MOST_OUT)
                  : plain_decide(book, book_len, request, request_len, pairs, MOST_OUT);
}

static uint64_t translation(bool proved)
{
    static uint64_t room[BACHUMOI_MOST_PROGRAMME];
    const struct machine *machine = proved ? proved_machine : &plain_machine;
    return machine->translate(book, book_len, room, BACHUMOI_MOST_PROGRAMME);
}

/* The fresh state, and all steps in one tick. */
static uint64_t whole_run(bool proved)
{
    static struct state state;
    static uint16_t out[BACHUMOI_PLACES];
    const struct machine *machine = proved ? proved_machine : &plain_machine;
    fresh(machine, &state);
    return tick(machine, &programme, request, request_len, &state, programme.length, out);
}

int main(int count, char **words)
{
    static const struct {
        const char *name;
        uint64_t (*by)(bool proved);
    } all[] = { { "judge", judge }, { "salvage", salvage }, { "decide", decide }, { "translate", translation },
                { "run", whole_run } };
    if (count != 5)
        return 2;
    book_len = load(words[3], book, MOST_BOOK);
    request_len = load(words[4], request, MOST_REQUEST);
    if (strcmp(words[2], "run") == 0)
        translate(&plain_machine, book, book_len, &programme);
    uint64_t number = 0;
    for (size_t i = 0; i < sizeof all / sizeof *all; i++)
        if (strcmp(words[1], "neither") != 0 && strcmp(words[2], all[i].name) == 0)
            number = all[i].by(strcmp(words[1], "bachumoi") == 0);
    return bachumoi_refused(number);
}
