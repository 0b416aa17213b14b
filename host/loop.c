/* A loop at a thousand frames a second: a small brake model, whose valves move only when a policy permits the write.
 *
 *   loop BOOK.HEX SCRIPT
 *
 * Each write of the script becomes a request, with the readings of the model in that frame, and waits. The oldest is
 * checked with the steps that its frame has to give, over as many frames as it takes; a late frame gives none. A
 * finished check moves the valve if it is Permit and every obligation is one that this loop can do; else the command
 * is dropped. One line is printed for each write. There is no clock in it: the same book and script print the same
 * table. host/run builds it, runs it and compares the table with host/loop.table.
 */
#include <bachumoi.h>

#include <stdio.h>
#include <stdlib.h>
#include <string.h>

enum { STEPS_A_FRAME = 200 };

static void stop(const char *what, const char *of)
{
    fprintf(stderr, "loop: %s: %s\n", of, what);
    exit(2);
}

static void *lend(size_t bytes)
{
    void *memory = calloc(bytes, 1);
    if (!memory)
        stop("no memory", "lend");
    return memory;
}

/* ---- The model --------------------------------------------------------------------------------------------- */

enum { CORNERS = 4 };
static const char *const corners[CORNERS] = { "VALVE-FL", "VALVE-FR", "VALVE-RL", "VALVE-RR" };

static struct model {
    double car;               /* metres a second */
    double opening[CORNERS];  /* of a valve, 0 to 1 */
    double pressure[CORNERS]; /* bar */
    double wheel[CORNERS];    /* radians a second */
    double disc[CORNERS];     /* degrees */
    int guard_closed, disc_lost, stopped;
} model = { .car = 38, .disc = { 440, 440, 440, 440 }, .guard_closed = 1 };

static const double frame_time = 0.001, radius = 0.3, inertia = 1.0, mass = 1200, load = 1200 * 9.81 / 4;
static const double supply = 180, valve_lag = 0.02, torque_a_bar = 8, heat_of_disc = 3700;

static double larger(double a, double b)
{
    return a > b ? a : b;
}

/* How much of its load a tyre holds: most at a tenth of slip, less when it slides. */
static double grip(double slip)
{
    return slip < 0 ? 0 : slip < 0.1 ? 10 * slip : 1 - 0.2 * (slip - 0.1) / 0.9;
}

/* One frame on: pressures follow valves, wheels follow road and brake, the car follows its wheels. */
static void integrate(struct model *m)
{
    double force = 0;
    for (int i = 0; i < CORNERS; i++) {
        double road = load * grip((m->car - radius * m->wheel[i]) / larger(m->car, 5));
        double brake = torque_a_bar * m->pressure[i];
        m->disc[i] += frame_time * brake * m->wheel[i] / heat_of_disc;
        m->wheel[i] = larger(0, m->wheel[i] + frame_time * (radius * road - brake) / inertia);
        m->pressure[i] += frame_time * (supply * m->opening[i] - m->pressure[i]) / valve_lag;
        force += road;
    }
    m->car = larger(0, m->car - frame_time * force / mass);
}

static double hottest(const struct model *m)
{
    return larger(larger(m->disc[0], m->disc[1]), larger(m->disc[2], m->disc[3]));
}

/* ---- Requests ---------------------------------------------------------------------------------------------- */

enum { SUBJECT = 1, RESOURCE, ACTION, ENVIRONMENT };
enum { INTEGER = 1, NAME, DOUBLE };
enum { ENTRIES = 8 };

/* A valve command: in which frame it was asked, the request that asks for it, and what its check has taken so far. */
struct write {
    unsigned asked;
    char maker[9], channel[9];
    double opening;
    unsigned ticks;
    uint64_t steps;
    uint8_t request[ENTRIES * BACHUMOI_RECORD];
};

static uint8_t *put(uint8_t *entry, uint8_t category, uint8_t type, uint8_t identifier, uint64_t value)
{
    const uint8_t key[BACHUMOI_RECORD] = { category, type, 0, identifier };
    memcpy(entry, key, sizeof key);
    for (int i = 0; i < 8; i++)
        entry[8 + i] = (uint8_t)(value >> (56 - 8 * i));
    return entry + BACHUMOI_RECORD;
}

static uint8_t *put_name(uint8_t *entry, uint8_t category, uint8_t identifier, const char *name)
{
    uint64_t value = 0;
    for (int i = 0; i < 8; i++)
        value = value << 8 | (uint8_t)(*name ? *name++ : ' ');
    return put(entry, category, NAME, identifier, value);
}

static uint8_t *put_double(uint8_t *entry, uint8_t identifier, double reading)
{
    uint64_t bits;
    memcpy(&bits, &reading, sizeof bits);
    return put(entry, ENVIRONMENT, DOUBLE, identifier, bits);
}

/* Who, what and where, and the readings of this frame. */
static void ask(struct write *write, const struct model *m)
{
    uint8_t *entry = write->request;
    entry = put_name(entry, SUBJECT, 1, write->maker);
    entry = put_name(entry, RESOURCE, 1, write->channel);
    entry = put_name(entry, ACTION, 1, "WRITE");
    entry = put(entry, ENVIRONMENT, INTEGER, 5, (uint64_t)m->guard_closed);
    entry = put_double(entry, 2, m->car);
    entry = put_double(entry, 3, larger(m->pressure[0], m->pressure[1]));
    entry = put_double(entry, 4, larger(m->pressure[2], m->pressure[3]));
    put_double(entry, 6, m->disc_lost ? 0.0 / 0.0 : hottest(m));
}

/* ---- The check of a write ---------------------------------------------------------------------------------- */

static struct check {
    uint64_t *programme, *numbers;
    uint16_t *places, *out;
    size_t entries;
} check;

/* Reads the lines of a book into zeros, which stay behind those of 32 digits; returns the length of the records. */
static size_t read_book(const char *path, uint8_t *book)
{
    FILE *file = fopen(path, "r");
    if (!file)
        stop("will not open", path);
    char line[64];
    size_t len = 0, digits = 2 * BACHUMOI_RECORD;
    for (; len < BACHUMOI_MOST_RECORDS * BACHUMOI_RECORD && fgets(line, sizeof line, file); len += BACHUMOI_RECORD) {
        size_t found = strspn(line, "0123456789ABCDEFabcdef");
        if (len == 0 && found == 2 * BACHUMOI_ISSUER)
            digits = found;
        if (found != digits || line[found] != '\n')
            stop("a line has not 40 digits, or 32 as line 1 has", path);
        for (size_t i = 0; i < digits / 2; i++)
            sscanf(line + 2 * i, "%2hhx", &book[len + i]);
    }
    fclose(file);
    return len;
}

static void prepare_check(const char *path)
{
    uint8_t *book = lend(BACHUMOI_MOST_RECORDS * BACHUMOI_RECORD);
    size_t len = read_book(path, book), room = BACHUMOI_ROOM(len / BACHUMOI_RECORD);
    check.programme = lend(room * sizeof *check.programme);
    check.entries = bachumoi_entries(bachumoi_translate(book, len, check.programme, room));
    if (check.entries == 0)
        stop("is refused", path);
    free(book);
    check.numbers = lend(BACHUMOI_NUMBERS * sizeof *check.numbers);
    check.places = lend(BACHUMOI_PLACES * sizeof *check.places);
    check.out = lend(BACHUMOI_PLACES * sizeof *check.out);
}

static void end_check(void)
{
    free(check.programme);
    free(check.numbers);
    free(check.places);
    free(check.out);
}

/* One tick of the write's check; its first begins with the fresh state. */
static uint64_t tick(struct write *write, uint64_t budget)
{
    if (write->ticks == 0)
        bachumoi_fresh(check.numbers, BACHUMOI_NUMBERS, check.places, BACHUMOI_PLACES);
    uint64_t number =
        bachumoi_tick(check.programme, check.entries, write->request, sizeof write->request, check.numbers,
                      BACHUMOI_NUMBERS, check.places, BACHUMOI_PLACES, budget, check.out, BACHUMOI_PLACES);
    write->ticks++;
    write->steps += bachumoi_steps(number);
    return number;
}

/* ---- Obligations ------------------------------------------------------------------------------------------- */

/* What this loop can do, and how often it did. Corvane's bill (0012) is not among it. */
static struct deed {
    unsigned first, last;
    const char *name;
    unsigned done;
} deeds[] = {
    { 0x0001, 0x0001, "stopped", 0 }, { 0x0002, 0x0002, "called the operator", 0 }, { 0x0010, 0x0011, "billed", 0 },
    { 0x00F1, 0x00F2, "logged", 0 },  { 0x2000, 0x22FF, "noted", 0 },               { 0x4000, 0x42FF, "held", 0 },
};
enum { DEEDS = sizeof deeds / sizeof *deeds };

static struct deed *deed_of(unsigned obligation)
{
    for (unsigned i = 0; i < DEEDS; i++)
        if (deeds[i].first <= obligation && obligation <= deeds[i].last)
            return &deeds[i];
    return NULL;
}

/* Does all obligations of an answer; or none where one of them is not known, and returns that one. */
static const uint16_t *fulfil(const uint16_t *obligations, unsigned count, struct model *m)
{
    for (unsigned i = 0; i < count; i++)
        if (!deed_of(obligations[i]))
            return &obligations[i];
    for (unsigned i = 0; i < count; i++) {
        deed_of(obligations[i])->done++;
        m->stopped |= obligations[i] == 0x0001;
    }
    return NULL;
}

/* ---- The table --------------------------------------------------------------------------------------------- */

static void print_head(void)
{
    printf("%5s  %-8s %-8s %4s  %8s %5s %5s  %-14s %-20s %s\n", "frame", "maker", "channel", "to", "answered", "ticks",
           "steps", "decision", "obligations", "valve");
}

static void print_write(const struct write *write, unsigned frame, const char *decision, unsigned count)
{
    char list[64] = "";
    for (unsigned i = 0; i < count && i < 10; i++)
        snprintf(list + 5 * i, sizeof list - 5 * i, "%04X ", check.out[i]);
    printf("%5u  %-8s %-8s %4.2f  ", write->asked, write->maker, write->channel, write->opening);
    printf("%8u %5u %5u  %-14s %-20s ", frame, write->ticks, (unsigned)write->steps, decision, list);
}

/* ---- What an answer does ----------------------------------------------------------------------------------- */

static void move_valve(const struct write *write, struct model *m)
{
    for (int i = 0; i < CORNERS; i++)
        if (strcmp(write->channel, corners[i]) == 0)
            m->opening[i] = write->opening;
}

/* A decision is there: the valve moves for Permit alone, and only if all obligations can be done. */
static void decided(const struct write *write, unsigned frame, uint64_t number, const char *decision, struct model *m)
{
    unsigned count = bachumoi_count(number);
    print_write(write, frame, decision, count);
    const uint16_t *unknown = fulfil(check.out, count, m);
    if (unknown)
        printf("dropped: %04X is not known\n", *unknown);
    else if (bachumoi_answer(number) == BACHUMOI_PERMIT) {
        move_valve(write, m);
        printf("moved\n");
    } else
        printf("dropped\n");
}

/* Gives a write's check these steps, and does what its answer says; returns 0 while there is none. */
static int go_on(struct write *write, unsigned frame, uint64_t *left, struct model *m)
{
    uint64_t number = tick(write, *left);
    *left -= bachumoi_steps(number);
    switch (bachumoi_answer(number)) {
    case BACHUMOI_RUNNING:
        return 0;
    case BACHUMOI_PERMIT:
        decided(write, frame, number, "Permit", m);
        return 1;
    case BACHUMOI_DENY:
        decided(write, frame, number, "Deny", m);
        return 1;
    case BACHUMOI_NOT_APPLICABLE:
        decided(write, frame, number, "NotApplicable", m);
        return 1;
    case BACHUMOI_INDETERMINATE:
        decided(write, frame, number, "Indeterminate", m);
        return 1;
    case BACHUMOI_REFUSED:
        print_write(write, frame, "refused", 0);
        printf("dropped: refusal %u, part %u, line %u\n", bachumoi_number(number), bachumoi_part(number),
               bachumoi_line(number));
        return 1;
    }
    return 0;
}

/* ---- The script -------------------------------------------------------------------------------------------- */

enum { MOST_WRITES = 64 };
static struct write writes[MOST_WRITES];

/* Writes that are asked, and of these the first that waits; frames before this one are late; the last frame. */
static unsigned asked, waiting, late_until, last_frame = 1000000;

/* One line of the script: FRAME write MAKER CHANNEL OPENING, late FRAMES, guard 0 or 1, disc 0 or 1, end. */
struct event {
    unsigned frame;
    char what[8], maker[9], channel[9];
    double amount;
};

/* The next line that is no comment; 0 at the end of the file. */
static int read_event(FILE *script, struct event *event)
{
    char line[128];
    while (fgets(line, sizeof line, script)) {
        if (*line == '#' || *line == '\n')
            continue;
        *event = (struct event){ 0 };
        if (sscanf(line, "%u write %8s %8s %lf", &event->frame, event->maker, event->channel, &event->amount) == 4)
            strcpy(event->what, "write");
        else if (sscanf(line, "%u %7s %lf", &event->frame, event->what, &event->amount) < 2)
            stop("no such line", line);
        return 1;
    }
    return 0;
}

static void happen(const struct event *event, struct model *m)
{
    if (strcmp(event->what, "write") == 0) {
        if (asked == MOST_WRITES)
            stop("too many writes", "script");
        struct write *write = &writes[asked++];
        write->asked = event->frame;
        strcpy(write->maker, event->maker);
        strcpy(write->channel, event->channel);
        write->opening = event->amount;
        ask(write, m);
    } else if (strcmp(event->what, "late") == 0)
        late_until = event->frame + (unsigned)event->amount;
    else if (strcmp(event->what, "guard") == 0)
        m->guard_closed = event->amount != 0;
    else if (strcmp(event->what, "disc") == 0)
        m->disc_lost = event->amount == 0;
    else if (strcmp(event->what, "end") == 0)
        last_frame = event->frame;
    else
        stop("no such event", event->what);
}

/* The oldest writes get the steps of the frame, one after the other; in a late frame the oldest gets a tick of 0
 * steps. */
static void check_writes(unsigned frame, struct model *m)
{
    uint64_t left = frame < late_until ? 0 : STEPS_A_FRAME;
    while (waiting < asked && go_on(&writes[waiting], frame, &left, m)) {
        waiting++;
        if (left == 0)
            break;
    }
}

static void print_end(const struct model *m)
{
    printf("frame %u: the car at %.1f m/s, wheels %.1f %.1f %.1f %.1f rad/s, pressures %.1f %.1f %.1f %.1f bar, "
           "hottest disc %.1f degrees\n", last_frame, m->car, m->wheel[0], m->wheel[1], m->wheel[2], m->wheel[3],
           m->pressure[0], m->pressure[1], m->pressure[2], m->pressure[3], hottest(m));
    printf("done:");
    for (unsigned i = 0; i < DEEDS; i++)
        printf(" %s %u%s", deeds[i].name, deeds[i].done, i + 1 < DEEDS ? "," : "\n");
}

int main(int count, char **arguments)
{
    if (count != 3)
        stop("wants BOOK.HEX and SCRIPT", "usage");
    FILE *script = fopen(arguments[2], "r");
    if (!script)
        stop("will not open", arguments[2]);
    prepare_check(arguments[1]);
    for (int i = 0; i < CORNERS; i++)
        model.wheel[i] = model.car / radius;
    print_head();
    struct event event;
    int more = read_event(script, &event);
    for (unsigned frame = 0; frame < last_frame; frame++) {
        for (; more && event.frame == frame; more = read_event(script, &event))
            happen(&event, &model);
        check_writes(frame, &model);
        if (!model.stopped)
            integrate(&model);
    }
    print_end(&model);
    fclose(script);
    end_check();
    return 0;
}
