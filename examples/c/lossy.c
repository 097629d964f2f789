/* Two nodes and a router on a cable that loses one datagram in five, repeats one in ten, and lets them overtake each
   other. In each of 200 runs node 5 reads the zone list, finds the printer of node 7, opens a stream to it and writes a
   text, which node 7 reads whole. The time is simulated, and the timers are those that at_node_timers lists.

       ./lossy [RUNS]

   To build it, with KIT the folder of the toolchain, after ./atnode lib:

       gcc -std=c99 -O2 -Iinclude -o lossy examples/c/lossy.c crates/at_c/out/libat_c.a KIT/c/liblibc_c.a */
#include "simulated.h"

enum { ROUTER, WRITER, READER, RUNS = 200, TEXT = 1000, PIECE = 50, HOUR = 3600000 };

/* The rooms are small, so that the reader often has to tell the writer of new room. */
static const char setup[] =
    "net 10\n"
    "node 1 router zone Lab\n"
    "node 5 zone Lab rooms 16 40\n"
    "node 7 zone Office rooms 16 40\n"
    "zones Lab Office\n";
static const uint8_t of_setup[] = {1, 5, 7};

/* What node 5 does next. */
static enum { READS_ZONES, LOOKS_UP, OPENS, WRITES } stage;
static uint8_t text[TEXT];
static size_t written, read_count;

static int begins(const char *report, const char *word) {
    return strncmp(report, word, strlen(word)) == 0;
}

/* Writes as much as the room takes of the next piece. */
static void write_on(void) {
    char line[32 + 2 * PIECE] = "call write 1 ";
    size_t length = strlen(line);
    for (size_t i = written; i < TEXT && i < written + PIECE; i++) {
        length += (size_t)sprintf(line + length, "%02X", text[i]);
    }
    if (written < TEXT) event(WRITER, line);
}

static void look_up(void) {
    stage = LOOKS_UP;
    event(WRITER, "call find = LaserWriter Office");
}

static void writer_reported(const char *report) {
    unsigned count;
    if (begins(report, "zonesfailed") || begins(report, "zonefault")) {
        event(WRITER, "call zones");
    } else if (begins(report, "zones Lab Office") && stage == READS_ZONES) {
        look_up();
    } else if (begins(report, "finds 1") && stage == LOOKS_UP) {
        stage = OPENS;
        event(WRITER, "call finish 0");
    } else if (begins(report, "found ")) {
        event(WRITER, "call open 0");
    } else if (begins(report, "opened")) {
        stage = WRITES;
        write_on();
    } else if (sscanf(report, "wrote %u", &count) == 1) {
        written += count;
        if (count > 0) write_on();
    } else if (begins(report, "heard") && stage == WRITES) {
        write_on();
    } else if (begins(report, "closed") || begins(report, "freed") || begins(report, "denied")) {
        fail(report, (unsigned long long)clock_now);
    }
}

/* Compares what was read with what was written. */
static void check(const char *word) {
    unsigned byte;
    for (; *word != '\0' && sscanf(word, "%2X", &byte) == 1; word += 2) {
        if (read_count >= TEXT || text[read_count] != byte) fail("a wrong byte was read", read_count);
        read_count++;
    }
}

static void reader_reported(const char *report) {
    if (begins(report, "heard")) {
        event(READER, "call read 1 64");
    } else if (begins(report, "read ")) {
        check(report + strlen("read "));
        event(READER, "call read 1 64");
    } else if (begins(report, "closed") || begins(report, "freed")) {
        fail(report, (unsigned long long)clock_now);
    }
}

static void reported(int which, const char *report) {
    if (which == WRITER) writer_reported(report);
    if (which == READER) reader_reported(report);
}

static void run(unsigned number) {
    chance = 2 * number + 1;
    stage = READS_ZONES;
    written = read_count = 0;
    for (size_t i = 0; i < TEXT; i++) text[i] = (uint8_t)drawn(256);
    open_nodes(setup, of_setup, 3);
    event(READER, "call listen on");
    event(READER, "call register Printer LaserWriter 130");
    event(WRITER, "call zones");
    while (read_count < TEXT) {
        if (!next_until(HOUR)) fail("not all was read in an hour, in run", number);
    }
    close_nodes();
}

int main(int argc, char **argv) {
    unsigned runs = argc == 2 ? (unsigned)strtoul(argv[1], NULL, 10) : (unsigned)RUNS;
    weather.lost = 20;
    weather.repeated = 10;
    weather.delay = 500;
    for (unsigned number = 0; number < runs; number++) run(number);
    printf("all that was written was read, %d bytes in each of %u runs\n", TEXT, runs);
    return 0;
}
