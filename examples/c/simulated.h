/* Nodes in one program, on a cable that loses, repeats and delays datagrams at random, over simulated time. Nothing
   waits: the clock jumps to the next datagram that comes, or to the next timer that fires. The program that includes
   this says what it does with a report: `reported`. */
#ifndef SIMULATED_H
#define SIMULATED_H

#include <stdio.h>
#include <stdlib.h>
#include <string.h>

#include "alarms.h"
#include "at_node.h"

enum { MAX_NODES = 16, MAX_TEXT = 65536 };

/* A datagram on its way. */
struct flight {
    struct flight *next;
    long long due; /* when it comes, in milliseconds */
    uint8_t to;
    size_t length;
    uint8_t bytes[AT_NODE_MAX_DATAGRAM];
};

/* Of a hundred datagrams so many are lost, so many come twice, and each takes up to so many milliseconds. */
struct weather {
    unsigned lost, repeated;
    long long delay;
};

static at_node nodes[MAX_NODES];
static uint8_t numbers[MAX_NODES];
static struct alarms alarms[MAX_NODES];
static int node_count;
static struct flight *flights; /* those that come first stand first */
static struct weather weather;
static uint64_t chance = 1;
static long long clock_now; /* milliseconds since the beginning */
static unsigned long long event_count;

static void reported(int which, const char *report);

static void fail(const char *what, unsigned long long number) {
    fprintf(stderr, "%s: %llu\n", what, number);
    exit(1);
}

static void want(const char *what, uint32_t status) {
    if (status != AT_NODE_OK) fail(what, status);
}

/* A number from 0 to `below` - 1, by Marsaglia's xorshift. */
static unsigned drawn(unsigned below) {
    chance ^= chance << 13;
    chance ^= chance >> 7;
    chance ^= chance << 17;
    return (unsigned)(chance >> 33) % below;
}

/* Behind those that come at the same time. */
static void fly(const struct flight *flight) {
    struct flight **place = &flights;
    struct flight *copy = (struct flight *)malloc(sizeof *copy);
    if (copy == NULL) fail("no memory for a datagram", flight->length);
    *copy = *flight;
    copy->due = clock_now + 1 + drawn((unsigned)weather.delay);
    while (*place != NULL && (*place)->due <= copy->due) place = &(*place)->next;
    copy->next = *place;
    *place = copy;
}

/* Puts a datagram on its way to a node, unless it is lost. */
static void put_on_cable(struct flight *flight, uint8_t to) {
    flight->to = to;
    if (drawn(100) < weather.lost) return;
    fly(flight);
    if (drawn(100) < weather.repeated) fly(flight);
}

/* Takes all that a node has to send. What goes to everyone goes to the sender too. */
static void send_all(int which) {
    struct flight flight;
    uint32_t status;
    memset(&flight, 0, sizeof flight);
    while ((status = at_node_next_datagram(&nodes[which], &flight.to, flight.bytes, sizeof flight.bytes,
                                           &flight.length)) == AT_NODE_OK) {
        uint8_t to = flight.to;
        if (to != AT_NODE_EVERYONE) put_on_cable(&flight, to);
        for (int i = 0; to == AT_NODE_EVERYONE && i < node_count; i++) put_on_cable(&flight, numbers[i]);
    }
    if (status != AT_NODE_MISSING) fail("a datagram was not handed out", status);
}

/* Takes what came of an event: sends what the node sends, reads its timers, and tells the report. */
static void take(int which) {
    static uint8_t text[MAX_TEXT];
    size_t length = 0;
    event_count++;
    want("a report was not handed out", at_node_report(&nodes[which], 0, text, sizeof text - 1, &length));
    text[length - 1] = '\0';
    send_all(which);
    want("the timers were not listed", read_alarms(&alarms[which], &nodes[which], clock_now));
    reported(which, (const char *)text + strlen("0 "));
}

/* Plays a line such as "call zones". */
static void event(int which, const char *line) {
    want(line, at_node_play(&nodes[which], (const uint8_t *)line, strlen(line)));
    take(which);
}

static void deliver(int which, const uint8_t *bytes, size_t length) {
    want("a datagram was not taken", at_node_receive(&nodes[which], bytes, length));
    take(which);
}

/* The first datagram comes. */
static void land(void) {
    struct flight *first = flights;
    flights = first->next;
    clock_now = first->due;
    for (int i = 0; i < node_count; i++) {
        if (numbers[i] == first->to) deliver(i, first->bytes, first->length);
    }
    free(first);
}

/* The node of the timer that fires first, or -1. */
static int first_to_fire(void) {
    int first = -1;
    for (int i = 0; i < node_count; i++) {
        const struct alarm *alarm = first_alarm(&alarms[i]);
        if (alarm != NULL && (first < 0 || alarm->due < first_alarm(&alarms[first])->due)) first = i;
    }
    return first;
}

/* Plays the next datagram or timer, if one comes up to this time, and gives whether one did. */
static int next_until(long long time) {
    int which = first_to_fire();
    long long fires_at = which < 0 ? time + 1 : first_alarm(&alarms[which])->due;
    if (flights != NULL && flights->due <= fires_at && flights->due <= time) {
        land();
        return 1;
    }
    if (fires_at > time) {
        clock_now = time;
        return 0;
    }
    clock_now = fires_at;
    struct alarm fired = fire(&alarms[which], first_alarm(&alarms[which]));
    event(which, fired.line);
    return 1;
}

/* Plays all that comes up to this time. */
static inline void play_until(long long time) {
    while (next_until(time)) continue;
}

/* Opens the nodes of a setup, on a new cable. */
static void open_nodes(const char *setup, const uint8_t *of, int count) {
    node_count = count;
    clock_now = 0;
    for (int i = 0; i < count; i++) {
        numbers[i] = of[i];
        alarms[i].count = 0;
        want("a node was not opened", at_node_open(&nodes[i], (const uint8_t *)setup, strlen(setup), of[i]));
    }
}

/* Closes the nodes, and drops what is on its way. */
static void close_nodes(void) {
    for (int i = 0; i < node_count; i++) at_node_close(&nodes[i]);
    while (flights != NULL) {
        struct flight *first = flights;
        flights = first->next;
        free(first);
    }
}

#endif
