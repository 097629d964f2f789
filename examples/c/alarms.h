/* Alarms for the timers of a node, by the clock of the program that it is in. After each call, timer and datagram the
   program reads the node's list of timers anew. It arms a timer that is new in the list, arms one again that fired and
   is still listed, and disarms one that is no longer listed. */
#ifndef ALARMS_H
#define ALARMS_H

#include <stdlib.h>
#include <string.h>

#include "at_node.h"

/* A node has at most so many timers, and a line of one, such as "timer release 129 65535.255 255 65535", is shorter. */
enum { MAX_ALARMS = 200, MAX_TIMER_LINE = 40 };

struct alarm {
    char line[MAX_TIMER_LINE]; /* what at_node_play takes, and a zero byte */
    long long due;             /* milliseconds of the program's clock */
};

struct alarms {
    struct alarm all[MAX_ALARMS];
    size_t count;
};

/* After so many milliseconds a timer fires. */
static long long interval_of(const char *line) {
    static const struct {
        const char *begins;
        long long milliseconds;
    } intervals[] = {{"timer retry ", 2000},
                     {"timer release ", 30000},
                     {"timer lookup ", 1500},
                     {"timer resend ", 1000},
                     {"timer probe ", 30000}};
    for (size_t i = 0; i < sizeof intervals / sizeof *intervals; i++) {
        if (strncmp(line, intervals[i].begins, strlen(intervals[i].begins)) == 0) return intervals[i].milliseconds;
    }
    abort();
}

/* An alarm for this line: the one that is armed already, or a new one. */
static struct alarm alarm_for(const struct alarms *armed, const uint8_t *line, size_t length, long long now) {
    struct alarm alarm;
    if (length >= sizeof alarm.line) abort();
    memcpy(alarm.line, line, length);
    alarm.line[length] = '\0';
    for (size_t i = 0; i < armed->count; i++) {
        if (strcmp(armed->all[i].line, alarm.line) == 0) return armed->all[i];
    }
    alarm.due = now + interval_of(alarm.line);
    return alarm;
}

/* Reads the node's list of timers anew. Whatever at_node_timers gives but AT_NODE_OK leaves the alarms as they were. */
static uint32_t read_alarms(struct alarms *alarms, at_node *node, long long now) {
    uint8_t text[AT_NODE_MAX_TIMERS] = {0};
    struct alarms listed;
    size_t length = 0;
    uint32_t status = at_node_timers(node, text, sizeof text, &length);
    if (status != AT_NODE_OK) return status;
    listed.count = 0;
    for (size_t at = 0; at < length;) {
        const uint8_t *end = (const uint8_t *)memchr(text + at, '\n', length - at);
        if (end == NULL || listed.count == MAX_ALARMS) abort();
        listed.all[listed.count++] = alarm_for(alarms, text + at, (size_t)(end - text) - at, now);
        at = (size_t)(end - text) + 1;
    }
    *alarms = listed;
    return status;
}

/* The alarm that fires first, or NULL. */
static struct alarm *first_alarm(struct alarms *alarms) {
    struct alarm *first = NULL;
    for (size_t i = 0; i < alarms->count; i++) {
        if (first == NULL || alarms->all[i].due < first->due) first = &alarms->all[i];
    }
    return first;
}

/* Disarms an alarm as it fires, and gives its line. If the node still lists the timer, the next reading arms it. */
static struct alarm fire(struct alarms *alarms, struct alarm *alarm) {
    struct alarm fired = *alarm;
    *alarm = alarms->all[--alarms->count];
    return fired;
}

#endif
