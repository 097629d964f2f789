/* What netatalk's programs want of the rest of its library: texts are bytes as they are, the log is the standard error,
   and a daemon stays in the foreground. */
#include <stdarg.h>
#include <stdbool.h>
#include <stdio.h>
#include <stdlib.h>
#include <string.h>
#include <sys/types.h>

#include <atalk/logger.h>
#include <atalk/unicode.h>

size_t convert_string_allocate(charset_t from, charset_t to, void const *text, size_t length, char **made) {
    (void)from;
    (void)to;
    if (length == (size_t)-1) length = strlen(text);
    *made = malloc(length + 1);
    if (*made == NULL) return (size_t)-1;
    memcpy(*made, text, length);
    (*made)[length] = '\0';
    return length;
}

int set_charset_name(charset_t charset, const char *name) {
    (void)charset;
    (void)name;
    return 0;
}

charset_t add_charset(const char *name) {
    (void)name;
    return CH_MAC;
}

logtype_conf_t type_configs[logtype_end_of_list_marker] = {[logtype_atalkd] = {.level = log_info}};

void make_log_entry(enum loglevels level, enum logtypes type, const char *file, const bool is_timed, int line,
                    char *message, ...) {
    va_list words;
    (void)level;
    (void)type;
    (void)file;
    (void)is_timed;
    (void)line;
    va_start(words, message);
    fputs("atalkd: ", stderr);
    vfprintf(stderr, message, words);
    fputc('\n', stderr);
    va_end(words);
}

void syslog_setup(int level, enum logtypes type, int options, int facility) {
    (void)level;
    (void)type;
    (void)options;
    (void)facility;
}

void set_processname(const char *name) {
    (void)name;
}

const char *tmpdir(void) {
    return ".";
}

pid_t server_lock(char *program, char *file, int is_debugged) {
    (void)program;
    (void)file;
    (void)is_debugged;
    return 0;
}

void server_unlock(const char *file) {
    (void)file;
}

/* Interfaces are named by the configuration alone. */
char **getifacelist(void) {
    return NULL;
}

void freeifacelist(char **list) {
    (void)list;
}

/* atalkd shows each packet where it is debugged, which nobody reads here. */
void bprint(char *data, int length) {
    (void)data;
    (void)length;
}
