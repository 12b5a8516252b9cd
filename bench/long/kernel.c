/* Gives the same random commands to two `l4sh run`, and compares all that they print.

       kernel SMALL GREAT COMMANDS SEED ENTRIES NUMBERS REST

   That of the program SMALL holds at most ENTRIES entries and is compacted before each command. That of the program GREAT has the greatest limits,
   and is compacted only before each REST commands, so that it stays below them. Thread numbers go to NUMBERS. Where one line differs, or a command is refused for want of room, the
   program tells it and ends with status 1. Its last line tells what was compared. */
#define _GNU_SOURCE
#include <fcntl.h>
#include <pthread.h>
#include <signal.h>
#include <stdint.h>
#include <stdio.h>
#include <stdlib.h>
#include <string.h>
#include <sys/wait.h>
#include <unistd.h>

enum { MOST_NUMBERS = 1023, ROOM = 1 << 16 };

/* The commands: each depends on the seed and on those before it, and on no answer. */
struct maker {
    uint64_t state;
    uint64_t moment;
    int numbers;
    unsigned version[MOST_NUMBERS + 1];
    char is_live[MOST_NUMBERS + 1];
};

static uint64_t next(struct maker *m)
{
    m->state ^= m->state << 13;
    m->state ^= m->state >> 7;
    m->state ^= m->state << 17;
    return m->state >> 11;
}

static unsigned below(struct maker *m, unsigned count)
{
    return (unsigned)(next(m) % count);
}

static int number(struct maker *m)
{
    return 1 + (int)below(m, (unsigned)m->numbers);
}

static int put_thread(struct maker *m, char *at, int k)
{
    /* one time in sixteen the thread that the number had before */
    unsigned version = m->version[k] > 1 && !below(m, 16) ? m->version[k] - 1 : m->version[k];
    if (!version || version % 64 == 0)
        version = 1;
    return sprintf(at, "%d.%u", k, version);
}

static const char *const PERIODS[] = {"0", "0", "400", "1", "5", "1e"};

/* 16 bits of a period: never, zero, or some microseconds. */
static unsigned period(struct maker *m)
{
    return (unsigned)strtoul(PERIODS[below(m, 6)], NULL, 16);
}

static int put_call(struct maker *m, char *at)
{
    char *const begin = at;
    int sends = below(m, 3) != 0, receives = !sends || below(m, 2);
    unsigned words = sends ? below(m, 3) : 0, strings = sends && !below(m, 3) ? 1 + below(m, 2) : 0;
    int shows = sends && !below(m, 6);
    at += sprintf(at, "call ");
    at += put_thread(m, at, number(m));
    *at++ = ' ';
    at += sends ? put_thread(m, at, number(m)) : sprintf(at, "nil");
    *at++ = ' ';
    if (!receives)
        at += sprintf(at, "nil");
    else
        switch (below(m, 4)) {
        case 0: at += sprintf(at, "local"); break;
        case 1: at += put_thread(m, at, number(m)); break;
        default: at += sprintf(at, "any");
        }
    unsigned send = sends ? period(m) : 0, receive = receives ? period(m) : 0;
    unsigned label = sends ? below(m, 4) : 0;
    at += sprintf(at, " 0x%x 0x%x ", send << 16 | receive, label << 16 | (shows ? 0x1000u : 0) | strings * 2 << 6 | words);
    at += shows ? put_thread(m, at, number(m)) : sprintf(at, "nil");
    *at++ = ' ';
    if (!words)
        *at++ = '-';
    for (unsigned k = 0; k < words; k++)
        at += sprintf(at, "%s0x%x", k ? "," : "", below(m, 1000));
    *at++ = ' ';
    if (!strings)
        *at++ = '-';
    for (unsigned k = 0; k < strings; k++) {
        at += sprintf(at, "%sx", k ? "," : "");
        for (unsigned bytes = below(m, 9); bytes; bytes--)
            at += sprintf(at, "%02x", below(m, 256));
    }
    if (!receives || below(m, 3) == 0)
        at += sprintf(at, " -");
    else if (below(m, 4) == 0)
        at += sprintf(at, " s");
    else
        at += sprintf(at, " %u@0x1000,8@0x2000", 1 + below(m, 9));
    return (int)(at - begin);
}

static int put_command(struct maker *m, char *at)
{
    char *const begin = at;
    unsigned kind = below(m, 100);
    int k = number(m);
    if (kind < 3 || m->version[k] == 0) {
        at += sprintf(at, "open %d %u", k, 1 + below(m, 2));
        if (!m->is_live[k]) {
            m->is_live[k] = 1;
            m->version[k]++;
            if (m->version[k] % 64 == 0)
                m->version[k]++;
        }
    } else if (kind < 5) {
        at += sprintf(at, "broke %d.%u", k, m->version[k]);
        m->is_live[k] = 0;
    } else if (kind < 35) {
        at += sprintf(at, "take ");
        at += put_thread(m, at, k);
    } else if (kind < 45) {
        m->moment += below(m, 20);
        at += sprintf(at, "at %llu", (unsigned long long)m->moment);
    } else if (kind < 60) {
        at += sprintf(at, "advance");
    } else if (kind < 65) {
        at += sprintf(at, "exreg ");
        at += put_thread(m, at, k);
        *at++ = ' ';
        at += put_thread(m, at, number(m));
        at += sprintf(at, " 0x%x", below(m, 4) << 1);
    } else {
        at += put_call(m, at);
    }
    *at++ = '\n';
    return (int)(at - begin);
}

struct side {
    const char *name;
    uint64_t commands, each;
    struct maker maker;
    FILE *out, *in;
    pid_t child;
    char line[ROOM];
};

static void *write_all(void *it)
{
    struct side *side = it;
    char text[4096];
    for (uint64_t k = 0; k < side->commands; k++) {
        if (k % side->each == 0)
            fputs("compact\n", side->out);
        fwrite(text, 1, (size_t)put_command(&side->maker, text), side->out);
    }
    fclose(side->out);
    return NULL;
}

static void begin(struct side *side, char *const words[])
{
    int to[2], from[2];
    if (pipe2(to, O_CLOEXEC) || pipe2(from, O_CLOEXEC) || (side->child = fork()) < 0)
        exit(2);
    if (side->child == 0) {
        dup2(to[0], 0);
        dup2(from[1], 1);
        execv(words[0], words);
        _exit(127);
    }
    close(to[0]), close(from[1]);
    side->out = fdopen(to[1], "w");
    side->in = fdopen(from[0], "r");
}

static int read_line(struct side *side)
{
    return fgets(side->line, ROOM, side->in) != NULL;
}

static int is_answer(const char *line)
{
    return line[0] == '=' || line[0] == '!';
}

int main(int count, char **words)
{
    if (count != 8)
        return fprintf(stderr, "usage: kernel SMALL GREAT COMMANDS SEED ENTRIES NUMBERS REST\n"), 2;
    uint64_t commands = strtoull(words[3], NULL, 10), entries = 0, refused = 0, most = 0, held = 0;
    struct maker maker = {.state = strtoull(words[4], NULL, 10) * 0x9e3779b97f4a7c15u + 1, .numbers = atoi(words[6])};
    if (maker.numbers < 1 || maker.numbers > MOST_NUMBERS)
        return fprintf(stderr, "kernel: NUMBERS is 1 to %d\n", MOST_NUMBERS), 2;
    signal(SIGPIPE, SIG_IGN);
    static struct side few = {.name = "few"}, all = {.name = "all"};
    few.maker = all.maker = maker;
    few.commands = all.commands = commands;
    few.each = 1;
    all.each = strtoull(words[7], NULL, 10);
    char *few_words[] = {words[1], "run", "--entries", words[5], NULL}, *all_words[] = {words[2], "run", NULL};
    begin(&few, few_words);
    begin(&all, all_words);
    pthread_t writers[2];
    pthread_create(&writers[0], NULL, write_all, &few);
    pthread_create(&writers[1], NULL, write_all, &all);
    for (uint64_t k = 0; k < commands; k++) {
        if (!read_line(&few))
            return printf("command %llu: the small one ended\n", (unsigned long long)k + 1), 1;
        uint64_t dropped;
        if (sscanf(few.line, "= %llu %llu", (unsigned long long *)&dropped, (unsigned long long *)&held) != 2)
            return printf("command %llu: a compaction answers %s", (unsigned long long)k + 1, few.line), 1;
        most = held > most ? held : most;
        if (k % all.each == 0 && !read_line(&all))
            return printf("command %llu: the great one ended\n", (unsigned long long)k + 1), 1;
        do {
            if (!read_line(&few) || !read_line(&all))
                return printf("command %llu: one of them ended\n", (unsigned long long)k + 1), 1;
            if (strcmp(few.line, all.line))
                return printf("command %llu: with %s entries: %swith all: %s", (unsigned long long)k + 1, words[5], few.line, all.line), 1;
            entries += !is_answer(few.line);
        } while (!is_answer(few.line));
        refused += few.line[0] == '!';
        if (!strcmp(few.line, "! K5\n"))
            return printf("command %llu: no room, with %llu entries held\n", (unsigned long long)k + 1, (unsigned long long)held), 1;
    }
    for (int k = 0; k < 2; k++)
        pthread_join(writers[k], NULL);
    int ends[2];
    waitpid(few.child, &ends[0], 0);
    waitpid(all.child, &ends[1], 0);
    if (read_line(&few) || read_line(&all) || ends[0] || ends[1])
        return printf("they did not end in good order\n"), 1;
    printf("%llu commands, of them %llu refused; %llu entries; all lines the same; at most %llu entries held after a compaction\n",
           (unsigned long long)commands, (unsigned long long)refused, (unsigned long long)entries, (unsigned long long)most);
    return 0;
}
