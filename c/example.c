/* example RULE FLOW [WORDS]: checks a flow's table against a rule's in both modes and prints what is found in words.
 *
 * WORDS is a file of moves in words, as tools/table reads it: its line `events mark burn release` names the events. Without it,
 * or for an event that it does not name, the number is printed. */
#include "../include/rhythmoxa.h"

#include <stdio.h>
#include <stdlib.h>
#include <string.h>

struct file {
    uint8_t bytes[RHX_TABLE_BYTES + 1]; /* one more, so that a file too long is seen to be so */
    size_t len;
};

static char names[RHX_MAX_EVENTS + 1][32];

static void fail(const char *what, const char *path) {
    fprintf(stderr, "example: %s%s\n", what, path);
    exit(2);
}

static void load(const char *path, struct file *to) {
    FILE *f = fopen(path, "rb");
    if (!f) fail("cannot read ", path);
    to->len = fread(to->bytes, 1, sizeof to->bytes, f);
    if (ferror(f)) fail("cannot read ", path);
    fclose(f);
}

/* The events are numbered from 1 in the order of their names. */
static void load_names(const char *path) {
    char line[4096];
    size_t event = 0;
    FILE *f = fopen(path, "r");
    if (!f) fail("cannot read ", path);
    while (fgets(line, sizeof line, f)) {
        line[strcspn(line, "#")] = 0;
        char *word = strtok(line, " \t\r\n");
        if (!word || strcmp(word, "events") != 0) continue;
        while ((word = strtok(NULL, " \t\r\n")) && event < RHX_MAX_EVENTS) snprintf(names[++event], sizeof names[0], "%s", word);
    }
    fclose(f);
}

static void print_event(unsigned event) {
    if (names[event][0])
        printf(" %s", names[event]);
    else
        printf(" %u", event);
}

static void print_path(const uint8_t *trace, uint64_t length) {
    if (length == 0) printf(" nothing");
    for (uint64_t i = 0; i < length; i++) print_event(trace[i]);
}

static void print_refusal(const uint64_t answer[8]) {
    static const char *const whose[] = {"the call", "the rule", "the flow"};
    printf(" refused for %s, number %u\n", whose[answer[RHX_WHOSE]], (unsigned)answer[RHX_NUMBER]);
}

static void print_answer(const uint64_t answer[8], const uint8_t *trace) {
    switch (answer[RHX_KIND]) {
    case RHX_PASSES:
        printf(" the flow keeps the rule (%u nodes, %u pairs)\n", (unsigned)answer[RHX_NODES], (unsigned)answer[RHX_PAIRS]);
        break;
    case RHX_TRACE_FAULT:
        printf(" the flow can do what the rule does not allow:");
        print_path(trace, answer[RHX_LENGTH]);
        printf("\n");
        break;
    case RHX_REFUSAL_FAULT:
        printf(" after");
        print_path(trace, answer[RHX_LENGTH]);
        printf(" the flow may stop and offer only:");
        for (unsigned e = 1; e <= RHX_MAX_EVENTS; e++)
            if (answer[RHX_OFFERS] >> e & 1) print_event(e);
        printf(answer[RHX_OFFERS] ? "\n" : " nothing\n");
        break;
    case RHX_REFUSED:
        print_refusal(answer);
        break;
    default:
        printf(" an answer that this program does not know\n");
    }
}

int main(int argc, char **argv) {
    static struct file rule, flow;
    static uint16_t work16[RHX_WORK16_NUMBERS];
    static uint64_t work64[RHX_WORK64_NUMBERS];
    static uint8_t trace[RHX_TRACE_BYTES];
    static const char *const words[] = {"traces:  ", "failures:"};
    uint64_t answer[RHX_ANSWER_NUMBERS];
    if (argc != 3 && argc != 4) fail("give a rule's file, a flow's file and, for names, a file of words", "");
    load(argv[1], &rule);
    load(argv[2], &flow);
    if (argc == 4) load_names(argv[3]);
    for (uint16_t mode = RHX_TRACES; mode <= RHX_FAILURES; mode++) {
        rhx_check(rule.bytes, rule.len, flow.bytes, flow.len, mode, work16, RHX_WORK16_NUMBERS, work64, RHX_WORK64_NUMBERS, trace,
                  sizeof trace, answer);
        printf("%s", words[mode]);
        print_answer(answer, trace);
    }
    return 0;
}
