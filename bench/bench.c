/* Runs the sides beside each other.
 *
 *   bench answers -s SIDE FOLDER        answers FOLDER/questions
 *   bench ratios [OPTIONS] SHEET..      what each question costs on each sheet, one side beside another
 *   bench growth [OPTIONS] SHEET..      what it costs on the later sheets beside the first
 *   bench stack [OPTIONS] SHEET..       bytes of stack that each question touches
 *
 * OPTIONS: -c SECONDS after which a question is given up (2), -s SIDE,.. of alg1 plain fast ours (all that are linked),
 * -q QUESTION,.. of read judge lowest step walk (all).
 */
#include <stdio.h>
#include <stdlib.h>
#include <string.h>
#include "answers.h"
#include "stack.h"
#include "timing.h"

/* Is the name in the list? No list has every name. */
static bool named(const char *list, const char *name)
{
    size_t n = strlen(name);
    if (!list) return true;
    for (const char *p = list; p; p = strchr(p, ','), p += p != 0)
        if (!strncmp(p, name, n) && (p[n] == 0 || p[n] == ',')) return true;
    return false;
}

static void choose(struct choice *c, const char *sides, const char *questions)
{
    const struct side *all[SIDES] = { &alg1, &plain, &fast, &ours };
    for (unsigned i = 0; i < SIDES; i++)
        if (all[i] && named(sides, all[i]->name)) c->side[c->sides++] = all[i];
    for (unsigned q = 0; q < QUESTIONS; q++) c->wanted[q] = named(questions, question_name[q]);
}

int main(int argc, char **argv)
{
    struct choice c = { .seconds = 2 };
    const char *sides = 0, *questions = 0, *what = argc > 1 ? argv[1] : "";
    int at = 2;
    for (; at + 1 < argc && argv[at][0] == '-'; at += 2)
        switch (argv[at][1]) {
        case 'c': c.seconds = strtod(argv[at + 1], 0); break;
        case 's': sides = argv[at + 1]; break;
        default: questions = argv[at + 1];
        }
    choose(&c, sides, questions);
    if (at < argc && c.sides) {
        if (!strcmp(what, "answers")) return answers(c.side[0], argv[at]);
        if (!strcmp(what, "ratios")) return ratios(&c, argv + at), 0;
        if (!strcmp(what, "growth")) return growth(&c, argv + at), 0;
        if (!strcmp(what, "stack")) return stack(&c, argv + at), 0;
    }
    fprintf(stderr, "bench answers|ratios|growth|stack [-c SECONDS] [-s SIDE,..] [-q QUESTION,..] SHEET..\n");
    return 2;
}
