/* Reads the rule that is its first argument, or `a U b`, under the profile that is its second, `finite` (also where there is none) or `last`;
   prints it, judges a few series by its tables and shows what fits. The exit status is 1 where it stops before the end, 2 for wrong arguments.
   From the repository's root:
     tools/build
     gcc -Wall -Wextra -pedantic -std=c11 include/example.c target/staticlib/libcalls.a -o target/example && target/example */
#include "hourcricket.h"

#include <stdio.h>
#include <string.h>

/* A rule's tables, with room for the largest. */
struct tables {
    uint64_t masks[HOURCRICKET_MASKS];
    uint16_t starts[HOURCRICKET_STARTS];
    uint8_t accepts[HOURCRICKET_ACCEPTS];
    uint32_t edges[HOURCRICKET_EDGES];
    size_t states, edge_count;
};

/* How all calls over tables begin. */
#define OVER(t) \
    (t)->states, (t)->edge_count, (t)->starts, HOURCRICKET_STARTS, (t)->accepts, HOURCRICKET_ACCEPTS, (t)->edges, HOURCRICKET_EDGES

/* The profile of a name; 1 if there is one. */
static int profile_named(const char *name, uint8_t *profile)
{
    int finite = strcmp(name, "finite") == 0;
    *profile = finite ? HOURCRICKET_PROFILE_FINITE : HOURCRICKET_PROFILE_LAST;
    return finite || strcmp(name, "last") == 0;
}

/* Reads a rule, or shows where its text is refused and what was wanted there. */
static unsigned read_rule(uint8_t profile, const char *text, uint8_t *rule, size_t *count)
{
    /* for HOURCRICKET_WANTED_NOTHING, _OPERAND, _OPERATOR and _ARROW */
    static const char *const words[] = { "", ": operand wanted", ": operator wanted, or ) where ( is open", ": > of -> wanted" };
    size_t place;
    uint8_t wanted;
    unsigned number = hourcricket_read(profile, (const uint8_t *)text, strlen(text), count, rule, HOURCRICKET_RULE_BYTES, &place, &wanted);
    if (number != 0)
        printf("%s\n%*s^ refused, %u at %zu%s\n", text, (int)place, "", number, place, words[wanted]);
    return number;
}

static int refused(const char *call, unsigned number)
{
    printf("%s refused, %u\n", call, number);
    return 1;
}

/* Judges by a walk, as a program does that has the dates one by one. Tables of a build and a walk that was begun are never refused. */
static unsigned walked(const struct tables *tables, const uint8_t *series, size_t dates)
{
    uint64_t low, high;
    hourcricket_walk_begin(&low, &high);
    for (size_t i = 0; i < dates && !hourcricket_walk_closed(OVER(tables), low, high); i++)
        hourcricket_walk_step(OVER(tables), &low, &high, series[i]);
    return hourcricket_walk_answer(OVER(tables), low, high);
}

/* Shows the first of the shortest series that the tables accept. */
static int show_fit(const struct tables *tables)
{
    uint8_t fit[HOURCRICKET_FIT_DATES];
    size_t dates;
    unsigned number = hourcricket_fit(OVER(tables), fit, sizeof fit, &dates);
    if (number > 1)
        return refused("the search", number);
    printf(number == 0 ? "fit none" : dates == 0 ? "fit empty" : "fit ");
    for (size_t i = 0; number == 1 && i < dates; i++)
        printf("%02x", fit[i]);
    printf("\n");
    return 0;
}

int main(int arguments, char **argument)
{
    static struct tables tables;
    static const struct { uint8_t dates[2]; size_t length; } series[] = { { { 1, 2 }, 2 }, { { 1 }, 1 }, { { 0 }, 0 }, { { 3 }, 1 } };
    const char *text = arguments > 1 ? argument[1] : "a U b";
    uint8_t profile, rule[HOURCRICKET_RULE_BYTES], printed[HOURCRICKET_TEXT_BYTES];
    size_t count, length;

    if (arguments > 3 || !profile_named(arguments > 2 ? argument[2] : "finite", &profile)) {
        fprintf(stderr, "usage: example [RULE [PROFILE]], where PROFILE is finite or last\n");
        return 2;
    }
    if (read_rule(profile, text, rule, &count) != 0)
        return 1;
    unsigned number = hourcricket_print(profile, count, rule, sizeof rule, printed, sizeof printed, &length);
    if (number != 0)
        return refused("printing", number);
    printf("%.*s\n", (int)length, (const char *)printed);

    number = hourcricket_build(profile, count, rule, sizeof rule, tables.masks, HOURCRICKET_MASKS, tables.starts, HOURCRICKET_STARTS,
                               tables.accepts, HOURCRICKET_ACCEPTS, tables.edges, HOURCRICKET_EDGES, &tables.states, &tables.edge_count);
    if (number != 0)
        return refused("building", number);
    printf("rule %zu states %zu edges\n", tables.states, tables.edge_count);

    for (size_t i = 0; i < sizeof series / sizeof series[0]; i++) {
        unsigned answer = hourcricket_judge_tables(OVER(&tables), series[i].dates, series[i].length);
        unsigned plain = hourcricket_judge_plain(profile, count, rule, sizeof rule, series[i].dates, series[i].length);
        if (answer > 1)
            return refused("judging", answer);
        if (plain != answer || walked(&tables, series[i].dates, series[i].length) != answer) {
            printf("the answers differ\n");
            return 1;
        }
        printf("%zu %s\n", i + 1, answer == 1 ? "yes" : "no");
    }
    return show_fit(&tables);
}
