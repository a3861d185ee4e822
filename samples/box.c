/* A box's main loop: it holds a plan and a criterion, and checks the slices that it is sent.
 *
 *   box PLAN PLACE.. < slices
 *
 * PLAN is a plan file, PLACE.. the criterion; standard input names a slice file a line, of either edition. For each, one line
 * says what the check answers. Nothing else is decided here: NESFOAL_ACCEPTED is the only answer that lets a slice in.
 * Status 2, and no slice is looked at, where the plan or the criterion is refused or cannot be read.
 */
#include "nesfoal.h"

#include <errno.h>
#include <stdio.h>
#include <stdlib.h>
#include <string.h>

/* One byte more than the largest file, so that a longer one is seen and refused. */
enum { ROOM = NESFOAL_MAX_FILE_BYTES + 1, PLACES = NESFOAL_MAX_PLACES };

static uint8_t plan[ROOM], slice[ROOM], criterion[2 * PLACES];
static size_t plan_length, criterion_length;

/* A slice that can be read, whatever the plan: one place, no transition. */
static const uint8_t readable[] = { 0, 0, 0, 0,  0, 0,  6, 0, 0, 0,  1, 0,  0, 0,  0, 0,  1,  1,  'B', 'E', 'L', 'L' };

/* Reads a file; -1, and errno says why, where it cannot be read. A folder can be opened, so the read counts as well. */
static long load(const char *name, uint8_t *to)
{
    FILE *f = fopen(name, "rb");
    size_t n;
    int bad, why;
    if (!f)
        return -1;
    errno = 0;
    n = fread(to, 1, ROOM, f);
    bad = ferror(f);
    why = errno;
    fclose(f);
    errno = why;
    return bad ? -1 : (long)n;
}

/* Reads a place: digits alone, and all of them. 0 where the word is no number from 0 to 65,535. */
static int number(const char *word, unsigned long *n)
{
    if (*word == '\0' || word[strspn(word, "0123456789")] != '\0')
        return 0;
    errno = 0;
    *n = strtoul(word, NULL, 10);
    return errno == 0 && *n <= 65535;
}

/* Reads a line without its end; 0 at the end of the input, -1 for a line that does not fit, which is passed over. */
static int line(char *to, int room)
{
    size_t n;
    int c;
    if (!fgets(to, room, stdin))
        return 0;
    n = strcspn(to, "\n");
    if (to[n] == '\n' || feof(stdin)) {
        to[n] = '\0';
        return 1;
    }
    do
        c = getchar();
    while (c != '\n' && c != EOF);
    return -1;
}

/* What is wrong with a file or with the criterion. */
static const char *refusal(uint32_t answer)
{
    switch (answer) {
    case NESFOAL_REFUSED_LENGTH:
        return "below 16 or above 65,536 bytes";
    case NESFOAL_REFUSED_LETTERS:
        return "no plan or slice of an edition that is known";
    case NESFOAL_REFUSED_KIND:
        return "a plan where a slice is due, or a slice where a plan is";
    case NESFOAL_REFUSED_COUNTS:
        return "too many places, transitions or arcs, or none in a plan";
    case NESFOAL_REFUSED_BODY:
        return "a body of another length than its counts give";
    case NESFOAL_REFUSED_ARC:
        return "an arc with a number out of range";
    case NESFOAL_REFUSED_ORDER:
        return "an arc below the one before";
    case NESFOAL_REFUSED_ORIGINS:
        return "origins that do not rise";
    case NESFOAL_REFUSED_CAP:
        return "a marking above its cap";
    case NESFOAL_REFUSED_PLACE:
        return "a number that is no place of the plan, or numbers that do not rise";
    default:
        return "a refusal that this program does not know";
    }
}

static const char *rule(uint32_t answer)
{
    static const char *const text[] = {
        "an origin that is no place of the plan",
        "an origin that is no transition of the plan",
        "a marking or a cap other than the plan's",
        "arcs other than the plan's",
        "a place of the criterion is not kept",
        "a transition left out changes a place of the criterion",
        "a kept transition lacks an input place",
        "a transition left out raises a kept place",
        "a kept transition adds to a place with a cap that is not kept",
        "a transition left out changes a kept place with a cap",
    };
    uint32_t i = answer - NESFOAL_RULE - 1;
    return i < sizeof text / sizeof *text ? text[i] : "a rule that this program does not know";
}

static uint32_t check(const uint8_t *bytes, size_t length)
{
    return nesfoal_check(plan, plan_length, bytes, length, criterion, criterion_length);
}

int main(int argc, char **argv)
{
    char name[4096];
    uint32_t answer;
    long length;
    int got, i;
    if (argc < 3 || argc - 2 > PLACES) {
        fprintf(stderr, "usage: box PLAN PLACE.. < slices\n");
        return 2;
    }
    length = load(argv[1], plan);
    if (length < 0) {
        perror(argv[1]);
        return 2;
    }
    plan_length = (size_t)length;
    for (i = 2; i < argc; i++) {
        unsigned long place;
        if (!number(argv[i], &place)) {
            fprintf(stderr, "%s: not a number from 0 to 65535\n", argv[i]);
            return 2;
        }
        criterion[criterion_length++] = (uint8_t)(place % 256);
        criterion[criterion_length++] = (uint8_t)(place / 256);
    }

    /* Of a slice that can be read, a refusal is the plan's, then the criterion's. */
    answer = check(readable, sizeof readable);
    if (answer >= 1 && answer <= NESFOAL_LAST_REFUSAL) {
        const char *what = answer == NESFOAL_REFUSED_CRITERION || answer == NESFOAL_REFUSED_PLACE ? "criterion" : argv[1];
        fprintf(stderr, "%s: refused %u: %s\n", what, (unsigned)answer, refusal(answer));
        return 2;
    }

    while ((got = line(name, sizeof name)) != 0) {
        if (got < 0) {
            printf("%.40s..: the name is too long\n", name);
            continue;
        }
        length = load(name, slice);
        if (length < 0) {
            printf("%s: cannot be read: %s\n", name, strerror(errno));
            continue;
        }
        answer = check(slice, (size_t)length);
        if (answer == NESFOAL_ACCEPTED)
            printf("%s: accepted\n", name);
        else if (answer <= NESFOAL_LAST_REFUSAL)
            printf("%s: refused %u: %s\n", name, (unsigned)answer, refusal(answer));
        else
            printf("%s: rule %u broken: %s\n", name, (unsigned)(answer - NESFOAL_RULE), rule(answer));
    }
    if (ferror(stdin) || fflush(stdout) != 0 || ferror(stdout)) {
        perror("box");
        return 2;
    }
    return 0;
}
