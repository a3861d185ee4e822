/* A text for each number that the calls of nesfoal.h return. C90; to be compiled into any program:
 *
 *   const char *nesfoal_refusal_words(uint32_t answer);    answer from 1 to NESFOAL_LAST_REFUSAL
 *   const char *nesfoal_rule_words(uint32_t answer);       answer of a check above NESFOAL_RULE
 *
 * For another number the text says that it is unknown. What 100 and 101 mean depends on the call: the header has a table.
 */
#include "nesfoal.h"

const char *nesfoal_refusal_words(uint32_t answer);
const char *nesfoal_rule_words(uint32_t answer);

const char *nesfoal_refusal_words(uint32_t answer)
{
    switch (answer) {
    case NESFOAL_REFUSED_LENGTH:
        return "a file below 16 or above 65,536 bytes";
    case NESFOAL_REFUSED_LETTERS:
        return "no plan or slice of an edition that is known";
    case NESFOAL_REFUSED_KIND:
        return "a kind that is none, a slice for a plan or a plan for a slice";
    case NESFOAL_REFUSED_COUNTS:
        return "too many places, transitions or arcs, or none in a plan";
    case NESFOAL_REFUSED_BODY:
        return "a body of another length than its counts give";
    case NESFOAL_REFUSED_ARC:
        return "an arc with a number out of range";
    case NESFOAL_REFUSED_ORDER:
        return "an arc below the one before";
    case NESFOAL_REFUSED_ORIGINS:
        return "origins that do not rise";
    case NESFOAL_REFUSED_CRITERION:
        return "a criterion of an odd number of bytes";
    case NESFOAL_REFUSED_PLACE:
        return "a number that is no place, or a criterion that does not rise";
    case NESFOAL_REFUSED_LIST:
        return "a list above 65,535 entries";
    case NESFOAL_REFUSED_TRANSITION:
        return "a number that is no transition";
    case NESFOAL_REFUSED_BUFFER:
        return "a buffer shorter than what is written";
    case NESFOAL_REFUSED_STUCK:
        return "the list of a run cut is stuck";
    case NESFOAL_REFUSED_MARKING:
        return "a marking with another number of entries than there are places";
    case NESFOAL_REFUSED_CAP:
        return "a marking above its cap";
    case NESFOAL_REFUSED_CAPPED:
        return "a plan with caps, for a run cut or a range";
    case NESFOAL_REFUSED_PROFILE:
        return "a text in PNML outside the profile";
    case NESFOAL_REFUSED_ID:
        return "a text in PNML with an id that is used twice, or an arc whose ends are not a place and a transition";
    case NESFOAL_REFUSED_NUMBER:
        return "a text in PNML with a number or a count past its limit";
    case NESFOAL_REFUSED_UPPER:
        return "an upper list of another length, or below the plan's marking";
    case NESFOAL_REFUSED_ENTRIES:
        return "a start or a table of another length, or an entry of a table that is no new place";
    case NESFOAL_REFUSED_STRANDED:
        return "a place that has tokens has no new place";
    case NESFOAL_REFUSED_TOKENS:
        return "tokens above 4,294,967,295 or above a cap";
    case NESFOAL_REFUSED_WEIGHT:
        return "parallel arcs that are together too heavy for one";
    default:
        return "a number that is not known";
    }
}

const char *nesfoal_rule_words(uint32_t answer)
{
    static const char *const text[] = {
        "an origin that is no place of the plan",
        "an origin that is no transition of the plan",
        "a marking or a cap other than the plan's",
        "arcs other than the plan's to kept places",
        "a place of the criterion that is not kept",
        "a transition left out that changes a place of the criterion",
        "a kept transition with an input place that is not kept",
        "a transition left out that raises a kept place",
        "a kept transition that adds to a place with a cap that is not kept",
        "a transition left out that changes a kept place with a cap"
    };
    uint32_t i = answer - NESFOAL_RULE - 1;
    return i < sizeof text / sizeof *text ? text[i] : "a rule that is not known";
}
