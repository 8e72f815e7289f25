/* Document 01's question of its sheet Pin, asked from C, and twice more in a sitting:
 *
 *     bash .ci/build
 *     cc -Iinclude host/pin.c target/staticlib/libcalls.a target/staticlib/libsitting.a -o pin
 */
#include "vine_finder.h"
#include <stdio.h>
#include <stdlib.h>

static const uint32_t sheet[] = {
    1, 16, 44, 37, 48, 0, 41, 0, 0, 0, 0, 0, 0, 0, 0, 0, /* header */
    23, 0, 0, 1, 0, 54, 0, 30, 1, 0, 0, 58, 0, 0, 0, 1, 0, 0, 0, 0, 0, /* definitions 0, 1, 2 */
    0, 0, 1, 0, 0, 1, 0, 0, 0, 0, 0, 0, 0, 0, 1, 61, 66, /* trait 0, struct 0, generics 0, impl 0 */
    0, 0, 0, 1, 0, 0, 0, 0, 4, 0, 0, 0, 0, 0, /* member, binding, node, argument */
};
static const uint32_t question[] = {3, 1, 8, 0, 4, 0, 0, 0, 0, 0};
static uint32_t answer[VINE_ANSWER_WORDS];

/* The question in a sitting. */
static void ask(uint32_t *workspace, size_t words, uint32_t *spent) {
    uint32_t number =
        vine_sitting_find_impl(sheet, sizeof sheet / sizeof *sheet, question, sizeof question / sizeof *question, 1, 0, 0,
                               answer, VINE_ANSWER_WORDS, workspace, words, spent);
    printf("number %u, spent %u\n", number, *spent);
}

int main(void) {
    size_t words = vine_workspace_words();
    uint32_t *workspace = calloc(words, sizeof *workspace);
    if (!workspace) return 2;
    uint64_t result = vine_find_impl(sheet, sizeof sheet / sizeof *sheet, question, sizeof question / sizeof *question, 1, 0,
                                     0, answer, VINE_ANSWER_WORDS, workspace, words, 0);
    if (vine_number(result) != 0) {
        printf("refused %u, count %u\n", vine_number(result), vine_count(result));
        return 1;
    }
    printf("count %u:", vine_count(result));
    for (uint32_t i = 0; i < answer[3]; i++) printf(" %u", answer[i]);
    printf("\n");
    uint32_t spent = 1999;
    ask(workspace, words, &spent);
    ask(workspace, words, &spent);
    free(workspace);
    return 0;
}
