/* Vine's impl finder, for C: two calls, alone and in a sitting. Two archives of target/staticlib have them, which
 * `bash .ci/build` writes:
 *
 *     libcalls.a      vine_find_impl, vine_find_flex, vine_workspace_words
 *     libsitting.a    vine_sitting_find_impl, vine_sitting_find_flex
 *
 * Neither has the functions of the other, and neither needs the other; a program may link one or both.
 *
 * A slice is two scalars, a pointer and its length in words. The pointers may be any where the length is 0. Sheet and
 * question are only read. Answer and workspace are written and must overlap nothing else that is lent.
 *
 * Nothing else is asked of a caller: lengths that do not do, and words that are no sheet or no question, are refused by
 * number (document 01, "Turning a call away"; docs/SHEET.md says how to read an answer). A call keeps nothing, and two
 * calls may run at the same time on buffers of their own. The deepest search takes some 400 KiB of stack. */
#ifndef VINE_FINDER_H
#define VINE_FINDER_H

#include <stddef.h>
#include <stdint.h>

#ifdef __cplusplus
extern "C" {
#endif

/* The least length of an answer buffer, in words; a shorter one is refused 3. */
#define VINE_ANSWER_WORDS 10240

/* The least length of a workspace, in words; a shorter one is refused 4. */
uint32_t vine_workspace_words(void);

/* The call try_find_impl. The result is the count after the call times 2^32, plus 0 if it is answered, or else the
 * number of the refusal. Answered, the answer's words stand at the front of `answer`, as many as its word 3 says, and
 * what is behind them is untouched; refused, all of it is untouched. After 1 to 5 the workspace is untouched; else its
 * first words are 0, up to vine_workspace_words(), and the rest is untouched. */
uint64_t vine_find_impl(const uint32_t *sheet, size_t sheet_len, const uint32_t *question, size_t question_len,
                        uint32_t source, uint32_t generics, uint32_t basic, uint32_t *answer, size_t answer_len,
                        uint32_t *workspace, size_t workspace_len, uint32_t count);

/* The call find_flex, likewise. */
uint64_t vine_find_flex(const uint32_t *sheet, size_t sheet_len, const uint32_t *question, size_t question_len,
                        uint32_t source, uint32_t generics, uint32_t *answer, size_t answer_len, uint32_t *workspace,
                        size_t workspace_len, uint32_t count);

/* The same calls in a sitting (libsitting.a): the count is read from *spent and left there, and the result is the number, 0
 * if the call is answered. *spent must overlap nothing else that is lent. */
uint32_t vine_sitting_find_impl(const uint32_t *sheet, size_t sheet_len, const uint32_t *question, size_t question_len,
                                uint32_t source, uint32_t generics, uint32_t basic, uint32_t *answer, size_t answer_len,
                                uint32_t *workspace, size_t workspace_len, uint32_t *spent);
uint32_t vine_sitting_find_flex(const uint32_t *sheet, size_t sheet_len, const uint32_t *question, size_t question_len,
                                uint32_t source, uint32_t generics, uint32_t *answer, size_t answer_len,
                                uint32_t *workspace, size_t workspace_len, uint32_t *spent);

/* The number of a result, 0 if it is answered, and its count. */
static inline uint32_t vine_number(uint64_t result) { return (uint32_t)result; }
static inline uint32_t vine_count(uint64_t result) { return (uint32_t)(result >> 32); }

#ifdef __cplusplus
}
#endif

#endif
