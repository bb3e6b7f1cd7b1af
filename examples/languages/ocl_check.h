/* ocl_check as a static library: docs/use/embedding.md, "Other languages".
 *
 * A call takes bytes, keeps nothing, and shares nothing with another call but the heap. It takes memory from malloc.
 *
 * Each slice is a pointer and how many bytes it has. A pointer is never null, also where there are no bytes. Buffers and
 * lengths that are written overlap nothing else that is passed.
 *
 * The answer's first bytes go into `out`, as far as there is room, and `*wants` is how many bytes the answer has: where
 * that is more than `out` has, call again with a larger buffer.
 *
 * Status 3: memory ran out; `out` is as it was, and `*wants` is 0. */
#ifndef OCL_CHECK_H
#define OCL_CHECK_H

#include <stdbool.h>
#include <stddef.h>
#include <stdint.h>

/* The greatest budget: 2^63 - 1 charges for a rule and an object. */
#define OCL_CHECK_MAX_BUDGET UINT64_C(9223372036854775807)

#ifdef __cplusplus
extern "C" {
#endif

/* Judges a delivery by rules, which are a text or else a code file; no rule may have a greater bound than the budget.
 * The answer is the report, with status 0 where every rule holds for each of its objects, else 1; or the line of a
 * refusal, with status 2. */
uint8_t ocl_check_judge(const uint8_t *model, size_t model_length, const uint8_t *delivery, size_t delivery_length,
                        const uint8_t *rules, size_t rules_length, bool is_text, uint64_t budget,
                        uint8_t *out, size_t out_length, size_t *wants);

/* Compiles a rule text to a code file. The file's first bytes go into `code`, as far as there is room, and `*code_wants` is
 * how many it has. The answer is `compiled N`, with status 0, or the line of a refusal, with 2: then there is no file, and
 * `*code_wants` is 0. */
uint8_t ocl_check_compile(const uint8_t *model, size_t model_length, const uint8_t *rules, size_t rules_length,
                          uint8_t *code, size_t code_length, size_t *code_wants,
                          uint8_t *out, size_t out_length, size_t *wants);

/* Verifies a code file for a class model. The answer is `accepted N`, with status 0, or the line of a refusal, with 2. */
uint8_t ocl_check_verify(const uint8_t *model, size_t model_length, const uint8_t *code, size_t code_length,
                         uint8_t *out, size_t out_length, size_t *wants);

/* Bounds what each rule of a code file is charged for an object of a delivery. The answer has a line for each, with
 * status 0, or the line of a refusal, with 2. */
uint8_t ocl_check_bound(const uint8_t *model, size_t model_length, const uint8_t *delivery, size_t delivery_length,
                        const uint8_t *code, size_t code_length, uint8_t *out, size_t out_length, size_t *wants);

#ifdef __cplusplus
}
#endif

#endif
