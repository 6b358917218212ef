/* The proved verifier and machine, as the archive of `tools/archive exports` exports them.
 *
 * A buffer is passed as a pointer and a length, counted in its elements. Buffers must not overlap. No call allocates, keeps a pointer or
 * depends on an earlier call; calls with buffers of their own may run side by side.
 */
#ifndef FLOSQUEDO_H
#define FLOSQUEDO_H

#include <stddef.h>
#include <stdint.h>

#ifdef __cplusplus
extern "C" {
#endif

/* How long a result is, in bytes. */
#define FLOSQUEDO_RESULT_SIZE 64

/* How many slots, and how many tags, flosquedo_run asks for. */
#define FLOSQUEDO_SLOTS 4096

/* The most cells of a heap, and the most steps of a budget. */
#define FLOSQUEDO_MAX_HEAP 16384
#define FLOSQUEDO_MAX_BUDGET 1000000

/* The ends of a run, as the second number of its result; 0 where the run is refused. */
#define FLOSQUEDO_RETURNED 1
#define FLOSQUEDO_UNCAUGHT 2
#define FLOSQUEDO_OUT_OF_STEPS 3
#define FLOSQUEDO_HEAP_FULL 4
#define FLOSQUEDO_DEPTH_FULL 5
#define FLOSQUEDO_STUCK 6

/* How many bytes of scratch flosquedo_verify and flosquedo_run ask for at least. */
size_t flosquedo_scratch_size(void);

/* Verifies a bundle.
 *
 * Returns the verdict's number, 0 for an accepted bundle, and writes sixteen 32-bit numbers, the low byte first, to the result: verdict,
 * class, method, place, then zeros. 65535 stands for a class or method that the verdict does not name.
 *
 * A result that is not 64 bytes long: returns 20, and nothing changes. A scratch that is too short: verdict 20, and the scratch does not
 * change. Otherwise the scratch, whatever stood in it, is all zero afterwards.
 */
uint32_t flosquedo_verify(const uint8_t *bundle, size_t bundle_len, uint8_t *scratch, size_t scratch_len, uint8_t *result, size_t result_len);

/* Runs a static method of a bundle on int arguments, each as its 32 bits. Class and method are indices from 0 in the bundle's order. The
 * bundle need not be verified: one with a verdict from 14 on is run too, and ends as stuck where an operand is wrong.
 *
 * Returns the refusal, 0 for a run that was made, and writes sixteen 32-bit numbers, the low byte first, to the result: refusal, end,
 * value, count of steps, cells used, with refusal 21 the verdict's four numbers, then zeros. The value is what was returned (a reference
 * is a number, 0 for null; 0 for void) or the number of the class that was not caught, else 0. With a refusal the other numbers are 0, but
 * for the verdict. The count is at most the budget.
 *
 * Refusals, the first that holds:
 *   20  a scratch shorter than flosquedo_scratch_size() bytes, a heap of more than 16,384 cells, slots or tags that are not 4,096, a budget
 *       over 1,000,000: nothing lent changes but the result
 *   21  the bundle has a verdict from 1 to 13
 *   22  no such class or method, one that is not static, or a parameter that is not int
 *   23  another number of arguments than of parameters
 * With 21 to 23 the scratch is all zero afterwards and nothing else lent changes but the result. A result that is not 64 bytes long:
 * returns 20, and nothing changes.
 *
 * After a run scratch, slots and tags, whatever stood in them, are all zero. The heap starts with nothing used, whatever stands in it;
 * the cells past those used keep their contents. A reference is the index of its object's first cell plus 1; an object takes four cells
 * (class number, 0, field count, ready) and one for each field, super's first; an array four (base class, -1 for int; depth; length; 1)
 * and one for each element.
 */
uint32_t flosquedo_run(const uint8_t *bundle, size_t bundle_len, uint8_t *scratch, size_t scratch_len, uint32_t *heap, size_t heap_len,
                       uint32_t *slots, size_t slots_len, uint8_t *tags, size_t tags_len, uint32_t class_index, uint32_t method_index,
                       const uint32_t *args, size_t args_len, uint32_t budget, uint8_t *result, size_t result_len);

#ifdef __cplusplus
}
#endif

#endif
