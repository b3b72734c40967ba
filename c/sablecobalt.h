/* The judge of archive files, for callers in C. docs/JUDGE.md says how to link it, docs/FORMAT.md what a file is. */
#ifndef SABLECOBALT_H
#define SABLECOBALT_H

#include <stddef.h>
#include <stdint.h>

#ifdef __cplusplus
extern "C" {
#endif

/* Judges the `length` bytes at `file` as an archive file with the kinds that three marks name: those of the roughness, of
 * the penalty of the misfit and of the penalty of the bends.
 *
 * The answer is 0 where the file is accepted: it is then the file of a firing that keeps all rules, with a table whose
 * cost is at most the allowance above that of any other list of as many whole numbers. Else the answer is the fault that
 * comes first, as layer * 2^24 + number * 2^16 + line; SABLECOBALT_LAYER and its like take it apart.
 *
 * Any marks can be handed over. Where no known kind has one of them, no file is accepted: its head then has a wrong mark,
 * which is fault 19 of layer 2 at line 1, if no other fault comes before that one.
 *
 * `file` must not be null, also where `length` is 0, and must point to `length` bytes that nobody writes during the call.
 * Any bytes will do; they need no end and may hold zeros. The call writes nothing, keeps nothing for the next call, and
 * takes no memory from the heap. A stack of 256 KiB is enough for it, which was tried and is not proved.
 */
uint32_t sablecobalt_judge(uint32_t roughness, uint32_t misfit, uint32_t bend, const uint8_t *file, size_t length);

/* 1 the lines, 2 the frames, 3 the figures; 0 where the file is accepted */
#define SABLECOBALT_LAYER(answer) ((unsigned)((answer) >> 24))
/* the number of the fault */
#define SABLECOBALT_NUMBER(answer) ((unsigned)((answer) >> 16 & 0xFF))
/* the line that it names, counted from 1; 65,535 if larger, 0 where it names none */
#define SABLECOBALT_LINE(answer) ((unsigned)((answer) & 0xFFFF))

#ifdef __cplusplus
}
#endif

#endif
