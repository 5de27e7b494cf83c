/* What all parts of the engine have in common: numbers at random, memory of the host, and how the run ends at a difference. */
#ifndef WETHLORN_ENGINE_BASE_H
#define WETHLORN_ENGINE_BASE_H
#include <stddef.h>
#include <stdint.h>

/* Dice that fall the same in each run that begins them by the same number. */
typedef struct dice {
    uint64_t state;
} dice;

uint64_t dice_next(dice *it);

/* A number below a bound, which is not 0. */
uint32_t dice_below(dice *it, uint32_t bound);

/* Whether it is the one case of so many. */
int dice_one_in(dice *it, uint32_t count);

/* Fills bytes, of which none is 0: so garbage never looks as if it had been cleared. */
void dice_fill(dice *it, unsigned char *bytes, size_t count);

/* Memory of the host, all zeros. Where there is none the program ends with status 2. */
void *taken(size_t count, size_t size);

/* The same memory with room for more, or other memory with what it had. */
void *widened(void *old, size_t count, size_t size);

/* In which frame the run is, for what is told of a difference. */
extern uint64_t frame_now;

/* Tells the first difference, or what else must not be, and ends the program with status 1. */
void broken(const char *form, ...);

#endif
