/* Refuses memory to the library, one allocation at a time. The driver is linked with --wrap=malloc and --wrap=realloc, so that the
 * allocations of the archive come by here, and those of shared libraries do not. */
#ifndef REFUSE_H
#define REFUSE_H

/* From here on the allocation of this number that a call of the library makes, counted from 1, is refused; 0: none is. */
void refuse_at(unsigned long number);

/* A call of the library begins, or has ended. What is allocated between the two counts. The end tells whether it was refused some. */
void refuse_begin(void);
int refuse_end(void);

/* Whether the allocation was refused by now. */
int refuse_done(void);

#endif
