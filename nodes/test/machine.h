/* What a machine gives the runner: three files, a counter, and an end. */
#ifndef MACHINE_H
#define MACHINE_H

#include <stdint.h>

/* The file of calls, and the files of outcomes and figures that are written. */
enum { CALLS, OUTCOMES, FIGURES, FILES };

/* Opens a file of this name for reading or writing. Ends the program where it can't be had. */
void machine_open(int file, const char *name, int writing);

/* Reads exactly so many bytes, or writes them. Ends the program where it can't be done. */
void machine_read(int file, void *bytes, uintptr_t count);
void machine_write(int file, const void *bytes, uintptr_t count);

/* A counter that goes up with the instructions, at a rate of the machine's own; always 0 where it has none. */
uint64_t machine_ticks(void);

/* Runs a loop of two instructions so often: by what the counter says of it, the machine's rate is known. */
void machine_loop(uint32_t rounds);

/* Ends the program: 0 done, else failed. */
_Noreturn void machine_end(int status);

#endif
