/* How the maps of history_maps.c wait: as the program that uses them says. */
#ifndef PAUSES_H
#define PAUSES_H

/* Lets another thread, or another fiber, go on. */
void pause_here(void);

#endif
