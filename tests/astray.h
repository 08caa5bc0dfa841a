/* astray.h: the four ways in which a grade goes astray (document 01). */
#ifndef ASTRAY_H
#define ASTRAY_H

/* Tries a card for each, counts the cases, prints a line for each; how many differ. */
unsigned run_astray(unsigned *cases);

#endif
