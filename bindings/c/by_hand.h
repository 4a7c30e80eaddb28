/* Calls that are written out by hand, with the answers typed in from document 01. */
#ifndef BY_HAND_H
#define BY_HAND_H

#define COUNT(array) (sizeof(array) / sizeof((array)[0]))

/* Every number that a call over lists can answer with, the sizes at which it begins to, and examples. */
void lists_by_hand(void);

/* Separations: examples, and n, marks and variables just inside and outside their bounds. */
void separations_by_hand(void);

/* The canonicaliser: examples, what folding leaves, the gates that it refuses, and outputs just long enough and just too
 * short. */
void canonicals_by_hand(void);

/* The truth-table routines: examples, and arguments just inside and outside their ranges. */
void tables_by_hand(void);

#endif
