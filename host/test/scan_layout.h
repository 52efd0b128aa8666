/* scan_layout.h: where the fields of a scan value stand, as jazhuppe.h says. */
#ifndef SCAN_LAYOUT_H
#define SCAN_LAYOUT_H

/* The table in four planes, word 0 of each byte's entry first; the masks and the state have four words each. */
enum {
    PLANE = 256,
    FOUR = 4,
    REPEATS = FOUR * PLANE,
    OPTIONAL = REPEATS + FOUR,
    POSITIONS = OPTIONAL + FOUR,
    STATE,
    FINISHED = STATE + FOUR,
    RAW,
    DECODED,
    HELD,
    HELD_WORDS
};

#endif
