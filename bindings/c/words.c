/* Statuses in words, and the version, which bindings/build gives. */
#include <itree.h>

#define TEXT(words) #words
#define TEXT_OF(words) TEXT(words)

const char *itree_status_text(int32_t status) {
    switch (status) {
    case ITREE_ANSWERED: return "the answers are written";
    case ITREE_REFUSED: return "memory was refused";
    case ITREE_OVERLAP: return "two segments overlap";
    case ITREE_LENGTHS: return "the lengths of two arrays don't fit each other, or a ring stops where it can't";
    case ITREE_POINTER: return "a pointer is null, misaligned or of more items than memory can hold";
    case ITREE_CHOICE: return "there is no such rule, operation, border, side, form or grid";
    case ITREE_CROSSING: return "two edges cross";
    case ITREE_MEETING: return "two edges meet";
    case ITREE_FAULTY: return "a coordinate or a geometry is faulty";
    case ITREE_STOPPED: return "the call was stopped";
    case ITREE_WINDOW: return "a window has no points or comes too near to the ends of 32 bits, or two windows overlap";
    case ITREE_UNFIT: return "tiles don't fit: a polygon leaves its window, or polygons at borders overlap";
    case ITREE_SHAPE: return "a shape to grow or shrink by isn't convex around the origin";
    case ITREE_RANGE: return "what grows or shrinks leaves 32 bits";
    default: return "there is no such status";
    }
}

const char *itree_version(void) { return TEXT_OF(VERSION); }
