/* A value of a column as the pieces of its text in UTF-8, of some 256 KB: as much of it is in memory at a time, where the server can read a
 * part of the value alone. A statement that is cancelled ends between two of them. */
#ifndef PIECES_H
#define PIECES_H

#include <postgres.h>

/* What the bytes of a value are. */
typedef enum Coding {
    BYTES,     /* the text itself */
    CHARACTERS /* characters in the encoding of the database: they are checked, and places counted, in UTF-8 */
} Coding;

typedef struct Pieces {
    Coding coding;
    bool in_parts;        /* the value is read a part at a time */
    Datum value;          /* of such a value */
    const char *bytes;    /* of another: all of it */
    struct varlena *copy; /* what the server made of the value, or of the part under way */
    char *converted;      /* the piece under way, where it was converted */
    Size size;            /* of the value */
    Size from;            /* how much of it was given */
} Pieces;

#define HIDDEN __attribute__((visibility("hidden")))

/* The pieces of a value as it is stored, and of a string. What they take is in the memory context of the calls. */
HIDDEN void begin_value(Pieces *pieces, Coding coding, Datum value);
HIDDEN void begin_string(Pieces *pieces, Coding coding, const char *bytes, Size size);

/* The next piece, which stays until the next call; false where there is none. */
HIDDEN bool next_piece(Pieces *pieces, const char **bytes, Size *length);

/* Gives back what the pieces took. */
HIDDEN void end_pieces(Pieces *pieces);

#endif
