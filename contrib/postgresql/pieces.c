/* The text of a value, piece by piece. */
#include "pieces.h"

#include <access/detoast.h>
#include <access/heaptoast.h>
#include <fmgr.h>
#include <mb/pg_wchar.h>
#include <miscadmin.h>

/* Some 256 KB, in whole chunks of a value that is stored out of line. */
#define PIECE (128 * TOAST_MAX_CHUNK_SIZE)

/* The bytes of a database in SQL_ASCII have no encoding, and are checked as they are. */
static bool is_converted(const Pieces *pieces) {
    return pieces->coding == CHARACTERS && GetDatabaseEncoding() != PG_UTF8 && GetDatabaseEncoding() != PG_SQL_ASCII;
}

/* Whether the value lies out of line and not compressed, so that a part of it can be read alone. A part of a compressed value costs
 * all that stands before it. */
static bool is_read_in_parts(struct varlena *stored) {
    struct varatt_external toasted;
    if (!VARATT_IS_EXTERNAL_ONDISK(stored))
        return false;
    VARATT_EXTERNAL_GET_POINTER(toasted, stored);
    return !VARATT_EXTERNAL_IS_COMPRESSED(toasted);
}

void begin_string(Pieces *pieces, Coding coding, const char *bytes, Size size) {
    *pieces = (Pieces){.coding = coding, .bytes = bytes, .size = size};
}

void begin_value(Pieces *pieces, Coding coding, Datum value) {
    struct varlena *stored = (struct varlena *)DatumGetPointer(value), *whole;
    *pieces = (Pieces){.coding = coding, .value = value};
    /* A part may end within a character, which a conversion does not take. */
    if (is_read_in_parts(stored) && !is_converted(pieces)) {
        pieces->in_parts = true;
        pieces->size = toast_raw_datum_size(value) - VARHDRSZ;
        return;
    }
    whole = PG_DETOAST_DATUM_PACKED(value);
    pieces->copy = whole == stored ? NULL : whole;
    pieces->bytes = VARDATA_ANY(whole);
    pieces->size = VARSIZE_ANY_EXHDR(whole);
}

static void end_piece(Pieces *pieces) {
    if (pieces->converted)
        pfree(pieces->converted);
    pieces->converted = NULL;
    if (pieces->in_parts && pieces->copy)
        pfree(pieces->copy);
    if (pieces->in_parts)
        pieces->copy = NULL;
}

bool next_piece(Pieces *pieces, const char **bytes, Size *length) {
    Size piece = Min(PIECE, pieces->size - pieces->from);
    CHECK_FOR_INTERRUPTS();
    end_piece(pieces);
    if (piece == 0)
        return false;
    if (pieces->in_parts) {
        pieces->copy = PG_DETOAST_DATUM_SLICE(pieces->value, pieces->from, PIECE);
        *bytes = VARDATA_ANY(pieces->copy);
        *length = VARSIZE_ANY_EXHDR(pieces->copy);
    } else {
        *bytes = pieces->bytes + pieces->from;
        *length = piece;
    }
    if (is_converted(pieces)) {
        const char *given = *bytes;
        char *converted;
        piece = pg_mbcliplen(given, (int)(pieces->size - pieces->from), PIECE);
        converted = pg_server_to_any(given, (int)piece, PG_UTF8);
        *bytes = converted;
        *length = converted == given ? piece : strlen(converted);
        pieces->converted = converted == given ? NULL : converted;
    }
    pieces->from += piece;
    return true;
}

void end_pieces(Pieces *pieces) {
    end_piece(pieces);
    if (pieces->copy)
        pfree(pieces->copy);
    pieces->copy = NULL;
}
