/* The texts of the statuses: C text has no length, and no export of proved code returns an address. */
#include <bsi.h>

static const char *const texts[] = {
    "done",
    "the handle is closed",
    "the handle is open",
    "no memory",
    "bad record in the schema",
    "no column in the schema",
    "no such feeder",
    "columns of another number or length",
    "a row does not fit",
    "the index is full",
    "a shared index takes no rows",
    "no query",
    "no room",
    "too many records in the schema",
    "too many bytes of notes",
    "not a kept index",
    "a kept index of another version",
    "a kept index that is cut short",
    "a kept index that is damaged",
    "kinds of other columns",
};

const char *bsi_status_text(uint32_t status) {
    return status < sizeof texts / sizeof *texts ? texts[status] : "no status of bsi";
}
