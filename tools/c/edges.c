/* What libtn has in C: an export of Rattle takes no null pointer, and returns no pointer. Nothing of this is proved. tools/c/build compiles
 * it, and gives what Rattle exports as tn_.._free the names below.
 */
#include "tn.h"

void held_line_free(tn_line *line);
void held_decoder_free(tn_decoder *decoder);
void held_server_free(tn_server *server);
void held_client_free(tn_client *client);

void tn_line_free(tn_line *line)
{
    if (line != NULL)
        held_line_free(line);
}

void tn_decoder_free(tn_decoder *decoder)
{
    if (decoder != NULL)
        held_decoder_free(decoder);
}

void tn_server_free(tn_server *server)
{
    if (server != NULL)
        held_server_free(server);
}

void tn_client_free(tn_client *client)
{
    if (client != NULL)
        held_client_free(client);
}

const char *tn_code_text(tn_code code)
{
    switch (code) {
    case TN_OK: return "done";
    case TN_MEMORY: return "out of memory";
    case TN_FAILED: return "it has failed before";
    case TN_NOT_STARTED: return "nothing is held";
    case TN_STARTED: return "something is held already";
    case TN_OTHER_KIND: return "something else is held";
    case TN_NO_LIMIT: return "a line's limit is 255 to 4,095";
    case TN_TOO_FAR_AHEAD: return "too many entries wait";
    case TN_CLOSED: return "the terminal is closed";
    case TN_NO_FUNCTION: return "no such function";
    case TN_NOT_SETTABLE: return "the function has no special character";
    case TN_RESERVED: return "never a special character, or the end's own option";
    case TN_TAKEN: return "another function has this character";
    case TN_NOT_ON: return "LINEMODE is not on";
    case TN_TOO_LONG: return "too long";
    case TN_NO_COMMAND: return "no such command";
    case TN_NOT_OWNED: return "the option is not owned";
    case TN_TOO_LATE: return "a piece was fed before";
    case TN_ITEMS_WAIT: return "items of owned options wait";
    }
    return "no code of this library";
}
