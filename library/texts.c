/* The library's version, and its codes in words. The rest of the library is proved; this isn't. */
#include "modem.h"

#ifndef MODEM_VERSION
#error "MODEM_VERSION is the text of the file VERSION"
#endif

const char *modem_version(void)
{
    return MODEM_VERSION;
}

const char *modem_text(int32_t code)
{
    switch (code) {
    case MODEM_DONE:
        return "done";
    case MODEM_NOTHING:
        return "nothing to give";
    case MODEM_FULL:
        return "no room left";
    case MODEM_LOST:
        return "line lost";
    case MODEM_BROKEN:
        return "link broken";
    case MODEM_NO_MEMORY:
        return "out of memory";
    case MODEM_EMPTY:
        return "empty handle";
    case MODEM_WRONG_KIND:
        return "handle of another kind, or finished";
    case MODEM_BAD_ARGUMENT:
        return "argument out of range";
    case MODEM_ORDER:
        return "not its turn";
    case MODEM_LATE:
        return "line, link or stream of bits too long";
    default:
        return "unknown code";
    }
}
