/* The calls of gazhdor.h that need no proof. c/gazhdor.c and release/any/everywhere.c include this: each is a library with these calls. */
#include "gazhdor.h"

#include <stdlib.h>

void gazhdor_free(gazhdor_text text)
{
    if (text.length != 0)
        free((void *)(uintptr_t)text.bytes);
}

const char *gazhdor_status_name(uint32_t status)
{
    switch (status) {
    case GAZHDOR_GOOD: return "good";
    case GAZHDOR_REFUSED: return "refused";
    case GAZHDOR_TRUNCATED: return "truncated";
    case GAZHDOR_NO_MEMORY: return "out of memory";
    case GAZHDOR_TEXT: return "text refused";
    case GAZHDOR_UNWRITABLE: return "no file has such rows";
    case GAZHDOR_CLOSED: return "closed";
    case GAZHDOR_NO_KIND: return "no such kind";
    case GAZHDOR_BLOCK: return "block refused";
    default: return "unknown";
    }
}

const char *gazhdor_reason_name(uint32_t reason)
{
    switch (reason) {
    case GAZHDOR_HEADER_SIZE: return "HeaderSize";
    case GAZHDOR_PROTOCOL: return "Protocol";
    case GAZHDOR_NO_FIT: return "NoFit";
    case GAZHDOR_SIGNATURE: return "Signature";
    case GAZHDOR_HEADER_SUM: return "HeaderSum";
    case GAZHDOR_RESERVED_BIT: return "ReservedBit";
    case GAZHDOR_UNDEFINED_LOCAL: return "UndefinedLocal";
    case GAZHDOR_OVERRUN: return "Overrun";
    case GAZHDOR_ARCHITECTURE: return "Architecture";
    case GAZHDOR_FILE_SUM: return "FileSum";
    case GAZHDOR_TOO_MANY_FILES: return "TooManyFiles";
    default: return "unknown";
    }
}

const char *gazhdor_version(void)
{
    return GAZHDOR_VERSION;
}

#include "beside_blocks.h"
