/* Why a byte is refused, and why a block can't be written, in words. Written by profile/make. */
#ifndef GAZHDOR_REASONS_H
#define GAZHDOR_REASONS_H

#include <stdint.h>

/* What a reason says of the byte that is refused, by the numbers of `enum gazhdor_reason`, as "the byte is neither 0 nor 1"; "unknown" for
 * other numbers. */
static inline const char *gazhdor_reason_text(uint32_t reason)
{
    switch (reason) {
    case 1: return "the byte begins a header of 0 to 11 or 13 bytes";
    case 2: return "the byte has a major version above 2";
    case 3: return "the byte leaves 1 to 5 bytes of the data section that no records can fill";
    case 4: return "the byte isn't that of .FIT";
    case 5: return "the byte begins neither the header checksum (the protocol's CRC of the header) nor two zeros";
    case 6: return "the byte is a normal record header with bit 4 set, or one of a data message with bit 5 set";
    case 7: return "the byte is the record header of a data message whose local message type isn't defined";
    case 8: return "the byte begins a message, or is a number of fields, for which too few bytes of the data section remain";
    case 9: return "the byte is neither 0 nor 1";
    case 10: return "the byte isn't that of the closing checksum (the protocol's CRC of the file)";
    case 11: return "the byte follows the 16,777,215th file of a chain";
    default: return "unknown";
    }
}

/* The name of the reason of a block, by the numbers of `enum gazhdor_block_reason`, as "Undefined"; "unknown" for other numbers. */
static inline const char *gazhdor_block_reason_name(uint32_t reason)
{
    switch (reason) {
    case 1: return "Cut";
    case 2: return "Kind";
    case 3: return "Header";
    case 4: return "Local";
    case 5: return "Architecture";
    case 6: return "Entries";
    case 7: return "Size";
    case 8: return "Offset";
    case 9: return "Undefined";
    case 10: return "Items";
    case 11: return "NoFile";
    case 12: return "Files";
    case 13: return "Full";
    case 14: return "Time";
    case 15: return "Described";
    case 16: return "TooLong";
    default: return "unknown";
    }
}

/* What it says of the block, as "the block has a time offset of 32 to 254"; "unknown" for other numbers. */
static inline const char *gazhdor_block_reason_text(uint32_t reason)
{
    switch (reason) {
    case 1: return "the block isn't whole: its length isn't a multiple of 8 from 24 on, or goes past the end; or it is missing there, before a file has begun or has ended";
    case 2: return "the block is of a kind that can't stand there";
    case 3: return "the block is a header of a size, a protocol version, a profile version or a kind of checksum that no file has";
    case 4: return "the block has a local message type above 15, or above 3 beside a time offset";
    case 5: return "the block has an architecture that is neither 0 nor 1";
    case 6: return "the block is a definition that its entries don't fill as its counts say";
    case 7: return "the block has a field of more than 255 bytes, or with items of another width than a reader gives them";
    case 8: return "the block has a time offset of 32 to 254";
    case 9: return "the block is a message whose local message type isn't defined";
    case 10: return "the block is a message that ends before the items of its fields do";
    case 11: return "the block comes before a file has begun";
    case 12: return "the block begins one file more than a chain may have";
    case 13: return "the block is a message of 255 fields that needs a timestamp";
    case 14: return "the block is a message that needs a timestamp, and whose time is the number that stands for none";
    case 15: return "the block is a message of which a developer field can't be described with its base type, name and unit";
    case 16: return "the block would make the data of its file longer than a file may have";
    default: return "unknown";
    }
}

#endif
