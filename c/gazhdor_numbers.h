/* The numbers that stand in the blocks of gazhdor_messages, and those of messages, by their names. docs/BLOCKS.md says what each is.
 * gazhdor.h includes it. Written by profile/make. */
#ifndef GAZHDOR_NUMBERS_H
#define GAZHDOR_NUMBERS_H

/* What a block tells. */
enum gazhdor_kind {
    GAZHDOR_FILE_HEADER = 1,
    GAZHDOR_DEFINITION = 2,
    GAZHDOR_MESSAGE = 3,
    GAZHDOR_FILE_END = 4
};

/* Where each block has these. */
#define GAZHDOR_AT_LENGTH 0
#define GAZHDOR_AT_KIND 4
#define GAZHDOR_AT_FILE 8
#define GAZHDOR_AT_PLACE 16

/* Where the block of a header has these. */
#define GAZHDOR_AT_HEADER_SIZE 5
#define GAZHDOR_AT_HEADER_PROTOCOL 6
#define GAZHDOR_AT_HEADER_SUM 7
#define GAZHDOR_AT_HEADER_DATA 12
#define GAZHDOR_AT_HEADER_PROFILE 24
#define GAZHDOR_AT_HEADER_REST 32

/* Where the block of a definition message has these. */
#define GAZHDOR_AT_DEFINITION_LOCAL 5
#define GAZHDOR_AT_DEFINITION_ARCHITECTURE 6
#define GAZHDOR_AT_DEFINITION_RESERVED 7
#define GAZHDOR_AT_DEFINITION_MESSAGE_LENGTH 12
#define GAZHDOR_AT_DEFINITION_NUMBER 24
#define GAZHDOR_AT_DEFINITION_MESSAGE 32
#define GAZHDOR_AT_DEFINITION_FIELDS 34
#define GAZHDOR_AT_DEFINITION_DEVELOPERS 36
#define GAZHDOR_AT_DEFINITION_BITS 38
#define GAZHDOR_AT_DEFINITION_NAME 40

/* Where the block of a data message has these. */
#define GAZHDOR_AT_MESSAGE_BITS 5
#define GAZHDOR_AT_MESSAGE_LOCAL 6
#define GAZHDOR_AT_MESSAGE_OFFSET 7
#define GAZHDOR_AT_MESSAGE_TIME 12
#define GAZHDOR_AT_MESSAGE_DEFINITION 24
#define GAZHDOR_AT_MESSAGE_HEADER_TIME 32
#define GAZHDOR_AT_MESSAGE_ITEMS 40
#define GAZHDOR_AT_MESSAGE_SPEED 40
#define GAZHDOR_AT_MESSAGE_DISTANCE 48
#define GAZHDOR_AT_MESSAGE_CYCLES 56
#define GAZHDOR_AT_MESSAGE_POWER 64
#define GAZHDOR_AT_MESSAGE_COUNTED_ITEMS 72

/* Where the entry of a field in a definition has these. */
#define GAZHDOR_AT_ENTRY_LENGTH 0
#define GAZHDOR_AT_ENTRY_UNIT 2
#define GAZHDOR_AT_ENTRY_NUMBER 4
#define GAZHDOR_AT_ENTRY_DEVELOPER 5
#define GAZHDOR_AT_ENTRY_INDEX 6
#define GAZHDOR_AT_ENTRY_BASE_TYPE 7
#define GAZHDOR_AT_ENTRY_KIND 8
#define GAZHDOR_AT_ENTRY_WIDTH 9
#define GAZHDOR_AT_ENTRY_COUNT 10
#define GAZHDOR_AT_ENTRY_DECIMALS 11
#define GAZHDOR_AT_ENTRY_ITEMS 12
#define GAZHDOR_AT_ENTRY_SCALE 16
#define GAZHDOR_AT_ENTRY_OFFSET 20
#define GAZHDOR_AT_ENTRY_INVALID 24
#define GAZHDOR_AT_ENTRY_NAME 32

/* The bits of a data message: what it tells. */
#define GAZHDOR_TOLD_TIME 1u
#define GAZHDOR_TOLD_HEADER_TIME 2u
#define GAZHDOR_TOLD_SPEED 4u
#define GAZHDOR_TOLD_DISTANCE 8u
#define GAZHDOR_TOLD_CYCLES 16u
#define GAZHDOR_TOLD_POWER 32u

/* The bits of a definition message. */
#define GAZHDOR_SAYS_DEVELOPERS 1u
#define GAZHDOR_IS_COUNTED 2u

/* What the items of a field stand for. Of a string and of bytes each item is one byte. */
enum gazhdor_items_kind {
    GAZHDOR_UNSIGNED = 0,
    GAZHDOR_SIGNED = 1,
    GAZHDOR_FLOAT = 2,
    GAZHDOR_STRING = 3,
    GAZHDOR_BYTES = 4
};

/* The architecture of a definition message. */
#define GAZHDOR_LITTLE_ENDIAN 0
#define GAZHDOR_BIG_ENDIAN 1

/* The checksum of a header. */
#define GAZHDOR_NO_SUM 0
#define GAZHDOR_ZERO_SUM 1
#define GAZHDOR_OWN_SUM 2

/* What stands for none in the block of a data message. */
#define GAZHDOR_NO_TIME 0xFFFFFFFFu
#define GAZHDOR_NO_OFFSET 255u

/* The least length of these. */
#define GAZHDOR_LEAST_BLOCK 24
#define GAZHDOR_LEAST_ENTRY 48

/* The global message numbers of the messages that have names, those of profile/fields.tsv. */
enum gazhdor_message_number {
    GAZHDOR_MESSAGE_FILE_ID = 0,
    GAZHDOR_MESSAGE_SPORT = 12,
    GAZHDOR_MESSAGE_SESSION = 18,
    GAZHDOR_MESSAGE_LAP = 19,
    GAZHDOR_MESSAGE_RECORD = 20,
    GAZHDOR_MESSAGE_EVENT = 21,
    GAZHDOR_MESSAGE_DEVICE_INFO = 23,
    GAZHDOR_MESSAGE_ACTIVITY = 34,
    GAZHDOR_MESSAGE_FILE_CREATOR = 49,
    GAZHDOR_MESSAGE_HRV = 78,
    GAZHDOR_MESSAGE_FIELD_DESCRIPTION = 206,
    GAZHDOR_MESSAGE_DEVELOPER_DATA_ID = 207
};

/* The base types of fields, by their codes in the file. */
enum gazhdor_base_type {
    GAZHDOR_TYPE_ENUM = 0x00,
    GAZHDOR_TYPE_SINT8 = 0x01,
    GAZHDOR_TYPE_UINT8 = 0x02,
    GAZHDOR_TYPE_STRING = 0x07,
    GAZHDOR_TYPE_UINT8Z = 0x0A,
    GAZHDOR_TYPE_BYTE = 0x0D,
    GAZHDOR_TYPE_SINT16 = 0x83,
    GAZHDOR_TYPE_UINT16 = 0x84,
    GAZHDOR_TYPE_SINT32 = 0x85,
    GAZHDOR_TYPE_UINT32 = 0x86,
    GAZHDOR_TYPE_FLOAT32 = 0x88,
    GAZHDOR_TYPE_FLOAT64 = 0x89,
    GAZHDOR_TYPE_UINT16Z = 0x8B,
    GAZHDOR_TYPE_UINT32Z = 0x8C,
    GAZHDOR_TYPE_SINT64 = 0x8E,
    GAZHDOR_TYPE_UINT64 = 0x8F,
    GAZHDOR_TYPE_UINT64Z = 0x90
};

/* Of the five low bits of a code the width of an item, an enum gazhdor_items_kind, and a bit where 0 stands for no value. */
#define GAZHDOR_TYPE_WIDTHS { 1, 1, 1, 2, 2, 4, 4, 1, 4, 8, 1, 2, 4, 1, 8, 8, 8 }
#define GAZHDOR_TYPE_KINDS { \
    GAZHDOR_UNSIGNED, GAZHDOR_SIGNED, GAZHDOR_UNSIGNED, GAZHDOR_SIGNED, GAZHDOR_UNSIGNED, GAZHDOR_SIGNED, GAZHDOR_UNSIGNED, \
    GAZHDOR_STRING, GAZHDOR_FLOAT, GAZHDOR_FLOAT, GAZHDOR_UNSIGNED, GAZHDOR_UNSIGNED, GAZHDOR_UNSIGNED, GAZHDOR_BYTES, \
    GAZHDOR_SIGNED, GAZHDOR_UNSIGNED, GAZHDOR_UNSIGNED, \
}
#define GAZHDOR_TYPE_ZEROS 0x11C80u

#endif
