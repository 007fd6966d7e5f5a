/* Assembling zkIR v3.4 text to program images, opening such images, and listing them as text again.
 *
 * Three functions whose every answer is proved: crates/capi holds their contracts, and crates/capi/specs/Promises.antt what follows for a
 * caller. Each takes any input, and returns 0, or the number of the one refusal that meets it (enum zkasm_refusal). In both cases it fills
 * its answer; a field that says nothing is 0.
 *
 * What a caller owes, and no proof can see:
 *   - each pointer is aligned for its type and not NULL, even where its length is 0. The functions are marked so (ZKASM_NONNULL), and gcc
 *     and clang warn of a NULL that they can see. For "none", pass the address of any object of the type, with length 0;
 *   - as many entries stand there as the length says;
 *   - a buffer that is written to (table, the image that is assembled, text, answer) overlaps no other argument.
 *
 * The functions keep nothing between calls and take no memory but stack, so several threads may call them at once. A call takes at most
 * 32 KB of stack, whatever the input (measured, not proved). The library calls memcpy and memset and nothing else. Link
 * target/staticlib/libzkasm.a, for x86-64 Linux. */
#ifndef ZKASM_H
#define ZKASM_H

#include <stddef.h>
#include <stdint.h>

#ifdef __cplusplus
extern "C" {
#endif

/* The library is compiled for lengths of 64 bits. Elsewhere this line does not compile. */
typedef char zkasm_size_t_has_64_bits[sizeof(size_t) == 8 ? 1 : -1];

/* No pointer that a function so marked takes may be NULL. */
#ifdef __GNUC__
#define ZKASM_NONNULL __attribute__((nonnull))
#else
#define ZKASM_NONNULL
#endif

/* What a call is refused for. "Line" says that answer.line is the true line, from 1. */
enum zkasm_refusal {
    ZKASM_ACCEPTED = 0,
    /* zkasm_assemble, before any line */
    ZKASM_SOURCE_TOO_LONG = 1, /* the source has more than 1,048,576 bytes; no line */
    ZKASM_NOT_ASCII = 2,       /* a byte above 127; line of the first one */
    /* zkasm_assemble, the first faulty line; line */
    ZKASM_BAD_TOKEN = 3,          /* a bad token anywhere in the line */
    ZKASM_DUPLICATE_LABEL = 4,    /* a label of that spelling has been entered */
    ZKASM_TABLE_FULL = 5,         /* a new label, and no free entry in the table */
    ZKASM_CONFIG_TOKENS = 6,      /* a .config line is not of three tokens */
    ZKASM_KEY_EXPECTED = 7,       /* its key is not an identifier */
    ZKASM_NUMBER_EXPECTED = 8,    /* a number is expected, there or as an operand */
    ZKASM_UNKNOWN_KEY = 9,        /* the key is none of limb_bits, data_limbs, addr_limbs */
    ZKASM_LIMB_BITS_RANGE = 10,   /* limb_bits is outside 16..30; also of an image */
    ZKASM_LIMB_BITS_ODD = 11,     /* limb_bits is odd; also of an image */
    ZKASM_DATA_LIMBS_RANGE = 12,  /* data_limbs is outside 1..4; also of an image */
    ZKASM_ADDR_LIMBS_RANGE = 13,  /* addr_limbs is outside 1..2; also of an image */
    ZKASM_MNEMONIC_EXPECTED = 14, /* what should be the mnemonic is no identifier */
    ZKASM_UNKNOWN_MNEMONIC = 15,  /* there is no such mnemonic */
    ZKASM_OPERAND_COUNT = 16,     /* wrong count of operand tokens */
    ZKASM_REGISTER_EXPECTED = 17, /* an operand is not a register */
    ZKASM_NO_SUCH_REGISTER = 18,  /* a register that there is not: a5 */
    ZKASM_COMMA_EXPECTED = 19,    /* ',' is expected */
    ZKASM_OPENING_EXPECTED = 20,  /* '(' is expected */
    ZKASM_CLOSING_EXPECTED = 21,  /* ')' is expected */
    ZKASM_TOO_MANY_WORDS = 22,    /* a 32,769th instruction */
    /* zkasm_assemble, after the last line, and after 33 and 34 */
    ZKASM_IMAGE_TOO_SHORT = 23, /* the image buffer is too short: answer.needed; no line */
    /* zkasm_open and zkasm_list */
    ZKASM_HEADER_CUT = 24,    /* the image has fewer than 32 bytes */
    ZKASM_WRONG_MAGIC = 25,   /* it does not begin with the bytes 5A 4B 49 52 */
    ZKASM_WRONG_VERSION = 26, /* its version is not 0x00030004 */
    ZKASM_CODE_SIZE = 27,     /* its code size is no multiple of 4 */
    ZKASM_IMAGE_LENGTH = 28,  /* its length is not 32 + code size + data size */
    /* zkasm_list */
    ZKASM_UNUSUAL_HEADER = 29, /* flags, entry, data, bss or stack size is not as zkasm_assemble writes it, or over 32,768 words */
    ZKASM_UNKNOWN_OPCODE = 30, /* a word with an unknown opcode: answer.index */
    ZKASM_UNUSED_BIT = 31,     /* a word with an unused bit set: answer.index */
    ZKASM_TEXT_TOO_SHORT = 32, /* the text buffer is too short: answer.needed */
    /* zkasm_assemble, after the last line and before 23: the first line whose target is one of these; line */
    ZKASM_NO_SUCH_LABEL = 33, /* the last operand of jal or of a branch names a label that the source does not have */
    ZKASM_LABEL_TOO_FAR = 34, /* a branch's label is outside -65,536..65,535 bytes from its own address */
    /* zkasm_assemble, the first faulty line, just after 8 at the same number; line */
    ZKASM_NUMBER_OUT_OF_RANGE = 35 /* a number is outside its range: see zkasm_assemble */
};

/* An entry of the label table. */
typedef struct zkasm_label {
    size_t start;     /* where its spelling begins, counted from the source's first byte */
    size_t length;    /* the bytes of its spelling */
    uint64_t address; /* 0x1000 + 4 times the words before it */
} zkasm_label;

typedef struct zkasm_assembled {
    uint64_t words;      /* accepted: the instructions; the image is 32 + 4 * words bytes */
    uint64_t labels;     /* the labels entered into the table, after a refusal too */
    uint64_t limb_bits;  /* accepted: the settings, as the .config lines leave them */
    uint64_t data_limbs;
    uint64_t addr_limbs;
    uint64_t rust_line;  /* refused: the line that the Rust assembler of zkIR names, 0 for 1, 2, 3, 8, 18 and 23 */
    uint64_t line;       /* refused: the true line, from 1; 0 for 1 and 23 */
    uint64_t needed;     /* 23: the length that the image buffer must have */
} zkasm_assembled;

/* Assembles a source. The last operand of jal and of the six branches is a number or a label anywhere in the source, which means the bytes
 * from the instruction's own address to the label's. A decimal number is -65,536..65,535, that of jal -1,048,576..1,048,575, and that of a
 * shift 0..255; one in hex or binary is a pattern of at most 17, 21 or 8 bits. A setting is 0..255 in every base, which is seen before its key
 * is looked up.
 *   source, source_length   the text, any bytes; it need not end in a newline or in 0
 *   table, table_length     room for labels: one entry each, in the order of the source. Entries past answer->labels keep their values
 *   image, image_length     room for the image. Accepted: its first 32 + 4 * words bytes are written, the header and then a word each,
 *                           lowest byte first; later bytes keep their values. Refused: the bytes are as before
 *   answer                  filled in every case
 * 131,104 bytes hold every image: with as many, 23 is never returned. */
ZKASM_NONNULL
uint32_t zkasm_assemble(const uint8_t *source, size_t source_length, zkasm_label *table, size_t table_length, uint8_t *image,
                        size_t image_length, zkasm_assembled *answer);

/* All fields are 0 where the image is refused. */
typedef struct zkasm_opened {
    uint64_t magic;       /* 0x52494B5A */
    uint64_t version;     /* 0x00030004 */
    uint64_t limb_bits;
    uint64_t data_limbs;
    uint64_t addr_limbs;
    uint64_t flags;
    uint64_t entry_point; /* the address where the program begins */
    uint64_t code_size;   /* in bytes */
    uint64_t data_size;
    uint64_t bss_size;
    uint64_t stack_size;
    uint64_t code_end;    /* the code is the bytes of the image from 32 to here; the data fill the rest */
} zkasm_opened;

/* Reads and checks the header of an image.
 *   image, image_length   the image, whole
 *   answer                filled in every case */
ZKASM_NONNULL
uint32_t zkasm_open(const uint8_t *image, size_t image_length, zkasm_opened *answer);

typedef struct zkasm_listed {
    uint64_t length; /* accepted: the bytes of the text */
    uint64_t index;  /* 30 and 31: the faulty word, from 0 */
    uint64_t needed; /* 32: the length that the text buffer must have */
} zkasm_listed;

/* Writes the text of an image: three .config lines, then a line for each word. Assembled again, it gives the same image.
 *   image, image_length   the image, whole
 *   text, text_length     room for the text. Accepted: its first `length` bytes are written, with no 0 after them; later bytes keep their
 *                         values. Refused: the bytes are as before
 *   answer                filled in every case
 * 720,962 bytes hold every text: with as many, 32 is never returned. */
ZKASM_NONNULL
uint32_t zkasm_list(const uint8_t *image, size_t image_length, uint8_t *text, size_t text_length, zkasm_listed *answer);

#ifdef __cplusplus
}
#endif

#endif
