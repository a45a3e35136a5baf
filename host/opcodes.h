/* The mnemonics of the opcodes, by the manual's chapter 3. */
#ifndef HOST_OPCODES_H
#define HOST_OPCODES_H

#include <stddef.h>

#define OPCODE_COUNT 64

/* Null for the three opcodes that are illegal: 1E, 3E and 3F. */
const char *opcode_name(unsigned opcode);

/* The opcode with this mnemonic, in either letter case, or OPCODE_COUNT. */
unsigned opcode_named(const char *text, size_t length);

/* Whether a text is a word of letters, which is given in capitals; the text's are in either letter case. */
int is_word(const char *text, size_t length, const char *word);

#endif
