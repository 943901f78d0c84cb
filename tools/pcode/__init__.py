"""UCSD Pascal II.0 code files: the table of instructions, the encoder and the lister. The assembler
and the compiler stand on it."""
