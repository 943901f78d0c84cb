"""An assembler of UCSD Pascal II.0 code files. ../../examples/README.md explains the language."""
