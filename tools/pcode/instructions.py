"""The instructions by the form of their operands, each with its opcode."""

PLAIN = {
    "LDCN": 159, "STO": 154, "LDB": 190, "STB": 191, "LDP": 186, "STP": 187, "ADI": 130, "SBI": 149,
    "MPI": 143, "DVI": 134, "MODI": 142, "ABI": 128, "NGI": 145, "SQI": 152, "CHK": 136,
    "LAND": 132, "LOR": 141, "LNOT": 147, "EQUI": 195, "NEQI": 203, "LEQI": 200, "LESI": 201,
    "GEQI": 196, "GRTI": 197, "NOP": 215,
}
# With the opcode of the number 0, the least and the greatest number.
SHORT = {"SLDC": (0, 0, 127), "SLDL": (215, 1, 16), "SLDO": (231, 1, 16), "SIND": (248, 0, 7)}
BYTE = {"LDM": 188, "STM": 189, "CSP": 158, "RNP": 173, "RBP": 193}
BIG = {"LDL": 202, "STL": 204, "LLA": 198, "LDO": 169, "SRO": 171, "LAO": 165, "IND": 163,
       "INC": 162, "IXA": 164, "MOV": 168}
LEVELS = {"LOD": 182, "STR": 184, "LDA": 178}
PACKED = {"IXP": 192}
COMPARE = {"EQU": 175, "NEQ": 183, "LEQ": 180, "LES": 181, "GEQ": 176, "GRT": 177}
CALL = {"CLP": 206, "CGP": 207, "CIP": 174}
JUMP = {"UJP": 185, "FJP": 161, "EFJ": 211, "NFJ": 212}
LDCI, XJP = 199, 172

# Instructions that no next one follows.
LAST = {"UJP", "XJP", "RNP", "RBP"}

BLOCK = 512
MOST_BYTES = 65534  # of a segment: its length is even, and stands in a word
MOST_FAR = 60  # targets in a procedure's jump table, which a jump reaches by its signed byte
