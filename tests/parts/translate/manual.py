"""The instructions of UCSD Pascal II.0, one by one as its manual has them, and their decoder. It
shares nothing with the translator's table.

UB and DB are an unsigned byte, B one byte or two, SB a jump, W a word; S is a length and so many
characters, C a count and so many words from the next even offset on, T a type and maybe a B, and X
what XJP has. LDE, LAE and STE are those of Apple Pascal 1.1.
"""

TABLE = """
128 ABI;      129 ABR;      130 ADI;      131 ADR;      132 LAND;     133 DIF;      134 DVI
135 DVR;      136 CHK;      137 FLO;      138 FLT;      139 INN;      140 INT;      141 LOR
142 MODI;     143 MPI;      144 MPR;      145 NGI;      146 NGR;      147 LNOT;     148 SRS
149 SBI;      150 SBR;      151 SGS;      152 SQI;      153 SQR;      154 STO;      155 IXS
156 UNI;      157 LDE UB B; 158 CSP UB;   159 LDCN;     160 ADJ UB;   161 FJP SB;   162 INC B
163 IND B;    164 IXA B;    165 LAO B;    166 LSA S;    167 LAE UB B; 168 MOV B;    169 LDO B
170 SAS UB;   171 SRO B;    172 XJP X;    173 RNP DB;   174 CIP UB;   175 EQU T;    176 GEQ T
177 GRT T;    178 LDA DB B; 179 LDC C;    180 LEQ T;    181 LES T;    182 LOD DB B; 183 NEQ T
184 STR DB B; 185 UJP SB;   186 LDP;      187 STP;      188 LDM UB;   189 STM UB;   190 LDB
191 STB;      192 IXP UB UB; 193 RBP DB;  194 CBP UB;   195 EQUI;     196 GEQI;     197 GRTI
198 LLA B;    199 LDCI W;   200 LEQI;     201 LESI;     202 LDL B;    203 NEQI;     204 STL B
205 CXP UB UB; 206 CLP UB;  207 CGP UB;   208 LPA S;    209 STE UB B; 211 EFJ SB;   212 NFJ SB
213 BPT B;    214 XIT;      215 NOP
"""
# Opcodes that have a number in them: the first, the last, and the number of the first.
SHORT = {"SLDC": (0, 127, 0), "SLDL": (216, 231, 1), "SLDO": (232, 247, 1), "SIND": (248, 255, 0)}
SIZED = (10, 12)  # types of a comparison that have a size
EXTERN = ("LDE", "LAE", "STE")


def rows():
    for row in TABLE.replace("\n", ";").split(";"):
        if row.strip():
            opcode, name, *kinds = row.split()
            yield int(opcode), name, tuple(kinds)


KINDS = {name: kinds for _, name, kinds in rows()}
OPCODE = {name: opcode for opcode, name, _ in rows()}
NAME = {opcode: name for opcode, name, _ in rows()}


class Code:
    """The bytes of a segment with its words in an order, `little` or `big`."""

    def __init__(self, data, order):
        self.data, self.order = data, order

    def word(self, at):
        return int.from_bytes(self.data[at:at + 2], self.order)

    def signed(self, at):
        return int.from_bytes(self.data[at:at + 2], self.order, signed=True)

    def big(self, at):
        first = self.data[at]
        if first < 128:
            return first, at + 1
        return (first & 127) << 8 | self.data[at + 1], at + 2

    def jump(self, at, jtab):
        distance = self.data[at]
        if distance < 128:
            return at + 1 + distance
        place = jtab + distance - 256
        return place - self.word(place)

    def case(self, at, jtab):
        at += at & 1
        low, high, table = self.signed(at), self.signed(at + 2), at + 6
        other = self.jump(at + 5, jtab)
        places = range(table, table + 2 * (high - low + 1), 2)
        ways = [other if it - self.word(it) == at + 4 else it - self.word(it) for it in places]
        return [low, high, other, ways], table + 2 * len(ways)

    def operand(self, kind, at, jtab):
        """The operands of a kind, and the offset behind them."""
        if kind in ("UB", "DB"):
            return [self.data[at]], at + 1
        if kind == "B":
            value, at = self.big(at)
            return [value], at
        if kind == "SB":
            return [self.jump(at, jtab)], at + 1
        if kind == "W":
            return [self.signed(at)], at + 2
        if kind == "S":
            end = at + 1 + self.data[at]
            return [bytes(self.data[at + 1:end])], end
        if kind == "C":
            count, start = self.data[at], at + 2 - (at & 1)
            return [[self.word(start + 2 * k) for k in range(count)]], start + 2 * count
        if kind == "X":
            return self.case(at, jtab)
        value, sized = self.data[at], []
        at += 1
        if value in SIZED:
            size, at = self.big(at)
            sized = [size]
        return [value, *sized], at

    def decode(self, at, jtab):
        """The name and the operands of an instruction, and the offset behind it."""
        opcode = self.data[at]
        for name, (first, last, number) in SHORT.items():
            if first <= opcode <= last:
                return name, [opcode - first + number], at + 1
        name, operands = NAME[opcode], []
        at += 1
        for kind in KINDS[name]:
            more, at = self.operand(kind, at, jtab)
            operands += more
        return name, operands, at
