"""Calls of the system: its segment 0, and its standard procedures."""

from .table import standard_name, system_name

# What becomes of a procedure of the system: its name in the run-time, for any file and for a file
# of the system, whose number is then not on the stack.
FILES = {
    4: "RTRESET", 7: "RTGET", 8: "RTPUT", 10: "RTEOF", 11: "RTEOLN", 12: "RTREADINT",
    13: "RTWRITEINT", 14: "RTREADREAL", 15: "RTWRITEREAL", 16: "RTREADCHAR", 17: "RTWRITECHAR",
    18: "RTREADSTRING", 19: "RTWRITESTRING", 20: "RTWRITEBYTES", 21: "RTREADLN", 22: "RTWRITELN",
    6: "RTCLOSE", 9: "RTSEEK", 28: "RTBLOCKS",
}
# Of the console and the keyboard, with their number on the stack.
NUMBERED = {10: "ATEOF", 11: "ATEOLN", 18: "READSTR", 21: "ENDLINE"}
# Without it.
WRITTEN = {13: "WRITEINT", 15: "RTREALOUT", 17: "WRITECHAR", 19: "WRITESTRING", 20: "RTBYTES"}
READ = {12: "READINT", 14: "READREAL", 16: "READCHAR"}
OTHERS = {3: "RTINIT", 5: "RTOPEN", 23: "APPEND", 24: "RTINSERT", 25: "RTCOPY", 26: "DELETETEXT",
          27: "POSITION", 29: "SCREENXY"}
NEEDING_FILES = (3, 5, 8, 9, 28)  # a program that calls one of them has files in memory
GIVING = (10, 11, 27, 28)  # functions, for whose value two words have been pushed already
STANDARDS = {
    1: "RTNEW", 2: "MOVELEFT", 3: "MOVERIGHT", 9: "RTTIME", 10: "FILL", 11: "RTSCAN", 25: "SINE",
    26: "COSINE", 27: "LOGTEN", 28: "ARCTANGENT", 29: "LOGARITHM", 30: "EXPONENTIAL", 31: "ROOT",
    32: "RTMARK", 33: "RTRELEASE", 36: "TENPOWER", 40: "MEMORY",
}
IOC, URD, UWT, GSEG, RSEG, TNC, RND, IOR = 0, 5, 6, 21, 22, 23, 24, 34
UBUSY, UWAIT, UCLR, HLT = 35, 37, 38, 39


class System:
    """The part of the writer for calls of the system."""

    def call(self, name):
        """A call of the run-time whose parameters are pushed; of a function two words are pushed
        for its value."""
        if self.machine.is_function(name):
            self.out.many("SLDC 0", "SLDC 0")
        self.out.emit("CGP", self.machine.routine(name))

    def system_call(self, it):
        number = it.operands[1]
        console = self.notes.files.get(it.at)
        is_pushed = console is None or console.at in self.notes.pushed
        if number in OTHERS:
            self.call_given(number, OTHERS[number])
        elif number in FILES and console is None:
            self.call_given(number, FILES[number])
        elif number in NUMBERED or is_pushed:
            self.begin_io(number)
            self.call_given(number, NUMBERED.get(number) or FILES[number])
        else:
            self.begin_io(number)
            self.of_console(number, console.number)

    def call_given(self, number, name):
        """A call whose parameters are all there; of a function the two words are too."""
        if number in GIVING:
            self.out.emit("CGP", self.machine.routine(name))
        else:
            self.call(name)

    def begin_io(self, number):
        """IORESULT begins anew, if it can tell of a file; EOF and EOLN leave it."""
        if self.has_files and number not in (10, 11):
            self.out.many("SLDC 0", f"SRO {self.machine.variable('IOCODE')}")

    def of_console(self, number, file):
        if number in WRITTEN:
            self.call(WRITTEN[number])
        elif number in READ:
            self.out.number(file)
            self.call(READ[number])
            if number == 14:
                self.out.emit("STM", 2)
            else:
                self.out.emit("STO")
        else:  # FWRITELN
            self.out.number(self.machine.line_end)
            self.call("PUTCHAR")

    # Standard procedures

    def csp(self, it):
        number = it.operands[0]
        if number in (URD, UWT, HLT):
            if number != HLT:
                self.begin_io(number)
            self.out.emit("CSP", number)
        elif number in (IOC, IOR):
            self.outcome(number)
        elif number == 4:
            self.exit(it)
        elif number in (TNC, RND):
            self.out.number(number - TNC)
            self.call("WHOLE")
        elif number in STANDARDS:
            self.call(STANDARDS[number])
        elif number in (GSEG, RSEG, UWAIT, UCLR, UBUSY):
            if not self.out.take_back(1):
                self.drop_words(1)
            if number == UBUSY:
                self.out.number(0)
        else:
            self.refuse(f"standard procedure {number}, {standard_name(number)}, is not there", it)

    def outcome(self, number):
        """IOCHECK and IORESULT."""
        if number == IOC:
            if self.has_files:
                self.call("CHECKIO")
            self.out.emit("CSP", IOC)
        else:
            self.out.emit("CSP", IOR)
            if self.has_files:
                self.call("IOOUTCOME")


def told_of(number):
    """A procedure of the system as a listing has it."""
    return system_name(number) or f"procedure {number}"
