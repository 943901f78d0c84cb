"""What the p-System does for the interpreter: its console, files in memory, segment 0 and the
standard procedures. READ shows what it reads, as the run-time of a translated program does."""

import math

BLANK, HEAP = 32, 0x8000


class Halt(Exception):
    """The program ends, with what is told of it."""


class Stream:
    """A text that is read: the console, the keyboard or a file."""

    def __init__(self):
        self.window, self.is_full, self.is_line, self.is_end = BLANK, False, False, False


class File(Stream):
    """An open file in memory: its bytes, and where the next one is."""

    def __init__(self, name, data, is_new):
        super().__init__()
        self.name, self.data, self.at, self.is_new = name, data, 0, is_new


class Variable:
    """A file variable: what is known of it from FINIT on."""

    def __init__(self, window, words):
        self.window, self.is_text, self.size = window, words in (0, -2), max(words, 0)
        self.file = None


class Calls:
    """The part of the machine for calls of the system."""

    def __init__(self, given):
        self.given, self.at, self.output = given, 0, bytearray()
        self.streams = {1: Stream(), 2: Stream()}
        self.variables, self.directory, self.outcome = {}, {}, 0

    # Reading

    def stream(self, number):
        """The stream of a file: a number, or the address of a file variable."""
        if number in self.streams:
            return self.streams[number]
        variable = self.variables.get(number)
        if variable is None or variable.file is None:
            raise Halt("error 1")
        return variable.file

    def next(self, stream):
        if isinstance(stream, File):
            stream.is_end = stream.at >= len(stream.data)
            key = 10 if stream.is_end else stream.data[stream.at]
            stream.at += not stream.is_end
            stream.is_line = key in (10, 13)
        elif not stream.is_end:
            if self.at >= len(self.given):
                raise Halt("waits")
            key = self.given[self.at]
            self.at += 1
            stream.is_end = key == 3
            stream.is_line = key in (10, 13) or stream.is_end
            if stream is self.streams[1] and not stream.is_end:
                self.output.append(10 if stream.is_line else key)
        else:
            key = BLANK
        stream.window = BLANK if stream.is_line else key
        stream.is_full = True

    def begin(self, stream):
        if not stream.is_full:
            self.next(stream)

    def number_read(self, stream):
        self.begin(stream)
        while stream.window == BLANK and not stream.is_end:
            self.next(stream)
        is_negative = stream.window == ord("-")
        if stream.window in b"+-":
            self.next(stream)
        value = 0
        while 48 <= stream.window <= 57:
            value = 10 * value + stream.window - 48
            self.next(stream)
        return -value if is_negative else value

    def line_read(self, stream):
        self.begin(stream)
        text = bytearray()
        while not stream.is_line:
            text.append(stream.window)
            self.next(stream)
        return bytes(text)

    def looked(self, number):
        """A stream whose next character is known, if it is a file."""
        stream = self.stream(number)
        if isinstance(stream, File):
            self.begin(stream)
        return stream

    # Writing

    def write(self, number, text):
        if number in self.streams:
            self.output += text
            return
        file = self.stream(number)
        file.data[file.at:file.at + len(text)] = text
        file.at += len(text)
        file.is_end = True

    def padded(self, text, width):
        return text.rjust(width)[:width] if width > 0 else text

    # The procedures of segment 0

    def system(self, number):
        names = {
            3: "init", 4: "reset", 5: "open", 6: "close", 7: "get", 8: "put", 9: "seek", 10: "eof",
            11: "eoln", 12: "readint", 13: "writeint", 16: "readchar", 17: "writechar",
            18: "readstring", 19: "writestring", 20: "writebytes", 21: "readln", 22: "writeln",
            23: "concat", 24: "insert", 25: "copy", 26: "delete", 27: "position",
        }
        if number not in names:
            raise Halt(f"procedure {number} of the system")
        if 12 <= number <= 22:  # those that read and write
            self.outcome = 0
        getattr(self, names[number])()

    def eof(self):
        self.pop()
        self.pop()
        number = self.address()
        variable = self.variables.get(number)
        if variable and (variable.file is None or not variable.is_text):
            self.push(variable.file is None or variable.file.is_end)
        else:
            self.push(self.looked(number).is_end)

    def eoln(self):
        self.pop()
        self.pop()
        self.push(self.looked(self.address()).is_line)

    def readint(self):
        at, number = self.address(), self.address()
        self.store(at, self.number_read(self.stream(number)))

    def writeint(self):
        width, value = self.pop(), self.pop()
        self.write(self.address(), str(value).rjust(width).encode())

    def readchar(self):
        at, stream = self.address(), self.stream(self.address())
        self.begin(stream)
        self.store(at, stream.window)
        stream.is_full = False

    def writechar(self):
        width, value = self.pop(), self.pop()
        self.write(self.address(), bytes([value & 255]).rjust(width))

    def readstring(self):
        most, at, number = self.pop(), self.address(), self.address()
        self.put_string(at, self.line_read(self.stream(number))[:most])

    def writestring(self):
        width, at = self.pop(), self.address()
        self.write(self.address(), self.padded(self.string(at), width))

    def writebytes(self):
        count, width, at = self.pop(), self.pop(), self.address()
        self.write(self.address(), self.padded(bytes(self.memory[at:at + count]), width))

    def readln(self):
        stream = self.looked(self.address())
        while not stream.is_line:
            self.next(stream)
        stream.is_full, stream.is_line = False, stream.is_end

    def writeln(self):
        self.write(self.address(), b"\n")

    # Strings

    def concat(self):
        most, source, target = self.pop(), self.address(), self.address()
        text = self.string(target) + self.string(source)
        if len(text) <= most:
            self.put_string(target, text)

    def insert(self):
        at, most = self.pop(), self.pop()
        target, source = self.address(), self.address()
        text, more = self.string(target), self.string(source)
        if len(text) + len(more) <= most and 1 <= at <= len(text) + 1:
            # The system makes room first, and then copies: of a string that gets itself what was
            # moved is overwritten by then.
            moved = bytearray(text[:at - 1] + text[at - 1:at - 1 + len(more)].ljust(len(more))
                              + text[at - 1:])
            for k in range(len(more)):
                moved[at - 1 + k] = moved[k] if source == target else more[k]
            self.put_string(target, bytes(moved))

    def part(self):
        """What COPY and DELETE take: where it begins and ends, or None if it is outside."""
        count, at = self.pop(), self.pop()
        return (at - 1, at - 1 + count) if at > 0 and count > 0 else None

    def copy(self):
        part, target = self.part(), self.address()
        text = self.string(self.address())
        is_within = part and part[1] <= len(text)
        self.put_string(target, text[part[0]:part[1]] if is_within else b"")

    def delete(self):
        part, at = self.part(), self.address()
        text = self.string(at)
        if part and part[1] <= len(text):
            self.put_string(at, text[:part[0]] + text[part[1]:])

    def position(self):
        self.pop()
        self.pop()
        text = self.string(self.address())
        wanted = self.string(self.address())
        self.push(text.find(wanted) + 1 if wanted else 0)

    # Files in memory

    def init(self):
        words, window, at = self.pop(), self.address(), self.address()
        self.variables[at] = Variable(window, words)
        self.store(at, window)

    def open(self):
        self.pop()
        is_old, title, at = self.pop() & 1, self.string(self.address()), self.address()
        variable, self.outcome = self.variables[at], 0
        if variable.file:
            self.outcome = 12
        elif is_old and title not in self.directory:
            self.outcome = 10
        elif is_old:
            variable.file = File(title, self.directory[title], False)
        else:
            variable.file = File(title, bytearray(), True)
            variable.file.is_end = True
        if is_old and not self.outcome and variable.size:
            self.record(variable, False)

    def reset(self):
        at = self.address()
        variable, self.outcome = self.variables.get(at), 0
        if variable is None:
            self.streams[at] = Stream()
        elif variable.file is None:
            self.outcome = 13
        else:
            old = variable.file
            variable.file = File(old.name, old.data, old.is_new)
            if variable.size:
                self.record(variable, False)

    def close(self):
        how, at = self.pop(), self.address()
        variable, self.outcome = self.variables.get(at), 0
        if variable and variable.file:
            file, variable.file = variable.file, None
            if how == 3:
                del file.data[file.at:]
            if how in (1, 3):
                self.directory[file.name] = file.data
            elif how == 2 and not file.is_new:
                self.directory.pop(file.name, None)

    def record(self, variable, is_put):
        """A record goes between the window and the file."""
        file, size, at = variable.file, 2 * variable.size, variable.window
        self.outcome = 0
        if file is None:
            self.outcome = 13
        elif is_put:
            file.data[file.at:file.at + size] = self.memory[at:at + size]
            file.at += size
            file.is_end = file.at >= len(file.data)
        else:
            file.is_end = file.at + size > len(file.data)
            if not file.is_end:
                self.memory[at:at + size] = file.data[file.at:file.at + size]
                file.at += size

    def get(self):
        at = self.address()
        variable = self.variables.get(at)
        if variable and not variable.is_text:
            self.record(variable, False)
        else:
            stream = self.looked(at)
            if isinstance(stream, File):
                stream.is_full = False
            else:
                self.next(stream)

    def put(self):
        self.record(self.variables[self.address()], True)

    def seek(self):
        number, at = self.pop(), self.address()
        variable, self.outcome = self.variables[at], 0
        if variable.file is None:
            self.outcome = 13
        else:
            far = number < 0 or number > 16382 // variable.size
            variable.file.at = 32766 if far else 2 * variable.size * number
            variable.file.is_end = False

    # The standard procedures

    def standard(self, number):
        names = {
            0: "iocheck", 1: "new", 2: "moveleft", 3: "moveright", 6: "unitwrite", 10: "fillchar",
            11: "scan", 23: "trunc", 24: "round", 32: "mark", 33: "release", 34: "ioresult",
            39: "halt",
        }
        if number in (21, 22, 37, 38):  # of units and segments that are always there
            self.pop()
        elif number not in names:
            raise Halt(f"standard procedure {number}")
        else:
            getattr(self, names[number])()

    def iocheck(self):
        if self.outcome:
            raise Halt("error 10")

    def ioresult(self):
        self.push(self.outcome)

    def halt(self):
        raise Halt("error 14")

    def new(self):
        words, at = self.pop(), self.address()
        self.store(at, self.heap)
        self.heap += 2 * words

    def mark(self):
        self.store(self.address(), self.heap)

    def release(self):
        at = self.address()
        if self.word(at) < HEAP:  # what no MARK has given
            raise Halt("error 1")
        self.heap = self.word(at)
        self.store(at, 0)

    def byte_address(self):
        index = self.pop()
        return self.address() + index & 65535

    def moved(self, is_right):
        count, target, source = self.pop(), self.byte_address(), self.byte_address()
        for k in reversed(range(count)) if is_right else range(count):
            self.memory[target + k & 65535] = self.memory[source + k & 65535]

    def moveleft(self):
        self.moved(False)

    def moveright(self):
        self.moved(True)

    def fillchar(self):
        value, count, at = self.pop(), self.pop(), self.byte_address()
        self.memory[at:at + max(count, 0)] = bytes([value & 255]) * count

    def scan(self):
        self.pop()
        at, wanted, kind, limit = self.byte_address(), self.pop() & 255, self.pop(), self.pop()
        found, step = 0, 1 if limit > 0 else -1
        while found != limit:
            if (self.memory[at + found & 65535] == wanted) == (kind == 0):
                break
            found += step
        self.push(found)

    def whole(self, value):
        if not -32769 < value < 32768:
            raise Halt("error 1")
        self.push(int(value))

    def trunc(self):
        self.whole(math.trunc(self.pop_real()))

    def round(self):
        value = self.pop_real()
        self.whole(math.floor(abs(value) + 0.5) * (1 if value >= 0 else -1))

    def unitwrite(self):
        self.pop()
        self.pop()
        count, at, unit = self.pop(), self.byte_address(), self.pop()
        self.outcome = 0 if unit in (1, 2) else 2
        if unit in (1, 2):
            self.output += bytes(self.memory[at:at + max(count, 0)])
