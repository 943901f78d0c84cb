"""What the scripts of this folder share: words of the command line, and the datagram that asks a
node to campaign."""

import argparse
import os
import re
import signal
import socket

from .plain import filter_streams


def address_of(text):
    """An address `a.b.c.d:port` as a pair."""
    match = re.fullmatch(r"((?:\d{1,3}\.){3}\d{1,3}):(\d{1,5})", text, re.ASCII)
    numbers = [int(it) for it in match[1].split(".")] if match else []
    if not match or max(numbers) > 255 or not 1 <= int(match[2]) <= 65535:
        raise argparse.ArgumentTypeError(f"{text} is no address such as 127.0.0.1:7101")
    return ".".join(str(it) for it in numbers), int(match[2])


def host_of(text):
    """The address `a.b.c.d` of a machine."""
    try:
        return address_of(f"{text}:1")[0]
    except argparse.ArgumentTypeError:
        raise argparse.ArgumentTypeError(f"{text} is no address of a machine such as 10.7.0.4")


def text_of_address(address):
    return f"{address[0]}:{address[1]}"


class Parser(argparse.ArgumentParser):
    """A parser whose faults are sentences, and whose help may be cut short."""

    def error(self, message):
        super().error(re.sub(r"\[Errno \d+\] ", "", message))

    def print_help(self, file=None):
        try:
            # What argparse writes by itself may fail unseen.
            print(self.format_help(), end="", file=file, flush=True)
        except BrokenPipeError:
            raise
        except OSError as fault:
            drop_output()
            self.exit(1, f"{self.prog}: standard output: {fault.strerror}\n")


def drop_output():
    """Standard output gets nothing more: Python would try again at the end."""
    os.dup2(os.open(os.devnull, os.O_WRONLY | os.O_CLOEXEC), 1)


def parser_of(text, **more):
    """A parser whose help is this text. Wrong words end the script with status 2."""
    about, _, rest = text.partition("\n\n")
    form = argparse.RawDescriptionHelpFormatter
    return Parser(
        description=about, epilog=rest, formatter_class=form, allow_abbrev=False, **more
    )


def ask(address, seconds=0.001):
    """Asks the node whose keys come to this address to campaign: a datagram without bytes types
    nothing. Whether the machine there answers in this time that nobody has the port."""
    with socket.socket(socket.AF_INET, socket.SOCK_DGRAM) as sender:
        # Only a connected socket learns of that.
        sender.connect(address)
        sender.send(b"")
        sender.settimeout(seconds)
        try:
            sender.recv(1)
        except ConnectionRefusedError:
            return True
        except socket.timeout:
            pass
    return False


def put_out(text, path=None):
    """Writes a text into a file, or to standard output, all of it now. A file may be given pieces
    of text. A fault has its name, also where it is full. Then standard output gets nothing more:
    Python would try again at the end."""
    try:
        if path:
            with open(path, "w", encoding="utf-8") as file:
                file.writelines([text] if isinstance(text, str) else text)
        else:
            print(text, end="", flush=True)
    except OSError as fault:
        fault.filename = path or "standard output"
        if not path:
            drop_output()
        raise


def run_script(main):
    """The status of a script's `main`. What it prints is plain. Ctrl-C, and a reader of its output
    that has gone, end it as they end others."""
    filter_streams()
    try:
        return main()
    except KeyboardInterrupt:
        number = signal.SIGINT
    except BrokenPipeError:
        number = signal.SIGPIPE
    signal.signal(number, signal.SIG_DFL)
    os.kill(os.getpid(), number)
    return 1
