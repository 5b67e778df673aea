"""Reading, writing and telling, for block.py and mesh.py. NOT PROVED.

A fault is one line on standard error and exit status 1; a command line that is not understood is one line and
status 2. '-' stands for standard input or standard output.
"""
import argparse
import sys

MOST = 1 << 26  # bytes that are read of an input; the largest text or mesh has a few million


class Fault(Exception):
    """What keeps a tool from its work."""


def printable(text):
    return ''.join(c if c.isprintable() else '?' for c in text)


def shown(word):
    """A word of the input, as a message shows it: short and on one line."""
    return printable(word) if len(word) <= 40 else printable(word[:32]) + f'.. ({len(word)} characters)'


def source_name(name):
    return 'standard input' if name == '-' else printable(name)


def read_bytes(name):
    try:
        with open(0 if name == '-' else name, 'rb', closefd=name != '-') as file:
            data = file.read(MOST + 1)
    except OSError as fault:
        raise Fault(fault.strerror) from None
    if len(data) > MOST:
        raise Fault(f'longer than {MOST} bytes')
    return data


def lines_of(data):
    """The lines of a text in UTF-8, with or without a byte-order mark."""
    try:
        text = data.decode('utf-8-sig')
    except UnicodeDecodeError as fault:
        line = data.count(b'\n', 0, fault.start) + 1
        raise Fault(f'line {line}: this is not text in UTF-8 (byte {data[fault.start]:02x})') from None
    lines = text.replace('\r\n', '\n').replace('\r', '\n').split('\n')
    return lines if lines[-1] else lines[:-1]


def read(name, make):
    """What `make` makes of the lines of a file. A fault names the file."""
    try:
        return make(lines_of(read_bytes(name)))
    except Fault as fault:
        raise Fault(f'{source_name(name)}: {fault}') from None


def write(name, data):
    try:
        with open(1 if name == '-' else name, 'wb', closefd=name != '-') as file:
            file.write(data)
    except OSError as fault:
        target = 'standard output' if name == '-' else printable(name)
        raise Fault(f'{target}: {fault.strerror}') from None


def tell(tool, what):
    if sys.stderr:  # none where it is closed
        print(f'{tool}: {what}', file=sys.stderr)


class Parser(argparse.ArgumentParser):
    """The command line of a tool. Its help is the head of the tool's file, and more at the end."""

    def __init__(self, tool, head, end=''):
        layout = argparse.RawDescriptionHelpFormatter
        super().__init__(prog=tool, description=head, epilog=end, formatter_class=layout)

    def error(self, message):
        self.exit(2, f'{self.prog}: {printable(message)}; {self.prog} --help says how it is called\n')

    def print_help(self, file=None):
        write('-', self.format_help().encode())


def status(tool, work):
    """Does the work; the exit status."""
    try:
        return work()
    except Fault as fault:
        tell(tool, fault)
    except KeyboardInterrupt:
        tell(tool, 'stopped')
    return 1
