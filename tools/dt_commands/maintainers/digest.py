"""Works out the digest of a run without dthreads, from its file, its outcome, its output and its trace, which is standard input.

It lays out the pages of the file's segments and thread 0's stack, writes the bytes that the run changed, and hashes output, memory and
trace by Python's hashlib.
"""
import sys

from dt_commands.law_model import memory, shown
from dt_commands.texts import contents


def arguments(parser):
    parser.add_argument("elf", metavar="ELF", help="the program's file")
    parser.add_argument("outcome", metavar="OUTCOME", help="the outcome, as the digest's first line has it")
    parser.add_argument("output", nargs="?", default="", metavar="OUTPUT", help="the output, in hexadecimal digits (default: none)")
    parser.add_argument("changes", nargs="*", metavar="ADDRESS=BYTE", help="a byte that the run changed, in hexadecimal digits")


def run(options):
    shared = memory.Shared(memory.pages_of(contents(options.elf)))
    shared.write({int(address, 16): int(byte, 16) for address, byte in (it.split("=") for it in options.changes)})
    text = shown.digest_of(options.outcome, bytes.fromhex(options.output), shared.pages, sys.stdin.buffer.read())
    sys.stdout.write(text.decode())
    return 0
