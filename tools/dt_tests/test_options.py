"""The table of options: how it is read, what is made of it, and that the completions complete."""
import subprocess
import unittest

from dt_commands import completions, options
from dt_commands.repository import TOP
from rooms import data

TABLE = data("options-table.txt")
COMMANDS = 'let run = command(alloc, "run", "Run it", &RUN)?; let list = command(\n    alloc,\n    "list",\n    "List it",\n    &LIST,\n)?;'

# What bash says to the words before the cursor, of which the last one is completed.
ASK = 'source "$1"; shift; COMP_WORDS=("$@"); COMP_CWORD=$(($# - 1)); _dthreads; echo "${COMPREPLY[*]}"'


def completed(*words):
    ran = subprocess.run(["bash", "-c", ASK, "bash", f"{TOP}/{completions.BASH}", *words], stdout=subprocess.PIPE, text=True, check=True, cwd=f"{TOP}/man")
    return ran.stdout.split()


class Table(unittest.TestCase):
    def test_commands_have_their_parameters_in_order(self):
        run, listing = options.commands_in(TABLE, COMMANDS)
        self.assertEqual([it.name for it in run.parameters], ["FILE", "count", "trace"])
        self.assertEqual((listing.name, listing.about, len(listing.parameters)), ("list", "List it", 1))

    def test_a_row_of_another_form_and_a_missing_command_are_refused(self):
        with self.assertRaises(SystemExit):
            options.commands_in(TABLE.replace("form: Form::Count", "form: COUNTED"), COMMANDS)
        with self.assertRaises(SystemExit):
            options.commands_in(TABLE, COMMANDS.replace("&LIST", "LIST"))

    def test_options_as_a_page_has_them(self):
        table = options.table_of(options.commands_in(TABLE, COMMANDS)[0]).split("\n")
        self.assertEqual(table[2:], ["| `--count N` | 1,000 | how many there are |", "| `--trace FILE` | none | write it |", ""])

    def test_values_have_their_names_of_help(self):
        self.assertEqual([it.value for it in options.rows_in(TABLE).values()], ["FILE", "N", "FILE"])
        self.assertEqual(options.rows_in(TABLE.replace("Form::Count", "Form::Shuffle"))["COUNT"].value, "SHUFFLE")

    def test_an_option_without_a_value_has_none(self):
        row = options.rows_in(TABLE.replace("Form::Count", "Form::Flag"))["COUNT"]
        self.assertEqual((row.words, row.is_flag), ("--count", True))

    def test_a_command_line_without_an_option_is_told(self):
        every = options.commands_in(TABLE, COMMANDS)[:1]
        page = "## run\n\n`dthreads run FILE [--count N]{}` runs.\n"
        self.assertEqual(len(options.untold(page.format(""), every)), 1)
        self.assertEqual(options.untold(page.format(" [--trace FILE]"), every), [])

    def test_the_program_has_these_commands(self):
        self.assertEqual([it.name for it in options.commands()], ["run", "explore", "debug", "disasm", "info", "replay"])


class Completions(unittest.TestCase):
    def test_commands_options_and_files(self):
        self.assertEqual(completed("dthreads", "re"), ["replay"])
        self.assertEqual(completed("dthreads", "run", "--tr"), ["--trace"])
        self.assertEqual(completed("dthreads", "debug", "--t"), ["--turn"])
        self.assertEqual(completed("dthreads", "run", "--trace", "dthreads."), ["dthreads.1"])
        self.assertEqual(completed("dthreads", "run", "--workers", ""), [])
        self.assertEqual(completed("dthreads", "replay", "--sh"), ["--shuffle"])
        self.assertEqual(completed("dthreads", "run", "--shuffle", ""), [])
        self.assertEqual(completed("dthreads", "explore", "--sa"), ["--same"])
        self.assertEqual(completed("dthreads", "explore", "--runs", ""), [])
        self.assertEqual(completed("dthreads", "explore", "--same", "dthreads."), ["dthreads.1"])
        self.assertEqual(completed("dthreads", "disasm", "dthreads."), ["dthreads.1"])

    def test_a_text_with_marks_is_one_word_of_zsh(self):
        self.assertEqual(completions.quoted("a'b"), "'a'\\''b'")
        self.assertEqual(completions.said("[a]: b"), "\\[a\\]\\: b")
