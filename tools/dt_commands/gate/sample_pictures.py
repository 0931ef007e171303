"""The picture of the sample `race`: docs/pictures/race.svg, and what it is drawn of.

samples/race.timeline and samples/race.races are what the program writes; `tools/dt test timeline` compares both with it.
"""
import os

from dt_commands import picture_run, picture_svg
from dt_commands.repository import TOP
from dt_commands.texts import contents, write_file

SAMPLES, NAME = f"{TOP}/samples", "race"
TIMELINE, RACES, PICTURE = f"{SAMPLES}/{NAME}.timeline", f"{SAMPLES}/{NAME}.races", f"{TOP}/docs/pictures/{NAME}.svg"
# How many bytes the picture may have.
LIMIT = 20_000
# How wide it is: about as wide as a page is shown.
WIDTH = 960


def text_of(file):
    return contents(file).decode()


def drawn():
    """Returns the text of the picture."""
    report, (races, _) = text_of(f"{SAMPLES}/{NAME}.report"), picture_run.races_of(text_of(RACES))
    run = picture_run.Run(text_of(TIMELINE))
    return picture_svg.Picture(run, f"{NAME}.elf", picture_run.pages_of(report), races, width=WIDTH).drawn()


def found():
    """Returns what is wrong with the picture in the pages."""
    name, text = os.path.relpath(PICTURE, TOP), contents(PICTURE) or b""
    wrong = [f"{name}: differs from what tools/dt write pictures makes"] if text != drawn().encode() else []
    return wrong + ([f"{name}: it has {len(text):,} bytes, and its limit is {LIMIT:,}"] if len(text) > LIMIT else [])


def check(options):
    """Compares the picture in the pages with what it is drawn of."""
    print("\n".join(found()) or "the picture is as it must be")
    return 1 if found() else 0


def write(options):
    """Draws the picture in the pages."""
    write_file(PICTURE, drawn())
    return check(options)
