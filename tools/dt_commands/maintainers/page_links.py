"""The links of the pages: each must lead to a file of the repository, and to a heading that is on that page."""
import glob
import os
import re

from .repository import TOP
from .texts import read_text


def pages():
    """Returns the pages whose links are looked at, by their paths from the top."""
    below = glob.glob(f"{TOP}/docs/**/*.md", recursive=True)
    return ["README.md", "CONTRIBUTING.md", "samples/README.md"] + sorted(os.path.relpath(it, TOP) for it in below)


def read(page):
    return re.sub(r"^```.*?^```$", "", read_text(f"{TOP}/{page}"), flags=re.M | re.S)


def anchors(text):
    """Returns the anchors of a page's headings, as code hosts make them."""
    headings = (re.sub(r"[^\w\- ]", "", it.lower()) for it in re.findall(r"^#+ (.*)$", text, re.M))
    return {it.strip().replace(" ", "-") for it in headings}


def links():
    """Returns the links of the pages that lead to something of the repository, each with its page."""
    every = ((page, link) for page in pages() for link in re.findall(r"\]\(([^)\s]+)\)", read(page)))
    return [(page, link) for page, link in every if not re.match(r"[a-z]+:", link)]


def broken():
    """Returns the links that lead nowhere, each with its page."""
    found = []
    for page, link in links():
        path, _, heading = link.partition("#")
        target = os.path.normpath(os.path.join(os.path.dirname(page), path)) if path else page
        if not os.path.exists(f"{TOP}/{target}"):
            found.append(f"{page}: no file for the link {link}")
        elif heading and heading not in anchors(read(target)):
            found.append(f"{page}: no heading for the link {link}")
    return found
