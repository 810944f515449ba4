"""Words that are no command, or too many, or too few; and the option that asks for the usage."""
from running import ROOT, filled, told

USAGE = """usage: dted [COMMAND] -h | --help
       dted --version
       dted check [--year 1|2] FILE..
       dted info [--year 1|2] FILE
       dted post [--year 1|2] FILE COLUMN POST
       dted at [--year 1|2] FILE LATITUDE LONGITUDE
       dted set [--year 1|2] FILE COLUMN POST HEIGHT
       dted relief [--year 1|2] FILE OUT.pgm [TIMES]
"""
ROWS = dict(line.split("dted ")[1].split(" ", 1) for line in USAGE.splitlines()[2:])
VERSION = (ROOT / "VERSION").read_text()
HELP = ("-h", "--help")


def asked_for(command, row):
    """The usage of one command, alone and before other words."""
    for words in (("-h",), ("--help",), ("-h", "x", "x"), ("--help", "-x", "--")):
        told(f"{command} {words}", (command, *words), f"usage: dted {command} {row}\n")
    for word in ("-help", "--hel", "--helps", "-hh"):
        told(f"{command} {word}", (command, word), errors=f"dted: {word}: no such option\n", status=2)


def behind_files(folder):
    """Asked for behind a file, where another file may stand; behind -- the same words are files."""
    for word in HELP:
        told(f"check FILE {word}", ("check", "/dev/null", word), "usage: dted check [--year 1|2] FILE..\n")
        told(f"info FILE {word}", ("info", "/dev/null", word), errors="usage: dted info [--year 1|2] FILE\n", status=2)
        told(f"{word} as a number", ("post", "/dev/null", word, 1), status=2,
             errors=f"dted: {word}: not a whole number of up to 64 bits\n")
        filled(folder / word, b"")
        told(f"the file {word}", ("check", "--", word), f"{word}: refused 1: fewer bytes than the headers have (length 0)\n", status=1,
             cwd=folder)


def test(folder):
    told("no word", (), errors=USAGE, status=2)
    for word in HELP:
        told(word, (word,), USAGE)
    told("the version", ("--version",), f"dted {VERSION}")
    for word in ("chec", "--halp", "-", "--", "", "--version=1"):
        told(f"the command '{word}'", (word,), errors=f"dted: {word}: no such command\n", status=2)
    for word in (*HELP, "--version"):
        told(f"{word} and more", (word, "x"), errors=f"dted: {word}: no such command\n", status=2)
    for command, least, most in (("check", 1, None), ("info", 1, 1), ("post", 3, 3), ("at", 3, 3), ("set", 4, 4), ("relief", 2, 3)):
        for count in {0, least - 1, most and most + 1} - {None}:
            told(f"{command} with {count} words", (command, *["1"] * count), errors=f"usage: dted {command} {ROWS[command]}\n", status=2)
        asked_for(command, ROWS[command])
        told(f"{command} with an option", (command, "-x", *["1"] * 3), errors="dted: -x: no such option\n", status=2)
        told(f"{command} and --, alone", (command, "--"), errors=f"usage: dted {command} {ROWS[command]}\n", status=2)
    told("an option behind a file", ("check", "/dev/null", "--years"), errors="dted: --years: no such option\n", status=2)
    behind_files(folder)
    told("a picture with a dash", ("relief", "/dev/null", "-x"), errors="dted: -x: no such option\n", status=2)
