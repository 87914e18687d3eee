"""Reads XML texts with expat, a parser that is not ours, and compares what it tells.

A line on standard input is two words: a text in hexadecimal, and what must be told of it: `sound` if expat must read
it, `broken` if it must not, else the events, with commas between them. An event is `start/NAME/ATTRIBUTE=VALUE/..`,
`end/NAME` or `text/TEXT`; values and texts are hexadecimal of UTF-8. Prints how many texts agree; ends with 1 at the
first that does not.
"""

import sys
from xml.parsers import expat


def hexadecimal(text):
    return text.encode("utf-8").hex().upper()


def events(text):
    """The events of a text, touching texts as one."""
    told = []
    parser = expat.ParserCreate("UTF-8")
    parser.buffer_text = True
    parser.ordered_attributes = True

    def start(name, attributes):
        pairs = zip(attributes[::2], attributes[1::2])
        told.append("/".join(["start", name] + [f"{key}={hexadecimal(value)}" for key, value in pairs]))

    parser.StartElementHandler = start
    parser.EndElementHandler = lambda name: told.append(f"end/{name}")
    parser.CharacterDataHandler = lambda text: told.append(f"text/{hexadecimal(text)}")
    parser.Parse(text, True)
    return ",".join(told)


def agrees(text, expected):
    """Whether expat tells what is expected, and what it tells."""
    try:
        told = events(text)
    except expat.ExpatError as error:
        return expected == "broken", f"broken: {error}"
    return expected in ("sound", told), told


def main():
    texts = 0
    for line in sys.stdin:
        text, expected = line.split(" ")
        text, expected = bytes.fromhex(text), expected.strip()
        agree, told = agrees(text, expected)
        if not agree:
            print(f"{text!r}\nexpected {expected}\nexpat    {told}")
            return 1
        texts += 1
    print(f"{texts} texts agree with {expat.EXPAT_VERSION}")
    return 0


sys.exit(main())
