"""Writes the stored scripts about limits, which need hundreds of lines, into tests/scripts."""

from pathlib import Path

SCRIPTS = Path(__file__).parent / "scripts"


class Script:
    """Lines of a script, and the numbers of the messages in it by link and place."""

    def __init__(self, sentence):
        self.lines = ["# " + sentence]
        self.number = {}

    def add(self, *lines):
        self.lines.extend(lines)

    def send(self, who, link, places):
        for place in places:
            self.number[link, place] = len(self.number) + 1
            self.lines.append(f"send {who}")

    def deliver(self, link, place, flip=None):
        bit = "" if flip is None else f" flip {flip}"
        self.lines.append(f"deliver {self.number[link, place]}{bit}")

    def write(self, name):
        (SCRIPTS / f"{name}.txt").write_text("\n".join(self.lines) + "\n")


def in_turn():
    s = Script("On the link taken on 257 places passed over are refused with 4, before 5, and 256 are put aside.")
    s.send("first", 0, range(0, 259))
    s.deliver(0, 0)
    s.deliver(0, 258)
    s.deliver(0, 258, flip=400)
    s.add("show")
    s.deliver(0, 257, flip=400)
    s.deliver(0, 257)
    s.add("show", "read second")
    s.deliver(0, 258)
    s.deliver(0, 1)
    s.deliver(0, 256)
    s.deliver(0, 256)
    s.add("show")
    s.write("limit-256-in-turn")


def new_link():
    s = Script("On a new link 257 places passed over are refused with 4, before 5, and 256 are put aside, by both sides.")
    s.send("first", 0, range(0, 258))
    s.deliver(0, 257)
    s.deliver(0, 257, flip=376)
    s.add("show")
    s.deliver(0, 256, flip=376)
    s.deliver(0, 256)
    s.add("show")
    s.send("second", 1, range(0, 258))
    s.deliver(1, 257)
    s.deliver(1, 257, flip=503)
    s.add("show")
    s.deliver(1, 256)
    s.add("show", "read first")
    s.deliver(1, 257)
    s.deliver(1, 0)
    s.deliver(0, 257)
    s.deliver(0, 255)
    s.add("show")
    s.write("limit-256-new-link")


def old_rest():
    s = Script("A new link is refused with 4, before 5, while 257 places of the old one are missing, and taken with 256.")
    s.send("first", 0, range(0, 258))
    s.deliver(0, 0)
    s.send("second", 1, [0])
    s.deliver(1, 0)
    s.send("first", 2, [0, 1])
    s.deliver(2, 0)
    s.deliver(2, 1)
    s.deliver(2, 0, flip=400)
    s.add("show")
    s.deliver(0, 1)
    s.deliver(2, 0, flip=400)
    s.add("show")
    s.deliver(2, 1)
    s.add("show", "read second")
    s.deliver(2, 0)
    s.deliver(0, 257)
    s.deliver(0, 2)
    s.deliver(0, 1)
    s.add("show")
    s.write("limit-256-old-rest")


def aside_on_new_link():
    s = Script("With one put aside, 256 missing of the old link and 256 of the new one are refused with 4; without it they fill all 512.")
    s.send("first", 0, range(0, 258))
    s.deliver(0, 1)
    s.send("second", 1, [0])
    s.deliver(1, 0)
    s.send("first", 2, range(0, 257))
    s.deliver(2, 256)
    s.deliver(2, 256, flip=450)
    s.add("show")
    s.deliver(0, 0)
    s.deliver(2, 256, flip=450)
    s.deliver(2, 256)
    s.add("show", "read second")
    s.send("first", 2, [257, 258, 259, 260])
    s.deliver(2, 258)
    s.deliver(2, 257)
    s.deliver(2, 258)
    s.deliver(2, 260)
    s.deliver(2, 260, flip=450)
    s.deliver(0, 2)
    s.deliver(2, 260)
    s.add("show")
    s.send("second", 3, [0])
    s.deliver(3, 0)
    s.send("first", 4, [0, 1, 2])
    s.deliver(4, 1)
    s.deliver(4, 0)
    s.deliver(4, 2)
    s.deliver(0, 257)
    s.deliver(4, 2)
    s.add("show")
    s.write("limit-512-new-link")


def aside_in_turn():
    s = Script("On one link 512 are put aside in two goes, and a 513th is refused with 4 until one of them was opened.")
    s.send("first", 0, range(0, 517))
    s.deliver(0, 256)
    s.deliver(0, 513)
    s.add("show")
    s.deliver(0, 515)
    s.deliver(0, 515, flip=376)
    s.deliver(0, 514, flip=376)
    s.add("show")
    s.deliver(0, 512)
    s.deliver(0, 515)
    s.add("show")
    s.deliver(0, 516)
    s.deliver(0, 514)
    s.deliver(0, 0)
    s.add("show")
    s.write("limit-512-in-turn")


def aside_across():
    s = Script("With 511 put aside, one missing of the old link and one of the new are refused with 4, and one alone is not.")
    s.send("first", 0, range(0, 514))
    s.deliver(0, 256)
    s.deliver(0, 512)
    s.send("second", 1, [0])
    s.deliver(1, 0)
    s.send("first", 2, [0, 1])
    s.add("show")
    s.deliver(2, 1)
    s.deliver(2, 1, flip=400)
    s.add("show")
    s.deliver(2, 0)
    s.add("show")
    s.deliver(0, 513)
    s.deliver(2, 1)
    s.add("show")
    s.write("limit-512-across")


for script in (in_turn, new_link, old_rest, aside_on_new_link, aside_in_turn, aside_across):
    script()
