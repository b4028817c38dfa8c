"""Dumps that are damaged at random, for damaged-dumps and damaged-drives."""
import re

WORDS = ["$end", "$scope", "$var", "$upscope", "$dumpvars", "$dumpoff", "$dumpon", "$comment", "$timescale", "#0", "#5", "#-1", "#18446744073709551616",
         "b", "b0", "bx1z0", "b2", "r1.5", "1", "x!", "0!", "!", "reg", "wire", "99999", "\x00", "\xff", "$nonsense", "1 ns"]


def pieces(text):
    """The words of a text and the blanks between them."""
    return re.findall(r"\s+|\S+", text)


def damaged(rng, text):
    """A text with one to four places changed."""
    parts = pieces(text)
    for _ in range(rng.randint(1, 4)):
        at = rng.randrange(len(parts)) if parts else 0
        kind = rng.randrange(7)
        if kind == 0:
            del parts[at:at + rng.randint(1, 3)]
        elif kind == 1:
            parts[at:at] = parts[at:at + 2]
        elif kind == 2:
            parts[at:at] = [rng.choice(WORDS), " "]
        elif kind == 3 and parts:
            parts[at] = rng.choice(WORDS)
        elif kind == 4 and parts:
            word = parts[at]
            place = rng.randrange(len(word))
            parts[at] = word[:place] + rng.choice("01xz!\"#$b \n~") + word[place + rng.randint(0, 1):]
        elif kind == 5 and parts:
            other = rng.randrange(len(parts))
            parts[at], parts[other] = parts[other], parts[at]
        elif rng.random() < 0.3:
            parts = parts[:at]
    return "".join(parts)
