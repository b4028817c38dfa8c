"""A second reading of docs/LANGUAGE.md, from the bytes of a text to its tree or to the fault that it is refused for, and trees made at random,
spelled and printed. What the script random-trees compares with the program's answers.

A tree is a tuple: its kind, and then its parts, each a tree or a word; `-` stands where something that may be left out is. A text is a str of
bytes (latin-1). A fault is a Fault: the numbers that it may have (two where the pages leave the choice) and the line.
"""
import re

LEVELS, MOST_WORDS = 64, 4_194_304

RESERVED = set("""always and assign automatic begin buf bufif0 bufif1 case casex casez cell cmos config deassign default defparam design disable
edge else end endcase endconfig endfunction endgenerate endmodule endprimitive endspecify endtable endtask event for force forever fork function
generate genvar if ifnone initial inout input instance integer join liblist library localparam macromodule module nand negedge nmos nor not notif0
notif1 or output parameter pmos posedge primitive pulldown pullup real realtime reg release repeat signed specify specparam supply0 supply1 table
task time tri tri0 tri1 triand trior trireg unsigned use uwire wait wand while wire wor xnor xor""".split())
KEYWORDS = set("""always assign begin case casex casez default else end endcase endmodule event for forever if initial input integer localparam
module negedge or output parameter posedge reg repeat signed time wait while wire""".split())
PRINTING = ["$" + kind + base for kind in ("display", "write", "strobe", "monitor") for base in ("", "b", "o", "h")]
# tasks that have no effect
IDLE = ["$f" + word[1:] for word in PRINTING] + "$fopen $fclose $fflush $timeformat $printtimescale".split()
SYSTEM_NAMES = set("$dumpfile $dumpvars $dumpon $dumpoff $dumpall $dumpflush $finish $stop $time $signed $unsigned".split()) | set(PRINTING) | set(IDLE)
LEFT_OUT = {"**", "+:", "-:"}
SYMBOLS = """+ - * / % & | ^ ~ ^~ ~^ ~& ~| ! && || == != === !== < <= > >= << >> <<< >>> ? : = @ # ( ) [ ] { } , ; . -> ** +: -:""".split()
UNARY = "+ - ! ~ & ~& | ~| ^ ~^ ^~".split()
BINARY = ["||", "&&", "|", "^ ^~ ~^", "&", "== != === !==", "< <= > >=", "<< >> <<< >>>", "+ -", "* / %"]  # the loosest first
RANK = {word: rank for rank, row in enumerate(BINARY, 1) for word in row.split()}
UNARY_RANK = 11


class Fault(Exception):
    def __init__(self, numbers, line):
        super().__init__(numbers, line)
        self.numbers, self.line = numbers if isinstance(numbers, tuple) else (numbers,), line

    def lines(self):
        """What a program may say of it."""
        return [f"E{number} at 1:{self.line}\n" for number in self.numbers]


# ---- directives and macros

CONDITIONALS = {"ifdef", "ifndef", "elsif", "else", "endif"}
DIRECTIVES = CONDITIONALS | {"define", "undef", "timescale", "default_nettype"}
# those that are passed over, where no macro has their name, with what stands behind them
STRING = r'"(?:[^"\\\n]|\\[^\n])*"'
PASSED_OVER = {
    "celldefine": "", "endcelldefine": "", "resetall": "", "nounconnected_drive": "", "end_keywords": "", "pragma": r"[^\n]*",
    "unconnected_drive": r"[ \t\r\f]*pull[01](?![A-Za-z0-9_$])",
    "begin_keywords": r'[ \t\r\f]*"1364-(?:1995|2001|2001-noconfig|2005)"',
    "line": rf"[ \t\r\f]*[0-9]+[ \t\r\f]*{STRING}[ \t\r\f]*[012](?![A-Za-z0-9_$])",
}
NAME = r"[A-Za-z_][A-Za-z0-9_$]*"
BLANKS_HERE = r"[ \t\r\f]*"
TIMESCALE = re.compile(rf"{BLANKS_HERE}(100|10|1){BLANKS_HERE}(s|ms|us|ns|ps|fs){BLANKS_HERE}/{BLANKS_HERE}(100|10|1){BLANKS_HERE}(s|ms|us|ns|ps|fs)(?![A-Za-z0-9_$])")
UNITS = {"s": 0, "ms": -3, "us": -6, "ns": -9, "ps": -12, "fs": -15}
# a comment or a string, ended or not: what is in it isn't searched
STRETCH = re.compile(r'//[^\n]*|/\*(?s:.*?\*/|.*\Z)|"(?:[^"\\\n]|\\[^\n])*(?:"|\\?(?=\n|\Z))')


def power(number, unit):
    return len(number) - 1 + UNITS[unit]


class Expander:
    """Files to one text: of each of its bytes the line."""

    def __init__(self, text):
        self.text, self.at, self.line, self.is_first = text, 0, 1, True
        self.macros, self.open, self.scale, self.uses, self.keywords = {}, [], None, 0, 0
        self.bytes, self.lines = [], []

    def put(self, text):
        """Text of the source, where it isn't skipped."""
        for byte in text:
            if self.is_taken():
                self.bytes.append(byte)
                self.lines.append(self.line)
            self.line += byte == "\n"

    def is_taken(self):
        return all(state == "taken" for state, _, _ in self.open)

    def fault(self, number):
        return Fault(number, self.line)

    def pass_by(self, pattern):
        """What stands here, if it is of this pattern."""
        found = re.compile(pattern).match(self.text, self.at)
        if not found:
            raise self.fault(110)
        self.at = found.end()
        return found

    def name(self):
        return self.pass_by(rf"{BLANKS_HERE}({NAME})")[1]

    def run(self):
        while self.at < len(self.text):
            byte = self.text[self.at]
            stretch = STRETCH.match(self.text, self.at)
            if byte == "`":
                self.backtick()
            else:
                piece = stretch[0] if stretch else byte
                self.at += len(piece)
                self.put(piece)
                self.is_first = byte == "\n" or (self.is_first and byte in " \t\r\f")
        if self.open:
            raise Fault(113, self.open[-1][2])
        return "".join(self.bytes), self.lines + [self.line]

    def backtick(self):
        found = re.compile(NAME).match(self.text, self.at + 1)
        name = found[0] if found else None
        if name in CONDITIONALS or (self.is_taken() and (name is None or name in DIRECTIVES or self.is_passed_over(name))):
            if name is None or not self.is_first:
                raise self.fault(110)
            self.at = found.end()
            self.directive(name)
        elif self.is_taken():
            self.at = found.end()
            self.use(name, 1)
        else:
            self.at += 1
        self.is_first = False

    def directive(self, name):
        if name in CONDITIONALS:
            self.conditional(name)
        elif name == "define":
            self.define()
        elif name == "undef":
            self.macros.pop(self.name(), None)
        elif name == "timescale":
            self.timescale()
        elif name in PASSED_OVER:
            self.pass_over(name)
        else:
            self.pass_by(rf"{BLANKS_HERE}(none|wire)(?![A-Za-z0-9_$])")

    def is_passed_over(self, name):
        return name in PASSED_OVER and name not in self.macros

    def pass_over(self, name):
        begin = self.at - len(name) - 1
        try:
            self.pass_by(PASSED_OVER[name])
        except Fault:
            self.at = begin
            raise
        self.keywords += (name == "begin_keywords") - (name == "end_keywords")
        if self.keywords < 0 or self.keywords > 32:
            raise self.fault(110 if self.keywords < 0 else 112)

    def conditional(self, name):
        """Each open conditional is (state, whether its else was met, line); a state is taken, waiting for a part, or done."""
        if name in ("ifdef", "ifndef"):
            is_wanted = (self.name() in self.macros) == (name == "ifdef")
            if len(self.open) == 32:
                raise self.fault(112)
            self.open.append(("taken" if is_wanted else "waiting", False, self.line))
            return
        if not self.open:
            raise self.fault(110)
        state, has_else, line = self.open.pop()
        if name == "endif":
            return
        if has_else:
            raise self.fault(110)
        is_wanted = name == "else" or self.name() in self.macros
        state = ("taken" if is_wanted else "waiting") if state == "waiting" else "done"
        self.open.append((state, name == "else", line))

    def define(self):
        name = self.name()
        if name in DIRECTIVES or self.text.startswith("(", self.at):
            raise self.fault(110)
        raw = self.pass_by(r"(?:[^\n]*\\(?:\n|\Z))*[^\n]*")[0]
        line = self.line
        joined = re.sub(r"\\(\n|\Z)", r"\1", raw)
        self.macros[name] = self.without_comments(joined.lstrip(" \t\r\f"))
        self.line = line + raw.count("\n")

    def without_comments(self, text):
        return STRETCH.sub(lambda found: "" if found[0].startswith("//") else found[0], text)

    def timescale(self):
        found = TIMESCALE.match(self.text, self.at)
        if not found or power(found[1], found[2]) < power(found[3], found[4]):
            raise self.fault(110)
        scale = power(found[1], found[2]), power(found[3], found[4])
        if self.scale not in (None, scale):
            raise self.fault(114)
        self.scale, self.at = scale, found.end()

    def use(self, name, level):
        if name not in self.macros:
            raise self.fault(110 if name in PASSED_OVER else 111)
        self.uses += 1
        if level > 32 or self.uses > 1_000_000:
            raise self.fault(112)
        text, at = self.macros[name], 0
        while at < len(text):
            if text[at] == "`":
                found = re.compile(NAME).match(text, at + 1)
                if not found or found[0] in DIRECTIVES:
                    raise self.fault(110)
                self.use(found[0], level + 1)
                at = found.end()
            else:
                stretch = STRETCH.match(text, at)
                piece = stretch[0] if stretch else text[at]
                self.bytes += piece
                self.lines += [self.line] * len(piece)
                at += len(piece)


# ---- tokens

# what stands behind a backslash: up to three octal digits, 377 at most
OCTAL = "[0-3][0-7]{0,2}|[4-7][0-7]?(?![0-7])"
TOKEN = re.compile(r"""
      (?P<blank> [ \t\n\r\f]+ | //[^\n]* | /\*(?s:.*?)\*/ )
    | (?P<open> /\* )
    | (?P<name> [A-Za-z_][A-Za-z0-9_$]* | \\[!-\-/-~]+(?![!-~]) )
    | (?P<system> \$[A-Za-z0-9_$]+ )
    | (?P<based> (?: (?P<size>[0-9][0-9_]*) (?P<gap>[ \t\n\r\f]*) )? '[sS]?
        (?: (?: [bB][ \t\n\r\f]*[01xXzZ?][01xXzZ?_]* | [oO][ \t\n\r\f]*[0-7xXzZ?][0-7xXzZ?_]*
              | [hH][ \t\n\r\f]*[0-9a-fA-FxXzZ?][0-9a-fA-FxXzZ?_]* ) (?![?])
          | [dD][ \t\n\r\f]*(?:[0-9][0-9_]*|[xXzZ?]_*) ) (?P<word>[A-Za-z0-9_$])? )
    | (?P<plain> [0-9][0-9_]* (?![0-9_']) )
    | (?P<string> "(?:[^"\\\n]|\\[nt\\"]|\\(?:""" + OCTAL + r"""))*" )
    | (?P<quote> "(?:[^"\\\n]|\\[^\n])*(?P<end>"|) )
    | (?P<symbol> """ + "|".join(re.escape(word) for word in sorted(SYMBOLS, key=len, reverse=True)) + r""" )
    """, re.VERBOSE)


class Token:
    def __init__(self, kind, text, line):
        self.kind, self.text, self.line = kind, text, line


def quote_fault(found):
    """Of a string: not ended, or with a bad escape; where it is both, either may be told."""
    body = found[0][1:]
    is_bad = re.sub(rf'\\(?:[nt\\"]|{OCTAL})', "", body).find("\\") >= 0 or found.string.startswith("\\", found.end())
    if found["end"]:
        return 102
    return (101, 102) if is_bad else 101


PLAIN = re.compile(r"[0-9][0-9_]*")
DELAY = re.compile(r"[^ \t\n\r\f]+")


def token_at(text, at, is_delay):
    """What stands there: behind a # a number that begins with a digit goes no further than to a blank. A size is 1 to 64; any other number
    before blanks and an apostrophe stands alone."""
    end = DELAY.match(text, at).end() if is_delay and text[at] in "0123456789" else len(text)
    found = TOKEN.match(text, at, end)
    if found and found["size"] and not 1 <= int(found["size"].replace("_", "")) <= 64:
        return PLAIN.match(text, at) if found["gap"] else None
    return None if found and found["word"] else found


def cut(text, lines):
    """The tokens of a text, and one of kind end behind them."""
    tokens, at = [], 0
    while at < len(text):
        found = token_at(text, at, bool(tokens) and tokens[-1].text == "#")
        kind = found and (found.lastgroup or "plain")
        if kind == "quote":
            raise Fault(quote_fault(found), lines[at])
        if not found:
            raise Fault(102, lines[at])
        if kind == "open":
            raise Fault(101, lines[at])
        if kind != "blank":
            tokens.append(Token("number" if kind in ("based", "plain") else kind, found[0], lines[at]))
        at = found.end()
    tokens = without_attributes(tokens)
    if len(tokens) > MOST_WORDS:
        raise Fault(112, tokens[MOST_WORDS].line)
    return tokens + [Token("end", "", lines[at])]


# what an attribute may stand behind
ATTRIBUTED = set("""endmodule ; begin end endcase else default initial always forever ( ) , : ? + - ! ~ & ~& | ~| ^ ~^ ^~ * / % << >> <<< >>> < <= >
>= == != === !== && ||""".split())


def attribute_end(tokens, at):
    """Where the attribute that begins there ends; None where none is well formed."""
    texts = [token.text for token in tokens[at:at + 2]]
    if texts != ["(", "*"]:
        return None
    at += 2
    while True:
        if at >= len(tokens) or tokens[at].kind != "name":
            return None
        at += 1
        if at < len(tokens) and tokens[at].text == "=":
            begin, open_brackets, at = at + 1, 0, at + 1
            while True:
                text = tokens[at].text if at < len(tokens) else ";"
                behind = tokens[at + 1].text if at + 1 < len(tokens) else ""
                is_end = open_brackets == 0 and (text == "," or (text == "*" and behind == ")" and at > begin))
                if text == ";" or (text, behind) == ("(", "*") or (is_end and at == begin):
                    return None
                if is_end:
                    break
                open_brackets += (text in ("(", "[", "{")) - (text in (")", "]", "}"))
                if not 0 <= open_brackets <= 64:
                    return None
                at += 1
        texts = [token.text for token in tokens[at:at + 2]]
        if texts == ["*", ")"]:
            return at + 2
        if texts[:1] != [","]:
            return None
        at += 1


def without_attributes(tokens):
    """The words of a text: its tokens less attributes, each behind a word that may stand before one."""
    words, at = [], 0
    while at < len(tokens):
        last, earlier = (tokens[at - n].text if at >= n else None for n in (1, 2))
        may_stand = last is None or last in ATTRIBUTED or earlier in ("#", "@")
        end = attribute_end(tokens, at) if may_stand else None
        if end is None:
            words.append(tokens[at])
        at = end or at + 1
    return words


def is_name(token):
    return token.kind == "name" and token.text not in RESERVED


def is_outside(word):
    return word in RESERVED - KEYWORDS or word in LEFT_OUT or (word.startswith("$") and word not in SYSTEM_NAMES)


# ---- trees

class Reader:
    """Reads tokens from the left. Each word is looked at before it is passed: where none of the words before it go on with it, or where they
    do only with more levels than there are, it is refused. `level` is how many levels stand round what is read."""

    def __init__(self, tokens):
        self.tokens, self.at = tokens, 0

    @property
    def here(self):
        return self.tokens[self.at]

    def refused(self):
        word = self.here
        return Fault(202 if word.kind != "string" and is_outside(word.text) else 201, word.line)

    def stands(self, *texts):
        return self.here.kind not in ("string", "end") and self.here.text in texts

    def step(self, least=0):
        """Passes the word here, with which the text has at least so many levels."""
        if least > LEVELS:
            raise Fault(203, self.here.line)
        self.at += 1
        return self.tokens[self.at - 1].text

    def take(self, *texts, least=0):
        if not self.stands(*texts):
            raise self.refused()
        return self.step(least)

    def took(self, *texts, least=0):
        """Passes one of these words if it stands here."""
        return self.step(least) if self.stands(*texts) else None

    def name(self, least=0):
        if not is_name(self.here):
            raise self.refused()
        return self.step(least)

    def word_of(self, kind, least=0):
        if self.here.kind != kind:
            raise self.refused()
        return self.step(least)

    def listed(self, read):
        """One, and more behind a comma each."""
        items = [read()]
        while self.took(","):
            items.append(read())
        return items

    # expressions: a tree and its depth

    def value(self, level):
        return self.expression(level, 0)[0]

    def expression(self, level, rank):
        left, depth = self.primary(level)
        while self.here.kind == "symbol" and rank <= RANK.get(self.here.text, -1):
            operator = self.step(level + 1 + depth)
            right, more = self.expression(level + 1, RANK[operator] + 1)
            left, depth = ("binary", operator, left, right), 1 + max(depth, more)
        if rank == 0 and self.took("?", least=level + 1 + depth):
            one, first = self.expression(level + 1, 0)
            self.take(":")
            other, second = self.expression(level + 1, 0)
            left, depth = ("conditional", left, one, other), 1 + max(depth, first, second)
        return left, depth

    def primary(self, level):
        word = self.here
        if word.kind == "number":
            return ("number", self.step(level + 1)), 1
        if is_name(word):
            return self.selected(level, "name")
        if self.took("$time", least=level + 1):
            return ("time",), 1
        if word.kind == "symbol" and word.text in UNARY:
            self.step(level + 2)
            operand, depth = self.expression(level + 1, UNARY_RANK)
            return ("unary", word.text, operand), 1 + depth
        if self.took("{", least=level + 2):
            return self.braces(level)
        if self.stands("(", "$signed", "$unsigned"):
            kind = {"(": "parentheses", "$signed": "signed", "$unsigned": "unsigned"}[self.step(level + 2)]
            if kind != "parentheses":
                self.take("(")
            inner, depth = self.expression(level + 1, 0)
            self.take(")")
            return (kind, inner), 1 + depth
        raise self.refused()

    def selected(self, level, kind):
        """A name, or a select of it."""
        name = self.name(level + 1)
        if not self.took("[", least=level + 2):
            return (kind, name), 1
        left, depth = self.expression(level + 1, 0)
        if not self.took(":"):
            self.take("]")
            return ("bit", name, left), 1 + depth
        right, more = self.expression(level + 1, 0)
        self.take("]")
        return ("part", name, left, right), 1 + max(depth, more)

    def braces(self, level):
        count = self.expression(level + 1, 0)
        if not self.took("{"):
            parts = [count]
            while self.took(","):
                parts.append(self.expression(level + 1, 0))
            self.take("}")
            return ("concatenation", *(tree for tree, _ in parts)), 1 + max(depth for _, depth in parts)
        parts = self.listed(lambda: self.expression(level + 1, 0))
        self.take("}")
        self.take("}")
        return ("replication", count[0], *(tree for tree, _ in parts)), 1 + max(depth for _, depth in [count, *parts])

    # statements

    def target(self, level):
        if not self.took("{", least=level + 2):
            return self.selected(level, "whole")[0]
        targets = self.listed(lambda: self.target(level + 1))
        self.take("}")
        return ("joined", *targets)

    def delay(self, level):
        """Behind #."""
        if self.here.kind == "number":
            return "delay-number", self.step(level + 1)
        if is_name(self.here):
            return "delay-name", self.name(level + 1)
        self.take("(")
        amount = self.value(level)
        self.take(")")
        return "delay-value", amount

    def guard(self, level):
        self.take("(")
        value = self.value(level)
        self.take(")")
        return value

    def setting(self, level):
        target = self.target(level)
        self.take("=")
        return target, self.value(level)

    def statement(self, level):
        below, word = level + 1, self.here
        if is_name(word) or self.stands("{"):
            return self.assignment(level)
        if self.took(";", least=below):
            return ("empty",)
        if self.took("begin", least=below):
            label, statements = self.name() if self.took(":") else "-", []
            while not self.stands("end"):
                statements.append(self.statement(below))
            self.step()
            return ("block", label, *statements)
        if word.kind == "system":
            tree = ("task", self.task(level))
            self.take(";")
            return tree
        if not self.stands("->", "if", "case", "casez", "casex", "while", "repeat", "wait", "forever", "for", "#", "@"):
            raise self.refused()
        self.step(level + 2)
        return self.behind(word.text, below)

    def behind(self, word, below):
        """What stands behind the first word of a statement that holds something."""
        if word == "->":
            name = self.name(below + 1)
            self.take(";")
            return "trigger", name
        if word == "if":
            condition, body = self.guard(below), self.statement(below)
            return ("if-else", condition, body, self.statement(below)) if self.took("else") else ("if", condition, body)
        if word in ("case", "casez", "casex"):
            return (word, self.guard(below), *self.branches(below))
        if word in ("while", "repeat", "wait"):
            return word, self.guard(below), self.statement(below)
        if word == "forever":
            return word, self.statement(below)
        if word == "for":
            self.take("(")
            first = self.setting(below)
            self.take(";")
            condition = self.value(below)
            self.take(";")
            then = self.setting(below)
            self.take(")")
            return (word, *first, condition, *then, self.statement(below))
        if word == "#":
            return "delayed", self.delay(below), self.statement(below)
        return "on-event", self.event(below), self.statement(below)

    def assignment(self, level):
        """Its value is one level more."""
        if level + 2 > LEVELS:
            raise Fault(203, self.here.line)
        below = level + 1
        target = self.target(below)
        kind = {"=": "assign", "<=": "nonblocking"}[self.take("=", "<=")]
        delay = self.delay(below) if self.took("#") else "-"
        value = self.value(below)
        self.take(";")
        return kind, target, delay, value

    def branches(self, below):
        branches, has_default = [], False
        while not branches or not self.stands("endcase"):
            if not has_default and self.took("default"):
                has_default = True
                branches.append(("default", "colon" if self.took(":") else "-", self.statement(below)))
            else:
                labels = self.listed(lambda: self.value(below))
                self.take(":")
                branches.append(("labelled", ("labels", *labels), self.statement(below)))
        self.step()
        return branches

    def event(self, below):
        if is_name(self.here):
            return "named", self.name(below + 1)
        if self.took("*"):
            return ("any",)
        self.take("(")
        if self.took("*"):
            self.take(")")
            return ("any-enclosed",)
        terms = [self.term(below)]
        while self.stands(",", "or"):
            terms.append(("comma" if self.step() == "," else "or", self.term(below)))
        self.take(")")
        return ("terms", *terms)

    def term(self, below):
        return self.took("posedge", "negedge") or "change", self.name(below + 1)

    def argument(self, below):
        if self.stands(",", ")"):
            return ("left-out",)
        return ("string", self.step(below + 1)) if self.here.kind == "string" else self.value(below)

    def enclosed(self, read):
        self.take("(")
        what = read()
        self.take(")")
        return what

    def task(self, level):
        word = self.here.text
        if word in PRINTING or word in IDLE:
            needs_arguments = word.startswith("$monitor")
            self.step(level + 2 if needs_arguments else level + 1)
            arguments = []
            if needs_arguments or self.stands("("):
                self.take("(", least=level + 2)
                arguments = self.listed(lambda: self.argument(level + 1))
                self.take(")")
            return (word[1:], *arguments)
        if word == "$dumpfile":
            self.step(level + 2)
            return "dumpfile", self.enclosed(lambda: self.word_of("string"))
        if word == "$dumpvars":
            self.step(level + 1)
            return (word[1:], *(self.enclosed(self.selection) if self.stands("(") else []))
        if word in ("$dumpon", "$dumpoff", "$dumpall", "$dumpflush"):
            self.step(level + 1)
            return (word[1:],)
        if word in ("$finish", "$stop"):
            self.step(level + 1)
            return word[1:], self.enclosed(lambda: self.word_of("number")) if self.stands("(") else "-"
        raise self.refused()

    def selection(self):
        parts = [self.word_of("number")]
        while self.took(","):
            names = [self.name()]
            while self.took("."):
                names.append(self.name())
            parts.append(("path", *names))
        return parts

    # modules

    def range_type(self):
        signed = self.took("signed") or "-"
        if not self.took("["):
            return "type", signed, "-"
        left = self.value(0)
        self.take(":")
        right = self.value(0)
        self.take("]")
        return "type", signed, ("range", left, right)

    def parameter_type(self):
        return (self.step(),) if self.stands("integer", "time") else self.range_type()

    def name_and_value(self):
        name = self.name()
        self.take("=")
        return "set", name, self.value(0)

    def declared(self):
        name = self.name()
        return "declared", name, self.value(0) if self.took("=") else "-"

    def head(self, is_first):
        if is_first or self.stands("parameter"):
            self.take("parameter")
            return "head", self.parameter_type(), self.name_and_value()
        return "head", "-", self.name_and_value()

    def direction(self):
        word = self.take("input", "output")
        if word == "output" and self.stands("integer", "time"):
            return word, "-", (self.step(),)
        net = self.took("wire") or (self.took("reg") if word == "output" else None) or "-"
        return word, net, self.range_type()

    def port(self, is_first):
        direction = self.direction() if self.stands("input", "output") else "-"
        return "port", direction, *self.declared()[1:]

    def ports(self):
        """Where the first one goes no way, all are names alone (12.3.2)."""
        if self.stands("input", "output"):
            return self.rows(self.port)
        return [("port", "-", name, "-") for name in self.listed(self.name)]

    def rows(self, read):
        """One, and more behind a comma each, where the first one is another."""
        items = [read(True)]
        while self.took(","):
            items.append(read(False))
        return items

    def module(self):
        self.take("module")
        name, heads, ports, items = self.name(), "-", "-", []
        if self.took("#"):
            heads = ("parameters", *self.enclosed(lambda: self.rows(self.head)))
        if self.took("("):
            ports = ("ports", *([] if self.stands(")") else self.ports()))
            self.take(")")
        self.take(";")
        while not self.stands("endmodule"):
            items.append(self.item())
        self.step()
        return ("module", name, heads, ports, *items)

    def connections(self):
        self.take("(")
        if self.stands("."):
            tree = ("by-name", *self.listed(self.connection))
        else:
            tree = ("by-order", *([] if self.stands(")") else self.listed(lambda: self.value(0))))
        self.take(")")
        return tree

    def connection(self):
        self.take(".")
        name = self.name()
        self.take("(")
        value = "-" if self.stands(")") else self.value(0)
        self.take(")")
        return "connection", name, value

    def instance(self):
        return "instance", self.name(), self.connections()

    def item(self):
        if self.stands("initial", "always"):
            return self.step(), self.statement(0)
        if is_name(self.here):
            tree = ("instances", self.name(), self.connections() if self.took("#") else "-", *self.listed(self.instance))
        elif self.stands("input", "output"):
            tree = ("declare", self.direction(), *self.listed(self.declared))
        else:
            word = self.take("parameter", "localparam", "wire", "reg", "integer", "time", "event", "assign")
            if word in ("parameter", "localparam"):
                tree = (word, self.parameter_type(), *self.listed(self.name_and_value))
            elif word == "event":
                tree = ("events", *self.listed(self.name))
            elif word == "assign":
                tree = ("assigns", *self.listed(lambda: ("set", *self.setting(0))))
            else:
                kind = (word,) if word in ("integer", "time") else (word, self.range_type())
                tree = ("declare", kind, *self.listed(self.declared))
        self.take(";")
        return tree

    def text(self):
        modules = []
        while self.here.kind != "end":
            modules.append(self.module())
        return ("text", *modules)


def read(text):
    """The tree of a text, or its fault."""
    try:
        return Reader(cut(*Expander(text).run())).text()
    except Fault as fault:
        return fault


def printed(tree):
    if isinstance(tree, str):
        return tree
    # (a block without a name is told by its statements alone)
    parts = tree[:1] + tree[2:] if tuple(tree[:2]) == ("block", "-") else tree
    return "(" + " ".join(map(printed, parts)) + ")"


# ---- the words of trees

def between(mark, lists):
    """The lists with this word between two."""
    return [word for n, words in enumerate(lists) for word in ([mark] if n else []) + words]


def enclosed(words):
    return ["(", *words, ")"]


def unless_absent(tree):
    return [] if tree == "-" else spelled(tree)


def commas(trees):
    return between(",", map(spelled, trees))


def setting(target, value):
    return [*spelled(target), "=", *spelled(value)]


def spelled_assignment(sign, target, delay, value):
    return [*spelled(target), sign, *([] if delay == "-" else ["#", *spelled(delay)]), *spelled(value), ";"]


def joined(trees):
    return [word for tree in trees for word in spelled(tree)]


def selected(name, *bounds):
    return [name, "[", *between(":", map(spelled, bounds)), "]"]


def guarded(word):
    return lambda value, *rest: [word, *enclosed(spelled(value)), *joined(rest)]


def cased(word):
    return lambda *parts: [*guarded(word)(*parts), "endcase"]


def printing(word):
    return lambda *arguments: [word, *(enclosed(commas(arguments)) if arguments else [])]


def ending(word):
    return lambda number: [word, *([] if number == "-" else ["(", number, ")"])]


def typed(kind):
    """What is declared by it; `time` in an expression is another word."""
    return ["time"] if kind == ("time",) else spelled(kind)


def with_value(name, value):
    return [name, *([] if value == "-" else ["=", *spelled(value)])]


def setting_list(word):
    return lambda kind, *settings: [word, *typed(kind), *commas(settings), ";"]


def alone(word):
    return [word]


SPELLINGS = {
    "number": alone,
    "name": alone,
    "time": lambda: ["$time"],
    "bit": selected,
    "part": selected,
    "parentheses": lambda inner: enclosed(spelled(inner)),
    "concatenation": lambda *parts: ["{", *commas(parts), "}"],
    "replication": lambda count, *parts: ["{", *spelled(count), "{", *commas(parts), "}", "}"],
    "signed": lambda operand: ["$signed", *enclosed(spelled(operand))],
    "unsigned": lambda operand: ["$unsigned", *enclosed(spelled(operand))],
    "unary": lambda operator, operand: [operator, *spelled(operand)],
    "binary": lambda operator, left, right: [*spelled(left), operator, *spelled(right)],
    "conditional": lambda condition, one, other: [*spelled(condition), "?", *spelled(one), ":", *spelled(other)],
    # what statements hold
    "whole": alone,
    "joined": lambda *targets: ["{", *commas(targets), "}"],
    "delay-number": alone,
    "delay-name": alone,
    "delay-value": lambda amount: enclosed(spelled(amount)),
    "named": alone,
    "any": lambda: ["*"],
    "any-enclosed": lambda: ["(", "*", ")"],
    "terms": lambda *terms: enclosed(joined(terms)),
    "change": alone,
    "posedge": lambda name: ["posedge", name],
    "negedge": lambda name: ["negedge", name],
    "comma": lambda term: [",", *spelled(term)],
    "or": lambda term: ["or", *spelled(term)],
    "string": alone,
    "left-out": lambda: [],
    "path": lambda *names: between(".", [[name] for name in names]),
    **{word[1:]: printing(word) for word in PRINTING + IDLE},
    "dumpfile": lambda letters: ["$dumpfile", "(", letters, ")"],
    "dumpvars": lambda *parts: ["$dumpvars", *(enclosed(between(",", [[parts[0]], *map(spelled, parts[1:])])) if parts else [])],
    "dumpon": lambda: ["$dumpon"],
    "dumpoff": lambda: ["$dumpoff"],
    "dumpall": lambda: ["$dumpall"],
    "dumpflush": lambda: ["$dumpflush"],
    "finish": ending("$finish"),
    "stop": ending("$stop"),
    # statements
    "empty": lambda: [";"],
    "block": lambda label, *statements: ["begin", *([] if label == "-" else [":", label]), *joined(statements), "end"],
    "assign": lambda *parts: spelled_assignment("=", *parts),
    "nonblocking": lambda *parts: spelled_assignment("<=", *parts),
    "trigger": lambda name: ["->", name, ";"],
    "if": guarded("if"),
    "if-else": lambda condition, body, other: [*guarded("if")(condition, body), "else", *spelled(other)],
    "case": cased("case"),
    "casez": cased("casez"),
    "casex": cased("casex"),
    "labelled": lambda labels, body: [*commas(labels[1:]), ":", *spelled(body)],
    "default": lambda colon, body: ["default", *([":"] if colon == "colon" else []), *spelled(body)],
    "while": guarded("while"),
    "repeat": guarded("repeat"),
    "wait": guarded("wait"),
    "forever": lambda body: ["forever", *spelled(body)],
    "for": lambda target, value, condition, next_target, next_value, body: [
        "for", *enclosed([*setting(target, value), ";", *spelled(condition), ";", *setting(next_target, next_value)]), *spelled(body)],
    "delayed": lambda delay, body: ["#", *spelled(delay), *spelled(body)],
    "on-event": lambda event, body: ["@", *spelled(event), *spelled(body)],
    "task": lambda call: [*spelled(call), ";"],
    # modules
    "range": lambda left, right: ["[", *spelled(left), ":", *spelled(right), "]"],
    "type": lambda signed, bounds: [*([] if signed == "-" else ["signed"]), *unless_absent(bounds)],
    "integer": lambda: ["integer"],
    "wire": lambda kind: ["wire", *spelled(kind)],
    "reg": lambda kind: ["reg", *spelled(kind)],
    "set": lambda target, value: [*([target] if isinstance(target, str) else spelled(target)), "=", *spelled(value)],
    "declared": with_value,
    "head": lambda kind, value: [*([] if kind == "-" else ["parameter", *typed(kind)]), *spelled(value)],
    "parameters": lambda *heads: ["#", *enclosed(commas(heads))],
    "input": lambda net, kind: ["input", *([] if net == "-" else [net]), *spelled(kind)],
    "output": lambda net, kind: ["output", *([] if net == "-" else [net]), *typed(kind)],
    "port": lambda direction, *parts: [*unless_absent(direction), *with_value(*parts)],
    "ports": lambda *ports: enclosed(commas(ports)),
    "connection": lambda name, value: [".", name, *enclosed(unless_absent(value))],
    "by-order": lambda *values: enclosed(commas(values)),
    "by-name": lambda *connections: enclosed(commas(connections)),
    "instance": lambda name, connections: [name, *spelled(connections)],
    "parameter": setting_list("parameter"),
    "localparam": setting_list("localparam"),
    "declare": lambda kind, *declared: [*typed(kind), *commas(declared), ";"],
    "events": lambda *names: ["event", *between(",", [[name] for name in names]), ";"],
    "assigns": lambda *settings: ["assign", *commas(settings), ";"],
    "initial": lambda statement: ["initial", *spelled(statement)],
    "always": lambda statement: ["always", *spelled(statement)],
    "instances": lambda name, overrides, *instances: [
        name, *([] if overrides == "-" else ["#", *spelled(overrides)]), *commas(instances), ";"],
    "module": lambda name, heads, ports, *items: [
        "module", name, *unless_absent(heads), *unless_absent(ports), ";", *joined(items), "endmodule"],
    "text": lambda *modules: joined(modules),
}


def spelled(tree):
    return SPELLINGS[tree[0]](*tree[1:])


# ---- depth: a leaf counts 1, and each operator, select, parenthesis, concatenation, replication, conversion and statement round it 1 more

UNCOUNTED = {"delay-number", "delay-name", "delay-value", "named", "any", "any-enclosed", "terms", "change", "posedge", "negedge", "comma", "or", "string", "left-out", "path",
             "dumpfile", "dumpvars", "dumpon", "dumpoff", "dumpall", "dumpflush", "finish", "stop", "labels", "labelled", "default",
             *(word[1:] for word in PRINTING + IDLE)}
LEAVES = {"delay-number", "delay-name", "named", "change", "posedge", "negedge", "string", "left-out", "dumpfile"}


def depth(tree):
    """Of an expression or a statement."""
    kind, within = tree[0], max((depth(part) for part in tree[1:] if isinstance(part, tuple)), default=0)
    if kind in UNCOUNTED:
        return max(within, kind in LEAVES)
    return 1 + max(within, kind == "trigger")


def deepest(tree):
    """The depth of the deepest expression or statement in a module's part."""
    if isinstance(tree, str):
        return 0
    if tree[0] in ("initial", "always"):
        return depth(tree[1])
    if tree[0] in ("text", "module", "parameters", "head", "ports", "port", "input", "output", "type", "range", "parameter", "localparam", "declare", "wire",
                   "reg", "integer", "set", "declared", "events", "assigns", "instances", "instance", "connection", "by-order", "by-name"):
        return max((deepest(part) for part in tree[1:]), default=0)
    return depth(tree)


# ---- trees made at random

def ends_in_if(tree):
    """Whether an `else` behind the statement would belong to an `if` in it."""
    kind = tree[0]
    return kind == "if" or (kind in ("if-else", "while", "repeat", "wait", "forever", "for", "delayed", "on-event") and ends_in_if(tree[-1]))


class Maker:
    """Makes trees that stand as the grammar lets them. `depth` is the most levels of what is made; where `deep` is asked for, it has just so
    many, and else it is mostly shallow."""

    def __init__(self, rng):
        self.rng = rng

    def some(self, make, least, most):
        return [make() for _ in range(self.rng.randint(least, most))]

    def chance(self, share):
        return self.rng.random() < share

    def name(self):
        rng = self.rng
        if self.chance(0.6):
            return rng.choice("a b c d e q x z clk data top u1 s S".split())
        if self.chance(0.05):
            return rng.choice(["\\a", "\\a+b", "\\begin", "\\reg", "\\u[0]", "\\1", "\\(", "\\$x", "\\;", "\\'b1"])
        if self.chance(0.3):
            return rng.choice("_ __ a$b _1 A$ tran small begins End IF module_ x1 b1 h8 d0 e1 sb1 string include define_ N0$ initially".split())
        name = rng.choice("abcxyzABCXYZ_") + "".join(rng.choice("abhdoxzs0123456789_$ABHDOXZS") for _ in range(rng.randint(0, 8)))
        return name if name not in RESERVED else name + "_"

    def digits(self, known):
        rng = self.rng
        first = rng.choice(known + "xXzZ?")
        return first + "".join(rng.choice(known + known + "xXzZ?_") for _ in range(rng.randint(0, 6)))

    def number(self, gaps=("",) * 8 + (" ", "\t", "  ")):
        rng = self.rng
        if self.chance(0.5):
            return rng.choice(["0", "1", "2", "3", "7", "10", "64", "255", "1_000", "007", "9__", "4294967295", "4_294_967_296", "99999999999999999999"])
        size = rng.choice(["", "", "1", "4", "8", "16", "32", "64", "04", "1_6", "6_4_"])
        base = rng.choice("bBoOhHdD")
        digits = self.digits({"b": "01", "o": "01234567", "h": "0123456789abcdefABCDEF"}[base.lower()]) if base not in "dD" else rng.choice(
            [str(rng.randrange(1 << 70)), rng.choice("xXzZ?"), "x_", "0_1", "12_"])
        return f"{size}{rng.choice(gaps) if size else ''}'{rng.choice(['', '', 's', 'S'])}{base}{rng.choice(gaps)}{digits}"

    def string(self):
        rng = self.rng
        piece = lambda: rng.choice(["%d", "%0d", "%b", " ", "a", "//", "/*", "*/", "`x", "`", "'", "\\n", "\\t", "\\\\", '\\"', "\\0", "\\101", "\\3778", "\\48", "begin", "\r", "\t", "(", ";",
                                    chr(rng.choice([b for b in range(256) if b not in (10, 34, 92)]))])
        return '"' + "".join(self.some(piece, 0, 6)) + '"'

    def within(self, depth, count, deep):
        """For each of so many parts how many levels it may have, and whether it is the deep one."""
        spine = self.rng.randrange(count) if deep else None
        return [(depth - 1, True) if n == spine else (min(depth - 1, self.rng.choice([1, 1, 1, 1, 2, 2, 3])), False) for n in range(count)]

    # expressions

    def leaf(self):
        kind = self.rng.choice(["number", "name", "name", "time"] if self.chance(0.2) else ["number", "name"])
        return (kind,) if kind == "time" else (kind, self.number() if kind == "number" else self.name())

    def expression(self, depth, deep=False, rank=0):
        if depth == 1 or (not deep and self.chance(0.4)):
            return self.leaf()
        kinds = ["bit", "part", "parentheses", "parentheses", "concatenation", "replication", "signed", "unsigned", "unary", "unary"]
        kinds += ["binary"] * 8 * (rank < UNARY_RANK) + ["conditional"] * 3 * (rank == 0)
        kind = self.rng.choice(kinds)
        if kind == "binary":
            operator = self.rng.choice([word for word in RANK if RANK[word] >= rank])
            left, right = self.within(depth, 2, deep)
            return kind, operator, self.expression(*left, RANK[operator]), self.expression(*right, RANK[operator] + 1)
        if kind == "conditional":
            condition, *rest = self.within(depth, 3, deep)
            return (kind, self.expression(*condition, 1), *(self.expression(*room) for room in rest))
        if kind == "unary":
            return kind, self.rng.choice(UNARY), self.expression(depth - 1, deep, UNARY_RANK)
        count = {"part": 2, "concatenation": self.rng.randint(1, 3), "replication": self.rng.randint(2, 3)}.get(kind, 1)
        parts = [self.expression(*room) for room in self.within(depth, count, deep)]
        return (kind, self.name(), *parts) if kind in ("bit", "part") else (kind, *parts)

    # statements

    def target(self, depth, deep=False):
        if depth == 1 or (not deep and self.chance(0.6)):
            return "whole", self.name()
        kind = self.rng.choice(["bit", "part", "joined"])
        rooms = self.within(depth, {"bit": 1, "part": 2, "joined": self.rng.randint(1, 3)}[kind], deep)
        return (kind, *(self.target(*room) for room in rooms)) if kind == "joined" else (kind, self.name(), *(self.expression(*room) for room in rooms))

    def delay(self, depth, deep=False):
        kind = self.rng.choice(["delay-number", "delay-name", "delay-value"]) if depth == 1 or not deep else "delay-value"
        return kind, {"delay-number": lambda: self.number([""]), "delay-name": self.name, "delay-value": lambda: self.expression(depth, deep)}[kind]()

    def term(self):
        return self.rng.choice(["change", "change", "posedge", "negedge"]), self.name()

    def event(self):
        kind = self.rng.choice(["named", "any", "any-enclosed", "terms", "terms"])
        if kind == "named":
            return kind, self.name()
        return (kind, self.term(), *self.some(lambda: (self.rng.choice(["comma", "or"]), self.term()), 0, 2)) if kind == "terms" else (kind,)

    def argument(self, depth, deep):
        if not deep and self.chance(0.08):
            return ("left-out",)
        return ("string", self.string()) if not deep and self.chance(0.4) else self.expression(depth, deep)

    def task(self, depth, deep):
        """Its levels are those within the statement."""
        rng = self.rng
        kind = rng.choice([word[1:] for word in rng.choice([PRINTING, PRINTING, IDLE]) if depth or not word.startswith("$monitor")])
        if not deep and self.chance(0.5):
            kind = rng.choice(["dumpvars", "dumpvars", "dumpon", "dumpoff", "dumpall", "dumpflush", "finish", "stop"] + (["dumpfile"] if depth else []))
        if "$" + kind in PRINTING + IDLE:
            count = rng.randint(1, 3) if deep or kind.startswith("monitor") else rng.randint(0, 3) if depth else 0
            return (kind, *(self.argument(*room) for room in self.within(depth + 1, count, deep)))
        if kind == "dumpvars":
            path = lambda: ("path", *self.some(self.name, 1, 3))
            return (kind, *([self.number(), *self.some(path, 0, 2)] if self.chance(0.6) else []))
        if kind in ("finish", "stop"):
            return kind, self.number() if self.chance(0.5) else "-"
        return (kind, self.string()) if kind == "dumpfile" else (kind,)

    def assignment(self, depth, deep):
        target, delay, value = self.within(depth, 3, deep)
        has_delay = delay[1] or self.chance(0.3)
        return self.rng.choice(["assign", "nonblocking"]), self.target(*target), self.delay(*delay) if has_delay else "-", self.expression(*value)

    def branch(self, room, is_default):
        if is_default:
            return "default", self.rng.choice(["colon", "-"]), self.statement(*room)
        count = self.rng.randint(1, 3)
        if room[1] and self.chance(0.3):
            labels = [self.expression(*room)] + [self.expression(1) for _ in range(count - 1)]
            return "labelled", ("labels", *labels), self.statement(min(room[0], 2))
        return "labelled", ("labels", *(self.expression(min(room[0], 2)) for _ in range(count))), self.statement(*room)

    def case(self, depth, deep):
        count = self.rng.randint(1, 4)
        value, *rooms = self.within(depth, count + 1, deep)
        default = self.rng.randrange(count) if self.chance(0.6) else None
        return (self.rng.choice(["case", "casez", "casex"]), self.expression(*value), *(self.branch(room, n == default) for n, room in enumerate(rooms)))

    def if_else(self, depth, deep):
        condition, body, other = self.within(depth, 3, deep)
        parts = self.expression(*condition), self.statement(*body)
        if not ends_in_if(parts[1]):
            return ("if-else", *parts, self.statement(*other))
        return ("if-else", parts[0], ("empty",), self.statement(*other)) if other[1] or not body[1] else ("if", *parts)

    def statement(self, depth, deep=False):
        kinds = ["empty", "block", "task"]
        if depth > 1:
            kinds = "block block assign assign assign assign if if if-else if-else case while repeat wait forever for delayed on-event task task".split()
            kinds += ["empty"] * (not deep) + ["trigger"] * (not deep or depth == 2)
        kind = self.rng.choice(kinds)
        if kind in ("empty", "trigger"):
            return ("trigger", self.name()) if kind == "trigger" else ("empty",)
        if kind == "block":
            rooms = self.within(depth, self.rng.randint(1, 3) if deep else self.rng.randint(0, 3), deep) if depth > 1 else []
            return (kind, self.name() if self.chance(0.3) else "-", *(self.statement(*room) for room in rooms))
        if kind in ("task", "assign", "case", "if-else"):
            return ("task", self.task(depth - 1, deep and depth > 1)) if kind == "task" else {
                "assign": self.assignment, "case": self.case, "if-else": self.if_else}[kind](depth, deep)
        if kind in ("if", "while", "repeat", "wait"):
            guard, body = self.within(depth, 2, deep)
            return kind, self.expression(*guard), self.statement(*body)
        if kind == "for":
            rooms = self.within(depth, 6, deep)
            makes = [self.target, self.expression, self.expression, self.target, self.expression, self.statement]
            return (kind, *(make(*room) for make, room in zip(makes, rooms)))
        if kind == "delayed":
            wait, body = self.within(depth, 2, deep)
            return kind, self.delay(*wait), self.statement(*body)
        return (kind, *([self.event()] if kind == "on-event" else []), self.statement(depth - 1, deep))

    # modules

    def value(self, deep=0):
        """An expression that stands in no statement."""
        return self.expression(deep, True) if deep else self.expression(self.rng.choice([1, 1, 2, 2, 3, 4]))

    def range_type(self, deep=0):
        rooms = [deep, 0] if self.chance(0.5) else [0, deep]
        bounds = ("range", *(self.value(room) for room in rooms)) if deep or self.chance(0.4) else "-"
        return "type", self.rng.choice(["-", "-", "signed"]), bounds

    def integer(self):
        return (self.rng.choice(["integer", "time"]),)

    def parameter_type(self, deep=0):
        return self.integer() if not deep and self.chance(0.2) else self.range_type(deep)

    def set(self, deep=0):
        return "set", self.name(), self.value(deep)

    def driven(self, deep=0):
        """What an `assign` drives, and its value."""
        is_first = deep and self.chance(0.3)
        target = self.target(deep, True) if is_first else self.target(self.rng.choice([1, 1, 2, 3]))
        return "set", target, self.value(0 if is_first else deep)

    def declared(self, deep=0):
        return "declared", self.name(), self.value(deep) if deep or self.chance(0.4) else "-"

    def head(self, is_first):
        return "head", self.parameter_type() if is_first or self.chance(0.5) else "-", self.set()

    def direction(self, deep=0):
        if not deep and self.chance(0.2):
            return "output", "-", self.integer()
        words = self.rng.choice([("input", "-"), ("input", "wire"), ("output", "-"), ("output", "wire"), ("output", "reg")])
        return (*words, self.range_type(deep))

    def port(self, is_first):
        direction = self.direction() if is_first or self.chance(0.5) else "-"
        return "port", direction, *self.declared()[1:]

    def connections(self, deep=0):
        if self.chance(0.5):
            return ("by-order", *self.some(self.value, 0, 3), *([self.value(deep)] if deep else []))
        one = lambda deep=0: ("connection", self.name(), self.value(deep) if deep or self.chance(0.8) else "-")
        return ("by-name", *self.some(one, 0 if deep else 1, 3), *([one(deep)] if deep else []))

    def item(self, levels=None):
        """With one expression or statement of so many levels where a number is given."""
        kind = self.rng.choice(["initial", "initial", "always", "parameter", "localparam", "declare", "declare", "assigns", "instances"] + ["events"] * (levels is None))
        if kind in ("initial", "always"):
            return kind, self.statement(levels or self.rng.choice([1, 2, 3, 3, 4, 4, 5, 6]), levels is not None)
        deep, first = (levels or 0), self.chance(0.5)
        if kind in ("parameter", "localparam"):
            return (kind, self.parameter_type(deep * first), self.set(deep * (not first)), *self.some(self.set, 0, 2))
        if kind == "declare" and self.chance(0.25):
            return (kind, self.direction(deep * first), *self.some(self.declared, 0, 2), self.declared(deep * (not first)))
        if kind == "declare":
            kinds = [(word, self.range_type(deep * first)) for word in ("wire", "reg")] + ([("integer",), ("time",)] if not (deep and first) else [])
            return (kind, self.rng.choice(kinds), *self.some(self.declared, 0, 2), self.declared(deep * (not first)))
        if kind == "events":
            return (kind, *self.some(self.name, 1, 3))
        if kind == "assigns":
            return (kind, *self.some(self.driven, 0, 2), self.driven(deep))
        overrides = self.connections(deep * first) if deep and first or self.chance(0.3) else "-"
        instance = lambda deep=0: ("instance", self.name(), self.connections(deep))
        return (kind, self.name(), overrides, *self.some(instance, 0, 1), instance(deep * (not first)))

    def module(self, levels):
        rows = lambda make, least: [make(n == 0) for n in range(self.rng.randint(least, 3))]
        heads = ("parameters", *rows(self.head, 1)) if self.chance(0.3) else "-"
        ports = ("ports", *rows(self.port, 0)) if self.chance(0.5) else "-"
        if ports == "-" and self.chance(0.4):
            ports = ("ports", *self.some(lambda: ("port", "-", self.name(), "-"), 1, 3))
        items = self.some(self.item, 0, 4)
        if levels:
            items.insert(self.rng.randint(0, len(items)), self.item(levels))
        return ("module", self.name(), heads, ports, *items)

    def text(self, levels=None):
        """Modules; one of them with an expression or a statement of so many levels, if a number is given."""
        modules = self.some(lambda: self.module(None), 0, 2)
        modules.insert(self.rng.randint(0, len(modules)), self.module(levels))
        return ("text", *modules)
