"""Reads the tokens of a line as statements, as the grammar of docs/LANGUAGE.md has them.

The program judges lines; this reader finds where a rejected line goes wrong, and what its statements do. Kinds are
`n`, a number, and `t`, a string; `e` is either."""
from scanner import FUNCTIONS, Refused, tokens_of

SYNTAX = "Syntax error"
# The arguments of each function and, after the arrow, what it gives.
SHAPES = {
    "LEN": "t>n", "ASCII": "t>n", "LEFT": "tn>t", "RIGHT": "tn>t", "MID": "tnn>t", "INSTR": "ntt>n", "CHR$": "n>t",
    "SPACE$": "n>t", "STRING$": "nn>t", "NUM1$": "n>t", "NUM$": "n>t", "VAL": "t>n", "CVT%$": "n>t", "CVT$%": "t>n",
    "SWAP%": "n>n", "ABS%": "n>n", "SGN": "n>n", "XLATE": "tt>t", "POS": "n>n", "RECOUNT": ">n", "SYS": "t>t", "ERR": ">n",
    "ERL": ">n", "LEFT$": "tn>t", "RIGHT$": "tn>t", "MID$": "tnn>t",
}
RELATIONS = ("=", "<>", "<", ">", "<=", ">=", "==")
LOGICAL = ("EQV", "IMP", "XOR", "OR", "AND")
SUMS, PRODUCTS = ("+", "-"), ("*", "/")
HEADS = ("FOR", "NEXT", "FNEND", "DATA", "DIM", "DEF")
MODIFIERS = ("IF", "UNLESS", "WHILE", "UNTIL", "FOR")
NAMES = {"n": "a number", "t": "a string", "e": "a value"}


class Name:
    """A name in a statement, and whether it is an array's."""

    def __init__(self, token, is_array):
        self.word, self.place, self.is_array = token.word, token.place, is_array

    def key(self):
        return self.word + ("()" if self.is_array else "")


class Jump:
    """A line that a statement names."""

    def __init__(self, token, how):
        self.line, self.place, self.how = int(token.word.rstrip("%")), token.place, how


class Statement:
    """A statement: its first word, its place, what it reads and stores, the lines it names, its clauses and modifiers."""

    def __init__(self, kind, place):
        self.kind, self.place, self.end = kind, place, place
        self.reads, self.stores, self.jumps = [], [], []
        self.clauses, self.modifiers, self.parts = [], [], {}
        self.has_else = False

    def all(self):
        """The statement, and those in its clauses."""
        yield self
        for clause in self.clauses:
            yield from clause.all()


class Reader:
    """Reads one line. Raises Refused at the first token that no line has there."""

    def __init__(self, line, place):
        self.line, self.tokens, self.at = line, tokens_of(line, place), 0
        self.now = Statement("", place)
        self.separators = []

    # TOKENS

    def token(self, ahead=0):
        at = self.at + ahead
        return self.tokens[at] if at < len(self.tokens) else None

    def word(self, ahead=0):
        token = self.token(ahead)
        return token.word if token and token.kind in ("keyword", "sign") else None

    def kind(self):
        return self.token().kind if self.token() else None

    def place(self):
        return self.token().place if self.token() else len(self.line)

    def fail(self, wanted):
        raise Refused(SYNTAX, self.place(), wanted)

    def take(self):
        self.at += 1
        return self.tokens[self.at - 1]

    def takes(self, *words):
        """Takes one of these words if it is there."""
        return self.take().word if self.word() in words else None

    def need(self, word, wanted=None):
        if self.word() != word:
            self.fail(wanted or word)
        return self.take()

    def name(self, wanted):
        token = self.token()
        if not token or token.kind != "name" or wanted != "e" and kind_of(token.word) != wanted:
            self.fail({"n": "an integer variable, as A%", "t": "a string variable, as A$", "e": "a variable"}[wanted])
        return self.take()

    def literal(self, what, least=0, most=32767):
        token = self.token()
        if not token or token.kind != "number" or not least <= int(token.word.rstrip("%")) <= most:
            self.fail(what)
        return self.take()

    # EXPRESSIONS

    def value(self, want):
        """Reads an expression of a kind, and returns its kind."""
        return self.sum("t") if want == "t" else self.logical(0, want)

    def logical(self, level, want):
        if level == len(LOGICAL):
            return self.negation(want)
        kind = self.logical(level + 1, want)
        while kind == "n" and self.takes(LOGICAL[level]):
            self.logical(level + 1, "n")
        return kind

    def negation(self, want):
        if self.takes("NOT"):
            return self.negation("n")
        return self.comparison(want)

    def comparison(self, want):
        begins = self.place()
        kind = self.sum("e")
        while self.takes(*RELATIONS):
            self.sum(kind)
            kind = "n"
        if want == "n" and kind == "t":
            # The mistake is after the string, where a relation is missing; the string itself is shown.
            raise Refused(SYNTAX, begins, "a number, or a comparison")
        return kind

    def sum(self, want):
        kind = self.product(want)
        while self.takes(*(SUMS if kind == "n" else ("+",))):
            self.product(kind)
        return kind

    def product(self, want):
        kind = self.signed(want)
        while kind == "n" and self.takes(*PRODUCTS):
            self.signed("n")
        return kind

    def signed(self, want):
        if self.word() in SUMS:
            if want == "t":
                self.fail(NAMES[want])
            self.take()
            return self.signed("n")
        kind = self.atom(want)
        while kind == "n" and self.takes("^"):
            while self.takes(*SUMS):
                pass
            self.atom("n")
        return kind

    def atom(self, want):
        token = self.token()
        if token is None:
            self.fail(NAMES[want])
        if token.kind in ("number", "text"):
            return self.fits("n" if token.kind == "number" else "t", want)
        if token.kind == "name":
            return self.variable(want)
        if token.kind == "function":
            return self.call(want)
        if token.word in FUNCTIONS:
            return self.function(want)
        if token.word == "(":
            return self.parenthesis(want)
        return self.fail(NAMES[want])

    def fits(self, kind, want):
        """Takes the token, if it is of the wanted kind."""
        if want not in ("e", kind):
            self.fail(NAMES[want])
        self.take()
        return kind

    def variable(self, want):
        token = self.token()
        kind = self.fits(kind_of(token.word), want)
        is_array = self.word() == "("
        self.now.reads.append(Name(token, is_array))
        if is_array:
            self.subscripts()
        return kind

    def subscripts(self):
        self.need("(")
        self.value("n")
        if self.takes(","):
            self.value("n")
        self.need(")", "a closing parenthesis, or a comma and one more subscript")

    def call(self, want):
        token = self.token()
        kind = self.fits(kind_of(token.word), want)
        self.now.parts.setdefault("calls", []).append(token)
        if self.takes("("):
            self.value("e")
            while self.takes(","):
                self.value("e")
            self.need(")", "a comma or a closing parenthesis")
        return kind

    def function(self, want):
        token = self.token()
        arguments, _, gives = SHAPES[token.word].partition(">")
        kind = self.fits(gives, want)
        if arguments:
            self.need("(", counted(token.word, arguments))
            for number, argument in enumerate(arguments):
                if number:
                    self.need(",", counted(token.word, arguments))
                self.value(argument)
            self.need(")", counted(token.word, arguments))
        return kind

    def parenthesis(self, want):
        begins = self.place()
        self.take()
        kind = self.value("t" if want == "t" else "e")
        self.need(")", "a closing parenthesis")
        if want == "n" and kind == "t":
            raise Refused(SYNTAX, begins, "a number")
        return kind

    # TARGETS AND PARTS

    def target(self, want):
        token = self.name(want)
        is_array = self.word() == "("
        self.now.stores.append(Name(token, is_array))
        if is_array:
            self.subscripts()
        return kind_of(token.word)

    def many(self, read):
        read()
        while self.takes(","):
            read()

    def line_number(self, how, least=1):
        token = self.literal("the number of a line", least)
        self.now.jumps.append(Jump(token, how))

    def channel(self):
        self.need("#", "# and a channel")
        if self.kind() == "number":
            self.now.parts["channel"] = self.token().word.rstrip("%")
        self.value("n")

    def range(self, variable):
        self.now.stores.append(Name(variable, False))
        self.need("=")
        self.value("n")
        self.need("TO")
        self.value("n")
        if self.takes("STEP"):
            self.value("n")

    def text_since(self, place):
        """Returns the text from a place to the last token that was taken."""
        return self.line[place:self.tokens[self.at - 1].end()]

    # STATEMENTS

    def line_of(self):
        """Reads the line, and returns its statements."""
        found = []
        while True:
            if self.token() and self.word() != ":":
                found.append(self.statement())
            if self.token() is None:
                return found
            self.separators.append((len(found), self.place()))
            if not self.takes(":"):
                self.fail("the end of the statement: a colon or the end of the line")

    def statement(self):
        before, self.now = self.now, Statement("", self.place())
        statement = self.now
        self.form()
        if statement.kind != "IF" and statement.kind not in HEADS:
            while self.word() in MODIFIERS:
                self.modifier()
        statement.end = self.tokens[self.at - 1].end()
        self.now = before
        return statement

    def modifier(self):
        place, word = self.place(), self.take().word
        variable = self.name("n") if word == "FOR" else None
        self.now.modifiers.append((word, place, variable.word if variable else None))
        if variable:
            self.range(variable)
        else:
            self.value("n")

    def form(self):
        token = self.token()
        if token.kind == "name":
            self.now.kind = "LET"
            return self.assignment()
        if token.kind == "function":
            self.now.kind = "RESULT"
            self.now.parts["function"] = self.take().word
            self.need("=")
            return self.value(kind_of(token.word))
        reads = getattr(self, "read_" + token.word.lower(), None) if token.kind == "keyword" else None
        if reads is None:
            self.fail("a statement")
        self.now.kind = self.take().word
        return reads()

    def assignment(self):
        kind = self.target("e")
        while self.takes(","):
            self.target(kind)
        self.need("=")
        self.now.parts["value"] = self.token()
        self.value(kind)

    def read_let(self):
        self.assignment()

    def clause(self):
        if self.kind() == "number":
            place = self.place()
            before, self.now = self.now, Statement("GOTO", place)
            self.line_number("goto")
            clause, self.now = self.now, before
        else:
            if self.word() in HEADS or not self.token():
                self.fail("a line number or a statement, but not FOR, NEXT, DATA, DIM or DEF")
            clause = self.statement()
        self.now.clauses.append(clause)

    def read_if(self):
        self.value("n")
        if self.takes("GOTO"):
            before, self.now = self.now, Statement("GOTO", self.place())
            self.line_number("goto")
            clause, self.now = self.now, before
            self.now.clauses.append(clause)
        else:
            self.need("THEN", "THEN or GOTO")
            self.clause()
        if self.takes("ELSE"):
            self.now.has_else = True
            self.clause()

    def read_for(self):
        variable = self.name("n")
        self.now.parts["variable"] = variable
        self.range(variable)

    def read_next(self):
        self.now.parts["variable"] = self.name("n")

    def read_fnend(self):
        pass

    def read_data(self):
        self.take()

    def read_dim(self):
        in_file = self.takes("#") is not None
        if in_file:
            self.literal("a channel as digits")
            self.need(",")
        self.many(lambda: self.shape(in_file))

    def shape(self, in_file):
        token = self.name("e")
        self.now.parts.setdefault("arrays", []).append(Name(token, True))
        self.now.parts["in_file"] = in_file
        self.need("(")
        self.literal("a bound as digits: bounds are no expressions")
        if self.takes(","):
            self.literal("a bound as digits: bounds are no expressions")
        self.need(")", "a closing parenthesis: arrays have one or two subscripts")
        if in_file and kind_of(token.word) == "t" and self.takes("="):
            self.literal("2, 4, 8, .. or 512 bytes", 2, 512)

    def read_def(self):
        if self.kind() != "function":
            self.fail("FN, a letter, perhaps a digit, and % or $")
        name = self.take()
        self.now.parts["function"] = name
        if self.takes("("):
            self.many(lambda: self.now.parts.setdefault("parameters", []).append(self.name("e")))
            self.need(")", "a comma or a closing parenthesis")
        self.now.parts["is_line"] = self.takes("=") is not None
        if self.now.parts["is_line"]:
            self.value(kind_of(name.word))

    def read_print(self):
        if self.word() == "#":
            self.channel()
            if not self.takes(","):
                return
        if self.takes("USING"):
            return self.using()
        self.items()

    def ends_here(self):
        return self.token() is None or self.word() in (":", "ELSE") or self.word() in MODIFIERS

    def items(self):
        while not self.ends_here():
            if self.takes("TAB"):
                self.need("(", "an opening parenthesis")
                self.value("n")
                self.need(")", "a closing parenthesis")
            else:
                self.value("e")
            if not self.takes(";", ","):
                if not self.ends_here():
                    self.fail("a semicolon or a comma between the items of PRINT")
                return

    def using(self):
        self.now.parts["format"] = self.token()
        self.value("t")
        self.need(",", "a comma after the format")
        self.value("e")
        while self.takes(";", ",") and not self.ends_here():
            self.value("e")

    def read_input(self):
        if self.takes("LINE"):
            if self.word() == "#":
                self.channel()
                self.need(",")
            self.now.stores.append(Name(self.name("t"), False))
            return
        if self.word() == "#":
            self.channel()
            self.need(",")
        elif self.kind() == "text":
            self.take()
            if not self.takes(";", ","):
                self.fail("a semicolon or a comma after the prompt")
        self.many(lambda: self.target("e"))

    def read_read(self):
        self.many(lambda: self.target("e"))

    def read_restore(self):
        pass

    def read_goto(self):
        self.line_number("goto")

    def read_gosub(self):
        self.line_number("gosub")

    def read_go(self):
        word = self.takes("TO", "SUB") or self.fail("TO or SUB")
        self.now.kind = "GO" + word
        self.line_number(self.now.kind.lower())

    def read_return(self):
        pass

    def read_on(self):
        if self.takes("ERROR"):
            self.now.kind = "ON ERROR"
            self.need("GOTO")
            if self.kind() == "number":
                self.line_number("error", 0)
            return
        self.value("n")
        word = self.takes("GOTO", "GOSUB") or self.fail("GOTO or GOSUB")
        self.now.kind = "ON " + word
        self.many(lambda: self.line_number(word.lower()))

    def read_resume(self):
        if self.kind() == "number":
            self.line_number("resume", 0)

    def read_stop(self):
        pass

    def read_end(self):
        pass

    def read_chain(self):
        self.value("t")
        if self.takes("LINE") or not self.ends_here():
            self.now.parts["line"] = self.token()
            self.value("n")

    def read_sleep(self):
        self.value("n")

    def read_open(self):
        self.value("t")
        if self.takes("FOR"):
            self.now.parts["for"] = self.takes("INPUT", "OUTPUT") or self.fail("INPUT or OUTPUT")
        self.need("AS", "FOR INPUT, FOR OUTPUT or AS FILE")
        self.need("FILE")
        self.takes("#")
        self.now.parts["channel"] = self.token().word.rstrip("%") if self.token() else ""
        self.value("n")
        for option in ("RECORDSIZE", "CLUSTERSIZE", "MODE"):
            if self.word() == "," and self.word(1) == option:
                self.at += 2
                begins = self.place()
                self.value("n")
                self.now.parts[option] = self.text_since(begins)
        if self.word() == ",":
            self.take()
            self.fail("RECORDSIZE, CLUSTERSIZE or MODE, in this order")

    def read_close(self):
        def one():
            self.takes("#")
            self.value("n")
        self.many(one)

    def record(self):
        self.channel()
        if self.takes(","):
            self.need("RECORD", "RECORD and the number of a block")
            begins = self.place()
            self.value("n")
            self.now.parts["record"] = self.text_since(begins)

    def read_get(self):
        self.record()

    def read_put(self):
        self.record()

    def read_unlock(self):
        self.channel()

    def read_field(self):
        def part():
            self.value("n")
            self.need("AS")
            self.now.stores.append(Name(self.name("t"), False))
        self.channel()
        self.need(",")
        self.many(part)

    def read_lset(self):
        self.now.parts["into"] = Name(self.name("t"), False)
        self.need("=")
        self.value("t")

    def read_rset(self):
        self.read_lset()

    def read_kill(self):
        self.value("t")

    def read_name(self):
        self.value("t")
        self.need("AS")
        self.value("t")

    def read_mat(self):
        if self.takes("READ"):
            return self.many(lambda: self.now.stores.append(Name(self.name("n"), True)))
        if self.takes("PRINT"):
            self.now.reads.append(Name(self.name("n"), True))
            return self.takes(";", ",")
        self.now.stores.append(Name(self.name("n"), True))
        self.need("=")
        return self.matrix()

    def matrix(self):
        if self.takes("ZER", "CON", "IDN"):
            return
        if self.takes("TRN"):
            self.need("(", "an opening parenthesis")
            self.now.reads.append(Name(self.name("n"), True))
            self.need(")", "a closing parenthesis")
        elif self.takes("("):
            self.value("n")
            self.need(")", "a closing parenthesis")
            self.need("*")
            self.now.reads.append(Name(self.name("n"), True))
        else:
            self.now.reads.append(Name(self.name("n"), True))
            if self.takes("+", "-", "*"):
                self.now.reads.append(Name(self.name("n"), True))


def counted(function, arguments):
    return f"{function} has {len(arguments)} argument{'s' if len(arguments) > 1 else ''} in parentheses"


def kind_of(name):
    return "t" if name.endswith("$") else "n"


def statements_of(line, place):
    """The statements of a line from a place on, and its separators: how many statements come before each, and its place."""
    reader = Reader(line, place)
    return reader.line_of(), reader.separators
