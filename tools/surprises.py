"""Warns of what is accepted and surprises: each function takes a program and yields lines, places and texts."""
import re

JUMPS_AWAY = ("GOTO", "RETURN", "END", "RESUME", "CHAIN", "ON GOTO")


# CLAUSES

def runs_either_way(program):
    """Finds IF c THEN a : b, in which b runs whether c holds or not."""
    for line in program.counted:
        for number, statement in enumerate(line.statements):
            following = line.statements[number + 1:]
            if statement.kind == "IF" and following and not leaves(statement):
                word = line.text[following[0].place:].split(" ")[0][:12]
                yield line, following[0].place, f"{word} runs whether the IF before it holds or not: an IF ends at the colon"


def leaves(statement):
    """Returns whether the clause of an IF goes elsewhere, so that what follows runs only if the IF does not hold."""
    return falls_not(statement.clauses[0])


def falls_not(statement):
    """Returns whether the next statement is never reached from this one."""
    if statement.modifiers:
        return False
    if statement.kind == "IF":
        return statement.has_else and all(falls_not(it) for it in statement.clauses)
    return statement.kind in JUMPS_AWAY


# LOOPS

def closes_another(program):
    """Finds a loop in a loop with the same variable: the first NEXT closes the inner one."""
    open_loops = []
    for line in program.counted:
        for statement in line.all():
            yield from inner_loop(line, statement, open_loops)
            if statement.kind == "FOR":
                open_loops.append((statement.parts["variable"].word, line.number))
            elif statement.kind == "NEXT":
                yield from closed_loop(line, statement, open_loops)


def inner_loop(line, statement, open_loops):
    variables = [(word, place) for kind, place, word in statement.modifiers if kind == "FOR"]
    if statement.kind == "FOR":
        variables.append((statement.parts["variable"].word, statement.place))
    for word, place in variables:
        outer = [number for variable, number in open_loops if variable == word]
        if outer:
            yield line, place, f"this FOR changes {word}, the variable of the loop that begins in line {outer[-1]}"


def closed_loop(line, statement, open_loops):
    word = statement.parts["variable"].word
    same = [number for variable, number in open_loops if variable == word]
    if len(same) > 1:
        yield line, statement.place, f"this NEXT closes the FOR of line {same[-1]}, and not that of line {same[-2]}"
    if open_loops and open_loops[-1][0] == word:
        open_loops.pop()


# VARIABLES

def is_never_stored(program):
    """Finds a variable that is read and never stored. At a STOP a person may store it."""
    statements = [(line, statement) for line in program.counted for statement in line.all()]
    if any(statement.kind == "STOP" for _, statement in statements):
        return
    stored = {name.key() for _, statement in statements for name in statement.stores}
    for _, statement in statements:
        stored.update(it.word for it in statement.parts.get("parameters", []))
        if statement.parts.get("in_file"):
            stored.update(it.key() for it in statement.parts["arrays"])
    seen = set()
    for line, statement in statements:
        for name in statement.reads:
            if name.key() not in stored and name.key() not in seen:
                seen.add(name.key())
                zero = "the empty string" if name.word.endswith("$") else "0"
                yield line, name.place, f"{name.key()} is read and never stored, so it is {zero}"


# LINES THAT NOTHING REACHES

class Flow:
    """Which statements of the program may come after which."""

    def __init__(self, program):
        self.steps = [(line, statement) for line in program.counted for statement in line.statements or [None]]
        self.first = {}
        for at, (line, _) in enumerate(self.steps):
            self.first.setdefault(line.number, at)
        self.after_next, self.after_body = self.pairs()

    def pairs(self):
        """Returns where a FOR without a turn goes on, and a DEF that is passed over."""
        after_next, after_body, loops, bodies = {}, {}, [], []
        for at, (_, statement) in enumerate(self.steps):
            kind = statement.kind if statement else ""
            if kind == "FOR":
                loops.append(at)
            elif kind == "NEXT" and loops:
                after_next[loops.pop()] = at + 1
            elif kind == "DEF" and not statement.parts["is_line"]:
                bodies.append(at)
            elif kind == "FNEND" and bodies:
                after_body[bodies.pop()] = at + 1
        return after_next, after_body

    def next_of(self, at):
        """Returns the steps that may come after this one."""
        statement = self.steps[at][1]
        if statement is None:
            return [at + 1]
        if at in self.after_body:
            return [self.after_body[at]]
        found = [self.first[jump.line] for it in statement.all() for jump in it.jumps if jump.line in self.first]
        if at in self.after_next:
            found.append(self.after_next[at])
        if statement.kind == "FNEND" or falls_not(statement):
            return found
        return found + [at + 1]

    def reached(self, entries):
        # A call enters the body of a function, wherever the program is.
        todo, seen = [0] + [self.first[it] for it in entries if it in self.first] + [at + 1 for at in self.after_body], set()
        while todo:
            at = todo.pop()
            if at not in seen and at < len(self.steps):
                seen.add(at)
                todo += self.next_of(at)
        return seen


def is_not_reached(program, entries=()):
    """Finds a line after an END, a GOTO or the like that no line names; nothing, if a CHAIN enters at an unknown line."""
    if entries is None:
        return
    flow = Flow(program)
    reached, warned = flow.reached(entries), False
    for at, (line, statement) in enumerate(flow.steps):
        if at in reached:
            warned = False
        elif statement and statement.kind not in ("DATA", "DIM", "DEF", "FNEND", "END") and not warned:
            warned = True
            yield line, statement.place, f"this is never reached: {why_not_reached(program, flow, at)}"


def why_not_reached(program, flow, at):
    """Says why nothing reaches a step, the first of those that are not reached."""
    line, statement = flow.steps[at]
    if statement is not line.statements[0]:
        return "the statement before it jumps away or ends the program"
    if any(jump.line == line.number for other in program.counted for it in other.all() for jump in it.jumps):
        return "the line before it jumps away or ends the program, and the lines that jump here are never reached either"
    before = flow.steps[at - 1][1]
    if before and before.kind == "ON GOTO":
        return "ON jumps away or fails with error 58, and no line jumps here"
    return "the line before it jumps away or ends the program, and no line jumps here"


def entries_by(programs):
    """Returns the lines at which a CHAIN of these programs enters another one, or None if one is computed."""
    found = []
    for program in programs:
        for line in program.counted:
            for statement in line.all():
                token = statement.parts.get("line") if statement.kind == "CHAIN" else None
                if token and token.kind != "number":
                    return None
                if token:
                    found.append(int(token.word.rstrip("%")))
    return found


# FILES

def is_a_lost_update(program):
    """Finds a GET without MODE 1 and a PUT of the same record on the same channel, of a file that is not made anew."""
    modes = open_modes(program)
    got = {}
    for line in program.counted:
        for statement in line.all():
            channel, record = statement.parts.get("channel"), statement.parts.get("record", "")
            if statement.kind == "GET" and record:
                got[channel, record.replace(" ", "").upper()] = line.number
            elif statement.kind == "PUT" and (channel, record.replace(" ", "").upper()) in got and modes.get(channel) == {"shared"}:
                number = got[channel, record.replace(" ", "").upper()]
                yield line, statement.place, f"another job may have changed the record since the GET in line {number}; open the file with MODE 1%, which locks it from GET to PUT"


def open_modes(program):
    """Returns how each channel that is given in digits is opened: shared, for update, or made anew."""
    modes = {}
    for line in program.counted:
        for statement in line.all():
            if statement.kind == "OPEN":
                mode = statement.parts.get("MODE", "0").rstrip("%")
                how = "new" if statement.parts.get("for") == "OUTPUT" else "shared" if mode == "0" else "update"
                modes.setdefault(statement.parts["channel"], set()).add(how)
    return modes


# FORMATS OF PRINT USING

FORMAT_SIGNS = [
    (r"#\.#", "there is no decimal point in a format: this prints two numbers with a point between"),
    (r"#,#", "there is no comma for thousands in a format: this prints two numbers with a comma between"),
    (r"\$\$#?", "there is no $$ in a format: both are printed as they are"),
    (r"\^\^\^\^", "there is no exponent in a format: ^^^^ is printed as it is"),
    (r"[+]#", "there is no + in a format: it is printed as it is"),
    (r"&", "& is not a field of a format: it is printed as it is; for a string write ! or \\ \\"),
    (r"'[LRCE]+", "' is not a field of a format: it is printed as it is; for a string write ! or \\ \\"),
]


def has_odd_format(program):
    """Finds a format with signs that mean more elsewhere."""
    for line in program.counted:
        for statement in line.all():
            token = statement.parts.get("format")
            if token and token.kind == "text":
                for sign, text in FORMAT_SIGNS:
                    found = re.search(sign, token.text[1:-1])
                    if found:
                        yield line, token.place + 1 + found.start(), text
                        break


# LINES

def is_replaced(program):
    """Finds a line number that comes again."""
    before = {}
    for line in program.lines:
        if line.number in before and line.number is not None:
            yield line, 0, f"this replaces line {line.number}, which was given in line {before[line.number]} of the file"
        before[line.number] = line.place


WARNINGS = (runs_either_way, closes_another, is_never_stored, is_a_lost_update, has_odd_format, is_replaced)

# Those that look at one line at a time, and so also hold in a program with rejected lines.
OF_ONE_LINE = (runs_either_way, has_odd_format, is_replaced)


def surprises(program, entries):
    """Returns all warnings of the program, in the order of its lines."""
    found = [it for warns in WARNINGS for it in warns(program)] + list(is_not_reached(program, entries))
    return sorted(found, key=lambda it: (it[0].place, it[1]))
