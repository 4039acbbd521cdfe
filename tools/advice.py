"""Says what is wrong in a rejected line, and what to do: a table of mistakes, of which the first that fits is used."""
import re

from scanner import FLOATING_LITERAL, FLOATING_NAME, FUNCTIONS, KEYWORDS, OPEN_STRING, STRAY, WIDE, capitals
from spelling import distance

SYNTAX, DEEP = "Syntax error", "Expression too deep"
ALL = (FLOATING_NAME, FLOATING_LITERAL, WIDE, OPEN_STRING, STRAY, SYNTAX)
WORD = re.compile(r"[A-Za-z0-9_.]+[%$!#&]?")

NO_FLOATS = "all numbers are integers"
# Words of other BASICs, some of the full BASIC-PLUS, and what to write here.
OTHER_WORDS = {
    "ABS": "write ABS%(n)",
    "APPEND": "there is no APPEND; open the file without FOR, and write after its last record",
    "ATN": f"there is no ATN: {NO_FLOATS}",
    "BEEP": "write PRINT CHR$(7);",
    "BUFSIZ": "there is no BUFSIZ; a buffer has 512 bytes, or what RECORDSIZE says",
    "CALL": "there are no subprograms; write GOSUB and a line number, or DEF a function",
    "CASE": "there is no SELECT CASE; write ON n GOTO, or several IF",
    "CHANGE": "there is no CHANGE; take bytes by ASCII(MID(A$,I%,1%)), and build a string by CHR$",
    "CINT": "leave it out: all numbers are integers",
    "CLEAR": "leave it out: RUN clears all variables",
    "CLS": "there is no screen control; leave it out",
    "COLOR": "there is no screen control; leave it out",
    "CONST": "there are no constants; store the number in a variable",
    "COS": f"there is no COS: {NO_FLOATS}",
    "DATE$": "there is no clock; ask for the date by INPUT",
    "DEFINT": "leave it out: write % after each integer variable",
    "DEFSTR": "leave it out: write $ after each string variable",
    "DET": "there is no DET",
    "DIMENSION": "write DIM",
    "DO": "there is no DO; write FOR .. NEXT, or a modifier: statement WHILE condition",
    "EDIT$": "there is no EDIT$; XLATE translates bytes",
    "ENDFUNCTION": "write FNEND",
    "EOF": "there is no EOF; trap error 11 by ON ERROR GOTO",
    "ERASE": "there is no ERASE; RUN clears all arrays",
    "ERROR$": "write SYS(CHR$(6%)+CHR$(9%)+CHR$(ERR)), which gives the text of an error",
    "EXIT": "there is no EXIT; write GOTO and a line number",
    "EXP": f"there is no EXP: {NO_FLOATS}",
    "EXTEND": "leave it out: names are one letter here",
    "FILL$": "write STRING$(n,byte) or SPACE$(n)",
    "FIX": "leave it out: all numbers are integers",
    "FREE": "there is no FREE; CAT shows the blocks of files",
    "FUNCTION": "write DEF FN, a letter and % or $, and FNEND after its lines",
    "HEX$": "there is no HEX$",
    "HOME": "there is no screen control; leave it out",
    "HTAB": "write TAB(n) in PRINT",
    "INKEY$": "a terminal sends whole lines; write INPUT LINE A$",
    "INT": "leave it out: all numbers are integers, and / gives one",
    "INV": "there is no INV of a matrix",
    "LCASE$": "there is no LCASE$; XLATE translates bytes",
    "LINPUT": "write INPUT LINE A$",
    "LOCATE": "there is no screen control; write TAB(n) in PRINT",
    "LOF": "there is no LOF; CAT shows the blocks of files",
    "LOG": f"there is no LOG: {NO_FLOATS}",
    "LOWER$": "there is no LOWER$; XLATE translates bytes",
    "LOG10": f"there is no LOG10: {NO_FLOATS}",
    "LOOP": "there is no LOOP; write FOR .. NEXT, or GOTO",
    "LPRINT": "programs cannot print on the line printer; write a file, and QUE it",
    "LTRIM$": "there is no LTRIM$; MID takes a part of a string",
    "MAGTAPE": "there are no tapes",
    "MOD": "there is no MOD; write A%-A%/B%*B%",
    "NOEXTEND": "leave it out",
    "OCT$": "there is no OCT$",
    "OPTION": "leave it out: subscripts begin at 0",
    "PAUSE": "write SLEEP n",
    "PEEK": "there is no memory to look at; leave it out",
    "PI": f"there is no PI: {NO_FLOATS}",
    "PLACE$": "there is no arithmetic on strings",
    "POKE": "there is no memory to change; leave it out",
    "PROD$": "there is no arithmetic on strings",
    "QUO$": "there is no arithmetic on strings",
    "RAD$": "there is no RAD$, which gives three letters for a number",
    "RANDOM": "there are no random numbers",
    "RANDOMIZE": "there are no random numbers",
    "REPEAT": "there is no REPEAT; write a modifier: statement UNTIL condition, or GOTO",
    "RND": "there are no random numbers; write your own, as R%=(R%*77%+3%) AND 32767%",
    "RTRIM$": "there is no RTRIM$; LEFT takes a part of a string",
    "SCREEN": "there is no screen control; leave it out",
    "SELECT": "there is no SELECT CASE; write ON n GOTO, or several IF",
    "SEG$": "write MID(t,n,k), where k is the number of bytes and not the last place",
    "SIN": f"there is no SIN: {NO_FLOATS}",
    "SPC": "write SPACE$(n)",
    "SQR": f"there is no SQR: {NO_FLOATS}",
    "SQRT": f"there is no SQRT: {NO_FLOATS}",
    "STR$": "write NUM1$(n), which gives the digits of a number",
    "SUM$": "there is no arithmetic on strings",
    "SWAP": "there is no SWAP statement; use a third variable (SWAP%(n) exchanges the bytes of a number)",
    "TAN": f"there is no TAN: {NO_FLOATS}",
    "TIME": "there is no clock",
    "TIME$": "there is no clock; ask for the time by INPUT",
    "TIMER": "there is no clock",
    "TRIM$": "there is no TRIM$; LEFT and RIGHT take parts of a string",
    "TRM$": "there is no TRM$; LEFT takes a part of a string",
    "UCASE$": "there is no UCASE$; XLATE translates bytes",
    "UPPER$": "there is no UPPER$; XLATE translates bytes",
    "VTAB": "there is no screen control; write PRINT for an empty line",
    "WAIT": "write SLEEP n",
    "WEND": "there is no WHILE .. WEND; write a modifier: statement WHILE condition, or GOTO",
}


class Spot:
    """The place of a rejected line, what is before and after it, and the word there."""

    def __init__(self, line, place, cause, wanted, names):
        self.line, self.place, self.cause, self.wanted, self.names = line, place, cause, wanted, names
        self.head, self.rest = capitals(line[:place]), capitals(line[place:])
        self.word, self.word_place = self.word_here()

    def word_here(self):
        """Returns the run of letters and digits over the place, and where it begins. A name after a keyword is a word of its own."""
        if self.cause == FLOATING_NAME and self.letter_name() and not re.search(r"GOTO$|GOSUB$", self.head):
            return self.letter_name(), self.place
        if self.cause == FLOATING_NAME:
            for found in WORD.finditer(self.line):
                if found.start() <= self.place < found.end():
                    start = found.start() + len(re.match(r"[0-9]*", found[0])[0])
                    return capitals(self.line[start:found.end()]), start
        found = re.compile(r"[A-Za-z0-9]+[%$]?|\"[^\"]*\"|'[^']*'|\S").match(self.line, self.place)
        return (capitals(found[0]), self.place) if found else ("", self.place)

    def letter_name(self):
        """The one letter and perhaps digit at the place, if no more letters follow."""
        found = re.match(r"([A-Z][0-9]?)(?![A-Z0-9_$%.])", self.rest)
        return found[1] if found else None

    def free_name(self, word, mark):
        """Returns a name for a long one: its letter, or the letter and a digit, which is not in use."""
        names = [word[0] + mark] + [f"{word[0]}{digit}{mark}" for digit in range(10)]
        return next((it for it in names if it not in self.names), names[0])


class Row:
    """A mistake: its name, the causes, patterns of what is before and after the place, and what is said.

    `{word}` is the word at the place, `{wanted}` what may be there."""

    def __init__(self, name, causes, text, head=None, rest=None, where=None):
        self.name, self.causes, self.text, self.where = name, causes, text, where
        self.head = re.compile(f"(?:{head})$", re.S) if head else None
        self.rest = re.compile(rest, re.S) if rest else None

    def says(self, spot):
        if spot.cause not in self.causes:
            return None
        if self.head and not self.head.search(spot.head) or self.rest and not self.rest.match(spot.rest):
            return None
        if self.where and not self.where(spot):
            return None
        if callable(self.text):
            return self.text(spot)
        return self.text.format(word=spot.word, wanted=spot.wanted)


# ENTRIES THAT LOOK CLOSER

def other_word(spot):
    """Explains a word of another BASIC, at the place or over it."""
    here = re.match(r"[A-Z0-9]+\$?", spot.rest)
    for word in (spot.word.rstrip("%!#&"), spot.word.rstrip("%!#&$"), here[0] if here else "", here[0].rstrip("$") if here else ""):
        if word in OTHER_WORDS:
            return f"{word} is not a word of this BASIC; {OTHER_WORDS[word]}"
    return None


def misspelled(spot):
    word = re.match(r"[A-Z]*\$?", spot.word)[0]
    if len(word) < 3 or re.fullmatch(r"FN[A-Z]", word):
        return None
    near = [it for it in KEYWORDS if len(it) > 2 and it[0] == word[0] and distance(word, it) == 1]
    near += [it for it in KEYWORDS if len(it) > 2 and it not in near and distance(word, it) == 1]
    near += [it for it in KEYWORDS if len(word) > 5 and len(it) > 5 and it not in near and distance(word, it) == 2]
    return f"{word} is not a word of this BASIC; is {near[0]} meant?" if near else None


def one_letter(spot):
    name = spot.letter_name()
    if name is None or spot.word_place != spot.place:
        return None
    blank = re.match(rf"{name}[ \t]+([%$])", spot.rest)
    if blank:
        return f"delete the blank: {blank[1]} belongs to the name, as {name}{blank[1]}"
    if re.match(rf"{name}[!#&]", spot.rest):
        return f"there is no floating point, so no name ends in {spot.rest[len(name)]}; write {name}%"
    if re.search(r"(?:FOR|NEXT)[ \t]*$", spot.head):
        return f"{name} is a floating-point variable, and there are none; write {name}% (an integer)"
    return f"{name} is a floating-point variable, and there are none; write {name}% (an integer) or {name}$ (a string)"


def function_name(spot):
    found = re.match(r"FN[A-Z][0-9]?", spot.rest)
    if not found:
        return None
    if re.match(r"FN[A-Z][0-9]?[A-Z]", spot.rest):
        return "the name of a function is FN, one letter, perhaps a digit, and % or $"
    return f"the name of a function ends in % or $; write {found[0]}% or {found[0]}$"


def no_function(spot):
    """A long word with arguments."""
    if not re.match(r"[A-Z0-9]{3,}[%$]?[ \t]*\(", spot.rest) or spot.word_place != spot.place:
        return None
    mark = spot.word[-1] if spot.word[-1] in "%$" else "%"
    return f"there is no function {spot.word}; an array's name has one letter, perhaps a digit, and % or $, as {spot.free_name(spot.word, mark)}"


def long_name(spot):
    mark = spot.word[-1] if spot.word[-1] in "%$" else "%"
    return f"names have one letter, perhaps a digit, and % or $; {spot.word} could be {spot.free_name(spot.word, mark)}"


def keyword_name(spot):
    word = re.search(r"[A-Z][A-Z0-9.]*$", spot.head)[0]
    mark = spot.rest[0]
    return f"names have one letter, perhaps a digit, and % or $; {word}{mark} could be {spot.free_name(word, mark)}"


def floating(spot):
    text = re.match(r"[0-9]*\.?[0-9]*(?:E[+-]?[0-9]+)?", spot.rest)[0]
    value = float(text) if text not in ("", ".") else 0.5
    if value == int(value) and value <= 32767:
        return f"{text} is a floating-point number, and there are none; write {int(value)}"
    return f"{text} is a floating-point number, and there are none; count in smaller units, as cents for a price"


def lacks_comma(spot):
    """Returns whether one more argument follows in the parentheses of a function, with no comma before it."""
    return "argument" in spot.wanted and "(" in spot.head and not spot.head.rstrip().endswith(tuple(FUNCTIONS))


def odd_sign(spot):
    byte = ord(spot.line[spot.place])
    if byte < 32 or byte == 127:
        return f"this is a control byte, {byte}; delete it"
    return f"{spot.line[spot.place]} is not a sign of this BASIC"


def next_many(spot):
    """Writes a NEXT for each variable, in the order in which they close their loops."""
    listed = spot.head.rpartition("NEXT")[2] + re.match("[^:]*", spot.rest)[0]
    names = re.findall(r"([A-Z][0-9]?)%?[ \t]*(?=,|$)", listed)
    return "NEXT takes one variable; write " + " : ".join(f"NEXT {it}%" for it in names)


def wanted(spot):
    here = f"{spot.word} cannot be here" if spot.word else "the line ends too early"
    return f"{here}; expected: {spot.wanted}" if spot.wanted else here


MISTAKES = [
    # Names and words.
    Row("one_letter", (FLOATING_NAME,), one_letter),
    Row("sub", (FLOATING_NAME,), "there are no subprograms; write GOSUB and a line number, or DEF a function", head=r"SUB[ \t]*"),
    Row("no_trim", (FLOATING_NAME,), "there is no CVT$$; XLATE translates bytes, and LEFT and RIGHT take parts of a string", rest=r"CVT\$\$"),
    Row("no_float", (FLOATING_NAME,), "there is no floating point; CVT%$ and CVT$% change integers into bytes and back", rest=r"CVT(?:\$F|F\$)"),
    Row("record_option", (FLOATING_NAME,), "the only option of GET and PUT is RECORD", head=r"(?:GET|PUT)[ \t]*#[^:]*,[ \t]*"),
    Row("open_option", (FLOATING_NAME,), "the options of OPEN are RECORDSIZE, CLUSTERSIZE and MODE, in this order", head=r"OPEN\b.*,[ \t]*"),
    Row("other_word", (FLOATING_NAME,), other_word),
    Row("function_name", (FLOATING_NAME,), function_name),
    Row("misspelled", (FLOATING_NAME,), misspelled),
    Row("no_function", (FLOATING_NAME,), no_function),
    Row("long_name", (FLOATING_NAME,), long_name),
    # Numbers, texts and bytes.
    Row("floating", (FLOATING_LITERAL,), floating),
    Row("least", (WIDE,), "32768 is too large even after -; write -32767-1", head=r"-[ \t]*", rest="32768%?(?![0-9])"),
    Row("wide", (WIDE,), "{word} is too large; integers have 16 bits, and the largest is 32767"),
    Row("apostrophe", (OPEN_STRING,), "' begins a string; a comment begins with ! or REM", rest="'"),
    Row("open_text", (OPEN_STRING,), 'the string has no closing quote; write " at its end'),
    Row("curly", (STRAY,), 'this is a typographic quote; write "', rest="\xe2\x80[\x98-\x9f]|[\x91-\x94]"),
    Row("hard_space", (STRAY,), "this is a hard space, which is not ASCII; write a space", rest="\xc2\xa0|\xa0"),
    Row("dash", (STRAY,), "this is a dash, which is not ASCII; write -", rest="\xe2\x80[\x90-\x95]|\xe2\x88\x92|[\x96\x97]"),
    Row("not_ascii", (STRAY,), "this letter is not ASCII; only strings and comments may have others", rest="[\x80-\xff]"),
    Row("question", (STRAY,), "? is not short for PRINT; write PRINT", rest=r"\?"),
    Row("ampersand", (STRAY,), "& is not a sign of this BASIC; join strings by +, and do not continue a line in the next", rest="&"),
    Row("print_at", (STRAY,), "there is no screen control; write TAB(n) in PRINT", head="PRINT *", rest="@"),
    Row("keyword_name", (STRAY,), keyword_name, head="[A-Z]", rest="[%$]"),
    Row("percent", (STRAY,), "% ends a name or a number; delete the blank before it", head=r"[0-9][ \t]+", rest="%"),
    Row("percent_more", (STRAY,), "% ends a name or a number, and there is none before it; delete it", rest="%"),
    Row("dollar", (STRAY,), "$ ends a name, and there is none before it; delete it", rest=r"\$"),
    Row("brackets", (STRAY,), "write subscripts in parentheses: ( and )", rest=r"[\[\]{}]"),
    Row("point", (STRAY,), "there is no decimal point: all numbers are integers", rest=r"\."),
    Row("odd_sign", (STRAY,), odd_sign),
    # IF.
    Row("end_if", (SYNTAX,), "there is no END IF: an IF ends with its line or at a colon", head="END *IF"),
    Row("else_colon", (SYNTAX,), "ELSE belongs to the IF before it; delete the colon", head=r":[ \t]*", rest="ELSE"),
    Row("else_line", (SYNTAX,), "write ELSE in the line of its IF, after the THEN", rest="ELSE"),
    Row("then_block", (SYNTAX,), "write what THEN does in the same line; an IF has no lines of its own", head=r"THEN[ \t]*", rest="$"),
    Row("then_first", (SYNTAX,), "this THEN has no IF before it", rest="THEN", where=lambda spot: spot.wanted == "a statement"),
    Row("one_word", (SYNTAX,), "after IF, write GOTO as one word, or THEN and the line", head=r"IF\b[^:]*", rest=r"GO[ \t]+TO", where=lambda spot: spot.wanted.startswith("THEN")),
    Row("no_then", (SYNTAX,), "THEN is missing: IF condition THEN statement", rest="[A-Z]", where=lambda spot: spot.wanted.startswith("THEN")),
    Row("text_truth", (SYNTAX,), "a string is not a condition; compare it, as A$<>\"\"", head=r"\b(?:IF|WHILE|UNTIL|UNLESS)\b((?!THEN).)*", where=lambda spot: spot.wanted == "a number, or a comparison"),
    # Loops.
    Row("next_alone", (SYNTAX,), "NEXT needs the variable of its FOR, as NEXT I%", head=r"NEXT[ \t]*", rest="$|:"),
    Row("next_many", (SYNTAX,), next_many, head=r"NEXT[ \t]*[A-Z][0-9]?%[ \t]*", rest=","),
    Row("for_while", (SYNTAX,), "FOR counts up to a number, as FOR I%=1% TO 5%; there is no FOR .. {word} over lines", head=r"FOR\b[^:]*", rest="WHILE|UNTIL", where=lambda spot: spot.wanted == "TO"),
    Row("for_text", (SYNTAX,), "FOR counts in an integer variable, as I%", head=r"FOR[ \t]*", rest=r"[A-Z][0-9]?\$"),
    Row("while_first", (SYNTAX,), "{word} comes after a statement, as its modifier: N%=N%+1% {word} condition", rest="WHILE|UNTIL|UNLESS", where=lambda spot: spot.wanted == "a statement"),
    # PRINT and INPUT.
    Row("argument_comma", (SYNTAX,), "write a comma between arguments; {wanted}", rest=r"[A-Z0-9(\"']", where=lacks_comma),
    Row("arguments", (SYNTAX,), "{wanted}", rest=r"[^:=]", where=lambda spot: "argument" in spot.wanted),
    Row("closed", (SYNTAX,), "there is no opening parenthesis for this one", rest=r"\)"),
    Row("using_comma", (SYNTAX,), "write a comma after the format of PRINT USING", where=lambda spot: spot.wanted == "a comma after the format"),
    Row("print_items", (SYNTAX,), "write ; or , between two items of PRINT", where=lambda spot: "between the items" in spot.wanted),
    Row("print_first", (SYNTAX,), "write an item before {word} in PRINT", head=r"PRINT[ \t]*|[;,][ \t]*", rest="[;,]"),
    Row("line_prompt", (SYNTAX,), "INPUT LINE has no prompt; PRINT it before, with ; at the end", head=r"INPUT[ \t]*LINE[ \t]*", rest="[\"']"),
    Row("prompt", (SYNTAX,), "write ; after the prompt of INPUT", where=lambda spot: "after the prompt" in spot.wanted),
    Row("line_input", (SYNTAX,), "write INPUT LINE", rest="LINE[ \t]*INPUT"),
    Row("input_end", (SYNTAX,), "INPUT and READ end after their last variable; delete the ;", head=r"(?:INPUT|READ)[^:]*[%$)][ \t]*", rest=r";[ \t]*(?:$|:)"),
    Row("input_list", (SYNTAX,), "write commas between the variables of INPUT and READ", head=r"(?:INPUT|READ)[^:]*[%$)][ \t]*", rest=";"),
    Row("read_file", (SYNTAX,), "READ takes the items of DATA; write INPUT # for a file", head=r"READ[ \t]*", rest="#"),
    Row("literal_target", (SYNTAX,), "a value can only be stored in a variable", head=r"(?:INPUT|READ|LET)[ \t]*", rest=r"[0-9\"(]"),
    # Jumps.
    Row("computed", (SYNTAX,), "{word} cannot be a line; GOTO and GOSUB take digits, or write ON n GOTO line, line", rest=r"[A-Z(]", where=lambda spot: spot.wanted.startswith("the number of a line")),
    Row("no_line", (SYNTAX,), "the number of a line is missing", rest="$|:", where=lambda spot: spot.wanted.startswith("the number of a line")),
    Row("return_line", (SYNTAX,), "RETURN goes back to its GOSUB; it takes no line", head=r"RETURN[ \t]*", rest="[0-9]"),
    Row("restore_line", (SYNTAX,), "RESTORE begins at the first DATA; it takes no line", head=r"RESTORE[ \t]*", rest="[0-9]"),
    Row("resume_next", (SYNTAX,), "there is no RESUME NEXT; write RESUME and a line number", head=r"RESUME[ \t]*", rest="NEXT"),
    Row("one_word", (SYNTAX,), "after ON, write GOTO and GOSUB as one word", head=r"ON\b[^:]*", rest=r"GO[ \t]+(?:TO|SUB)"),
    # Arrays, functions and values.
    Row("bound", (SYNTAX,), "the bound of an array is digits, not {word}", where=lambda spot: spot.wanted.startswith("a bound")),
    Row("dimensions", (SYNTAX,), "an array has one or two subscripts", rest=",", where=lambda spot: "subscript" in spot.wanted),
    Row("function_target", (SYNTAX,), "no value can be stored in {word}; build the string anew: A$=LEFT(A$,2%)+\"X\"+RIGHT(A$,4%)", rest="(?:MID|LEFT|RIGHT)", where=lambda spot: spot.wanted == "a statement"),
    Row("instr", (SYNTAX,), "INSTR begins with the place to look from: INSTR(1%,A$,B$)", head=r"INSTR[ \t]*\([ \t]*", where=lambda spot: spot.wanted.startswith("a number")),
    Row("string", (SYNTAX,), "STRING$ takes the number of a byte, as STRING$(5%,42%) for five *", head=r"STRING\$[ \t]*\([^,]*,[ \t]*", where=lambda spot: spot.wanted.startswith("a number")),
    Row("parenthesis_text", (SYNTAX,), "a number is expected, and this parenthesis has a string; VAL(t) gives its number", rest=r"\(", where=lambda spot: spot.wanted.startswith("a number")),
    Row("unclosed", (SYNTAX,), "a closing parenthesis is missing", rest="$|:|=", where=lambda spot: re.search("parenthes|argument", spot.wanted) is not None),
    Row("text_wanted", (SYNTAX,), "a string is expected, and {word} is a number; NUM1$(n) gives its digits", rest=r"[0-9(+-]|[A-Z][0-9]?%", where=lambda spot: spot.wanted == "a string"),
    Row("number_wanted", (SYNTAX,), "a number is expected, and {word} is a string; VAL(t) gives its number", rest=r"[\"']|[A-Z][0-9]?\$|(?:FN[A-Z][0-9]?|CHR|SPACE|STRING|NUM1?)\$|LEFT|RIGHT|MID|XLATE|SYS", where=lambda spot: spot.wanted.startswith("a number")),
    Row("mat_input", (SYNTAX,), "there is no MAT INPUT; read the elements in a loop", head=r"MAT[ \t]*", rest="INPUT"),
    Row("def_body", (SYNTAX,), "= is missing after the name and parameters of a function of one line", head=r"DEF\b[^=]*", rest=r"[A-Z0-9(\"-]", where=lambda spot: spot.wanted.startswith("the end of the statement")),
    # Files.
    Row("as_file", (SYNTAX,), "FILE is missing: OPEN name FOR INPUT AS FILE #1", head=r"OPEN\b.*\bAS[ \t]*", rest="#|[0-9]"),
    Row("open_for", (SYNTAX,), "FOR {word} comes before AS: OPEN name FOR {word} AS FILE 1", head=r"OPEN\b[^:]*\bFILE\b[^:]*\bFOR[ \t]*", rest="INPUT|OUTPUT"),
    Row("option_comma", (SYNTAX,), "write a comma before {word}", head=r"OPEN\b[^:]*[^,: \t][ \t]*", rest="MODE|RECORDSIZE|CLUSTERSIZE"),
    Row("open_options", (SYNTAX,), "the options of OPEN are RECORDSIZE, CLUSTERSIZE and MODE, in this order", head=r"OPEN\b.*,[ \t]*"),
    Row("record_option", (SYNTAX,), "the only option of GET and PUT is RECORD", head=r"(?:GET|PUT)[ \t]*#[^:]*,[ \t]*", rest="USING"),
    Row("record", (SYNTAX,), "RECORD is missing: GET #1, RECORD 5", head=r"(?:GET|PUT)[ \t]*#[^,:]*,[ \t]*"),
    Row("hash", (SYNTAX,), "# is missing before the channel", head=r"(?:GET|PUT|UNLOCK|FIELD)[ \t]*", rest="[A-Z0-9]"),
    Row("channel_comma", (SYNTAX,), "write a comma after the channel", head=r"#[ \t]*(?:[0-9]+%?|[A-Z][0-9]?%)[ \t]*", rest=r"[A-Z\";]"),
    Row("field_comma", (SYNTAX,), "write a comma between the parts of FIELD", head=r"FIELD\b[^:]*\$[ \t]*", rest=r"[0-9A-Z(]", where=lambda spot: spot.wanted.startswith("the end")),
    Row("close", (SYNTAX,), "CLOSE needs its channels, as CLOSE 1, 2", head=r"CLOSE[ \t]*", rest="$|:"),
    # What is left.
    Row("double_equal", (SYNTAX,), "write = once to store a value; == only compares", rest="==", where=lambda spot: spot.wanted == "="),
    Row("relation", (SYNTAX,), "the relations are = <> < > <= >= and ==; this is none of them", head="[=<>]", rest="[=<>]"),
    Row("no_equal", (SYNTAX,), "= is missing after the variable", where=lambda spot: spot.wanted == "="),
    Row("ends", (SYNTAX,), "the line ends too early; expected: {wanted}", rest="$", where=lambda spot: spot.wanted),
    Row("wanted", (SYNTAX,), wanted),
    Row("deep", (DEEP,), "the line nests more than 64 parentheses, signs, clauses and modifiers; cut it into two lines"),
]


def advice(spot):
    """Returns the name of the entry that fits, and what it says."""
    for row in MISTAKES:
        text = row.says(spot)
        if text:
            return row.name, text
    return None, spot.cause
