"""Cuts a line of BASIC-PLUS into tokens, as the program's scanner does, and says where it cannot."""
import re

import words

KEYWORDS = sorted(words.keywords(), key=len, reverse=True)
SIGNS = sorted(words.signs(), key=len, reverse=True)
FUNCTIONS = set(words.functions())
MOST_NUMBER = 32767
CAPITALS = str.maketrans("abcdefghijklmnopqrstuvwxyz", "ABCDEFGHIJKLMNOPQRSTUVWXYZ")

FLOATING_NAME, FLOATING_LITERAL, WIDE = "Floating variable", "Floating literal", "Number too wide"
OPEN_STRING, STRAY = "Open string", "Stray byte"


def capitals(text):
    """Returns the text with ASCII letters raised, as long as it was."""
    return text.translate(CAPITALS)


class Refused(Exception):
    """A place of a line that no line has there: the cause, the place from 0, and what may be there."""

    def __init__(self, cause, place, wanted=""):
        super().__init__(cause)
        self.cause, self.place, self.wanted = cause, place, wanted


class Token:
    """A token: its kind, its place from 0, its text, and its word: in capitals, without blanks, in its one spelling."""

    def __init__(self, kind, place, text):
        self.kind, self.place, self.text = kind, place, text
        self.word = {"**": "^", "\\": ":"}.get(text, text) if kind == "sign" else capitals(text)

    def end(self):
        return self.place + len(self.text)


def keyword_at(line, place):
    rest = capitals(line[place:place + 12])
    return next((it for it in KEYWORDS if rest.startswith(it)), None)


def word_at(line, place):
    """Returns the token at a letter."""
    word = keyword_at(line, place)
    if word:
        return Token("comment" if word == "REM" else "keyword", place, line[place:place + len(word)])
    name = re.compile(r"(?i)(fn(?=[a-z]))?[a-z][0-9]?").match(line, place)
    if line[name.end():name.end() + 1] not in ("%", "$"):
        raise Refused(FLOATING_NAME, place)
    return Token("function" if name[1] else "name", place, line[place:name.end() + 1])


def number_at(line, place):
    digits = re.compile(r"[0-9]+").match(line, place)
    if re.compile(r"\.|[eE][+-]?[0-9]").match(line, digits.end()):
        raise Refused(FLOATING_LITERAL, place)
    if int(digits[0]) > MOST_NUMBER:
        raise Refused(WIDE, place)
    end = digits.end() + (line[digits.end():digits.end() + 1] == "%")
    return Token("number", place, line[place:end])


def text_at(line, place):
    end = line.find(line[place], place + 1)
    if end < 0:
        raise Refused(OPEN_STRING, place)
    return Token("text", place, line[place:end + 1])


def sign_at(line, place):
    sign = next((it for it in SIGNS if line.startswith(it, place)), None)
    if sign is None:
        raise Refused(STRAY, place)
    return Token("sign", place, sign)


def token_at(line, place):
    first = line[place]
    if "a" <= first.lower() <= "z":
        return word_at(line, place)
    if "0" <= first <= "9":
        return number_at(line, place)
    if first in "\"'":
        return text_at(line, place)
    if first == "!":
        return Token("comment", place, line[place:])
    return sign_at(line, place)


def tokens_of(line, place=0):
    """Returns the tokens from a place on, up to a comment; what comes after DATA is one token. Raises Refused."""
    tokens = []
    while place < len(line):
        if line[place] in " \t":
            place += 1
            continue
        token = token_at(line, place)
        if token.kind == "comment":
            break
        tokens.append(token)
        place = token.end()
        if token.word == "DATA":
            tokens.append(Token("items", place, line[place:]))
            break
    return tokens
