"""The words of antt, for the checks of this folder."""
import re

# a name of antt is a run of these; a path, or `.field`, is one word
PLAIN = r'[^\s(){}.;,@"«»]'
ANTT = re.compile(rf'\{{-|--[^\n]*|"(?:\\.|[^"\\])*"|\.?{PLAIN}+(?:\.{PLAIN}+)*|\S', re.S)


def behind(text, at, opening, closing):
    """The place behind a comment whose opening ends at a place; comments nest."""
    depth = 1
    for sign in re.compile(f"{re.escape(opening)}|{re.escape(closing)}").finditer(text, at):
        depth += 1 if sign.group() == opening else -1
        if not depth:
            return sign.end()
    return len(text)


def antt(text, at=0, end=None):
    """The words of antt from a place on, comments and quoted texts left out, up to a sign outside of braces; and the place behind it."""
    words, depth = [], 0
    while token := ANTT.search(text, at):
        word, at = token.group(), token.end()
        if word == "{-":
            at = behind(text, at, "{-", "-}")
        elif word == end and not depth:
            return words, at
        elif not word.startswith(("--", '"')):
            depth += (word == "{") - (word == "}")
            words.append(word)
    return words, at


def bare(text):
    """The text of antt with its lines, a blank for each comment and each quoted text."""
    kept, at = [], 0
    while token := ANTT.search(text, at):
        kept.append(text[at : token.start()])
        word, at = token.group(), token.end()
        if word == "{-":
            at = behind(text, at, "{-", "-}")
        kept.append(" " if word.startswith(("{-", "--", '"')) else word)
    return "".join(kept) + text[at:]


assert bare('a-b : "{-" -- {-\n{- c {- -} -- -}d {-') == "a-b :    \n d  "
