"""What the tools of this folder share: the parts of a file of code, of definitions or proofs, and its words."""
import os
import re

CODE, COMMENT, STRING = "code", "comment", "string"
# A word of code; in definitions and proofs words may be joined by hyphens, as the goals are that the prover names.
WORD = re.compile(r"[\w◌][\w'◌]*")
JOINED = re.compile(r"[\w◌][\w'◌]*(?:-[\w'◌]+)*")
CHARACTER = re.compile(r"'(\\.[^']*|[^'\\])'")
RAW = re.compile(r'b?r(#*)"')


def is_definition(path):
    return path.endswith(".antt")


def comment_end(text, at, closing):
    """The end of a comment that begins here: of the line, or behind the closing mark."""
    end = text.find(closing, at)
    if end < 0:
        return len(text)
    return end if closing == "\n" else end + len(closing)


def string_end(text, at):
    """The end of a string whose first quote is here."""
    at += 1
    while at < len(text) and text[at] != '"':
        at += 2 if text[at] == "\\" else 1
    return at + 1


def special(text, at, definition):
    """The kind and the end of what begins here and is no code; None where code goes on."""
    before = text[at - 1] if at else " "
    if definition:
        if text.startswith("--", at) and before in " \n\t({":
            return COMMENT, comment_end(text, at, "\n")
        if text.startswith("{-", at):
            return COMMENT, comment_end(text, at, "-}")
    else:
        if text.startswith("//", at):
            return COMMENT, comment_end(text, at, "\n")
        if text.startswith("/*", at):
            return COMMENT, comment_end(text, at, "*/")
        raw = None if before.isalnum() or before in "_'" else RAW.match(text, at)
        if raw:
            return STRING, comment_end(text, raw.end(), '"' + raw[1])
        character = None if before.isalnum() or before in "_'" else CHARACTER.match(text[at:at + 12])
        if character:
            return STRING, at + character.end()
    if text[at] == '"':
        return STRING, string_end(text, at)
    return None


def parts(path, text):
    """The parts of a file in their order, each as its kind and its text."""
    definition, found, begun, at = is_definition(path), [], 0, 0
    while at < len(text):
        other = special(text, at, definition)
        if other is None:
            at += 1
            continue
        if at > begun:
            found.append((CODE, text[begun:at]))
        kind, end = other
        found.append((kind, text[at:end]))
        begun = at = end
    if at > begun:
        found.append((CODE, text[begun:]))
    return found


def files(root, kinds=("src", "specs", "proofs")):
    """The files of these kinds of all crates, as paths below the root."""
    for crate in sorted(os.listdir(os.path.join(root, "crates"))):
        for kind in kinds:
            for folder, _, names in os.walk(os.path.join(root, "crates", crate, kind)):
                for name in sorted(names):
                    if name.endswith((".rt", ".antt", ".edit")):
                        yield os.path.relpath(os.path.join(folder, name), root)
