"""The comments and docstrings of Python files: their sentences, and the words of docs/STYLE.md's list in them."""

import io
import re
import tokenize

from page_rules import SPAN, words_in

MOST_WORDS = 25
SENTENCE = re.compile(r"(?<=[.!?])\)?\s+")


def comments(text):
    """Yields the comments of a file and its docstrings, each as a text of one or several lines."""
    lines, last, before = [], 0, tokenize.NEWLINE
    for token in tokenize.generate_tokens(io.StringIO(text).readline):
        if token.type == tokenize.NL:
            continue
        is_line = token.type == tokenize.COMMENT and token.line.lstrip().startswith("#")
        if lines and not (is_line and token.start[0] == last + 1):
            yield "\n".join(lines)
            lines = []
        if is_line:
            lines, last = [*lines, token.string[1:].removeprefix(" ")], token.start[0]
        elif token.type == tokenize.COMMENT:
            yield token.string[1:].strip()
        elif token.type == tokenize.STRING and before in (tokenize.INDENT, tokenize.NEWLINE):
            yield token.string.strip('"')
        if token.type != tokenize.COMMENT:
            before = token.type


def sentences(comment):
    """Yields the sentences of a comment, without lines indented by four spaces and paragraphs that begin with `usage:`.
    """
    indents = [len(line) - len(line.lstrip()) for line in comment.split("\n")[1:] if line.strip()]
    margin = " " * min(indents, default=0)
    lines = [line.removeprefix(margin) for line in comment.split("\n")]
    kept = "\n".join(re.sub("^- ", "\n", line) for line in lines if not line.startswith("    "))
    for part in re.split(r"\n\s*\n", kept):
        if not part.lstrip().startswith("usage:"):
            yield from SENTENCE.split(" ".join(part.split()))


def faults_in(text):
    """Yields each sentence with too many words; and for each word of the list, the word and its sentence."""
    for sentence in (one for comment in comments(text) for one in sentences(comment)):
        if len(SPAN.sub("x", sentence).split()) > MOST_WORDS:
            yield sentence
        yield from (f"{word}: {line}" for word, line in words_in(sentence))
