#!/usr/bin/env python3
"""sentences.py [FILE..]: whether the documents that users read are plain: no sentence over 35 words, and none of the words below.

Without names it looks at the documents of PLAIN. Code blocks, tables, headings and pictures are left out; code in backticks counts as one word,
and a link as its text. A sentence ends at '.', '?' or '!' before a blank, and where its paragraph or its point of a list ends. Each fault is
printed with its file and line. The last line is 'sentences: N passed, M failed', which counts sentences.
"""
import os, re, sys

MOST = 35
PLAIN = ["README.md", "CONTRIBUTING.md", "examples/README.md", "recorder/README.md"] + [
    f"docs/{it}.md" for it in "README QUESTIONS LIBRARY TRACE SCRIPT DIFFERENCES LEGALITY REACTOR RUNS SERVER SPEED ARCHITECTURE DECISIONS CONVENTIONS BELIEVE".split()
]
# Words that make a reader solve a sentence: name the thing again, put the thing that acts first, or say 'if and only if'.
SOLVED = re.compile(
    r"\b(that one|this one|such an?|the former|the latter|exactly there|exactly where|who|whoever|whose|whom|as it were|save that|hereof|thereof)\b", re.I
)
ENDS = re.compile(r"(?<=[.?!])[)\"*_]*\s+(?=[\"(*_`]*[A-Z0-9`])")


def paragraphs(text):
    """The paragraphs and the points of lists of a document, each with the number of its first line."""
    inside, lines, first = False, [], 0
    for number, line in enumerate(text.split("\n"), 1):
        if line.startswith("```"):
            inside = not inside
        begins = re.match(r"\s*([-*]|\d+\.) ", line)
        is_text = not inside and line.strip() and not re.match(r"\s*(#|\||!\[|```)", line)
        if lines and (begins or not is_text):
            yield first, " ".join(lines)
            lines = []
        if is_text:
            first = first if lines else number
            lines.append(re.sub(r"^\s*([-*]|\d+\.) ", "", line).strip())
    if lines:
        yield first, " ".join(lines)


def sentences(text):
    text = re.sub(r"`[^`]*`", "CODE", text)
    text = re.sub(r"!?\[([^\]]*)\]\([^)]*\)", r"\1", text)
    return [it for it in ENDS.split(text) if it.strip()]


def main(names):
    os.chdir(os.path.dirname(os.path.dirname(os.path.abspath(__file__))))
    passed = failed = 0
    for name in names or PLAIN:
        with open(name, encoding="utf-8") as file:
            text = file.read()
        for line, paragraph in paragraphs(text):
            for sentence in sentences(paragraph):
                count = len(re.findall(r"[\w'’]+(?:[-./,:][\w'’]+)*", sentence))
                solved = SOLVED.search(sentence)
                if count > MOST or solved:
                    why = f"'{solved[0]}'" if solved else f"{count} words"
                    print(f"sentences: {name}:{line}: {why}: {sentence[:160]}")
                    failed += 1
                else:
                    passed += 1
    print(f"sentences: {passed} passed, {failed} failed")
    return 1 if failed else 0


if __name__ == "__main__":
    sys.exit(main(sys.argv[1:]))
