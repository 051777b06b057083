#!/usr/bin/env python3
"""links.py: whether each link of the documents leads to a file that is here, and each anchor to a heading of that file.

It looks at every .md file that git has. Links to other hosts are left out. The last line is 'links: N passed, M failed'.
"""
import os, re, subprocess, sys

LINK = re.compile(r"\]\(([^()\s]+)\)")


def without_code(text):
    return re.sub(r"^```.*?^```", "", text, flags=re.M | re.S)


def anchors(path):
    """The anchors of a document's headings, as browsers of repositories make them."""
    found = set()
    with open(path, encoding="utf-8") as file:
        for title in re.findall(r"^#+ (.+)$", without_code(file.read()), re.M):
            words = re.sub(r"[^\w\- ]", "", re.sub(r"\[([^\]]*)\]\([^)]*\)", r"\1", title.strip()).lower())
            anchor = words.replace(" ", "-")
            found.add(anchor if anchor not in found else f"{anchor}-1")
    return found


def main():
    os.chdir(os.path.dirname(os.path.dirname(os.path.abspath(__file__))))
    passed = failed = 0
    for name in subprocess.run(["git", "ls-files", "*.md"], capture_output=True, text=True, check=True).stdout.split():
        with open(name, encoding="utf-8") as file:
            text = re.sub(r"`[^`\n]*`", "", without_code(file.read()))
        for link in LINK.findall(text):
            if re.match(r"[a-z]+:", link):
                continue
            path, _, anchor = link.partition("#")
            target = os.path.normpath(os.path.join(os.path.dirname(name), path)) if path else name
            stands = os.path.exists(target) and (not anchor or target.endswith(".md") and anchor in anchors(target))
            passed, failed = passed + stands, failed + (not stands)
            if not stands:
                print(f"links: {name}: {link} leads nowhere")
    print(f"links: {passed} passed, {failed} failed")
    return 1 if failed else 0


if __name__ == "__main__":
    sys.exit(main())
