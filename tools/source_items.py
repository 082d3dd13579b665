"""Reads the items of source files in Rattle: their doc comments, their signatures and their clauses.

`items_of` returns the items of a file in order. Ghost lines and the bodies of functions are skipped.
Comments that aren't doc comments are skipped, too, wherever they are.
"""
import dataclasses
import functools
import re
import textwrap

OPENING, CLOSING = "({[", ")}]"
CHARACTER = re.compile(r"'(?:\\(?:u\{[^}]*\}|x..|.)|[^\\'])'")
STRING = re.compile(r'b?"(?:\\.|[^"\\])*"', re.S)
RAW_STRING = re.compile(r'b?r(#*)".*?"\1', re.S)
WORD = re.compile(r"[A-Za-z_]\w*")
HEAD = re.compile(
    r"(?P<visible>pub(?:\([^)]*\))?\s+)?(?P<also>(?:const|unsafe|extern|async)\s+(?=fn\b))*"
    r"(?P<kind>fn|struct|enum|trait|type|const|static|impl|mod|use|ghost)\b"
)


@dataclasses.dataclass
class Clause:
    keyword: str
    label: str
    text: str


@dataclasses.dataclass
class Item:
    kind: str
    name: str = ""
    visible: str = ""
    docs: list = dataclasses.field(default_factory=list)
    attributes: list = dataclasses.field(default_factory=list)
    signature: str = ""
    clauses: list = dataclasses.field(default_factory=list)
    items: list = dataclasses.field(default_factory=list)
    # Of an impl: the trait, if there is one, and the type.
    trait: str = ""
    subject: str = ""
    # The name of the file, and the number of the item's first line.
    file: str = ""
    line: int = 0
    # Of a function: the text of its body.
    body: str = ""

    @property
    def is_public(self):
        return self.visible == "pub"


class Scanner:
    def __init__(self, text, file):
        self.text, self.at, self.file = text, 0, file

    def fail(self, why):
        line = self.text.count("\n", 0, self.at) + 1
        raise SyntaxError(f"{self.file}:{line}: {why}")

    def line(self):
        return self.text.count("\n", 0, self.at) + 1

    def rest_of_line(self):
        end = self.text.find("\n", self.at)
        end = len(self.text) if end < 0 else end
        found, self.at = self.text[self.at:end], end
        return found

    def skip_blanks(self):
        """Skips white space and comments, and returns the lines of the doc comments among them."""
        docs = []
        while self.at < len(self.text):
            if self.text[self.at].isspace():
                self.at += 1
            elif self.text.startswith("///", self.at) and not self.text.startswith("////", self.at):
                docs.append(self.rest_of_line()[3:].removeprefix(" ").rstrip())
            elif self.text.startswith("//", self.at):
                self.rest_of_line()
            elif self.text.startswith("/*", self.at):
                self.at = self.text.index("*/", self.at) + 2
            else:
                break
        return docs

    def step(self):
        """Skips a literal, a lifetime, a comment or one other character, and returns it."""
        start, char = self.at, self.text[self.at]
        if self.text.startswith(("//", "/*"), start):
            self.skip_blanks()
            return " "
        found = None
        if char in "br" and (start == 0 or not (self.text[start - 1].isalnum() or self.text[start - 1] == "_")):
            found = RAW_STRING.match(self.text, start) or STRING.match(self.text, start)
        elif char == '"':
            found = STRING.match(self.text, start)
        elif char == "'":
            found = CHARACTER.match(self.text, start)
        self.at = found.end() if found else start + 1
        return self.text[start:self.at]

    def balanced(self):
        """Skips a group in brackets, and returns what is inside."""
        start, depth = self.at, 0
        while self.at < len(self.text):
            char = self.step()
            if char in OPENING:
                depth += 1
            elif char in CLOSING:
                depth -= 1
                if not depth:
                    return self.text[start + 1:self.at - 1]
        self.fail("a bracket isn't closed")

    def until(self, ends):
        """Returns the text up to one of these characters, or one of these words, outside of all brackets."""
        found, start = [], self.at
        while self.at < len(self.text):
            char = self.text[self.at]
            word = WORD.match(self.text, self.at)
            if char in ends or word and word[0] in ends:
                return "".join(found)
            if word and not STRING.match(self.text, self.at) and not RAW_STRING.match(self.text, self.at):
                self.at = word.end()
                found.append(word[0])
            elif char in OPENING and char != "{":
                before = self.at
                self.balanced()
                found.append(without_comments(self.text[before:self.at]))
            else:
                found.append(self.step())
        self.at = start
        self.fail(f"none of {ends} follows")

    def clauses(self):
        """Returns the clauses of a function. Its body or its semicolon is next."""
        found = []
        while True:
            self.skip_blanks()
            word = WORD.match(self.text, self.at)
            if not word or word[0] not in ("requires", "ensures"):
                return found
            self.at = word.end()
            label = self.until("{").strip().removeprefix("*").strip()
            found.append(Clause(word[0], label, joined(self.balanced())))

    def item(self, docs, attributes):
        head = HEAD.match(self.text, self.at)
        if not head:
            self.fail("not an item")
        start, line = self.at, self.line()
        item = Item(head["kind"], visible=(head["visible"] or "").strip(), docs=docs, attributes=attributes,
                    file=self.file, line=line)
        self.at = head.end()
        if item.kind == "ghost":
            self.skip_ghost()
            return item
        if item.kind == "fn":
            self.until(("requires", "ensures", "{", ";"))
        elif item.kind in ("const", "static", "type", "use"):
            self.at = start
            item.signature = self.with_braces(";")
            self.at += 1
            return named(item, head)
        else:
            self.until(("{", ";"))
        item.signature = code(self.text[start:self.at], self.column(start))
        named(item, head)
        if item.kind == "fn":
            item.clauses = self.clauses()
        if self.text[self.at] == ";":
            self.at += 1
            return item
        start = self.at + 1
        inside = self.balanced()
        if item.kind == "fn":
            item.body = inside
        else:
            inner = Scanner(self.text[:self.at - 1], self.file)
            inner.at = start
            item.items = inner.members(item.kind) if item.kind in ("struct", "enum") else inner.items()
        return item

    def with_braces(self, end):
        start = self.at
        while self.text[self.at] != end:
            if self.text[self.at] in OPENING:
                self.balanced()
            else:
                self.step()
        return code(self.text[start:self.at], self.column(start))

    def skip_ghost(self):
        """Skips a ghost line up to its semicolon."""
        while self.text[self.at] != ";":
            if self.text[self.at] in OPENING:
                self.balanced()
            else:
                self.step()
        self.at += 1

    def column(self, place):
        return place - self.text.rfind("\n", 0, place) - 1

    def leading(self):
        """Returns the doc lines and the attributes before an item."""
        docs, attributes = self.skip_blanks(), []
        while self.text.startswith("#", self.at):
            start = self.at
            self.at = self.text.index("[", self.at)
            self.balanced()
            attributes.append(self.text[start:self.at])
            docs += self.skip_blanks()
        return docs, attributes

    def items(self):
        found = []
        while True:
            docs, attributes = self.leading()
            if self.at >= len(self.text):
                return found
            if self.text[self.at] == ";":
                self.at += 1
                continue
            found.append(self.item(docs, attributes))

    def members(self, kind):
        """Returns the fields of a struct, or the variants of an enum."""
        found = []
        while True:
            docs, _ = self.leading()
            if self.at >= len(self.text):
                return [it for it in found if it]
            line, start = self.line(), self.at
            while self.at < len(self.text) and self.text[self.at] != ",":
                if self.text[self.at] in OPENING:
                    self.balanced()
                else:
                    self.skip_angles()
            text = self.text[start:self.at]
            self.at += 1
            if text.startswith("ghost "):
                continue
            head = re.match(r"(pub(?:\([^)]*\))?\s+)?(\w+)", text)
            member = Item("field" if kind == "struct" else "variant", head[2], (head[1] or "").strip(), docs,
                          file=self.file, line=line)
            member.signature = code(without_docs(text), self.column(start)).rstrip()
            if kind == "enum" and "{" in text:
                inner = Scanner(text[:text.rindex("}")], self.file)
                inner.at = text.index("{") + 1
                member.items = inner.members("struct")
            found.append(member)

    def skip_angles(self):
        """Skips one step, or a list of generic arguments, in which commas may occur."""
        if self.text[self.at] != "<":
            self.step()
            return
        depth = 0
        while self.at < len(self.text):
            depth += {"<": 1, ">": -1}.get(self.text[self.at], 0)
            if self.text[self.at] in OPENING:
                self.balanced()
            else:
                self.step()
            if not depth:
                return


def without_comments(text):
    return re.sub(r"[ \t]*//[^\n]*\n", "\n", text)


def without_docs(text):
    return "\n".join(line for line in text.split("\n") if not line.lstrip().startswith("//"))


def joined(text):
    """Returns a clause with its lines indented as little as possible."""
    lines = [line.rstrip() for line in text.strip().split("\n")]
    rest = textwrap.dedent("\n".join(lines[1:])).split("\n") if len(lines) > 1 else []
    return "\n".join([lines[0], *("    " + line if line else "" for line in rest)])


def code(text, column):
    """Returns the lines of a signature, without the column in which its first line begins."""
    lines = [line.rstrip() for line in without_comments(text + "\n").strip().split("\n")]
    return "\n".join([lines[0], *(line[min(column, len(line) - len(line.lstrip())):] for line in lines[1:])]).rstrip()


def after_generics(text):
    """Returns the text after a list of generic parameters at its start, if there is one."""
    text = text.lstrip()
    if not text.startswith("<"):
        return text
    depth = 0
    for place, char in enumerate(text):
        if char == "<" or char == ">" and text[place - 1] != "-":
            depth += 1 if char == "<" else -1
            if not depth:
                return text[place + 1:].lstrip()
    return text


def last_name(path):
    """Returns the name of a type without its path and its arguments."""
    path = re.sub(r"^(?:&|'\w+\s+|mut\s+)+", "", path.strip())
    return path.split("<")[0].split("::")[-1].strip() if path[:1].isalpha() else path


def named(item, head):
    rest = item.signature[item.signature.index(head["kind"]) + len(head["kind"]):]
    if item.kind == "impl":
        rest = re.split(r"\bwhere\b", after_generics(rest))[0].strip()
        trait, between, subject = rest.partition(" for ")
        item.trait, item.subject = (last_name(trait), last_name(subject)) if between else ("", last_name(trait))
    elif item.kind != "use":
        item.name = WORD.search(rest)[0]
    return item


@functools.lru_cache(maxsize=None)
def items_of(path, name=None):
    """Returns the items of a file, without its ghost lines."""
    text = path.read_text(encoding="utf-8")
    return [it for it in Scanner(text, name or str(path)).items() if it.kind != "ghost"]
