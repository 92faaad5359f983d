"""What the gate's checks read off a crate: the functions of its code, each with its contract, and the definitions of its specs/.
By text alone; the prover judges what the text means."""
import collections
import pathlib
import re

Function = collections.namedtuple('Function', 'name line place is_open parameters result clauses body')
Clause = collections.namedtuple('Clause', 'word label text')
Definition = collections.namedtuple('Definition', 'name line is_statement is_law text')
LABEL = re.compile(r'(?m)^([ \t]+)(?:pub[ \t]+)?[^\s(){}:]+(?=[ \t]*:\s)')

# what is no text of code, and of specs and proofs: comments and strings
BESIDE = re.compile(r'//[^\n]*|/\*.*?\*/|b?r(#*)".*?"\1|b?"(?:\\.|[^"\\])*"|b?\'(?:\\[^\n]|[^\\\'\n])\'', re.S)
ASIDE = re.compile(r'(?<![^\s(){}\[\],;])--[^\n]*|\{-.*?-\}|"(?:\\.|[^"\\\n])*"', re.S)
OPENER = {'(': ')', '[': ']', '{': '}', '<': '>'}


def blanked(text, aside):
    """The text with what stands aside as spaces, so that every place stays."""
    return aside.sub(lambda m: re.sub(r'[^\n]', ' ', m[0]), text)


def files(top, part, ending):
    """The files of a part of every crate below a folder, in order; what rt built is not looked at."""
    return sorted(pathlib.Path(top).glob(f'*/{part}/**/*.{ending}'))


def closing(text, at):
    """The place behind the bracket that closes the one at a place."""
    left, right = text[at], OPENER[text[at]]
    deep = 0
    for end in range(at, len(text)):
        # an arrow closes nothing
        deep += (text[end] == left) - (text[end] == right and text[end - 1] not in '-=')
        if not deep:
            return end + 1
    return len(text)


FOR_TESTS = re.compile(r'#\s*\[\s*(test|cfg\s*\(\s*test\s*\))\s*\]')


def attributes(text, at):
    """The attributes that stand before a place."""
    found = ''
    while text[:at].rstrip().endswith(']'):
        end = len(text[:at].rstrip())
        deep = 0
        for at in range(end - 1, -1, -1):
            deep += (text[at] == ']') - (text[at] == '[')
            if not deep:
                break
        at = text.rfind('#', 0, at)
        if at < 0:
            break
        found = text[at:end] + found
    return found


def blocks(text):
    """(start, end, word, what it is of, whether it is open, whether it is for tests) of each impl, trait and module with a body."""
    for head in re.finditer(r'(\bpub\s+)?\b(impl|trait|mod)\b([^;{]*)\{', text):
        name = re.sub(r'\s+', ' ', head[3]).strip()
        for_tests = FOR_TESTS.search(attributes(text, head.start())) is not None
        yield head.end(), closing(text, head.end() - 1), head[2], name, bool(head[1]), for_tests


def functions(raw):
    """Each function outside tests. It is open if it is `pub`, or a method that a `pub` trait asks for; `pub(crate)` is not."""
    text = blanked(raw, BESIDE)
    around = list(blocks(text))
    for head in re.finditer(r'(\bpub\s+)?((?:\b(?:const|unsafe|extern\s+)\s*)*)\bfn\s+(\w+)', text):
        inside = [block for block in around if block[0] <= head.start() < block[1]]
        if any(block[5] for block in inside) or FOR_TESTS.search(attributes(text, head.start())):
            continue
        near = max(inside, default=None)
        in_open_trait = near is not None and near[2] == 'trait' and near[4]
        at, arrow, clauses, parameters = head.end(), None, [], ''
        while at < len(text) and text[at] not in '{;':
            clause = re.compile(r'\b(requires|ensures)(\*?)\s*([\w]*)\s*(?=\{)').match(text, at)
            if clause and not text[at - 1].isalnum():
                end = closing(text, clause.end())
                arrow = (arrow[0], arrow[1] or at) if arrow else None
                clauses.append(Clause(clause[1], clause[3], text[clause.end() + 1:end - 1]))
                at = end
            elif text.startswith('->', at):
                arrow, at = (at + 2, None), at + 2
            elif text[at] in '([<':
                end = closing(text, at)
                if text[at] == '(' and not parameters:
                    parameters = text[at:end]
                at = end
            else:
                at += 1
        result = text[arrow[0]:arrow[1] or at].strip() if arrow else ''
        body = text[at:closing(text, at)] if text[at:at + 1] == '{' else ''
        place = near[3] if near is not None and near[2] != 'mod' else ''
        yield Function(head[3], text.count('\n', 0, head.start(3)) + 1, place, bool(head[1]) or in_open_trait,
                       parameters, result, clauses, body)


ITEM = re.compile(r'( *)((?:(?:abbrev|opaque|unfoldable|pub|instance)\s+)*)(?:(record|data)\s+)?([^\s:(){},.=|]+)((?:\s+[({][^=]*?[)}])*)\s*:(?=\s|$)')


def definitions(raw):
    """Each definition and law of a file of specs or proofs. A statement is a definition whose type ends in `Type`; a law is what
    is neither to be opened nor a type. What a field or a case is called is no text of a record or of data."""
    lines, starts = blanked(raw, ASIDE).split('\n'), []
    for n, line in enumerate(lines):
        item = ITEM.match(line)
        if not item or item[4] in ('use', 'mod', 'open', 'module', 'let', 'where') or ' use ' in line[:12]:
            continue
        # a line that stands further in is one of its own only in a module; else it is a field, a case, or goes on
        above = next((it for it in reversed(lines[:n]) if it.strip() and len(it) - len(it.lstrip()) < len(item[1])), 'module')
        if not item[1] or re.match(r'\s*module\b', above):
            starts.append((n, item))
    for (n, item), after in zip(starts, [start for start, _ in starts[1:]] + [len(lines)]):
        body = lines[n:after]
        sign = body[:1]
        for line in body[1:]:
            if len(line) - len(line.lstrip()) <= len(item[1]):
                break
            sign.append(line)
        typed = re.sub(r'\s(=\s|where\b).*', '', ' '.join(sign)).strip()
        is_statement = bool(item[3]) or re.search(r'\bType(\s+(\d+|\w+|\{\d+\}))?\s*$', typed) is not None
        is_law = not item[3] and not re.search(r'\b(abbrev|opaque|unfoldable)\b', item[2])
        text = '\n'.join(body)
        yield Definition(item[4], n + 1, is_statement, is_law, LABEL.sub(r'\1', text) if item[3] else text)


USE = re.compile(r'\buse\s+Rattle\.(\w+)\.(?:specs|proofs)\.[\w.]+?(?:\.\{([^}]*)\}|\s+as\s+\w+|(?=\s*;?\s*$))', re.M)


def imports(text):
    """The names that a file imports from specs and proofs of any crate: the name here, with its crate and its name there."""
    found = {}
    for crate, names in USE.findall(text):
        for name in names.split(','):
            was, _, now = ' '.join(name.split()).partition(' as ')
            found[now or was] = (crate, was)
    return found


WORD = re.compile(r"[^\s(){}\[\],.;:`=]+")


def named(text, own, found):
    """The definitions that words of a text name: what the file imports, else one of its own crate."""
    return {found.get(word, (own, word)) for word in WORD.findall(text)}
