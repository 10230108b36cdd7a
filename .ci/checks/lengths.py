"""Lines, clauses, parameters, bodies and files that are longer than the house has them. Each call gives a line for each that it finds."""
import re


def lines_of(path):
    with open(path, encoding="utf-8", errors="replace") as file:
        return file.read().split("\n")


def long_lines(files):
    for path in files:
        if path.endswith(".antt"):
            for number, line in enumerate(lines_of(path), 1):
                if len(line) > 140:
                    yield f"{path}:{number}: a line of {len(line)} characters"


def many_clauses(files):
    for path in files:
        if not path.endswith(".rt"):
            continue
        name, count = None, 0
        for line in lines_of(path):
            found = re.match(r"\s*(?:pub(?:\([^)]*\))? )?(?:const )?(?:unsafe )?(?:extern \"C\" )?fn (\w+)", line)
            if found:
                name, count = found.group(1), 0
            elif name and re.match(r"\s*(requires|ensures)\b", line):
                count += 1
                if count == 6:
                    yield f"{path}: {name} has more than five clauses"
            elif line.strip() == "{":
                name = None


def parts_in_brackets(text, begin):
    """What stands between commas in the brackets that open at this place, and where they end."""
    parts, depth, start = [], 0, begin + 1
    for at in range(begin, len(text)):
        sign = text[at]
        if sign in "([{<":
            depth += 1
        elif sign in ")]}" or sign == ">" and text[at - 1] not in "-=":
            depth -= 1
        if depth == 0 or depth == 1 and sign == ",":
            parts.append(text[start:at].strip())
            start = at + 1
        if depth == 0:
            return [part for part in parts if part], start
    return parts, len(text)


def wide_functions(files):
    for path in files:
        if not path.endswith(".rt"):
            continue
        text = re.sub(r"//.*", "", "\n".join(lines_of(path)))
        for found in re.finditer(r"\bfn (\w+)(?=[<(])", text):
            end = found.end()
            if text[end] == "<":
                _, end = parts_in_brackets(text, end)
            parameters, _ = parts_in_brackets(text, end)
            if len(parameters) > 6:
                yield f"{path}: {found.group(1)} has {len(parameters)} parameters"


def long_lemmas(files):
    for path in files:
        if re.match(r"crates/\w+/proofs/.*\.antt$", path) and len(lines_of(path)) > 251:
            yield f"{path} has {len(lines_of(path)) - 1} lines"


def long_bodies(files):
    for path in files:
        if not path.endswith((".rt", ".antt")) or "/proofs/" in path:
            continue
        lines = lines_of(path)
        if len(lines) > 251:
            yield f"{path} has {len(lines) - 1} lines"
        begun = None
        for number, line in enumerate(lines):
            found = re.match(r"^(\s*)(?:pub(?:\([^)]*\))? )?(?:const )?(?:unsafe )?fn (\w+)", line)
            if found and path.endswith(".rt"):
                begun, body = found, None
            if begun and line == begun.group(1) + "{":
                body = number
            if begun and line == begun.group(1) + "}":
                if body is not None and number - body - 1 > 40:
                    yield f"{path}: {begun.group(2)} has {number - body - 1} lines"
                begun = None
