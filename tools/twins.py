# Lists the functions and types of src/ whose text is the same once names, numbers and types are left out.
import collections, glob, re, sys

least = int(sys.argv[1]) if len(sys.argv) > 1 else 12
shapes = collections.defaultdict(list)
for path in sorted(glob.glob("crates/*/src/*.rt")):
    text = re.sub(r"//[^\n]*", "", open(path).read())
    text = re.sub(r"\b(requires|ensures|ghost)\b[^{\n]*\{[^\n]*\}", "", text)
    for found in re.finditer(r"(?:^|\n)( *)(?:pub(?:\(crate\))? )?(?:extern \"C\" )?(fn|struct|enum) (\w+)(.*?)\n\1\}", text, re.S):
        kind, name, body = found.group(2), found.group(3), found.group(4)
        tokens = re.findall(r"\w+|[^\w\s]", body)
        keep = {"for", "in", "if", "else", "match", "return", "let", "mut", "Ok", "Err", "Some", "None", "while", "self"}
        shape = " ".join(t if t in keep or not re.match(r"\w", t) else "x" for t in tokens)
        if len(tokens) >= least:
            shapes[(kind, shape)].append(f"{path}:{name}")
for (kind, shape), places in sorted(shapes.items(), key=lambda item: item[1]):
    if len(places) > 1:
        print(kind, len(shape.split()), "tokens:", ", ".join(places))
