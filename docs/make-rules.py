#!/usr/bin/env python3
"""Writes what pages, scripts and code say of each rule from docs/rules.tsv, so that a rule has one wording, and the
names of tags, attributes, forms and languages with their codes from docs/codes.tsv.

usage: make-rules.py [--count]

The table has a line for each rule: its code, its name, the sentence that says what violates it, which place a fault of
it names, whether it names an attribute, and how a valid file has it. From it come the tables of RULES.md and
REPORTS.md, the lists of dwv.1, the texts of `explain` and of SARIF (contrib/dwv_tools/rules.txt), those of the Rust
crate, the enums of rules in the code with their codes, names and groups, what specs/ say of these, and the comments of
specs/ that say what a rule is. In a comment the sentence is the first paragraph. The smallest files of the rules on
types come from tests/rows/types.txt into RULES.md.

The other table has a line for each code: its name, what uses it (the code of the checks, or the rules of specs/ too),
whether a tag is that of a type, and of a form its variant, its first version, and its layout in words and as specs/
say it, with the value that it spells. From it come the names for scripts (contrib/dwv_tools/names.txt), those of the
Rust crate, and in dw_forms and its specs/ the constants, the forms, and of each form its class, its size, and whether
its values may be references or may lead out of .debug_info.

With --count it writes nothing, and prints for each rule how many wordings it has in how many places.
"""
import pathlib
import re
import sys
import textwrap

TOP = pathlib.Path(__file__).resolve().parent.parent
COLUMNS = "code name sentence place attribute remedy".split()
WIDTH = 120
# The groups of rules on sections, by their letters, in the order in which they are checked.
GROUPS = ["A U G", "K", "S", "R", "Y", "C", "Z"]
# The enums of rules: the file, the letters of the rules that are its variants, and the chapter that has their texts.
ENUMS = {
    "ElfRule": ("crates/dw_elf/src/rule.rt", "E", "crates/dw_elf/specs/RuleTexts.antt"),
    "Rule": ("crates/dw_forms/src/rule.rt", "A U G K S R Y C Z", "crates/dw_forms/specs/Rules.antt"),
    "LineRule": ("crates/dw_lines/src/rule.rt", "L M F", "crates/dw_lines/specs/LineRules.antt"),
    "RangeRule": ("crates/dw_ranges/src/rule.rt", "X", "crates/dw_ranges/specs/RangeRules.antt"),
    "PrintFault": ("crates/dw_cprint/src/fault.rt", "P", "crates/dw_cprint/specs/FaultTexts.antt"),
}
FAULTS = [file for file, _, _ in ENUMS.values()]
# Chapters that name a rule above a definition.
SPECS = [f"crates/dw_links/specs/{chapter}.antt" for chapter in ("Classes", "References")]
# The rows of tests in which a row that is named after a rule has its smallest file.
ROWS = "tests/rows/types.txt"


class Rule:
    """A line of the table."""

    def __init__(self, line):
        self.__dict__.update(zip(COLUMNS, line.split("\t"), strict=True))
        self.letter, self.number = self.code[0], self.code[1:]
        self.group = next((k for k, letters in enumerate(GROUPS, 1) if self.letter in letters), 0)
        self.text = self.sentence[0].upper() + self.sentence[1:] + "."


CODE_COLUMNS = "code name use kind form version layout spelling".split()
# The classes, each with the values of forms that have it, as specs/ name these.
CLASSES = {
    "Address": "address addr_index", "Block": "block", "Constant": "unsigned signed", "WideConstant": "wide",
    "Exprloc": "expr", "Flag": "flag flag_of", "ListIndex": "loc_index rng_index",
    "Reference": "ref_info ref_unit ref_sig", "SectionOffset": "sec_offset", "String": "text str line_str str_index",
}
CLASS_OF = {value: it for it, values in CLASSES.items() for value in values.split()}
# Values that may be references, and those that may lead out of .debug_info; `named` is the code of another form.
REFERENCES = [CLASSES["Reference"], "named"]
OUT = ["str line_str", "str_index", "addr_index", "named"]
# The types of codes that have constants.
CONSTANTS = {"TAG": "Tag", "AT": "Attribute", "LANG": "Language"}


class Code:
    """A line of the table of codes: that of a tag, an attribute, a form or a language."""

    def __init__(self, line):
        self.__dict__.update(zip(CODE_COLUMNS, line.split("\t"), strict=True))
        _, self.set, self.word = self.name.split("_", 2)
        self.hex = f"0x{int(self.code, 16):02x}"
        values = [word for word in re.findall(r"\w+", self.spelling) if word in CLASS_OF or word == "named"]
        self.value = values[-1] if values else None
        self.class_name = CLASS_OF.get(self.value)
        found = re.match(r"(?:fixed|exactly) (\w+) |(nothing)", self.spelling)
        self.size = (found[1] or "0") if found else None


def codes():
    """The codes, in the order of the table."""
    first, *lines = (TOP / "docs/codes.tsv").read_text().splitlines()
    assert first.split("\t") == CODE_COLUMNS
    return list(map(Code, lines))


def table():
    """The rules, in the order of the table: that of the groups, and in a group by number."""
    first, *lines = (TOP / "docs/rules.tsv").read_text().splitlines()
    assert first.split("\t") == COLUMNS
    return list(map(Rule, lines))


def of(rules, groups):
    """The rules of some groups, which are given by their letters."""
    return [rule for rule in rules if rule.letter in groups.split()]


def plain(text):
    """A sentence without the marks around names."""
    return text.replace("`", "")


def put(text, begin, end, make):
    """Replaces the lines between each pair of marks by those made of the groups that the first mark names."""
    pattern = rf"(?m)(^{begin} ([A-Z](?: [A-Z])*){'' if end[0] != '<' else ' -->'}\n)(?s:.*?)(^{re.escape(end)}$)"
    return re.sub(pattern, lambda it: it[1] + "".join(f"{line}\n" for line in make(it[2])) + it[3], text)


def page_table(rules):
    """A table of RULES.md. A column in which no rule has anything is left out."""
    titles = ["Code", "Name", "What violates it" if rules[0].place else "When it holds", "Place", "Attribute"]
    rows = [[rule.code, rule.name, rule.sentence, rule.place, rule.attribute] for rule in rules]
    used = [k for k in range(len(titles)) if any(row[k] for row in rows)]
    lines = [[row[k] for k in used] for row in [titles, ["---"] * len(titles), *rows]]
    return ["", *("|".join(["", *(f" {it} " if it != "---" else it for it in line), ""]) for line in lines), ""]


def smallest_files(rules):
    """The rows that are named after rules, each after the parts that no row before it has."""
    blocks, found = (TOP / ROWS).read_text().rstrip("\n").split("\n\n"), []
    for rule in rules:
        for row in (it for it in blocks if re.search(rf"(?m)^row {rule.code} {rule.name}\b", it)):
            words = set(re.findall(r"\w+", row))
            found += [it for it in blocks if words & set(re.findall(r"(?m)^part (\w+)", it)) and it not in found]
            found.append(row)
    return ["", "```text", "\n\n".join(found), "```", ""]


def rules_page(text, rules):
    """RULES.md with its tables, and with the smallest files that are rows."""
    mark, end = "<!-- made by docs/make-rules.py", "<!-- end -->"
    text = put(text, f"{mark}:", end, lambda groups: page_table(of(rules, groups)))
    return put(text, f"{mark}, from {ROWS}:", end, lambda groups: smallest_files(of(rules, groups)))


def with_cells(text, rules):
    """A page with tables of its own, in which the cell after a rule's name says what the rule is."""
    for rule in rules:
        text = re.sub(rf"(?m)^(\| {rule.code} \| {rule.name} \|)[^|\n]*", lambda it: f"{it[1]} {rule.sentence} ", text)
    return text


def manual_list(rules):
    """A list of the manual page. A word of a file is on a line of its own, with what follows it."""
    yield ".Bl -tag -width Ds -compact"
    for rule in rules:
        yield f".It Sy {rule.code} {rule.name}"
        for part in re.split(r"(`[^`]+`[.,]?)", rule.text):
            if found := re.fullmatch(r"`([^`]+)`([.,]?)", part):
                kind = "Pa" if found[1].startswith(".debug") else "Ql"
                yield f".{kind} {found[1]} {found[2]}".rstrip()
            elif part.strip():
                yield from textwrap.wrap(part.strip(), 80, break_on_hyphens=False)
    yield ".El"


def list_text(rules):
    """contrib/dwv_tools/rules.txt: a rule, what violates it, and how a valid file has it."""
    yield "# The rules: what violates each, and how a valid file has it. Made by docs/make-rules.py."
    for rule in rules:
        yield " | ".join([f"{rule.code} {rule.name}", plain(rule.text), plain(rule.remedy)])


def rust_lines(rules):
    """The list of rules of the Rust crate, with sentences over several lines where they are long."""
    for rule in rules:
        words = f'{rule.code} {rule.name} "{rule.sentence}."'
        lines = textwrap.wrap(words, WIDTH - 6, initial_indent=" " * 4, subsequent_indent=" " * 8,
                              break_on_hyphens=False)
        yield from (f"{line} \\" if line is not lines[-1] else line for line in lines)


def comment(indent, mark, text):
    """A comment on lines that are not too long."""
    return textwrap.wrap(text, WIDTH, initial_indent=f"{indent}{mark} ", subsequent_indent=f"{indent}{mark} ",
                         break_on_hyphens=False)


def with_variants(text, rules):
    """A file of the code with a variant for each rule. The first paragraph above it says what the rule is."""
    names = "|".join(rule.name for rule in rules)
    found = list(re.finditer(rf"(?m)(?:^    /// .*\n)+((?:^    ///(?: .*)?\n)*)^    ({names}),\n", text))
    more = {it[2]: it[1] for it in found}
    made = "".join("\n".join([*comment("    ", "///", f"{rule.code}: {rule.sentence}."),
                              f"{more.get(rule.name, '')}    {rule.name},\n"]) for rule in rules)
    return text[:found[0].start()] + made + text[found[-1].end():]


def with_lines(text, rules, form):
    """A text in which each run of lines of this form, one a rule, has a line for each of the rules."""
    line = re.escape(form).replace(r"\{name\}", f"(?:{'|'.join(rule.name for rule in rules)})")
    line = line.replace(r"\{code\}", r"[A-Z]\d+").replace(r"\{number\}", r"\d+").replace(r"\{group\}", r"\d+")
    made = "".join(f"{form.format_map(vars(rule))}\n" for rule in rules)
    return re.sub(rf"(?m)(?:^{line}\n)+", lambda it: made, text)


def with_arms(text, rules, enum):
    """A file of the code in which a `match` on a rule for its code, its name, both or its group has an arm for each."""
    for value in ('"{code}"', '"{name}"', '("{code}", "{name}")', "{group}"):
        text = with_lines(text, rules, f"            {enum}::{{name}} => {value},")
    return text


def with_equations(text, rules, enum):
    """A chapter of specs/ that says each rule's code, name, group and number, and takes their names from the enum."""
    for word, value in (("code_text", 'codes "{code}"'), ("name_text", 'codes "{name}"'),
                        ("texts", '(codes "{code}", codes "{name}")'), ("group_of", "{group}"),
                        ("number_of", "{number}")):
        text = with_lines(text, rules, f"{word} {{name}} = {value}")
    return with_names(text, [rule.name for rule in rules], enum)


def with_names(text, variants, enum):
    """A chapter that takes these variants from the enum, after those that are made of no table."""

    def lines(it):
        names = [name for line in re.findall(r"\{(.*)\}", it[0]) for name in line.split(", ")]
        names = [name for name in names if name not in variants] + variants
        while names:
            much = next((k for k in range(len(names), 1, -1) if len(f"{it[1]}{', '.join(names[:k])}}}") <= WIDTH), 1)
            yield f"{it[1]}{', '.join(names[:much])}}}\n"
            names = names[much:]

    first = rf"^(use \S+\.{enum}\.TheVariants\.\{{).*\}}\n"
    return re.sub(rf"(?m){first}(?:\1.*\}}\n)*", lambda it: "".join(lines(it)), text)


def with_choices(text, rules):
    """A file of lemmas that finds a rule by its number among those of a letter."""
    for word, letter in (("string_rule", "S"), ("reference_rule", "R"), ("type_rule", "Y"), ("size_rule", "Z")):
        *those, last = of(rules, letter)
        tests = [f"if number == {rule.number} then {rule.name} else" for rule in those]
        first = "\n    " if tests[1:] else " "
        made = f"{word} number ={first}" + "\n    (".join(tests) + f" {last.name}{')' * len(tests[1:])}\n"
        text = re.sub(rf"(?m)^{word} number =.*\n(?:    .*\n)*", lambda it: made, text)
    return with_names(text, [rule.name for rule in rules if rule.group > 1], "Rule")


def with_definitions(text, rules):
    """A file of specs/, where a comment that starts with a rule's name says what the rule is."""
    for rule in rules:
        made = "\n".join(comment("", "--", f"{rule.name}: {plain(rule.sentence)}"))
        text = re.sub(rf"(?m)^-- {rule.name}: .*\n(?:^-- .*\n)*", lambda it: f"{made}\n", text)
    return text


def with_run(text, line, made, between=""):
    """A text in which the one run of lines of this form is replaced."""
    found = re.findall(f"(?m)^{line}(?:{between}^{line})*", text)
    assert len(found) == 1, (line, len(found))
    return text.replace(found[0], between.join(made))


def with_alternatives(text, after, names):
    """A file of the code in which the first alternatives after a text are these, one a line."""
    start = text.index(after)
    found = re.compile(r"(?m)^( +)(?!self)[A-Z][\w:]+\n(?:^ +\| [\w:]+\n)+").search(text, start)
    lines = [f"{found[1]}{'    | ' if k else ''}{name}\n" for k, name in enumerate(names)]
    return text[:found.start()] + "".join(lines) + text[found.end():]


def names_text(all_codes):
    """contrib/dwv_tools/names.txt: each code and its name."""
    yield "# Names by their codes: those of the standard (DWARF 5, 7.5 and 7.12), and some of GNU, LLVM and Apple."
    yield "# Made by docs/make-rules.py."
    for it in all_codes:
        yield f"{it.code} {it.name}"


def with_constants(text, all_codes):
    """A file of the code with the tags, attributes and languages that checks name, and the tags of types."""
    for word, type_name in CONSTANTS.items():
        made = [f"pub const {it.name}: {type_name} = {type_name}({it.hex});\n"
                for it in all_codes if it.set == word and it.use]
        text = with_run(text, rf"pub const DW_{word}_\w+: .*;\n", made, "\n")
    return with_alternatives(text, "fn is_type(", [it.name for it in all_codes if it.kind == "type"])


def with_named_codes(text, all_codes):
    """A chapter of specs/ with the tags, attributes and languages that rules name, and the tags of types."""
    for word in CONSTANTS:
        made = [f"abbrev pub {it.name} : ℕ\n{it.name} = {it.hex}\n"
                for it in all_codes if it.set == word and it.use == "rules"]
        text = with_run(text, rf"abbrev pub DW_{word}_\w+ : ℕ\nDW_{word}_\w+ = 0x\w+\n", made, "\n")
    tests = [f"    tag == {it.name}" for it in all_codes if it.kind == "type"]
    return with_run(text, r"    tag == DW_TAG_\w+(?: \|\|)?\n", " ||\n".join(tests) + "\n")


def by_value(forms, runs):
    """The forms of these values, one run of values after another."""
    return [it for values in runs for it in forms if it.value in values.split()]


def arm(forms, value, indent=" " * 8):
    """The arm of a `match` for these forms, as `rt fmt` lays it out."""
    names = [f"Form::{it.form}{'(_)' if it.form == 'ImplicitConst' else ''}" for it in forms]
    pattern = f"{indent}{' | '.join(names)} =>"
    if len(f"{pattern} {value},") <= 100:
        return f"{pattern} {value},\n"
    if len(f"{pattern} {{") <= 100:
        return f"{pattern} {{\n{indent}    {value}\n{indent}}}\n"
    return indent + f"\n{indent}| ".join(names) + f" => {value},\n"


def with_sizes(text, forms):
    """The file of the code with the size of each form whose values have one."""
    sizes = sorted({it.size for it in forms if it.size}, key=lambda size: int(size) if size.isdigit() else -1)
    made = "".join(arm([it for it in forms if it.size == size],
                       f"Some({size if size.isdigit() else 'usize::from(address_size)'})", " " * 12) for size in sizes)
    return re.sub(r"(?s)(pub fn fixed_size\(.*?match self \{\n).*?(            _ => None)",
                  lambda it: it[1] + made + it[2], text)


def with_classes(text, forms):
    """The file of the code with the class of each form."""
    made = "".join(arm([it for it in forms if it.class_name == name], f"Class::{name}") for name in CLASSES)
    made += arm([it for it in forms if not it.class_name], "return None")
    return re.sub(r"(?s)(match form \{\n).*?(    \}\))", lambda it: it[1] + made + it[2], text)


def with_form_table(text, forms):
    """The chapter of specs/ that says each form's layout and its class."""
    names = {it.form: f"(form.{it.form} number)" if it.form == "ImplicitConst" else f"form.{it.form}" for it in forms}
    text = with_run(text, r"layout_of size \S.* = .*\n", [f"layout_of size {names[it.form]} = {it.spelling}\n"
                                                          for it in forms])
    return with_run(text, r"form_class \S.* = .*\n", [
        f"form_class {names[it.form]} = {f'Some {it.class_name}' if it.class_name else 'None'}\n" for it in forms])


def with_forms(text, forms):
    """The file of the code with the forms, those of each code, of version 4 and by what they spell, and their sizes."""
    value = {"ImplicitConst": "(0)"}
    carried = {"ImplicitConst": "(i64)"}
    text = with_run(text, r"    /// 0x\w+ \w+: .*\n    \w+(?:\(i64\))?,\n", [
        f"    /// {it.hex} {it.word}: {it.layout}.\n    {it.form}{carried.get(it.form, '')},\n" for it in forms])
    text = with_run(text, r"            0x\w+ => Form::.*,\n", [
        f"            {it.hex} => Form::{it.form}{value.get(it.form, '')},\n" for it in forms])
    for after, those in (("fn allowed(", [it for it in forms if it.version == "4"]),
                         ("fn may_refer(", by_value(forms, REFERENCES)), ("fn may_lead_out(", by_value(forms, OUT))):
        text = with_alternatives(text, after, [f"Form::{it.form}" for it in those])
    return with_sizes(text, forms)


def with_form_codes(text, forms):
    """The chapter of specs/ that says each form's code and its kind."""
    said = {"ImplicitConst": "(ImplicitConst number)"}
    listed = {"ImplicitConst": "(ImplicitConst (pos 0))"}
    text = with_run(text, r"code_of \S.* = 0x\w+\n", [f"code_of {said.get(it.form, it.form)} = {it.hex}\n"
                                                       for it in forms])
    names = [*(listed.get(it.form, it.form) for it in forms), "[]"]
    lines = ["    " + " ∷ ".join(names[k:k + 8]) for k in range(0, len(names), 8)]
    lines = lines[:-1] if lines[-1].strip() == "[]" else lines
    text = with_run(text, r"    \S+ ∷ .*\n", [" ∷\n".join(lines) + (" ∷ []\n" if "[]" not in lines[-1] else "\n")])
    for word, runs in (("may_refer", REFERENCES), ("may_lead_out", OUT)):
        text = with_run(text, rf"{word} \w+ = true\n", [f"{word} {it.form} = true\n" for it in by_value(forms, runs)])
    return with_names(text, [it.form for it in forms], "Form")


def made_of_codes():
    """Each file that names codes, and what makes its text of the one that it has."""
    all_codes = codes()
    forms = [it for it in all_codes if it.form]
    yield "contrib/dwv_tools/names.txt", lambda text: "\n".join([*names_text(all_codes), ""])
    yield "rust/dwv/src/constants.rs", lambda text: with_run(text, r"pub const DW_\w+: u32 = .*;\n", [
        f"pub const {it.name}: u32 = {int(it.code, 16):#x};\n" for it in all_codes if it.set in ("TAG", "AT")])
    yield "crates/dw_forms/src/constants.rt", lambda text: with_constants(text, all_codes)
    yield "crates/dw_forms/specs/Codes.antt", lambda text: with_named_codes(text, all_codes)
    yield "crates/dw_forms/src/form.rt", lambda text: with_forms(text, forms)
    yield "crates/dw_forms/specs/FormCodes.antt", lambda text: with_form_codes(text, forms)
    yield "crates/dw_forms/src/form_class.rt", lambda text: with_classes(text, forms)
    yield "crates/dw_forms/specs/FormTable.antt", lambda text: with_form_table(text, forms)


def made():
    """Each file that says what rules are, and what makes its text of the one that it has."""
    rules = table()
    faults = [rule for rule in rules if rule.letter == "E" or rule.group]
    of_files = [rule for rule in rules if rule.letter != "P"]
    yield "docs/RULES.md", lambda text: rules_page(text, rules)
    yield "docs/REPORTS.md", lambda text: with_cells(text, of(rules, "P"))
    yield "docs/dwv.1", lambda text: put(text, r'\.\\" made by docs/make-rules.py:', '.\\" end',
                                         lambda groups: manual_list(of(rules, groups)))
    yield "contrib/dwv_tools/rules.txt", lambda text: "\n".join([*list_text(faults), ""])
    yield "rust/dwv/src/rule.rs", lambda text: re.sub(
        r"(?s)(\nrules! \{\n).*?(\n\}\n)", lambda it: it[1] + "\n".join(rust_lines(of_files)) + it[2], text)
    for enum, (file, letters, chapter) in ENUMS.items():
        those = of(rules, letters)
        yield file, lambda text: with_arms(with_variants(text, those), those, enum)
        yield chapter, lambda text: with_equations(text, those, enum)
    yield "crates/dw_image/proofs/RulesByNumber.antt", lambda text: with_choices(text, rules)
    for path in SPECS:
        yield path, lambda text: with_definitions(text, rules)
    yield from made_of_codes()


def sentence(text):
    """A sentence as it is compared with others: without marks, line ends, a full stop and a capital letter."""
    text = re.sub(r"(?m)^(?:\.\w\w | *(?:///|--) )|\\\n|`", "", text)
    return re.sub(r" ([.,])(?= |$)", r"\1", " ".join(text.split())).rstrip(".").lower()


def wordings(rule):
    """The sentences that say what a rule is, each with the file that it is in."""
    code, name = rule.code, rule.name
    for pattern, files in (
        (rf"^\| {code} \| {name} \| (.*?) \|", "docs/*.md"),
        (rf"^\.It Sy {code} {name}\n((?:(?!\.It|\.El|\.\\\").*\n)*)", "docs/*.1"),
        (rf"^{code} {name} \| (.*?) \|", "contrib/dwv_tools/*.txt"),
        (rf'^    {code} {name} "((?s:.*?))"$', "rust/dwv/src/*.rs"),
        (rf"((?:^    /// .*\n)+)(?:    ///(?: .*)?\n)*    {name},$", FAULTS),
        (rf"^-- {name}: (.*\n(?:^-- .*\n)*)", "crates/*/specs/*.antt"),
    ):
        for path in sorted(TOP.glob(files) if isinstance(files, str) else map(TOP.joinpath, files)):
            for text in re.findall(pattern, path.read_text(), re.M):
                said = sentence(text)
                if not re.fullmatch(r"yes|no|crash|no end|(same|other) .*|[-\w ]{0,9}", said):
                    yield re.sub(rf"^{code.lower()}: ", "", said), str(path.relative_to(TOP))


def count(rules):
    """Prints how many wordings each rule has, and where."""
    total = 0
    for rule in rules:
        found = list(wordings(rule))
        different = dict.fromkeys(said for said, _ in found)
        total += len(different)
        print(f"{rule.code} {rule.name}: {len(different)} wordings in {len(found)} places")
        if len(different) > 1:
            for said in different:
                print(f"    {said} ({', '.join(path for other, path in found if other == said)})")
    print(f"{total} wordings of {len(rules)} rules")


def main():
    if sys.argv[1:] == ["--count"]:
        return count(table())
    for path, make in made():
        text = (TOP / path).read_text()
        if make(text) != text:
            (TOP / path).write_text(make(text))
            print(f"written: {path}")


if __name__ == "__main__":
    main()
