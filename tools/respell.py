#!/usr/bin/env python3
"""Brings the repository's own names to today's spelling, after port.py: run once, at the top, over the output of port.py.

tools/respell.py [ROOT]

Definitions, lemmas, fields and constructors in camel case become snake case, in specs/, proofs/ and in the clauses of src/ (functions
of src/ were never in camel case). A lemma whose name then falls together with a definition that its file uses gets `_lem`.
"""
import os
import re
import sys

# lemmas whose names fall together with a definition used beside them: module, name
TOGETHER = [
    ('agreement.proofs.Allowed', 'is_true'),
    ('agreement.proofs.OperandsInTurn', 'is_true'),
    ('base_top_down.proofs.Kept', 'row_count'),
    ('check_usage.proofs.FirstClash', 'row_count'),
    ('grammar.proofs.Indents', 'at_zero'),
    ('grammar_written.proofs.WrittenReads', 'lines_rows'),
    ('machine.proofs.Counting', 'none_left'),
    ('machine.proofs.OneLevel', 'goes_on'),
    ('read_classes.proofs.ClassLaws', 'at_cut'),
    ('read_declared.proofs.OrderLaws', 'in_order'),
    ('read_levels.proofs.Outlining', 'lines_left'),
    ('read_sheet.proofs.KeptReadings', 'lines_after'),
    ('read_sheet.proofs.SheetSteps', 'header_of'),
    ('run_code.proofs.Entries', 'place_at'),
    ('run_noted.proofs.Start', 'no_note'),
    ('run_noted.proofs.StepLeft', 'step_left'),
    ('run_preparing.proofs.Filling', 'row_put'),
    ('run_preparing.proofs.RowLaws', 'kept_row'),
]

# of these the name is a field of a record, so it is read by `.name` too
FIELDS = {('read_levels.proofs.Outlining', 'lines_left')}

# in src/ an apostrophe may begin a literal, as in b'A'
CAMEL = {
    '.antt': re.compile(r"(?<![A-Za-z0-9])[a-z][a-z0-9']*(?:[A-Z]+[a-z0-9']*)+"),
    '.rt': re.compile(r"(?<![A-Za-z0-9])[a-z][a-z0-9]*(?:[A-Z]+[a-z0-9]*)+"),
}


def snake(word):
    return re.sub(r"(?<=[a-z0-9'])[A-Z]+", lambda m: '_' + m.group(0).lower(), word)


def files(root):
    for crate in sorted(os.listdir(os.path.join(root, 'crates'))):
        for part, end in (('specs', '.antt'), ('proofs', '.antt'), ('src', '.rt')):
            for folder, dirs, names in os.walk(os.path.join(root, 'crates', crate, part)):
                dirs.sort()
                for name in sorted(names):
                    if name.endswith(end):
                        yield os.path.join(folder, name)


def apart(path, text):
    """the lemmas of TOGETHER renamed, where they stand and where they are imported"""
    for module, name in TOGETHER:
        crate, folder, file = module.split('.')
        here = path.endswith(os.path.join('crates', crate, folder, file + '.antt'))
        used = re.search(r'Rattle\.' + re.escape(module) + r"\.\{[^}]*(?<![\w'-])" + name + r"(?![\w'-])", text)
        if here or used:
            before = r"(?<![\w'-])" if (module, name) in FIELDS else r"(?<![\w'.-])"
            text = re.sub(before + name + r"(?![\w'-])", name + '_lem', text)
    return text


def respell(path):
    with open(path, encoding='utf8') as f:
        old = f.read()
    new = CAMEL[os.path.splitext(path)[1]].sub(lambda m: snake(m.group(0)), apart(path, old))
    if new != old:
        with open(path, 'w', encoding='utf8') as f:
            f.write(new)
    return new != old


if __name__ == '__main__':
    top = sys.argv[1] if len(sys.argv) > 1 else '.'
    print(sum(respell(path) for path in files(top)), 'files respelt')
