#!/usr/bin/env python3
"""Compares the first faults of chosen texts and files with the program's: faults.py PROGRAM."""
import os
import sys

from chosen_questions import questions, questions_at_limits
from folders import Rows, folder_mapping
from program import Folder
from questions import wanted_run
from refusals import Refusal, Unsure

NESTED = "mapping 1; source { set r { c; set i { d; } } } target { set t { x; } } line r.c -> t.x;"
FLAT = "mapping 1; source { set a { x; } } target { set t { y; } } "

DOCUMENTS = [
    '[{"z":1,"a":2,"b/":3}]',
    '[{"c":1.5,"x":1}]',
    '[{"c":"a","i":[{"d":1e3}]},3]',
    '[{"c":"\\ud800"}]',
    '[{"c":1e400}]',
    '[{"c":999999999999999999999999999999}]',
    '[]x',
    '[NaN]',
    '\ufeff\ufeff[]',
    '[{"i":{}}]',
    '[{"i":[null]}]',
    'null',
    '[{"c":-9223372036854775808},{"c":-9223372036854775809}]',
    '[{"c":tru}]',
    '[{"c":"\t"}]',
    ' [ ] \n\r\t',
    '[]\x0c',
    '[{"c":01}]',
    '[{"c":1.}]',
    '[{"c":+1}]',
]

DOCUMENTS += ["[" * depth + "]" * depth for depth in (126, 127, 128)]
DOCUMENTS += ['[{"c":' + "[" * depth + "]" * depth + "}]" for depth in (125, 126, 127)]
DOCUMENTS += ['[{"c":' + "9" * digits + "}]" for digits in (30, 400)]

TABLES = [
    'x',
    'x\n',
    'x\n\n\na\r\rb',
    'x\na,b',
    'x,\n',
    '\ufeffx\na',
    '"x"\n"a"\n',
    'X\n',
    'x\n"a""b"',
    'x\n\n""\n',
    '\n\nx\na',
    ' x\n',
    'x\r\na\r\n',
    'x\n,',
]

SCHEMAS = [
    'set a{x;ref(x)->b(x);}set b{x;ref(x)->c(x);}set c{x;ref(x)->b(x);}',
    'set a{x;set b{x;}ref(x)->b(x);}',
    'set a{x;set b{x;set c{x;ref(x)->a(x);}}ref(x)->d(x);}set d{x;}',
    'set a{x;ref(x)->d(x);}set d{x;set e{x;ref(x)->d(x);}ref(x)->e(x);}',
    'set a{x,x;}set a{x;}',
    'set a{x;set x{y;}}',
    'set a{x;key(x,x);ref(q)->z(x);}',
    'set a{x;ref(x)->z(x);}',
    'set a{x,y;ref(x,y)->a(x);}',
    'set a{x;ref(x)->a(y);}',
    'set a{x;ref(x)->a(x,x);}',
]

ITEMS = [
    'rule a(p)where p=pair(p)->t(p);',
    'rule a(p)where q=pair(p)->t(p);',
    'rule a(p)where q=trim(z)->t(p);',
    'rule a(p)where q=trim(p),q=trim(p)->t(p);',
    'rule a(p,p)->t(p);',
    'rule b(p,p)->t(p);',
    'rule a(p)->u(p);',
    'rule a(p)->t(p,p);',
    'rule a(p)where q=trim(p),r=trim(q)->t(r);',
    'rule a(p)where q=trum(p,p)->t(p);',
    'line a.x->t.x;',
    'line a.y->u.x;',
    'line pair(a.x)->t.y;',
    'line prr(a.x)->t.y;',
    'line pair(a.z,b.x)->t.y;',
    'line "\xfc\\x"->t.y;',
    'line "a',
    'line a-',
    'line a.x-',
    'line a.x/',
    'line / a',
    'rule a(p) -> t("a\x1f");',
    'line a.x->t.y;;',
    'rule a(p)->t(p),',
    '/',
    'line a.x->t.y;/',
    'line a.x->t.y;//',
    '"',
]


LATER_SCHEMAS = [
    'set a{x;ref(x)->b(x)optional;}set b{x;ref(x)->a(x)optional;}',
    'set a{x;ref(x)->b(x)optional;}set b{x;ref(x)->a(x);}',
    'set a{x;ref(x)->b(y)optional;}set b{x;}',
    'set a{x;ref(x)->b(x)optional optional;}set b{x;}',
    'set a{x;ref(x)->b(x)optionall;}set b{x;}',
    'set a{x;key(x)optional;}',
    'set optional{x;ref(x)->optional(x)optional;}',
    'set a{a0,a1,a2,a3,a4,a5,a6,a7;%s}%s' % ("".join("ref(a%d)->b%d(x)optional;" % (n, n) for n in range(8)),
                                             "".join("set b%d{x;}" % n for n in range(8))),
    'set a{a0,a1,a2,a3,a4,a5,a6;%s}%s' % ("".join("ref(a%d)->b%d(x)optional;" % (n, n) for n in range(7)),
                                          "".join("set b%d{x;}" % n for n in range(7))),
]

CONDITIONS = [
    'only a.x filled;',
    'only a.x full;',
    'only a.y full;',
    'only b.y full;',
    'only a.x filled,numeric;',
    'only a.x;',
    'only t.y filled;',
    'only a.x full;line a.z->t.y;',
    'rule a(p)->u(p);only a.x full;',
    'only "a" filled;',
    'onlya.x filled;',
    'only a.x filled;' * 513,
    'only a.x filled;' * 256 + 'line a.x->t.y;' * 256,
    'only a.x filled;' * 256 + 'line a.x->t.y;' * 257,
]

DEPENDENCIES = [
    'set a{x,y;dep(x)->(y);}',
    'set a{x,y;dep(x,y)->(x,y);dep(y)->(y);}',
    'set a{x,y;dep(z)->(y);}',
    'set a{x,y;dep(x)->(z);}',
    'set a{x,y;dep(x,x)->(y);}',
    'set a{x,y;dep(x)->(y,y);}',
    'set a{x,y;dep(x,z,x)->(y);}',
    'set a{x,y;dep(x,x,z)->(y);}',
    'set a{x,y;dep(z)->(y,y);}',
    'set a{x,y;dep(x,x)->(z);}',
    'set a{x,y;dep(x)->(z);key(z);}',
    'set a{x,y;dep(x,x)->(y);key(z);}',
    'set a{x,y;dep(z)->(y);key(x,x);}',
    'set a{x,y;ref(x,y)->a(x);dep(z)->(y);}',
    'set a{x,y;ref(z)->b(x);dep(x)->(y,y);}',
    'set a{x,y;dep(z)->(y);set b{u,u;}}',
    'set a{x,y;set b{u;dep(x)->(u);}}',
    'set a{x,y;set b{u,v;dep(u)->(v);dep(v)->(u);key(u);}}',
    'set a{x;set b{u;dep(v)->(u);}}set c{z;dep(q)->(z);}',
    'set a{x,y;dep()->(y);}',
    'set a{x,y;dep(x)->();}',
    'set a{x,y;dep(x)->y;}',
    'set a{x,y;dep(x)(y);}',
    'set a{x,y;dep(x)->a(y);}',
    'set a{x,y;dep(x)->(y)optional;}',
    'set a{x,y;dep(x),(y);}',
    'set a{x,y;dep x->(y);}',
    'set a{x,y;Dep(x)->(y);}',
    'set a{x,y;dep(x)->(y)}',
    'set a{x,y;dep(x)->(y);;}',
    'set dep{dep,key;dep(dep)->(key);key(key,dep);}',
    'set a{x,y;dep(z)->(w);}',
    'set a{x,y;dep(x)->(x);}',
    'set a{x,y;dep(x)->(y);key(z);}',
    'set a{x,y;ref(z)->b(x);dep(x)->(w);key(x,x);}',
    'set a{x,y;ref(z)->b(x);dep(x)->(w);}',
    'set a{x;set b{y;dep(x)->(y);}}',
    'set a{x;set b{y,z;dep(y)->(z);}dep(y)->(x);}',
    'set a{x;dep(b)->(x);set b{y;}}',
    'set dep{dep;dep(dep)->(dep);}',
    'set a{x,y;dep(#id)->(y);}',
    'set a{x,y;dep(x)->(y),(x);}',
]

VERSIONS = ["0", "1", "2", "3", "4", "02", "03", "2 2", "13", "two", "three"]


def chosen_folders():
    """The files of each folder, and the word with which the program is run in it."""
    for files in folders_of_mappings():
        yield files, "exchange"
    yield from questions()


def folders_of_mappings():
    """The files of each folder with one mapping."""
    for text in DOCUMENTS:
        yield {"mapping.clio": NESTED, "r.json": text}
    for text in TABLES:
        yield {"mapping.clio": FLAT + "line a.x -> t.y;", "a.csv": text}
    for text in SCHEMAS:
        yield {"mapping.clio": "mapping 1; source { %s } target { }" % text}
        yield {"mapping.clio": "mapping 1; source { } target { %s }" % text}
    for text in ITEMS:
        yield {"mapping.clio": FLAT + text, "a.csv": "x\n"}
    for version in ("1", "2", "3"):
        for text in LATER_SCHEMAS:
            yield {"mapping.clio": "mapping %s; source { %s } target { }" % (version, text)}
            yield {"mapping.clio": "mapping %s; source { } target { %s }" % (version, text)}
        for text in CONDITIONS:
            yield {"mapping.clio": FLAT.replace("1", version, 1) + text, "a.csv": "x\n"}
    for version in ("1", "2", "3"):
        for text in DEPENDENCIES:
            yield {"mapping.clio": "mapping %s; source { %s } target { }" % (version, text)}
            yield {"mapping.clio": "mapping %s; source { } target { %s }" % (version, text)}
    for version in VERSIONS:
        yield {"mapping.clio": FLAT.replace("1", version, 1) + "line a.x->t.y;", "a.csv": "x\n"}


def ending(folder, word):
    """The status and the message of this reading, and for a question also what is said and written; or None."""
    try:
        if word == "exchange":
            Rows(folder).source(folder_mapping(folder)[0])
            return 0, ""
        wanted = wanted_run(folder, word)
        return wanted.status, wanted.told, wanted.said, wanted.files
    except Refusal as refusal:
        return refusal.status, refusal.message + "\n"
    except Unsure:
        return None


def agrees(program, files, word, wanted=None):
    """Whether the program ends with the status and the message of this reading, or as it is wanted."""
    folder = Folder(files)
    wanted = wanted or ending(folder, word)
    run = folder.run(program, [word])
    folder.remove()
    if wanted is None or wanted == (run.status, run.told, run.said, run.files)[:len(wanted)]:
        return True
    shown = {name: text if len(text) < 300 else text[:300] + ".." for name, text in files.items()}
    print("DIFFERENCE: %s in %s\n  the program: %.2000s\n  this reading: %.2000s" % (word, shown, run, wanted))
    return False


def main(words):
    """All chosen folders."""
    if len(words) != 1:
        print("usage: faults.py PROGRAM", file=sys.stderr)
        return 2
    program = os.path.abspath(words[0])
    results = [agrees(program, *folder) for folder in (*chosen_folders(), *questions_at_limits())]
    print("folders %d, differences %d" % (len(results), results.count(False)))
    return 1 if False in results else 0


if __name__ == "__main__":
    sys.exit(main(sys.argv[1:]))
