"""Catalogs: their lines, what they resolve, what is refused."""

from .form import ENTRY, Row, each, flat_twice, refused_files

A = "<!ELEMENT a EMPTY>"
A_FLAT = A + "\n"
WRONG = "<!ELEMENT wrong EMPTY>"
PUBLIC = '<!ENTITY % x PUBLIC "p" "s">%x;'
SYSTEM = '<!ENTITY % x SYSTEM "s">%x;'

# Name, the catalog, the entry; a.ent is the module that is meant, s and b.ent are others.
RESOLVED = [
    ("a public identifier", 'PUBLIC "p" "a.ent"', PUBLIC),
    ("a system identifier", 'SYSTEM "s" "a.ent"', SYSTEM),
    ("a system identifier of a declaration that has both", 'SYSTEM "s" "a.ent"', PUBLIC),
    ("a system line before a public line that stands first", 'PUBLIC "p" "b.ent"\nSYSTEM "s" "a.ent"', PUBLIC),
    ("the first of two system lines", 'SYSTEM "s" "a.ent"\nSYSTEM "s" "b.ent"', SYSTEM),
    ("the first of two public lines", 'PUBLIC "p" "a.ent"\nPUBLIC "p" "b.ent"', PUBLIC),
    ("a public line after a system line for another", 'SYSTEM "t" "b.ent"\nPUBLIC "p" "a.ent"', PUBLIC),
    ("a public line is nothing to a system identifier", 'PUBLIC "s" "b.ent"\nSYSTEM "s" "a.ent"', SYSTEM),
    ("blanks and tabs in a line", ' \tPUBLIC\t "p" \t"a.ent" \t', PUBLIC),
    ("comments and blank lines", '# PUBLIC "p" "b.ent"\n \t# "\n\n \t\nPUBLIC "p" "a.ent"\n', PUBLIC),
    ("a catalog with a text declaration", '<?xml version="1.0" encoding="utf-8"?>PUBLIC "p" "a.ent"', PUBLIC),
    ("a catalog with line ends of two bytes", '\r\nPUBLIC "p" "a.ent"\r\n', PUBLIC),
    ("public identifiers are collapsed", 'PUBLIC "  p   q " "a.ent"',
     '<!ENTITY % x PUBLIC "p\n \nq\r\n" "s">%x;'),
    ("an empty public identifier", 'PUBLIC "" "a.ent"', '<!ENTITY % x PUBLIC " " "s">%x;'),
    ("an empty system identifier", 'SYSTEM "" "a.ent"', '<!ENTITY % x SYSTEM "">%x;'),
    ("system identifiers are not collapsed", 'SYSTEM " s" "b.ent"\nSYSTEM "s" "a.ent"', SYSTEM),
    ("a system identifier that would escape", 'SYSTEM "http://e.org/x.ent" "a.ent"',
     '<!ENTITY % x SYSTEM "http://e.org/x.ent">%x;'),
    ("a public identifier whose system identifier would escape", 'PUBLIC "p" "a.ent"',
     '<!ENTITY % x PUBLIC "p" "../x.ent">%x;'),
    ("a name with a way up that stays within", 'SYSTEM "s" "c/.././a.ent"', SYSTEM),
    ("an apostrophe in a catalog's identifier", "SYSTEM \"it's\" \"a.ent\"",
     '<!ENTITY % x SYSTEM "it\'s">%x;'),
    ("a line resolves what an inner text declares", 'SYSTEM "s" "a.ent"',
     "<!ENTITY % d \"<!ENTITY &#37; x SYSTEM 's'>\">%d;%x;"),
]

# Name, the catalog, the refusal of the catalog; the entry is not there.
REFUSED = [
    ("a line without a name", 'PUBLIC "x"', "E50 CatalogMalformed cat.txt 1"),
    ("a line of another kind", 'DELEGATE "x" "y"', "E50 CatalogMalformed cat.txt 1"),
    ("a kind in small letters", 'public "x" "y"', "E50 CatalogMalformed cat.txt 1"),
    ("a line without a blank after its kind", 'PUBLIC"a" "b"', "E50 CatalogMalformed cat.txt 1"),
    ("a line without a blank between its parts", 'PUBLIC "a""b"', "E50 CatalogMalformed cat.txt 1"),
    ("a line in apostrophes", "PUBLIC 'a' 'b'", "E50 CatalogMalformed cat.txt 1"),
    ("a quote that does not end", 'PUBLIC "a" "b', "E50 CatalogMalformed cat.txt 1"),
    ("a word too many", 'PUBLIC "a" "b" c', "E50 CatalogMalformed cat.txt 1"),
    ("a comment at the end of a line", 'PUBLIC "a" "b" # c', "E50 CatalogMalformed cat.txt 1"),
    ("a quote in an identifier", 'PUBLIC "a"a" "b"', "E50 CatalogMalformed cat.txt 1"),
    ("an identifier over two lines", 'PUBLIC "a\n" "b"', "E50 CatalogMalformed cat.txt 1"),
    ("lines that are skipped are counted", '# x\n\nPUBLIC "a" "b"\n \nx\ny', "E50 CatalogMalformed cat.txt 5"),
    ("a lone carriage return is a line end", '\r\r\nx', "E50 CatalogMalformed cat.txt 3"),
    ("a name above the folder", 'SYSTEM "a" "../b"', "E51 PathEscapes cat.txt 1"),
    ("a name from the root", 'SYSTEM "a" "/b"', "E51 PathEscapes cat.txt 1"),
    ("a name with a colon", '\nPUBLIC "a" "x:b"', "E51 PathEscapes cat.txt 2"),
    ("a name that is nothing", 'PUBLIC "a" ""', "E51 PathEscapes cat.txt 1"),
    ("the first line that has a fault, malformed", 'x\nSYSTEM "a" "../b"', "E50 CatalogMalformed cat.txt 1"),
    ("the first line that has a fault, escaping", 'SYSTEM "a" "../b"\nx', "E51 PathEscapes cat.txt 1"),
    ("an ill-formed byte", b'\xffPUBLIC "a" "b"', "E13 NotUtf8 cat.txt 0"),
    ("a form feed", b'PUBLIC "a" "b"\x0c', "E14 NotChar cat.txt 14"),
    ("a bad text declaration", "<?xml ?>", "E15 BadTextDecl cat.txt 0"),
    ("another encoding", '<?xml encoding="latin1"?>', "E16 EncodingOther cat.txt 0"),
    ("bytes are judged before lines", b"x\n\xff", "E13 NotUtf8 cat.txt 2"),
]


def unresolved():
    files = {"cat.txt": b'PUBLIC "a\tb" "n.ent"', ENTRY: '<!ENTITY % x PUBLIC "a b" "y.ent">%x;', "n.ent": ""}
    catalog = {"cat.txt": 'PUBLIC "q" "n.ent"', ENTRY: '¶%x;<!ENTITY x "">', "n.ent": ""}
    other = {"cat.txt": 'SYSTEM "http://e.org/y" "n.ent"', ENTRY: '<!ENTITY % x SYSTEM "http://e.org/x">¶%x;'}
    used = {"cat.txt": 'SYSTEM "s" "c/no.ent"', ENTRY: SYSTEM, "s": A}
    absent = {ENTRY: "¶x"}
    return [
        refused_files("catalog: a tab in a public identifier is not collapsed", files,
                      "E10 ModuleAbsent y.ent 0", "check cat.txt m.dtd"),
        refused_files("catalog: it declares nothing", catalog, "E21 UndeclaredPe @ x", "check cat.txt m.dtd"),
        refused_files("catalog: an escaping identifier without a line", other,
                      "E51 PathEscapes @ http://e.org/x", "check cat.txt m.dtd"),
        refused_files("catalog: the module of a line is not there", used, "E10 ModuleAbsent c/no.ent 0",
                      "check cat.txt m.dtd"),
        refused_files("catalog: one that is not there comes before the entry", absent,
                      "E10 ModuleAbsent no.txt 0", "check no.txt m.dtd"),
    ]


def placed():
    files = {"c/cat.txt": 'SYSTEM "s" "n.ent"\nSYSTEM "t" "../o.ent"', "d/m.dtd": SYSTEM,
             "e/m.dtd": '<!ENTITY % x SYSTEM "t">%x;', "c/n.ent": A, "d/n.ent": WRONG, "o.ent": A}
    return flat_twice("catalog: a name is sought from the catalog's folder", files, "c/cat.txt d/m.dtd", A_FLAT, 1) \
        + flat_twice("catalog: a name above the catalog's folder", files, "c/cat.txt e/m.dtd", A_FLAT, 1)


def resolved(name, catalog, entry):
    files = {"cat.txt": catalog, ENTRY: entry, "a.ent": A, "b.ent": WRONG, "s": WRONG}
    return [Row("catalog: " + name, files, "flatten cat.txt m.dtd", 0, A_FLAT)]


def malformed(name, catalog, line):
    return [Row("catalog: " + name, {"cat.txt": catalog}, "check cat.txt m.dtd", 2, f"refused {line}\n")]


def rows():
    return unresolved() + placed() + each(resolved, RESOLVED) + each(malformed, REFUSED)
