"""The documents: what several places say is the same, and what they name is there."""

import re
import shutil
import unittest

from support import ROOT, output

ROW = re.compile(r"^- (\d+) ([A-Z]\w+):", re.M)
SPECS = re.compile(r"^- (`.+?`): (.+)$", re.M)
CITED = re.compile(r"^(?:pub )?use Rattle\.(\w+)\.specs\.(\w+)\.", re.M)


MOST_WORDS = 18000


def text_of(name):
    return (ROOT / name).read_text()


def documents():
    return [*ROOT.glob("*.md"), *(ROOT / "docs").glob("*.md"), ROOT / "bench/README.md", ROOT / "python/README.md"]


class Documents(unittest.TestCase):
    def test_refusals(self):
        numbers = {word: int(number) for word, number in re.findall(r"Refusal::(\w+) => (\d+),", text_of("crates/lattice/src/refusal.rt"))}
        rows = sorted((number, word) for word, number in numbers.items())
        self.assertEqual(len(rows), 28)
        of_readers = [(int(number), word) for number, word in re.findall(r'b"ERR (\d+) (\w+)"', text_of("crates/lines/src/text.rt"))]
        told = ROW.findall(text_of("docs/messages.md")), re.findall(r"^(\d+)\|(\w+)\|", text_of("man/mosaic.1"), re.M)
        for found, wanted in zip(told, (rows + of_readers, rows)):
            self.assertEqual([(int(number), word) for number, word in found], wanted)

    def test_lines(self):
        listed, whole = (text_of("docs/lines.md").partition(f"## {title}")[2].partition("\n## ")[0] for title in ("Commands and queries", "Whole tiles"))
        described = text_of("man/mosaic.1").partition(".SH LINES")[2].partition(".SH ")[0]
        words = [line.split()[0] for block in re.findall(r"```\n(.*?)```", listed, re.S) for line in block.splitlines()]
        self.assertEqual(re.findall(r'^\.TP\n\.BI? "?(\w+)', described, re.M), words)
        words = re.findall(r"^- `(\w+) WORD`:", whole, re.M)
        self.assertEqual(re.findall(r'^\.BI "(\w+) " NAME$', text_of("man/mosaic-tiles.1"), re.M), words)

    def test_versions(self):
        version = text_of("VERSION").strip()
        for name in ("man/mosaic.1", "man/mosaic-tiles.1"):
            self.assertIn(f'"mosaic {version}"', text_of(name))
        self.assertIn(f"\n## {version} ", text_of("CHANGELOG.md"))
        self.assertIn(f'VERSION = "{version}"\n', text_of("python/mosaic_store/version.py"))

    def test_links(self):
        missing = []
        for path in documents():
            for link in re.findall(r"\]\(([^)#:]+)(?:#[^)]*)?\)", path.read_text()):
                missing += [] if (path.parent / link).exists() else [f"{path.name}: {link}"]
        self.assertEqual(missing, [])

    def test_anchors(self):
        """A link to a heading finds it."""
        missing = []
        for path in documents():
            for file, anchor in re.findall(r"\]\(([^)#:\s]*)#([^)\s]+)\)", path.read_text()):
                target = path.parent / file if file else path
                found = {re.sub(r"[^\w\- ]", "", title.lower()).replace(" ", "-") for title in re.findall(r"^#+ (.+)$", target.read_text(), re.M)}
                missing += [] if anchor in found else [f"{path.name}: {file}#{anchor}"]
        self.assertEqual(missing, [])

    def test_length(self):
        """All documents together keep the limit of words, and no sentence outside code and tables has more than 40."""
        long = []
        for path in documents():
            prose = re.sub(r"```.*?```", " ", path.read_text(), flags=re.S)
            prose = "\n".join(line for line in prose.split("\n") if not line.startswith(("|", "    ", "#")))
            for block in re.split(r"\n\s*\n|\n(?=\s*(?:-|\*|\d+\.)\s)", prose):
                sentences = re.split(r"(?<=[.?!:])\s+", " ".join(block.split()))
                long += [f"{path.name}: {sentence}" for sentence in sentences if len(sentence.split()) > 40]
        self.assertEqual(long, [])
        self.assertLessEqual(sum(len(path.read_text().split()) for path in documents()), MOST_WORDS)

    def test_changes(self):
        """A version has at most 25 entries."""
        for version in text_of("CHANGELOG.md").split("\n## ")[1:]:
            self.assertLessEqual(len(re.findall(r"^- ", version, re.M)), 25, version.partition("\n")[0])

    def test_root_examples(self):
        """The lines of each root comment's example are in one function of a test crate, or of the program, in their
        order."""
        crates = ROOT / "crates"
        texts = [path.read_text() for crate in [*crates.glob("*acceptance"), crates / "mosaic"] for path in crate.glob("src/**/*.rt")]
        functions = [packed(function) for text in texts for function in text.split("\n}\n")]
        missing = []
        for path in sorted(crates.glob("*/src/lib.rt")):
            for example in re.findall(r"//! ```\n(.*?)//! ```", path.read_text(), re.S):
                wanted = re.compile(".*".join(re.escape(packed(line[3:])) for line in example.splitlines()))
                missing += [] if any(map(wanted.search, functions)) else [path.parent.parent.name]
        self.assertEqual(missing, [])

    def test_definitions(self):
        """Of the files of definitions that docs/definitions.md lists first each cites those alone that it lists."""
        first, second = map(listed_specs, re.findall(r"(?:^- `.+\n)+", text_of("docs/definitions.md").partition("## Where they stand")[2], re.M))
        cited = {name for crate, file in first for name in CITED.findall(text_of(f"crates/{crate}/specs/{file}.antt"))}
        ours = {(crate, file) for crate, file in cited if file != "declared" and (ROOT / "crates" / crate).is_dir()}
        self.assertEqual((sorted(ours - first - second), sorted(second - ours)), ([], []))


class Kit(unittest.TestCase):
    @unittest.skipUnless(shutil.which("rt"), "`rt` isn't here, and README's line on the prover can't be compared with it")
    def test_prover(self):
        """README names the prover that the repository is proved with."""
        (named,) = re.findall(r"`(logic [0-9a-f]+)`", text_of("README.md"))
        self.assertEqual(named, output("rt", "version").strip().partition(" ")[2])


def listed_specs(items):
    """The crates and files of a list: several crates of an item have their files apart by semicolons."""
    found = set()
    for crates, files in SPECS.findall(items):
        for crate, group in zip(re.findall(r"`(\w+)`", crates), files.split("; ")):
            found |= {(crate, file) for file in group.split(", ")}
    return found


def packed(code):
    """Without comments and layout."""
    return re.sub(r",([)\]}])", r"\1", re.sub(r"\s", "", re.sub(r"//.*", "", code)))
