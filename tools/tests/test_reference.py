"""Tests of the reference of the library: on a small repository, whose pages are written here by hand, and on this one.

usage: tools/tests/test_reference.py
"""
import html
import io
import os
import re
import sys
import tempfile
import unittest
from contextlib import redirect_stderr, redirect_stdout

TOP = os.path.dirname(os.path.dirname(os.path.dirname(os.path.realpath(__file__))))
sys.dont_write_bytecode = True
sys.path.insert(0, f"{TOP}/tools")
import rattle_names as names
import rattle_sources as sources
import reference
import reference_texts as texts

DOOR = """//! The door, over `Shelf`.
pub mod laws;

pub use shelves::shelf::{Shelf, Trouble};
pub use shelves::sizes;
"""
LAWS = """//! Laws of shelves.
pub use shelves::laws::shelves_stay;
"""
SHELF = """//! Shelves.
ghost use Rattle.std.specs.Prelude.{◌≡◌, OnOk, length};
ghost use Rattle.shelves.specs.Shelves.{count_of, IsFull, ◌▹◌};
ghost use Rattle.shelves.specs.declared.shelf.Trouble.TheVariants.{Full};
ghost use Rattle.shelves.specs.declared.shelf.Trouble.TheVariants as trouble;

use std::alloc::Global;

/// A row of books.
#[derive(Drop)]
pub struct Shelf {
    /// The most books.
    pub most: usize,
    books: usize,
}

/// The reason for a refusal.
#[derive(Debug, thiserror::Error)]
pub enum Trouble {
    /// The shelf has no room.
    #[error("full")]
    Full,
    /// The book is too high.
    #[error("high")]
    High(usize),
}

impl Shelf {
    /// Puts a book in, or returns `Full`.
    ///
    /// - Nothing is lost.
    /// - See `count`.
    #[inline]
    pub fn put<A: Fn(usize) -> bool>(
        &mut self,
        alloc: Global,
    ) -> Result<(), Trouble>
        requires room { count_of self.old ≡ 0 }
        ensures full { OnOk result (IsFull self.old
            ▹ self.new) }
    {
        let text = "}";
        Ok(())
    }

    /// Returns the number of books.
    pub fn count(&self) -> usize
        ensures { result ≡ count_of self.now }
        ensures never { (trouble.High 0) ≢ Full }
    {
        self.books
    }

    fn hidden(&self) {}
}
"""
SIZES = """//! Sizes.

/// The most shelves.
pub const MOST: usize = 3;

/// A text that has lines.
pub const TEXT: &str = "one
two; three
";

/// A thing with a size.
pub trait Sized {
    /// The size, in clauses.
    ghost size: { Self → ℕ };

    /// Returns the size.
    fn size(&self) -> usize
        ensures { result ≡ size self.now };
}
"""
SHELF_LAWS = """//! Laws.

/// A shelf stays.
pub fn shelves_stay()
    ensures { (n : ℕ) → n ≡ n }
{}
"""
SPECS = """-- Shelves as clauses see them.
use Rattle.std.specs.Prelude.{◌≡◌, ℕ}
use Rattle.shelves.specs.declared.shelf.Shelf.{Shelf}

-- ---- counts

-- How many books: `most` at the end.
abbrev pub count_of : Shelf → ℕ
count_of s = size_of s

-- Their size.
abbrev pub size_of : Shelf → ℕ
size_of s = s.books

module _ (least : ℕ) where
  -- The shelf is full.
  pub record IsFull (s : Shelf) : Type 0 where
    pub full : count_of s ≡ least

infixl 20 ◌▹◌
-- One after the other.
abbrev pub ◌▹◌ : Row → Row → Row
end ▹ r = r

mutual
  -- A row.
  pub data Row : Type 0 where
    end : Row

    more : Rows → Row

  -- Rows.
  pub data Rows : Type 0 where
    no_rows : Rows
"""
FILES = {
    "crates.txt": "# ---- all\nshelves:\nroom: shelves\n",
    "crates/room/src/lib.rt": DOOR,
    "crates/room/src/laws.rt": LAWS,
    "crates/shelves/src/lib.rt": "//! Shelves.\npub mod laws;\npub mod shelf;\npub mod sizes;\n",
    "crates/shelves/src/shelf.rt": SHELF,
    "crates/shelves/src/sizes.rt": SIZES,
    "crates/shelves/src/laws.rt": SHELF_LAWS,
    "crates/shelves/specs/Lib.antt": "pub mod Shelves\n",
    "crates/shelves/specs/Shelves.antt": SPECS,
}


def text_in(page):
    """The text of a page without its tags."""
    return html.unescape(re.sub(r"<[^>]*>", "", page))


def section(page, anchor):
    """The part of a page that begins with an anchor and ends before the next section or member."""
    start = page.index(f'id="{anchor}"')
    end = re.search(r'<section |<div class=member id="', page[start + 1:])
    return page[start:start + 1 + end.start()] if end else page[start:]


class Small(unittest.TestCase):
    """A repository of one door over one crate."""

    def pages(self, work=None, **changed):
        """The pages of the small repository, or what `work` makes of it; texts replace the files of their names."""
        files = {**FILES, **{f"crates/shelves/src/{name}.rt": text for name, text in changed.items()}}
        with tempfile.TemporaryDirectory() as room:
            for name, text in files.items():
                os.makedirs(os.path.dirname(f"{room}/{name}"), exist_ok=True)
                with open(f"{room}/{name}", "w", encoding="utf-8") as file:
                    file.write(text)
            before = sources.TOP, reference.DOORS
            sources.TOP, reference.DOORS = room, ("room",)
            self.forget()
            try:
                return (work or reference.pages)()
            finally:
                sources.TOP, reference.DOORS = before
                self.forget()

    @staticmethod
    def forget():
        for kept in (sources.file_of, sources.specs_of, names.impls_of, texts.documented_names):
            kept.cache_clear()

    def test_items(self):
        made, faults, notes = self.pages()
        self.assertEqual((faults, notes), ([], []))
        self.assertEqual(sorted(made), ["definitions.html", "definitions_below.html", "index.html", "room.html"])
        anchors = re.findall(r'<section class=item id="([^"]*)"', made["room.html"])
        self.assertEqual(anchors, ["Shelf", "Trouble", "laws.shelves_stay", "sizes.Sized", "sizes.MOST", "sizes.TEXT"])
        self.assertIn("The door, over", made["room.html"])
        self.assertIn('pub const TEXT: &str = "one\ntwo; three\n";', text_in(made["room.html"]))
        self.assertNotIn("hidden", made["room.html"])

    def test_contract_and_errors(self):
        page = self.pages()[0]["room.html"]
        put = section(page, "Shelf.put")
        self.assertIn("pub fn put<A: Fn(usize) -> bool>(\n    &mut self,\n    alloc: Global,\n) -> Result<(), Trouble>", text_in(put))
        self.assertIn("requires room { count_of self.old ≡ 0 }\nensures full { OnOk result (IsFull self.old\n    ▹ self.new) }", text_in(put))
        self.assertIn('<a href="definitions.html#shelves.Shelves.count_of">count_of</a>', put)
        self.assertIn('<a href="definitions.html#shelves.Shelves.◌▹◌">▹</a>', put)
        self.assertNotIn("let text", put)
        self.assertIn('(<a href="#Trouble.High">trouble.High</a> 0) ≢ <a href="#Trouble.Full">Full</a>', section(page, "Shelf.count"))
        self.assertIn('<dt><code><a href="#Trouble.Full">Full</a></code></dt><dd><p>The shelf has no room.</p></dd>', put)
        self.assertIn('<li>See <code><a href="#Shelf.count">count</a></code>.</li>', put)
        self.assertNotIn("<h5>Errors</h5>", section(page, "Shelf.count"))

    def test_members(self):
        page = self.pages()[0]["room.html"]
        self.assertIn("// private fields", text_in(section(page, "Shelf")))
        self.assertIn("The most books.", section(page, "Shelf"))
        self.assertIn("ghost size: { Self → ℕ };", text_in(section(page, "sizes.Sized.ghost.size")))
        self.assertIn("ensures { result ≡ size self.now }\n", text_in(section(page, "sizes.Sized.size")).replace("</code>", "\n") + "\n")
        self.assertIn("ensures { (n : ℕ) → n ≡ n }", text_in(section(page, "laws.shelves_stay")))

    def test_definitions(self):
        made, _, _ = self.pages()
        cited = re.findall(r'<section class=definition id="([^"]*)"', made["definitions.html"])
        self.assertEqual(cited, ["shelves.Shelves.count_of", "shelves.Shelves.IsFull", "shelves.Shelves.◌▹◌"])
        below = re.findall(r'<section class=definition id="([^"]*)"', made["definitions_below.html"])
        self.assertEqual(below, ["shelves.Shelves.size_of", "shelves.Shelves.Row"])
        self.assertIn("How many books: most at the end.", text_in(section(made["definitions.html"], "shelves.Shelves.count_of")))
        self.assertIn("module _ (least : ℕ) where\n  pub record IsFull (s : Shelf) : Type 0 where\n    pub full : count_of s ≡ least", text_in(made["definitions.html"]))
        self.assertIn('<a href="room.html#Shelf">Shelf</a>', made["definitions.html"])
        self.assertIn('<a href="definitions_below.html#shelves.Shelves.Row">end</a>', made["definitions.html"])
        self.assertIn("    end : Row\n\n    more : Rows → Row", text_in(made["definitions_below.html"]))

    def test_missing_comment(self):
        _, faults, notes = self.pages(laws=SHELF_LAWS.replace("/// A shelf stays.\n", ""))
        self.assertEqual((faults, notes), (["crates/shelves/src/laws.rt: laws::shelves_stay has no doc comment"], []))
        _, faults, notes = self.pages(shelf=SHELF.replace("    /// Returns the number of books.\n", ""))
        self.assertEqual((faults, notes), ([], ["crates/shelves/src/shelf.rt: Shelf::count has no doc comment"]))

    def test_status(self):
        """--check keeps nothing and ends with status 1 if there is a fault; --out writes the pages."""

        def said(*words):
            text = io.StringIO()
            with redirect_stdout(text), redirect_stderr(text):
                return reference.main(list(words)), text.getvalue()

        self.assertEqual(self.pages(lambda: said("--check")), (0, "reference: 4 pages, 0 faults\n"))
        line = "reference: crates/shelves/src/laws.rt: laws::shelves_stay has no doc comment\n"
        bare = SHELF_LAWS.replace("/// A shelf stays.\n", "")
        self.assertEqual(self.pages(lambda: said("--check"), laws=bare), (1, f"{line}reference: 4 pages, 1 faults\n"))
        status, text = self.pages(lambda: said("--check"), laws="//! Laws.\n")
        self.assertEqual(status, 1)
        self.assertIn("reference: shelves::laws::shelves_stay: it can't be read", text)
        with tempfile.TemporaryDirectory() as room:
            self.assertEqual(self.pages(lambda: said("--out", f"{room}/new")), (0, f"reference: 4 pages in {room}/new, 0 faults\n"))
            self.assertEqual(sorted(os.listdir(f"{room}/new")), ["definitions.html", "definitions_below.html", "index.html", "room.html", "style.css"])

    def test_lost_item(self):
        with self.assertRaisesRegex(names.Lost, "shelves::laws::shelves_stay"):
            self.pages(laws="//! Laws.\n")
        with self.assertRaisesRegex(sources.Unreadable, r"laws\.rt:3: not an item: halt"):
            self.pages(laws="//! Laws.\n\nhalt;\n")


class Parts(unittest.TestCase):
    """The functions that read parts of sources and of pages."""

    def test_links(self):
        made = {"a.html": '<p id="x"></p><a href="b.html#y">', "b.html": '<p id="y"><a href="#z"><a href="c.html"><a href="https://capnproto.org">'}
        self.assertEqual(list(reference.faults_of_links(made)), ["b.html: the link #z leads to no place", "b.html: the link c.html leads to no page"])
        self.assertEqual(list(reference.faults_of_links({"a.html": '<p id="x"><p id="x">'})), ["a.html: x is there twice"])

    def test_paths(self):
        self.assertEqual(sources.paths_in("a.b.{c, d as e, ◌+◌}", "."), [("c", ("a", "b", "c")), ("e", ("a", "b", "d")), ("◌+◌", ("a", "b", "◌+◌"))])
        self.assertEqual(sources.paths_in("a::{b::{c, d}, e};", "::"), [("c", ("a", "b", "c")), ("d", ("a", "b", "d")), ("e", ("a", "e"))])

    def test_signatures(self):
        self.assertEqual(texts.returned_type("pub fn f<F: Fn(u8) -> u8>(f: F) -> Result<Vec<(u8, u8)>, Full>"), "Result<Vec<(u8, u8)>, Full>")
        self.assertEqual(texts.arguments_of("Result<Vec<(u8, u8)>, Full>"), ["Vec<(u8, u8)>", "Full"])
        self.assertEqual(names.parts_of_impl("impl<'a, F: Fn(u8) -> u8> Read<'a> for Shelf<F>\nwhere\n    F: Copy"), ("Read<'a>", "Shelf<F>"))
        self.assertEqual(names.parts_of_impl("impl Shelf"), ("", "Shelf"))

    def test_kinds(self):
        self.assertTrue(texts.names_kind("Full", "`Full`: there is no room.", []))
        self.assertTrue(texts.names_kind("Full", "", ["ensures { IfErr result (λ e. e.kind ≡ Full) }"]))
        self.assertFalse(texts.names_kind("Full", "Any kind except `Full`.", ["ensures { IfErr result (λ e. e.kind ≢ Full) }"]))
        self.assertFalse(texts.names_kind("Full", "`IsFull`, and Full of books.", ["ensures { IsFull result }"]))


    def test_models(self):
        self.assertEqual(texts.models_of("It is refused like `put`, then like\n`Shelf::take`. It is like `count`."), ["put", "Shelf::take"])


class Whole(unittest.TestCase):
    """The pages of this repository."""

    @classmethod
    def setUpClass(cls):
        cls.made = reference.pages()[0]

    def test_check(self):
        said = io.StringIO()
        with redirect_stdout(said):
            status = reference.main(["--check"])
        self.assertEqual(status, 0, said.getvalue())
        self.assertRegex(said.getvalue(), r"reference: 7 pages, 0 faults\n$")

    def test_items_of_doors(self):
        """Each name that a door passes on is an anchor or a title of its page, and each clause of it is there as it is."""
        for door in reference.DOORS:
            page, lib = self.made[f"{door}.html"], sources.text_of(f"{TOP}/crates/{door}/src/lib.rt")
            for group in re.findall(r"pub use [\w:]+::(?:\{([^}]*)\}|(\w+));", lib):
                for name in re.findall(r"\w+", " ".join(group)):
                    self.assertTrue(f'id="{name}"' in page or f'id="module.{name}"' in page, f"{door}: {name}")
        relay = text_in(self.made["capnp_relay.html"])
        source = sources.text_of(f"{TOP}/crates/capnp_relay_streams/src/relay.rt").partition("pub fn relay<")[2].partition("\n{")[0]
        for line in source.split("\n")[1:]:
            self.assertIn(line.strip(), relay)

    def test_contracts_are_those_of_the_sources(self):
        """Each line of a contract is a line of the crate that the item is from."""
        lines, count = {}, 0
        for name, page in self.made.items():
            for item in re.findall(r"<section class=item.*?</section>", page, re.S):
                crate = re.search(r"<p class=from>(\w+)/src/", item)[1]
                if crate not in lines:
                    paths = [f"{at}/{it}" for at, _, names_there in os.walk(f"{TOP}/crates/{crate}/src") for it in names_there]
                    lines[crate] = {line.strip().removesuffix(";") for path in paths for line in sources.text_of(path).split("\n")}
                for contract in re.findall(r"<pre class=contract>(.*?)</pre>", item, re.S):
                    for line in text_in(contract).split("\n"):
                        count += 1
                        self.assertIn(line.strip(), lines[crate], name)
        self.assertGreater(count, 2000)

    def test_no_network(self):
        for name, page in self.made.items():
            self.assertNotRegex(page, r"<script|src=|url\(", name)


if __name__ == "__main__":
    unittest.main()
