"""The page on an auction and its outcome: what stands on it, and how it is made of elements."""

import hashlib
import os
import re
import subprocess
from html.parser import HTMLParser
from pathlib import Path
from typing import Dict, List, Optional, Tuple

import pytest

from product_mix import Auction, Bid
from product_mix._program import find_program
from product_mix._reports import bidders, certificate, chart, drawn, facts, way
from product_mix._reports.html import Html, element, joined
from product_mix._reports.tables import table_of
from product_mix.words._forms import Table

from conftest import TOP
from test_words import STALLS, Run, example, run as run  # noqa: F401  A fixture.

MARKET = str(TOP / "docs" / "market.csv")
# Elements that have no end.
VOID = {"meta", "link", "img", "br", "hr", "input"}
# What could load something.
LOADING = {"src", "srcset", "href", "xlink:href", "data", "poster", "action", "background", "formaction", "ping"}

Attributes = Dict[str, Optional[str]]


class Page(HTMLParser):
    """A page taken apart: its headings, tables, pictures and links, and all of its words."""

    def __init__(self, text: str) -> None:
        super().__init__()
        self.text = text
        self.open: List[str] = []
        self.headings: List[Tuple[int, str]] = []
        self.tables: List["List[List[str]]"] = []
        self.captions: List[str] = []
        self.heads: List[Attributes] = []
        self.pictures: List[str] = []
        self.regions: List[Attributes] = []
        self.links: List[str] = []
        self.places: List[str] = []
        self.tags: Dict[str, Attributes] = {}
        self.words = ""
        self.feed(text)
        self.close()
        assert not self.open

    def handle_starttag(self, tag: str, attrs: "list[tuple[str, Optional[str]]]") -> None:
        attributes = dict(attrs)
        self.tags.setdefault(tag, attributes)
        if tag not in VOID:
            self.open.append(tag)
        self.links += [value or "" for name, value in attrs if name in LOADING]
        self.places += [value or "" for name, value in attrs if name == "id"]
        if attributes.get("role") == "region":
            self.regions.append(attributes)
        if re.fullmatch("h[1-6]", tag):
            self.headings.append((int(tag[1]), ""))
        if tag == "table":
            self.tables.append([])
            self.captions.append("")
        if tag == "tr":
            self.tables[-1].append([])
        if tag == "th":
            self.heads.append(attributes)
        if tag in ("th", "td"):
            self.tables[-1][-1].append("")
        if tag == "svg":
            self.pictures.append("")

    def handle_startendtag(self, tag: str, attrs: "list[tuple[str, Optional[str]]]") -> None:
        self.links += [value or "" for name, value in attrs if name in LOADING]

    def handle_endtag(self, tag: str) -> None:
        assert self.open.pop() == tag

    def handle_data(self, data: str) -> None:
        if "style" in self.open:
            return
        self.words += data
        if self.headings and re.fullmatch("h[1-6]", self.open[-1] if self.open else ""):
            self.headings[-1] = (self.headings[-1][0], self.headings[-1][1] + data)
        if "caption" in self.open:
            self.captions[-1] += data
        elif "table" in self.open and self.tables[-1] and self.tables[-1][-1]:
            self.tables[-1][-1][-1] += data.strip("\n")
        if "svg" in self.open and "title" in self.open:
            self.pictures[-1] += data

    def table(self, caption: str) -> List[List[str]]:
        """The rows of the table whose caption begins so."""
        return next(table for table, found in zip(self.tables, self.captions) if found.startswith(caption))


def look_at_elements(page: Page) -> None:
    """What readers of screens want, and that nothing is loaded."""
    levels = [level for level, _ in page.headings]
    assert levels.count(1) == 1 and levels[0] == 1
    assert all(after <= before + 1 for before, after in zip(levels, levels[1:]))
    assert all(page.captions) and all(head.get("scope") in ("col", "row") for head in page.heads)
    assert all(len(row) == len(table[0]) for table in page.tables for row in table)
    assert all(page.pictures) and "img" not in page.tags
    assert len(set(page.places)) == len(page.places)
    assert all(region.get("aria-label") or region.get("aria-labelledby") in page.places for region in page.regions)
    assert all(region.get("tabindex") == "0" for region in page.regions)
    assert all(link.startswith("#") and link[1:] in page.places for link in page.links)
    assert not {"script", "link", "iframe", "object", "embed", "form"} & set(page.tags)
    assert "url(" not in page.text and "@import" not in page.text
    assert page.tags["html"] == {"lang": "en"} and page.tags["meta"] == {"charset": "utf-8"}
    assert "default-src 'none'" in page.text and 'name="viewport"' in page.text and page.headings[0][1]


@pytest.fixture
def page(run: Run) -> "Pages":  # noqa: F811  The fixture is wanted here.
    return Pages(run)


class Pages:
    """Makes pages."""

    def __init__(self, run: Run) -> None:  # noqa: F811
        self.run, self.status, self.told = run, 0, ""

    def __call__(self, *words: object) -> Page:
        self.status, out, self.told = self.run("report", *words)
        found = Page(out)
        look_at_elements(found)
        return found

    def of(self, auction: Auction, folder: Path, *words: object) -> Page:
        path = folder / "auction.csv"
        path.write_text(auction.text())
        return self(path, *words)


def test_the_board(page: Pages) -> None:
    """The market of docs/SHEETS.md, whose numbers the tutorial works out by hand, here in hundredths."""
    found = page(MARKET, "--step", "0.01")
    assert page.status == 0 and "amounts: in steps of 0.01" in page.told
    assert found.headings[0] == (1, "Auction of Innenplatz and Außenplatz")
    assert found.table("Goods, prices and what was sold") == [
        ["good", "for sale", "reserve", "price", "sold", "unsold", "brings"],
        ["Innenplatz", "2", "10.00", "16.00", "2", "0", "32.00"],
        ["Außenplatz", "2", "6.00", "8.00", "2", "0", "16.00"],
        ["together", "4", "", "", "4", "0", "48.00"]]
    assert found.table("Who gets what") == [
        ["bidder", "asked for", "got of Innenplatz", "got of Außenplatz", "pays"],
        ["Änne Käse", "1", "1", "0", "16.00"],
        ["Bo & Söhne", "2", "1", "1", "24.00"],
        ["Cleo", "2", "0", "1", "8.00"],
        ["together", "5", "2", "2", "48.00"]]
    assert "was asked whether the outcome is true, and says: yes." in found.words
    assert "Bo &amp; Söhne" in found.text and found.text.count("Bo & ") == 0


def test_the_other_sections(page: Pages) -> None:
    found = page(STALLS)
    assert [title for level, title in found.headings if level == 2] == [
        "How to repeat it", "On this page", "The bidders", "The prices on their way", "The picture", "Why it is right",
        "The texts"]
    assert found.table("Bids of Cleo")[1:] == [
        ["1", "1", "not filled; it would be if inside cost less than 16 (it costs 16)", "16", "–"],
        ["2", "1", "filled; it takes outside, which leaves 2 a unit", "–", "10"],
        ["3", "1", "filled; it takes outside, which leaves 16 a unit", "30", "24"],
        ["4", "-1", "it counts; it takes back outside, which leaves 2 a unit", "16", "10"]]
    # Bo has 24 + 16 of value and pays 24; Cleo has an outside stall, worth 24, for 8.
    assert "Gets 1 of inside and 1 of outside and pays 24. By its bids that is worth 16 more than it pays" in found.words
    assert "Of 4 bids 3 filled and 1 not filled." in found.words
    assert found.table("2 steps of the prices") == [
        ["what rises", "by", "units too few", "price of inside", "price of outside"],
        ["reserves", "–", "–", "10", "6"], ["inside", "4", "2", "14", "6"], ["inside and outside", "2", "1", "16", "8"]]
    assert "Bo has 1 of inside and could have no more: of inside and outside together it wants at most 2 units" in found.words
    assert len(found.pictures) == 2


def test_the_texts(page: Pages) -> None:
    """The texts stand there to the byte, with their SHA-256."""
    found = page(STALLS)
    for name, path in (("auction.csv", Path(STALLS)), ("outcome.csv", example("stalls", "expected"))):
        assert '<pre id="%s"' % name in found.text and path.read_text() in found.text
        assert hashlib.sha256(path.read_bytes()).hexdigest() in found.words
    assert "other line ends" not in found.words


@pytest.mark.parametrize("name", ["stalls", "not-a-demand", "forged", "eight-goods"])
def test_how_to_repeat_it(name: str, page: Pages, tmp_path: Path) -> None:
    """Each command of the page prints what the page says."""
    found = page(example(name))
    (tmp_path / "page.html").write_text(found.text, encoding="utf-8")
    (tmp_path / "product_mix").symlink_to(os.path.abspath(find_program()))
    environment = {**os.environ, "PATH": "%s:%s" % (tmp_path, os.environ["PATH"])}
    steps = found.text.split("How to repeat it</h2>")[1].split("</ol>")[0].split("<li>")[1:]
    assert len(steps) == (3 if name == "forged" else 4)
    for step in steps:
        command, *printed = [Html(pre).replace("&lt;", "<").replace("&gt;", ">").replace("&amp;", "&")
                             for pre in re.findall("<pre[^>]*>(.*?)</pre>", step, re.DOTALL)]
        done = subprocess.run(["sh", "-c", command], cwd=str(tmp_path), env=environment, stdout=subprocess.PIPE, check=False)
        assert done.stdout.decode().rstrip("\n") == "".join(printed)
    assert (tmp_path / "outcome.csv").read_text().startswith("outcome,")


def test_a_text_of_another_kind(page: Pages, tmp_path: Path) -> None:
    """With line ends of two bytes and a mark at its head: the SHA-256 of the file is told beside that of the text."""
    path = tmp_path / "auction.csv"
    data = b"\xef\xbb\xbf" + Path(STALLS).read_bytes().replace(b"\n", b"\r\n")[:-2]
    path.write_bytes(data)
    found = page(path)
    for digest in (hashlib.sha256(data).hexdigest(), hashlib.sha256(Path(STALLS).read_bytes()).hexdigest()):
        assert digest in found.words
    assert "other line ends, or a mark at its head" in found.words


def test_two_commands(page: Pages, run: Run, tmp_path: Path) -> None:  # noqa: F811
    """As docs/SHEETS.md has it, and the same page as that of the sheet itself."""
    text, out = tmp_path / "auction.csv", tmp_path / "page.html"
    assert run("sheet", MARKET, "--step", "0.01", "--out", text)[0] == 0
    assert run("report", text, "--out", out) == (0, "", "")
    assert out.read_text(encoding="utf-8") == page(MARKET, "--step", "0.01").text
    found = Page(out.read_text(encoding="utf-8"))
    assert found.table("Names that the texts spell otherwise")[1:] == [
        ["good", "Außenplatz", "Aussenplatz"], ["bidder", "Änne Käse", "Aenne_Kaese"], ["bidder", "Bo & Söhne", "Bo_and_Soehne"]]
    assert "in steps of 0.01: 1000 stands for 10.00." in found.words


def test_names_that_look_like_tags(page: Pages, run: Run, tmp_path: Path) -> None:  # noqa: F811
    """Whatever a sheet calls its goods and bidders stands there as it is called."""
    text = Path(MARKET).read_text().replace("Innenplatz", "<b>\"In\" & 'out'").replace("Änne Käse", "</td><script>alert(1)</script>")
    path = tmp_path / "sheet.csv"
    path.write_text(text)
    found = page(path, "--step", "0.01", "--title", "<i>A & B")
    assert found.headings[0] == (1, "<i>A & B") and "script" not in found.tags and "b" not in found.tags
    assert found.table("Who gets what")[1][0] == "</td><script>alert(1)</script>"
    assert "Gets 1 of <b>\"In\" & 'out' and pays 16.00." in found.words


# ----------------------------------------------------------------------------------------------- auctions of every kind

def test_a_refused_list(page: Pages, tmp_path: Path) -> None:
    """Dan of the tutorial: who was refused, and why."""
    auction = Auction(["inside", "outside"], [2, 2], [10, 6]).bid("Ann", 1, inside=40)
    for weight, inside, outside in ((1, 30, None), (1, None, 24), (-1, 30, 24)):
        auction = auction.with_bid(Bid("Dan", (inside, outside), weight))
    found = page.of(auction, tmp_path)
    assert page.status == 1
    assert "Nothing clears. The list of Dan stands for no demand." in found.words
    assert "bid 3 of Dan: a bid that takes back 1 unit of inside at up to 30 or outside at up to 24" in found.words
    assert found.table("Who bids") == [["bidder", "bids"], ["Ann", "1"], ["Dan", "3"]]
    assert "whether the refusal is true, and says: yes." in found.words
    assert len(found.pictures) == 1 and "The bidders" not in [title for _, title in found.headings]


def test_an_outcome_that_is_not_true(page: Pages, tmp_path: Path) -> None:
    outcome = tmp_path / "outcome.csv"
    outcome.write_text(example("stalls", "expected").read_text().replace("share,Bo,1,1,24", "share,Bo,1,1,20"))
    found = page(STALLS, "--outcome", outcome)
    assert page.status == 1 and "The outcome isn't true" in found.words
    assert "no: the payment of Bo isn't price times quantity, which is 24." in found.words
    assert "no,pay,Bo,24" in found.words and "product_mix solve" not in found.words
    assert found.table("Who gets what")[2] == ["Bo", "1", "1", "20"]
    assert [title for level, title in found.headings if level == 2] == ["How to repeat it", "On this page", "The texts"]
    assert page(example("checked")).headings[1][1] == "How to repeat it" and page.status == 0


def test_nobody_bids(page: Pages, tmp_path: Path) -> None:
    found = page.of(Auction(["A"], [3], [5]), tmp_path)
    assert page.status == 0 and "Nobody bids." in found.words
    assert found.table("Goods, prices and what was sold")[1:] == [["A", "3", "5", "5", "0", "3", "0"]]
    assert "At the reserves nothing is wanted too much, so no price rises." in found.words
    assert "3 of A go back to the seller: only goods whose price is their reserve" in found.words


def test_one_good_a_cap_and_a_tie_order(page: Pages, tmp_path: Path) -> None:
    """One unit that two want at 5, and Q is served first; P has a cap of 1."""
    auction = Auction(["A"], [1], [0], [Bid("P", [5], 2), Bid("Q", [5])], {"P": 1}, ["Q", "P"])
    found = page.of(auction, tmp_path)
    assert found.table("Who gets what")[1:] == [["P", "1", "0", "0"], ["Q", "1", "1", "5"], ["together", "2", "1", "5"]]
    assert "It takes at most 1 unit of all goods together. Where several bundles are as good, it is served as number 2 of 2." \
        in found.words
    assert "Bidders are served in this order: Q and P." in found.words


def test_eight_goods(page: Pages) -> None:
    found = page(example("eight-goods"))
    assert page.status == 0 and len(found.table("Goods")) == 10
    assert found.headings[0] == (1, "Auction of 8 goods") and "The picture" not in [title for _, title in found.headings]
    goods = [row[0] for row in found.table("Goods")[1:3]]
    assert len(page(example("eight-goods"), "--picture", ",".join(goods)).pictures) == len(found.pictures) + 1
    status, out, told = page.run("report", example("eight-goods"), "--picture", "nothing,else")
    assert (status, out) == (3, "") and told == "no good is called nothing\n"


def test_so_many_that_it_is_summarised(page: Pages, monkeypatch: pytest.MonkeyPatch) -> None:
    """Each part that is cut short says so."""
    for module, name, most in ((bidders, "MOST_BIDS", 3), (bidders, "MOST_BIDS_OF_ONE", 2), (certificate, "MOST_PAIRS", 5),
                               (certificate, "MOST_KINDS", 3), (way, "MOST_ROWS", 2), (way, "FIRST_ROWS", 1),
                               (drawn, "MOST_BIDS", 5)):
        monkeypatch.setattr(module, name, most)
    found = page(STALLS)
    assert "The 6 bids are too many for a page. So a bidder's table has at most 2 of them" in found.words
    # The first one isn't filled, as Cleo has none of inside; of the filled ones the second leaves least.
    assert [row[0] for row in found.table("Bids of Cleo")[1:]] == ["1", "2"]
    # Six pairs: inside 2 and 0, outside 4 and 0 (Ann and Cleo), inside 6 and 4, outside 6 and 0, inside 3 and 1.
    assert "There are 6 pairs, of 5 kinds" in found.words and "of the 3 that most bidders have" in found.words
    assert found.table("Kinds of pairs")[1][:2] == ["outside", "2 bidders"] and len(found.table("Kinds of pairs")) == 4
    assert [row[0] for row in found.table("2 steps of the prices; here are the first 1 and the last 1 rows")[1:]] == [
        "reserves", "inside and outside"]
    assert "There are 6 bids, and of more than 5 no picture is drawn." in found.words


def test_where_steps_would_take_long(page: Pages, tmp_path: Path, monkeypatch: pytest.MonkeyPatch) -> None:
    monkeypatch.setattr(facts, "MOST_RISE_WITH_CAPS", 4)
    capped = Auction(["A"], [1], [0], [Bid("P", [9]), Bid("Q", [5])], {"P": 1})
    assert "so the program would take long to tell each step: it wasn't asked." in page.of(capped, tmp_path).words


# --------------------------------------------------------------------------------------------------- what can't be shown

@pytest.mark.parametrize("fault, status, said", [
    ("mix,1\ngoods,A\nsupply,1\nreserve,0\nbid,P,1,4.5\nend\n", 3, "line 5 (row 5): number"),
    ("mix,1\ngoods,A,B,C,D,E,F\n", 4, "too many goods"),
    ("bidder,quantity,A\nP,1,4o\n", 3, "'4o' is no number"),
    ("", 3, ""),
])
def test_faults(fault: str, status: int, said: str, run: Run, tmp_path: Path) -> None:  # noqa: F811
    """What is wrong is told, and nothing is written."""
    text, out = tmp_path / "auction.csv", tmp_path / "page.html"
    text.write_text(fault)
    ended, printed, told = run("report", text, "--out", out)
    assert (ended, printed) == (status, "") and said in told and told and not out.exists()


def test_files_that_do_not_go_together(run: Run, tmp_path: Path) -> None:  # noqa: F811
    assert run("report", STALLS, MARKET) == (3, "", "a page is of one auction: name its text alone, or its tables\n")
    assert run("report", tmp_path / "none.csv")[0] == 5
    outcome = tmp_path / "outcome.csv"
    outcome.write_text("outcome,1\ncleared\nprice,1\n")
    status, out, told = run("report", STALLS, "--outcome", outcome)
    assert (status, out) == (3, "") and told.startswith("%s, line 3" % outcome)
    assert run("report", STALLS, "--out", tmp_path / "none" / "page.html")[0] == 5


# ------------------------------------------------------------------------------------------------------------- the parts

def test_elements() -> None:
    assert element("p", "a < b", Html("<br>"), lang=None, tabindex=0) == '<p tabindex="0">a &lt; b<br></p>'
    assert joined(["<", Html("<b></b>")], " ") == "&lt; <b></b>"
    # What is put together by other means is a text again, and is escaped: nothing gets through unseen.
    assert element("p", Html("<b>") + "x") == "<p>&lt;b&gt;x</p>"


def test_a_table() -> None:
    told = table_of("one", Table("Of <one>", ["a", "b"], [["x", 1], ["y", None]], ["both", 1]), [1])
    assert "<caption id=\"one\">Of &lt;one&gt;</caption>" in told and '<th scope="col" class="number">b</th>' in told
    assert '<tr class="met"><th scope="row">y</th><td class="number">–</td></tr>' in told
    assert '<tfoot><tr><th scope="row">both</th><td class="number">1</td></tr></tfoot>' in told


def test_the_chart() -> None:
    """Names stand apart and in the picture; ticks are round."""
    assert chart._ticks(10, 16) == [10, 12, 14, 16] and chart._ticks(3, 3) == [3] and chart._ticks(0, 1000) == [0, 500, 1000]
    assert chart._ticks(995, 1100) == [1000, 1050, 1100]
    assert chart._apart([20, 21, 100]) == [20, 20 + chart.APART, 100]
    bottom = chart.HEIGHT - chart.BOTTOM
    assert chart._apart([bottom, bottom]) == [bottom - chart.APART, bottom]
