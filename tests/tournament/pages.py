"""Tests of the pages of bin/tournament. They need the Python packages; the class Seen needs a browser as well."""
import html.parser
import os
import re
import subprocess
import sys
import tempfile
import unittest
import urllib.parse
import xml.dom.minidom

from tests.tournament import browser
from tests.tournament.calls import EXAMPLE, OUTPUTS, TOP, DOMAIN, PROBLEM, read

ODD = ["a b", "tab\there", "<b>&\"'", "$x^2$", "\udcff\u00e9", "n" * 200]
MANY = 14
ROUGH = {"rough/sas_plan.1": "(light) (light)", "rough/Plan<1>": "(light)", "rough/run1/sas_plan": "(light)", "rough/run.log": "(light)",
         "rough/sas_plan.1.xz": "(light)", "rough/p.soln": "(light"}
VOID = {"meta", "link", "br"}
OUTSIDE = re.compile(r"""\bhttps?:|<script|@import|javascript:|\bon\w+=""", re.IGNORECASE)


class Page(html.parser.HTMLParser):
    """The names, links and table cells of a page."""

    def __init__(self, text):
        super().__init__()
        self.open, self.names, self.links, self.bare_numbers, self.cell, self.table = [], [], [], [], None, ""
        self.feed(text)
        self.close()

    def handle_starttag(self, tag, attributes):
        given = dict(attributes)
        self.names += [given["id"]] if "id" in given else []
        self.links += [value for name, value in attributes if name in ("href", "xlink:href", "src")]
        if tag == "table":
            self.table = given.get("class", "")
        if tag == "td" and self.table != "plans":
            self.cell = ["", False]
        if self.cell and tag == "a":
            self.cell[1] = True
        if tag not in VOID:
            self.open.append(tag)

    def handle_startendtag(self, tag, attributes):
        self.handle_starttag(tag, attributes)
        if tag not in VOID:
            self.handle_endtag(tag)

    def handle_endtag(self, tag):
        if self.open.pop() != tag:
            raise ValueError("<%s> is not closed in its turn" % tag)
        if tag == "td" and self.cell:
            text, linked = self.cell
            if re.search("[0-9]", text) and not linked:
                self.bare_numbers.append(text)
            self.cell = None

    def handle_data(self, data):
        if self.cell:
            self.cell[0] += data


def make_site(outputs, *words):
    """Makes a site in a new folder, and returns that folder."""
    folder = tempfile.TemporaryDirectory()
    site = os.path.join(folder.name, "site")
    call = [sys.executable, os.path.join(TOP, "bin", "tournament"), outputs, "--out", site, "-j", "2", *words]
    done = subprocess.run(call, capture_output=True, text=True)
    if done.returncode:
        raise AssertionError(done.stderr)
    return folder, site


def odd_outputs():
    """The outputs of planners with odd names, in a new folder."""
    outputs = tempfile.TemporaryDirectory()
    here = os.path.join(outputs.name, "lamps & <i>more", "one $1$ " + "w" * 150)
    for planner in ODD:
        os.makedirs(os.path.join(here, planner))
        files = {"domain.pddl": DOMAIN, "problem.pddl": PROBLEM, os.path.join(planner, "sas_plan.1"): "(light) (light)"}
        files[os.path.join(planner, "sas_plan.2")] = "(light)\n; cost = 7\n"
        for name, text in files.items():
            with open(os.path.join(here, name), "w") as file:
                file.write(text)
    return outputs


def rough_outputs():
    """The outputs of planners that leave other files than they should, in a new folder. The second problem is not scored."""
    outputs = tempfile.TemporaryDirectory()
    for name, problem in ("one", PROBLEM), ("two", PROBLEM.replace("(:goal", "(:metric maximize (shine)) (:goal")):
        files = {"domain.pddl": DOMAIN, "problem.pddl": problem, "neat/sas_plan": "(light)"}
        files.update(ROUGH)
        for path, text in files.items():
            whole = os.path.join(outputs.name, "lamps", name, path)
            os.makedirs(os.path.dirname(whole), exist_ok=True)
            with open(whole, "w") as file:
                file.write(text)
    return outputs


def many_outputs():
    """The outputs of more planners than are drawn in pairs, in a new folder. They rank in the order of their numbers, from 10 on."""
    outputs = tempfile.TemporaryDirectory()
    files = {"domain.pddl": DOMAIN.replace("(:action light", "(:action wait) (:action light"), "problem.pddl": PROBLEM}
    files.update({"planner%d/plan" % (10 + it): "(wait)" * it + "(light)" for it in range(MANY)})
    for path, text in files.items():
        whole = os.path.join(outputs.name, "lamps", "one", path)
        os.makedirs(os.path.dirname(whole), exist_ok=True)
        with open(whole, "w") as file:
            file.write(text)
    return outputs


def setUpModule():
    """Makes the site of the example, and sites of planners with odd names, of planners that leave odd files, and of many planners."""
    folder, Sites.site = make_site(OUTPUTS, "--reference", os.path.join(EXAMPLE, "reference.tsv"))
    unittest.addModuleCleanup(folder.cleanup)
    outputs = odd_outputs()
    unittest.addModuleCleanup(outputs.cleanup)
    folder, Sites.odd_site = make_site(outputs.name, "--title", "<b>Odd</b> & long" + "g" * 80)
    unittest.addModuleCleanup(folder.cleanup)
    outputs = rough_outputs()
    unittest.addModuleCleanup(outputs.cleanup)
    folder, Sites.rough_site = make_site(outputs.name)
    unittest.addModuleCleanup(folder.cleanup)
    outputs = many_outputs()
    unittest.addModuleCleanup(outputs.cleanup)
    folder, Sites.many_site = make_site(outputs.name)
    unittest.addModuleCleanup(folder.cleanup)


class Sites(unittest.TestCase):
    """Tests of these sites."""
    site = odd_site = rough_site = many_site = None

    def files(self, ending):
        """All files of the sites with this ending."""
        for site in self.site, self.odd_site, self.rough_site, self.many_site:
            for folder, _, files in os.walk(site):
                yield from (os.path.join(folder, it) for it in files if it.endswith(ending))


class Pages(Sites):
    def test_all_links_lead_somewhere(self):
        pages = {path: Page(read(path).decode()) for path in self.files(".html")}
        self.assertEqual(len(pages), (20 + 4 + 3 + 3 + 1) + (1 + 1 + 6 + 15 + 1) + (2 + 1 + 2 + 1 + 1) + (1 + 1 + MANY + MANY - 1 + 1))
        for path, page in pages.items():
            self.assertEqual(len(set(page.names)), len(page.names), path)
            for link in page.links:
                if link.startswith("data:"):
                    continue
                target, _, name = link.partition("#")
                whole = os.path.normpath(os.path.join(os.path.dirname(path), urllib.parse.unquote(target))) if target else path
                self.assertTrue(os.path.isfile(whole), "%s: %s" % (path, link))
                if name:
                    self.assertIn(name, pages[whole].names, "%s: %s" % (path, link))

    def test_each_number_of_a_table_is_a_link(self):
        for path in self.files(".html"):
            bare = Page(read(path).decode()).bare_numbers
            ranks = {self.site: ["1", "2", "3"], self.odd_site: ["1"] * 6, self.rough_site: ["1", "2"],
                     self.many_site: [str(1 + it) for it in range(MANY)]}
            self.assertEqual(bare, ranks[os.path.dirname(path)] if path.endswith("index.html") else [], path)

    def test_nothing_is_fetched_or_run(self):
        for ending in ".html", ".svg", ".css":
            for path in self.files(ending):
                text = read(path).decode().replace("http://www.w3.org/2000/svg", "").replace("http://www.w3.org/1999/xlink", "")
                self.assertNotRegex(text, OUTSIDE, path)

    def test_plots_are_files_as_well(self):
        plots = list(self.files(".svg"))
        self.assertGreater(len(plots), 20)
        for path in plots:
            xml.dom.minidom.parse(path)

    def test_other_costs_than_the_planners_say_are_shown(self):
        told = {("orchard", "p5"): ["54"], ("orchard", "p3"): ["12", "22"], ("letters", "p2"): ["10.50"], ("letters", "p1"): [],
                ("switchboard", "p5"): ["9", "9"], ("tidepool", "p3"): ["3"]}
        for names, costs in told.items():
            page = read(self.site, "problems", *names[:1], names[1] + ".html").decode()
            self.assertEqual(re.findall("the planner says cost = ([0-9.]+)", page), costs, names)

    def test_a_problem_that_is_not_scored_is_listed(self):
        index, page = (read(self.rough_site, it).decode() for it in ("index.html", "problems/lamps/two.html"))
        self.assertRegex(index, '<li><a href="problems/lamps/two.html">lamps two</a>: the metric is maximize .shine.</li>')
        self.assertIn("Not scored:</strong> the metric is maximize (shine).", page)
        self.assertEqual(page.count("\u25cb not scored"), 2)
        self.assertIn("neat 1 valid 1", page)

    def test_what_is_passed_over_is_listed(self):
        page = read(self.rough_site, "problems", "lamps", "one.html").decode()
        self.assertIn("<li>rough: <code>Plan&lt;1&gt;</code>: it is not named as plans are</li>", page)
        self.assertIn("<li>rough: <code>run1</code>: it is a folder, and plans are taken only from the planner&#39;s own folder</li>", page)
        self.assertIn("<li>rough: <code>sas_plan.1.xz</code>: it is compressed: unpack it first</li>", page)
        self.assertNotIn("run.log", page)
        self.assertNotIn("Passed over", read(self.site, "problems", "orchard", "p5.html").decode())

    def test_what_is_wrong_is_explained(self):
        page = read(self.site, "problems", "orchard", "p3.html").decode()
        self.assertEqual(re.findall('<summary>(.*)</summary>', page), ["faulty: sas_plan.1"])
        self.assertIn('<pre id="why-faulty" tabindex="0">sas_plan.1:2:1: plan 1 fails at step 2, (pick t2)', page)
        self.assertEqual(page.count('<a href="#why-faulty">why?</a>'), 1)
        refused = read(self.site, "problems", "letters", "p4.html").decode()
        self.assertEqual(re.findall('<summary>(.*)</summary>', refused), ["What is wrong with it"])
        self.assertIn('<pre tabindex="0">problem.pddl:8:', refused)
        rough = read(self.rough_site, "problems", "lamps", "one.html").decode()
        self.assertIn('<pre id="why-rough" tabindex="0">p.soln:1:7: plan 1 cannot be read', rough)

    def test_explanations_are_kept(self):
        with tempfile.TemporaryDirectory() as folder:
            program, calls, site = (os.path.join(folder, it) for it in ("program", "calls", "site"))
            with open(program, "w") as file:
                file.write('#!/bin/sh\necho "$1" >> "%s"\nexec "%s" "$@"\n' % (calls, os.environ["PLAN_JUDGE"]))
            os.chmod(program, 0o755)
            counts = []
            for words in ["--no-site"], [], []:
                call = [sys.executable, os.path.join(TOP, "bin", "tournament"), OUTPUTS, "--out", site, "-j", "2", *words]
                subprocess.run(call, check=True, capture_output=True, env=dict(os.environ, PLAN_JUDGE=program))
                counts.append(tuple(read(calls).split().count(it) for it in (b"judge", b"explain")))
            # One of the problems is refused, and faulty has a plan that is not valid for each of the others but tidepool p2.
            self.assertEqual(counts, [(20, 0), (20, 19), (20, 19)])

    def test_planners_are_in_the_order_of_their_ranks(self):
        page = read(self.site, "problems", "orchard", "p3.html").decode()
        self.assertEqual(re.findall(r'planners/(\w+)\.html', page), ["good", "lazy", "faulty"])
        self.assertEqual(re.findall(r'<th scope="row">(\w+)</th>', page), ["good"] * 5 + ["lazy"] + ["faulty"] * 2)

    def test_costs_and_steps_are_named(self):
        page = read(self.site, "problems", "orchard", "p3.html").decode()
        self.assertIn("</span> valid: cost 22 in 8 steps</a>", page)
        self.assertIn(">cost 34 in 12 steps</a></td>", page)
        self.assertIn(">1 step</a></td>", read(self.site, "planners", "faulty.html").decode())
        self.assertIn(">undefined cost in 3 steps</a></td>", read(self.site, "planners", "faulty.html").decode())

    def test_other_costs_than_the_planners_say_are_counted(self):
        for planner, count in ("faulty", 3), ("lazy", 7):
            page = read(self.site, "planners", planner + ".html").decode()
            self.assertIn('<p><a href="#results">%d</a> of the valid plans have another cost' % count, page)
            self.assertEqual(len(re.findall('html#plans">1</a>', page)), count)
        self.assertNotIn("Other cost", read(self.rough_site, "planners", "neat.html").decode())

    def test_points_of_plots_have_names(self):
        names = set()
        for path in self.files(".svg"):
            for link in xml.dom.minidom.parse(path).getElementsByTagName("a"):
                title, shape = (it for it in link.childNodes if it.nodeType == it.ELEMENT_NODE)
                self.assertEqual((title.tagName, shape.getAttribute("role")), ("title", "img"), path)
                self.assertEqual(shape.getAttribute("aria-label"), title.firstChild.data, path)
                names.add(title.firstChild.data)
        self.assertLessEqual({"good: score 17.17, coverage 18", "letters, faulty: 2 solved", "orchard p3: good 22, faulty 30",
                              "good, plan 5: least cost 22", "orchard p4: lazy 45, faulty failed", "<b>&\"': score 1.00, coverage 1"}, names)

    def test_a_table_of_many_planners_has_them_in_rows(self):
        for name, heads in ("index.html", ["Planner", "lamps of 1"]), ("domains/lamps.html", ["Planner", "Sum", "one"]):
            page = read(self.many_site, name).decode()
            table = page[page.index("and planners\">"):]
            head = re.sub("<[^>]*>", "\t", table[:table.index("</tr>")]).split("\n", 2)[2]
            self.assertEqual(head.replace("\t", " ").split(), " ".join(heads).split())
        index = read(self.many_site, "index.html").decode()
        self.assertEqual(index.count(">planner10 and planner"), MANY - 1)

    def test_a_second_call_leaves_no_old_pages(self):
        extra = os.path.join(self.site, "planners", "gone.html")
        with open(extra, "w") as file:
            file.write("old")
        before = {it: read(it) for it in self.files(".html") if it != extra}
        call = [sys.executable, os.path.join(TOP, "bin", "tournament"), OUTPUTS, "--out", self.site, "-j", "2"]
        subprocess.run(call + ["--reference", os.path.join(EXAMPLE, "reference.tsv")], check=True, capture_output=True)
        self.assertEqual({it: read(it) for it in self.files(".html")}, before)
        self.assertEqual([it for it in os.listdir(self.site) if it.startswith(".")], [".tournament"])


class Again(unittest.TestCase):
    """Tests of further calls with the same site."""

    def setUp(self):
        folder = rough_outputs()
        self.addCleanup(folder.cleanup)
        self.outputs = folder.name
        folder, self.site = make_site(self.outputs)
        self.addCleanup(folder.cleanup)

    def call(self, *words):
        """Calls again, and returns the names of the files that were written."""
        before = self.times()
        call = [sys.executable, os.path.join(TOP, "bin", "tournament"), self.outputs, "--out", self.site, "-j", "2", *words]
        subprocess.run(call, check=True, capture_output=True)
        after = self.times()
        return {it for it in before.keys() | after.keys() if before.get(it) != after.get(it)}

    def times(self):
        """The times of all files of the site but its mark and what is kept for the next call."""
        found = {}
        for folder, _, files in os.walk(self.site):
            for name in (it for it in files if not it.startswith(".")):
                path = os.path.join(folder, name)
                found[os.path.relpath(path, self.site)] = os.stat(path).st_mtime_ns
        return found

    def test_nothing_is_written_if_nothing_has_changed(self):
        self.assertEqual(self.call(), set())

    def test_pages_that_were_changed_or_removed_are_made_again(self):
        pages = ["problems/lamps/one.html", "planners/neat.html", "plots/score.svg", "results.tsv"]
        whole = {it: read(self.site, it) for it in pages}
        for page in pages:
            with open(os.path.join(self.site, page), "ab") as file:
                file.write(b"more")
        self.assertEqual(self.call(), set(pages))
        for page in pages:
            os.remove(os.path.join(self.site, page))
        self.assertEqual(self.call(), set(pages))
        self.assertEqual({it: read(self.site, it) for it in pages}, whole)

    def test_only_what_has_changed_is_written(self):
        with open(os.path.join(self.outputs, "lamps", "two", "rough", "sas_plan.1"), "w") as file:
            file.write("(light) (light) (light)")
        report = {"reports/lamps/two.txt", "reports/lamps/two.json"}
        self.assertEqual(self.call(), report)  # the same step fails, so the page is the same
        with open(os.path.join(self.outputs, "lamps", "two", "rough", "sas_plan.1"), "w") as file:
            file.write("(dark)")
        self.assertEqual(self.call(), report | {"problems/lamps/two.html"})
        self.assertEqual(self.call("--title", "Other"), {it for it in self.times() if it.endswith(".html")})

    def test_a_call_without_pages_in_between(self):
        reference = os.path.join(self.outputs, "reference.tsv")
        with open(reference, "w") as file:
            file.write("lamps\tone\t0.5\n")
        whole = read(self.site, "results.tsv")
        self.assertEqual(self.call("--no-site", "--reference", reference), {"results.tsv", "results.json"})
        self.assertEqual(self.call(), {"results.tsv", "results.json"})
        self.assertEqual(read(self.site, "results.tsv"), whole)


# For each plot: whether it has a size, lies within the window, and all of its letters lie within it.
LOOK = """[...document.querySelectorAll('svg.plot')].map(plot => {
  const box = plot.getBoundingClientRect(), inside = it => it.left >= box.left - 2 && it.right <= box.right + 2 && it.top >= box.top - 2
    && it.bottom <= box.bottom + 2;
  const lost = [...plot.querySelectorAll('text')].filter(it => !inside(it.getBoundingClientRect())).map(it => it.textContent);
  return [box.width > 200 && box.height > 60 && box.left >= 0 && box.right <= %d, lost.join(' | ')];
})"""


class Seen(Sites):
    """What a browser makes of the pages, wide and narrow, in light and dark, and on paper."""

    def pages(self):
        """Pages of each kind, with their numbers of plots."""
        yield from ((os.path.join(self.site, it), count) for it, count in (
            ("index.html", 3), ("planners/good.html", 0), ("domains/letters.html", 0), ("compare/good+faulty.html", 1),
            ("problems/orchard/p5.html", 1), ("problems/letters/p4.html", 0), ("problems/tidepool/p5.html", 0)))
        yield from ((os.path.join(self.many_site, it), count) for it, count in (
            ("index.html", 3), ("domains/lamps.html", 0), ("problems/lamps/one.html", 0)))
        yield os.path.join(self.rough_site, "problems/lamps/one.html"), 0
        for kind, count in ("problems/*", 1), ("domains", 0), ("planners", 0), ("compare", 1):
            folder = os.path.join(self.odd_site, *kind.split("/")[:1])
            folder = os.path.join(folder, os.listdir(folder)[0]) if "*" in kind else folder
            yield os.path.join(folder, sorted(os.listdir(folder))[0]), count
        yield os.path.join(self.odd_site, "index.html"), 3

    def test_pages_fit_and_show_all_plots(self):
        with browser.Browser() as seen:
            looks = [(width, dark, "screen") for width in (1400, 390) for dark in (False, True)]
            for width, dark, media in looks + [(700, False, "print")]:
                seen.screen(width, dark, media)
                for path, count in self.pages():
                    place = "%s at %d pixels, %s" % (path, width, media)
                    self.assertEqual(seen.open(urllib.parse.quote(path)), [], place)
                    self.assertEqual(seen.value("matchMedia('(prefers-color-scheme: dark)').matches"), dark, place)
                    if media == "screen":
                        self.assertLessEqual(seen.value("document.documentElement.scrollWidth"), width, place)
                    self.assertEqual(seen.value(LOOK % width), [[True, ""]] * count, place)

    def test_tables_that_scroll_show_it(self):
        with browser.Browser() as seen:
            seen.screen(390, False)
            seen.open(os.path.join(self.site, "planners", "faulty.html"))
            self.assertGreater(seen.value("(it => it.scrollWidth - it.clientWidth)(document.querySelector('.scroll'))"), 100)
            # The cover moves with the table, and the shadow under it stays at the edge.
            style = seen.value("(it => [it.backgroundAttachment, it.backgroundImage])(getComputedStyle(document.querySelector('.scroll')))")
            self.assertEqual((style[0], style[1].count("linear-gradient")), ("local, scroll", 2))

    def test_a_link_opens_an_explanation(self):
        with browser.Browser() as seen:
            seen.open(os.path.join(self.site, "problems", "orchard", "p3.html#why-faulty"))
            self.assertTrue(seen.value("document.querySelector('details').open"))
