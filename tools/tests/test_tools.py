"""Tests of tools/explain, timeline and definitions: `python3 -m unittest discover -s tools/tests -t tools`."""
import json
import re
import subprocess
import sys
import unittest
from pathlib import Path

TOOLS = Path(__file__).resolve().parent.parent
ROOT = TOOLS.parent
sys.path.insert(0, str(TOOLS))
import report_lines
import script_lines

TREE = b"mount 1 1 / 1\nfile /a 0o644 0 0 hi\n"
STORED_SCRIPT, STORED_REPORT = ROOT / "crates/pt_main/stdin", ROOT / "crates/pt_main/stdout"

# a script, the line told and a word of the reason
BAD = [
    (b"", 1, "before the line end"),
    (b"end\n", 1, "tree"),
    (TREE + b"end", 4, "line feed"),
    (TREE + b"end\nend\n", 4, "nothing follows"),
    (TREE + b"\nend\n", 3, "blank"),
    (TREE + b"# a comment\nend\n", 3, "no line begins"),
    (TREE + b"job 0 0 lookup 1 a \nend\n", 3, "fields"),
    (TREE + b"job 0  0 root\nend\n", 3, "no number"),
    (TREE + b"job 0 0 readdirplus 2 0 1 0\nend\n", 3, "no request"),
    (TREE + b"job 0 0 write 2 0 0 hi 0 2 0\nend\n", 3, "KILL is a switch"),
    (TREE + b"job 0 0 copyfilerange 2 0 0 2 1 0 1\nend\n", 3, "fields"),
    (TREE + b"job 0 0 lookup 1 %61\nend\n", 3, "one spelling"),
    (TREE + b"job 0 0 batch_forget 2 1 1\nend\n", 3, "pairs"),
    (TREE + b"job 0 0 forget 01 1\nend\n", 3, "leading zero"),
    (TREE + b"job 0 0 open 1 2 0\nend\n", 3, "switch"),
    (TREE + b"file /b 0o100644 0 0 x\nend\n", 3, "0o7777"),
    (TREE + b"file /b 0o644 0 0 hello world\nend\n", 3, "one word"),
    (TREE + b"file /a 0o644 0 0 x\nend\n", 3, "there already"),
    (TREE + b"file /x/y 0o644 0 0 x\nend\n", 3, "no directory"),
    (TREE + b"file /b 0o644 0 0 \nend\n", 3, "%-"),
    (TREE + b"spec /p 0o644 0 0 0\nend\n", 3, "kind"),
    (TREE + b"hard /b /none\nend\n", 3, "no such object"),
    (TREE + b"fault 3 5\nfault 3 5\nend\n", 4, "ascend"),
    (TREE + b"fault 3 134\nend\n", 3, "133"),
    (TREE + b"order 0\njob 0 0 root\nend\n", 4, "stands before"),
    (TREE + b"order\nend\n", 3, "a place"),
    (b"set guest_fd_limit 1\nset guest_fd_limit 1\n", 2, "once"),
    (b"set read_only 1\n" + TREE, 1, "no key"),
    (b"set uidmap\n" + TREE, 1, "no rule"),
    (b"set uidmap squash_guest 0 1 2\n" + TREE, 1, "squash-guest"),
    (b"set uidmap guest 0 1\n" + TREE, 1, "A B N"),
    (b"set xattrrule odd all %- %-\n" + TREE, 1, "no rule"),
    (b"set xattrrule ok some %- %-\n" + TREE, 1, "client, server, all"),
    (b"set xattrrule map %-\n" + TREE, 1, "2 fields"),
    (b"set gidmap guest 0 1 4294967296\n" + TREE, 1, "N is past"),
    (b"set gidmap forbid-guest 0 1 2\n" + TREE, 1, "2 numbers"),
    (b"set gidmap map 0 0 1\nset gidmap map 0 0 1\nset seat 0 0\n" + TREE, 3, "fields"),
    (b"set cache_policy sometimes\n" + TREE, 1, "no policy"),
    (b"set entry_timeout 5\n" + TREE, 1, "fields"),
    (b"set writeback 0\nset writeback 1\n" + TREE, 2, "once"),
    (TREE + b"job 0 0 create 1 f 0o644 0 0o102 0 -\nend\n", 3, "fields"),
    (TREE + b"job 0 0 create 1 f 0o644 0 0o102 0 + user.x -\nend\n", 3, "fields"),
    (TREE + b"job 0 0 mkdir 1 d 0o755 0 + user.x v\nend\n", 3, "fields"),
    (TREE + b"job 0 0 symlink t 1 l * user.x v -\nend\n", 3, "fields"),
    (TREE + b"job 0 0 create 1 f 0o644 0 0o102 0 - 7\nend\n", 3, "wanted here"),
]

# rules of ids, the line of the one that is refused and a word of the reason
REFUSED_RULES = [
    (b"set uidmap guest 0 10 5\nset uidmap guest 4 20 1\n", 2, "line 1"),
    (b"set gidmap map 0 10 5\nset uidmap guest 0 0 1\nset gidmap host 14 0 1\n", 3, "gidmap at line 1"),
    (b"set gidmap guest 4294967295 0 2\nset uidmap forbid-guest 4294967295 2\n", 2, "past the last"),
    (b"set gidmap guest 0 4294967295 2\n", 1, "past the last"),
    (b"set gidmap guest 0 0 1\nset uidmap squash-host 4294967295 0 2\n", 2, "past the last"),
    (b"set xattrrule ok client %- %-\nset xattrrule bad server a b\n", 2, "from the server"),
]
GOOD_RULES = [
    b"set xattrrule map %- user.\n",
    b"set xattrrule ok client %- %-\nset xattrrule bad server a %-\n",
    b"set uidmap guest 0 10 5\nset gidmap guest 4 20 1\nset uidmap host 0 10 5\n",
    b"set uidmap guest 0 10 5\nset uidmap guest 4 20 0\nset uidmap guest 5 4294967295 1\n",
    b"set uidmap squash-guest 0 4294967295 9\nset uidmap squash-host 0 4294967295 9\n",
]


# a report of a run that lost a seat, the second job's, while the third had not begun
LOST = """step 0 Begin = Began 0 0 0 0 0
step 0 OpenRoot / 2752512 = Ok Fd 4
step 0 Stat 4 = Ok Stat 1 1 1 16877 2 0 0 0 0 4096 0 0 0 0 0 0 0
step 0 TakeFd = Taken
step 0 InsertRoot 0 File 4 1 1 1 16877 - = Inserted 1
step 1 Begin = Began 0 0 0 0 0
step 1 Resolve 1 = Resolved 0 File 4 1 1 1 16877
step 1 SetEuid 1000 = Ok Unit
step 1 RaiseCap 2 = Ok Unit
step 1 OpenAt 4 f 655554 420 = Ok Fd 5
step 1 SetEuid 0 = Fault 5
step 1 Close 5 = Ok Unit
step 1 Unpin 0 = Done 0
answer 0 Done
answer 1 Cut
answer 2 Cut
live 1 2
slots 18446744073709551614
obj / 1 1 1 16877 2 0 0 0 %-
obj /f 2 1 1 33188 1 1000 0 0 %-
lost 1 5
end
"""


def told(words: str) -> report_lines.Step:
    act, reply = words.split(" = ")
    return report_lines.Step(0, tuple(act.split(" ")), tuple(reply.split(" ")))


class Scripts(unittest.TestCase):
    def test_bad_lines_are_those_of_the_program(self) -> None:
        scripts, told = cases(ROOT / "crates/try_scripts/stdin"), cases(ROOT / "crates/try_scripts/stdout")
        cut = {
            line.split()[1]
            for line in (ROOT / "crates/try_scripts/stdin").read_text("latin-1").splitlines()
            if line.endswith(" cut")
        }
        for name, text in scripts.items():
            found = re.match(r"4: bad script at line (\d+)", told[name])
            bytes_of = text.encode("latin-1")
            bad = script_lines.complaint(bytes_of.removesuffix(b"\n") if name in cut else bytes_of)
            with self.subTest(name=name):
                self.assertEqual(bad and bad[0], int(found[1]) if found else None)

    def test_bad_lines_are_told_with_their_reason(self) -> None:
        for text, line, word in BAD:
            with self.subTest(text=text):
                found = script_lines.complaint(text)
                self.assertIsNotNone(found)
                self.assertEqual(found[0], line)
                self.assertIn(word, found[1])

    def test_rules_that_are_refused_are_named(self) -> None:
        for text, line, word in REFUSED_RULES:
            with self.subTest(text=text):
                self.assertIsNone(script_lines.complaint(text + TREE + b"end\n"))
                found = script_lines.refused_rule(text + TREE + b"end\n")
                self.assertIsNotNone(found)
                self.assertEqual(found[0], line)
                self.assertIn(word, found[1])
        for text in GOOD_RULES:
            with self.subTest(text=text):
                self.assertIsNone(script_lines.refused_rule(text + TREE + b"end\n"))

    def test_rules_are_refused_where_the_program_makes_no_file_system(self) -> None:
        scripts, told = cases(ROOT / "crates/try_scripts/stdin"), cases(ROOT / "crates/try_scripts/stdout")
        for name, text in scripts.items():
            if told[name].startswith("4:"):
                continue
            with self.subTest(name=name):
                refused = script_lines.refused_rule(text.encode("latin-1")) is not None
                self.assertEqual(refused, told[name] == "5: bad configuration: os error 22\n")

    def test_the_stored_script_is_one(self) -> None:
        self.assertIsNone(script_lines.complaint(STORED_SCRIPT.read_bytes()))

    def test_jobs_are_named(self) -> None:
        text = TREE + b"job 0 0 init 0\nedit unlink /a\nend\n"
        self.assertEqual(list(script_lines.jobs_of(text)), ["init 0", "edit unlink /a"])


class Reports(unittest.TestCase):
    def test_the_stored_report_is_followed(self) -> None:
        report = report_lines.read(STORED_REPORT.read_text().splitlines())
        tables = report_lines.Tables()
        for step in report.steps:
            tables.after(step)
        self.assertEqual([f"{number} {count}" for number, count in sorted(tables.live.items())], report.live)
        self.assertEqual([f"{handle} {number}" for handle, number in sorted(tables.handles.items())], report.handles)
        self.assertEqual(report_lines.limit_of(report), 10)

    def test_each_event_changes_what_is_held(self) -> None:
        tables = report_lines.Tables()
        tables.after(told("InsertRoot 1 File 4 1 1 1 16877 - = Inserted 1"))
        tables.after(told("Insert 1 2 File 5 2 1 1 33188 = Inserted 2"))
        tables.after(told("Claim 1 - 2 1 1 = Claimed 2"))
        tables.after(told("InsertHandle 1 0 2 6 = Inserted 0"))
        self.assertEqual((tables.live, tables.handles), ({1: 2, 2: 2}, {0: 2}))
        self.assertEqual(tables.after(told("Forget 2 2 1 1 9 = Done 0")), ([(2, 2, 1), (1, 2, None)], [], 0))
        self.assertEqual(tables.after(told("Release 0 2 = Done 1")), ([], [(0, 2, None)], 0))
        self.assertEqual(tables.after(told("Insert 1 3 File 5 2 1 1 33188 = Refused Overtaken")), ([], [], 0))
        self.assertEqual(tables.after(told("GiveBack 1 2 = Refused Overtaken")), ([], [], 0))
        self.assertEqual(tables.after(told("Clear = Cleared 2 1")), ([(2, 1, None)], [], 0))
        tables.after(told("Insert 2 3 File 5 2 1 1 33188 = Inserted 3"))
        self.assertEqual(tables.after(told("GiveBack 2 3 = Done 1")), ([(3, 1, None)], [], 0))

    def test_a_lost_seat_is_read(self) -> None:
        report = report_lines.read(LOST.splitlines())
        self.assertEqual((report.lost, report.answers[1], report.jobs), ("1 5", "Cut", [0, 1, 2]))
        self.assertEqual(report_lines.limit_of(report), 2**64 - 1)


def cases(file: Path) -> dict[str, str]:
    """The cases of a program of scripts, each with its lines. The orders of jobs stand behind them."""
    found: dict[str, list[str]] = {}
    name = ""
    for line in re.findall(r"[^\n]*\n", file.read_bytes().decode("latin-1")):
        if line == "=== orders\n":
            break
        if line.startswith("== "):
            name = line.split()[1]
            found[name] = []
        elif name:
            found[name].append(line)
    return {name: "".join(lines) for name, lines in found.items()}


class Examples(unittest.TestCase):
    def test_each_example_is_a_case_that_the_gate_runs(self) -> None:
        folder, program = ROOT / "examples", ROOT / "crates/try_scripts"
        scripts, reports = cases(program / "stdin"), cases(program / "stdout")
        files = sorted(folder.glob("*.script"))
        self.assertEqual(len(files), 7)
        for file in files:
            with self.subTest(file=file.name):
                self.assertEqual(file.read_text(), scripts[file.stem])
                # (behind a report the case has the line of a run that is not done)
                report = re.sub(r"(?<=\nend\n)8: .*\n\Z", "", reports[file.stem])
                self.assertEqual(file.with_suffix(".report").read_text(), report)
                self.assertIsNone(script_lines.complaint(file.read_bytes()))

    def test_the_reports_of_cases_are_followed(self) -> None:
        for name, text in cases(ROOT / "crates/try_scripts/stdout").items():
            if not text.startswith("step "):
                continue
            report, tables = report_lines.read(text.splitlines()), report_lines.Tables()
            for step in report.steps:
                tables.after(step)
            with self.subTest(name=name):
                self.assertEqual([f"{number} {count}" for number, count in sorted(tables.live.items())], report.live)
                self.assertEqual(
                    [f"{handle} {number}" for handle, number in sorted(tables.handles.items())], report.handles
                )


class Definitions(unittest.TestCase):
    def test_the_index_is_of_today(self) -> None:
        shown = subprocess.run([TOOLS / "definitions"], capture_output=True, text=True, check=True).stdout
        self.assertTrue((ROOT / "docs/DEFINITIONS.md").read_text().endswith(shown.rstrip("\n") + "\n"))

    def behind(self, file: str, name: str) -> list[str]:
        words = [TOOLS / "definitions", "--behind", ROOT / "crates" / file, name]
        return subprocess.run(words, capture_output=True, text=True, check=True).stdout.splitlines()

    def test_what_is_behind_a_function_is_counted(self) -> None:
        # (`mark_in` alone, a head and two equations)
        self.assertEqual(
            self.behind("pt_frame/src/marks.rt", "innermost"), ["innermost: 1 definitions, 3 lines", "  pt_frame: 1, 3"]
        )

    def test_a_run_over_any_host_stands_on_no_rule_of_the_tree_in_memory(self) -> None:
        drive, run = self.behind("pt_fs/src/run.rt", "drive"), self.behind("pt_run/src/program.rt", "run")
        crates = [[line.strip().split(":")[0] for line in shown[1:]] for shown in (drive, run)]
        self.assertLess(set(crates[0]), set(crates[1]))
        self.assertEqual(("pt_rules" in crates[0], "pt_rules" in crates[1]), (False, True))


class Trust(unittest.TestCase):
    def test_what_is_believed_rests_on_what_is_believed(self) -> None:
        sorts = {}
        for file in sorted(ROOT.glob("crates/*/specs/**/*.antt")):
            first = file.read_text().split("\n", 1)[0]
            sort = re.match(r"-- (Believed|Inner|Proof)\.", first)
            sorts[file] = sort[1] if sort else None
        self.assertIn("Believed", sorts.values())
        for file, sort in sorts.items():
            with self.subTest(file=str(file.relative_to(ROOT))):
                self.assertIsNotNone(sort)
                if sort != "Believed":
                    continue
                for used in re.findall(r"^(?:pub )?use Rattle\.(pt_\w+\.\w+[\w.]*)", file.read_text(), re.M):
                    crate, folder, *path = used.rstrip(".").split(".")
                    self.assertEqual(folder, "specs", used)
                    # (what the code declares has no file here)
                    while path and (other := ROOT.joinpath("crates", crate, "specs", *path).with_suffix(".antt")):
                        self.assertEqual(sorts.get(other, "Believed"), "Believed", used)
                        path.pop()


class Programs(unittest.TestCase):
    def run_tool(self, *words: str | Path) -> subprocess.CompletedProcess[str]:
        return subprocess.run([TOOLS / words[0], *words[1:]], capture_output=True, text=True, check=False)

    def test_explain_annotates_a_report(self) -> None:
        shown = self.run_tool("explain", "--report", STORED_REPORT).stdout
        self.assertIn("# O_NOFOLLOW|O_CLOEXEC|O_PATH", shown)
        self.assertIn("step 1 Insert 1 2 File 5 2 1 1 33188 = Inserted 2    # 0o100644 -rw-r--r--", shown)
        bare = [re.sub("    # .*", "", line) for line in shown.splitlines()]
        self.assertEqual(bare, STORED_REPORT.read_text().splitlines())

    def test_explain_annotates_a_lost_seat_and_a_made_file(self) -> None:
        made = "answer 1 Created 2 0 2 0 0 3 0 3 0 3 0 33188 1 0 0 0 4096 0 5 0 5 0 7 0\n"
        ran = subprocess.run(
            [TOOLS / "explain", "--report"], input=LOST + made, capture_output=True, text=True, check=True
        )
        for line in (
            "step 1 RaiseCap 2 = Ok Unit    # DAC_OVERRIDE",
            "step 1 SetEuid 0 = Fault 5    # EIO",
            "answer 1 Cut    # it was not done when a seat was lost",
            "lost 1 5    # the seat of job 1 could not be restored: EIO",
            made.rstrip("\n") + "    # number 2, 0o100644 -rw-r--r--; handle 7",
        ):
            self.assertIn(line, ran.stdout.splitlines())

    def test_explain_names_options(self) -> None:
        told = "answer 0 Inited 7\nanswer 1 Opened 0 10\nanswer 2 Opened 1 0\n"
        ran = subprocess.run([TOOLS / "explain", "--report"], input=told, capture_output=True, text=True, check=True)
        wanted = [
            "answer 0 Inited 7    # DO_READDIRPLUS|READDIRPLUS_AUTO|WRITEBACK_CACHE",
            "answer 1 Opened 0 10    # KEEP_CACHE|CACHE_DIR",
            "answer 2 Opened 1 0",
        ]
        self.assertEqual(ran.stdout.splitlines(), wanted)

    def test_explain_names_a_rule_that_is_refused(self) -> None:
        text = (REFUSED_RULES[0][0] + TREE + b"end\n").decode()
        ran = subprocess.run([TOOLS / "explain"], input=text, capture_output=True, text=True, check=False)
        self.assertEqual(ran.returncode, 1)
        self.assertEqual(ran.stdout.splitlines()[0].split(":")[0], "it is a script, but no file system is made of it")
        self.assertEqual(ran.stdout.splitlines()[2], "    set uidmap guest 4 20 1")

    def test_explain_says_that_a_script_is_one(self) -> None:
        ran = self.run_tool("explain", STORED_SCRIPT)
        self.assertEqual((ran.returncode, ran.stdout), (0, "it is a script\n"))

    def test_timeline_holds_each_step(self) -> None:
        page = self.run_tool("timeline", STORED_REPORT, "--script", STORED_SCRIPT).stdout
        data = json.loads(re.search(r"const data = (.*);\n", page)[1])
        report = report_lines.read(STORED_REPORT.read_text().splitlines())
        self.assertEqual([step[3] for step in data["steps"]], [step.text for step in report.steps])
        self.assertEqual(data["lanes"][1][:2], [1, "lookup 1 a"])
        self.assertNotIn("http://", page.replace("http://www.w3.org/2000/svg", ""))

    def test_timeline_tells_a_lost_seat(self) -> None:
        ran = subprocess.run([TOOLS / "timeline"], input=LOST, capture_output=True, text=True, check=True)
        data = json.loads(re.search(r"const data = (.*);\n", ran.stdout)[1])
        self.assertEqual(data["lost"], ["1", "5"])
        self.assertEqual([lane[2] for lane in data["lanes"]], ["Done", "Cut", "Cut"])
        kinds = [step[1] for step in data["steps"] if step[0] == 1]
        self.assertEqual(kinds, ["event", "event", "seat", "seat", "call", "seat", "call", "event"])

    def test_timeline_escapes_what_a_report_says(self) -> None:
        line = "step 0 OpenAt 4 </script><b> 0 0 = Refused 2\n"
        ran = subprocess.run([TOOLS / "timeline"], input=line, capture_output=True, text=True, check=True)
        self.assertEqual(ran.stdout.count("</script>"), 1)


if __name__ == "__main__":
    unittest.main()
