"""Tests of tools/model: the model beside stored cases, and beside programs that agree and that do not."""
import importlib.machinery
import importlib.util
import subprocess
import sys
import tempfile
import unittest
from pathlib import Path
from types import ModuleType

TOOLS = Path(__file__).resolve().parent.parent
ROOT = TOOLS.parent
sys.path.insert(0, str(TOOLS))
from model import config
from model.audit import doubted
from model.counts import run_counts
from model.generate import generate
from model.plus import run_plus
from model.pool import run_pool
from model.run import BadConfig, BadScript, Run, read_script, run_script
from model.text import BadWord, read_bytes, read_number, write_bytes

TREE = b"mount 1 1 / 1\nfile /a 0o644 0 0 hi\n"
STORED = [(ROOT / "crates/pt_main" / name).read_bytes() for name in ("stdin", "stdout")]

# cases of try_scripts, some of each subject
CASES = """
first_lookups a_second_session insertion_race pinned_read overtaken_by_init forgotten_too_much
an_inode_number_that_comes_back edits_are_refused openings_heed_their_flags times_are_those_of_the_calls
every_line_of_a_tree_is_told first_run_whose_call_8_fails two_readings_of_a_released_handle
emptied_without_its_set_id_bits a_directory_that_lost_its_name requests_as_they_are_written
create_renamed_before_lookup a_lost_seat_whose_second_restoring_fails_too a_lost_seat_beside_a_scope_that_is_open
a_lost_seat_beside_a_lookup_that_found_a_number a_file_is_created_with_a_group ids_are_mapped_there_and_back
a_made_file_without_a_slot_for_its_handle a_create_overtaken_before_its_handle nodes_of_each_kind_are_made
names_are_exchanged_and_moved renames_are_refused attributes_of_each_kind_are_set access_by_mapped_ids
setattr_whose_call_9_fails submounts_are_announced openings_under_metadata flags_of_openings_with_all
the_capability_dropped_by_writes positions_are_refused ranges_are_copied writes_are_refused
a_session_ended_under_a_write umask_within_the_identity contexts_that_a_fault_falls_on mapped_names
rules_of_each_kind_by_each_request set_group_id_goes a_directory_is_listed contents_by_a_path_only_handle
bad_words_are_named_1 rules_are_refused_1
""".split()


def command(name: str) -> ModuleType:
    """A command of tools/model as a module."""
    loader = importlib.machinery.SourceFileLoader(name, str(TOOLS / "model" / name))
    spec = importlib.util.spec_from_loader(name, loader)
    assert spec
    module, path = importlib.util.module_from_spec(spec), list(sys.path)
    loader.exec_module(module)
    sys.path[:] = path
    return module


class Stored(unittest.TestCase):
    def test_the_stored_run(self) -> None:
        self.assertEqual(run_script(STORED[0]), (STORED[1], 0, None))

    def test_stored_cases_of_each_subject(self) -> None:
        cases = command("cases")
        stdin, stdout = [(ROOT / "crates/try_scripts" / name).read_bytes() for name in ("stdin", "stdout")]
        scripts = {header[0]: (header, script) for header, script in cases.cases_of(stdin)}
        stored = {header[0]: text for header, text in cases.cases_of(stdout)}
        for name in CASES:
            with self.subTest(case=name):
                self.assertEqual(cases.shown(*scripts[name]), stored[name])


def end_of(run: Run) -> tuple[object, ...]:
    """What of the end of a run does not add up: pins, closings, slots, descriptors, holders of mounts, seats."""
    session, rows = run.session, list(run.session.numbers.values()) + list(run.session.handles.values())
    slots, open_fds, holders = list(session.limits), {3}, dict.fromkeys(session.mounts, 0)
    for row in rows:
        if row.form[0] == "File":
            slots[row.of_class[0][1] if row.of_class else 0] -= 1
            open_fds.add(row.fd)
        else:
            holders[row.form[1][0]] += 1
    open_fds |= {fd for fd, _ in session.mounts.values()}
    seats = [task.job.seat for task in run.tasks if task.job and not run.lost]
    wrong = [
        [row for row in session.rows.values() if row.pins or not row.is_live],
        session.closings,
        slots != session.slots,
        open_fds ^ set(run.host.open),
        holders != {mount: row[1] for mount, row in session.mounts.items()},
        [seat for seat in seats if (seat.uid, seat.gid, seat.groups) != (seat.real_uid, seat.real_gid, [])],
        [seat for seat in seats if (seat.caps, seat.umask) != (seat.permitted, 0)],
    ]
    return tuple(part for part in wrong if part)


class Later(unittest.TestCase):
    """What the program may not have yet: the rules of read-only, of file handles and of classes."""

    def setUp(self) -> None:
        kept = set(config.LATER)
        config.LATER.clear()
        self.addCleanup(config.LATER.update, kept)

    def ends(self, script: str) -> list[str]:
        """The report without its steps."""
        report, status, said = run_script(script.encode())
        self.assertEqual((status, said), (0, None))
        return [line for line in report.decode().splitlines() if not line.startswith("step ")]

    def test_an_inode_number_that_comes_back(self) -> None:
        lines = self.ends(
            "set inode_file_handles mandatory\nmount 1 1 / 1\nfile /a 0o644 0 0 hi\njob 0 0 init 0\n"
            "job 0 0 lookup 1 a\nedit unlink /a\nedit file /b 0o644 0 0 x\njob 0 0 lookup 1 b\njob 0 0 getattr 2\nend\n"
        )
        told = [" ".join(line.split(" ")[2:6]) for line in lines if line.startswith("answer ")]
        self.assertEqual([told[1], told[4], told[5]], ["Entry 2 0 2", "Entry 3 0 2", "Refused 116"])
        self.assertEqual(lines[6:10], ["live 1 2", "live 2 1", "live 3 1", f"slots {2**64 - 1}"])

    def test_a_file_system_that_forbids_changes(self) -> None:
        flags = ("0o1", "0o200", "0o1000", "2147483648", "0o10001000")
        lines = self.ends(
            "set read_only 1\nmount 1 1 / 1\nfile /a 0o644 0 0 hi\njob 0 0 init 0\njob 0 0 lookup 1 a\n"
            + "".join(f"job 0 0 open 2 0 {flag}\n" for flag in flags) + "end\n"
        )
        answers = [line.split(" ", 2)[2] for line in lines[2:7]]
        self.assertEqual(answers, ["Refused 30", "Refused 30", "Refused 22", "Refused 22", "Opened 0 0"])
        self.assertEqual(lines[-2][-3:], " hi")

    def test_a_class_without_a_slot(self) -> None:
        lines = self.ends(
            "set guest_fd_limit 3\nset class home 1\nmount 1 1 / 1\ndir /home 0o755 0 0\nfile /home/a 0o644 0 0 x\n"
            "file /b 0o644 0 0 y\njob 0 0 init 0\njob 0 0 lookup 1 home\njob 0 0 lookup 2 a\njob 0 0 lookup 1 b\nend\n"
        )
        self.assertEqual(lines[2], "answer 2 Refused 23")
        self.assertEqual(lines[4:9], ["live 1 2", "live 2 1", "live 3 1", "slots 0", "class 1 0"])

    def test_each_run_gives_back_what_it_took(self) -> None:
        for place in range(60):
            try:
                run = Run(read_script(generate(f"2:{place}")))
            except (BadConfig, BadScript):
                continue
            run.run()
            with self.subTest(place=place):
                self.assertEqual(end_of(run), ())


class Words(unittest.TestCase):
    """What the program prints for its other words."""

    def test_one_drawn_job_is_counted(self) -> None:
        wanted = "jobs 1\nsteps 5\nok 1\nrefused 0\nnomem 0\nlive 1\nhandles 0\nslots 18446744073709551614\n"
        self.assertEqual(run_counts(1, 7).decode(), wanted)

    def test_a_directory_is_listed_with_entries(self) -> None:
        script = TREE + b"file /b 0o644 0 0 hi\njob 0 0 init 0\nend\n"
        wanted = "plus a 2\nplus b 3\nlive 1 2\nlive 2 1\nlive 3 1\nslots 18446744073709551612\nend\n"
        self.assertEqual(run_plus(script, 1, 424), (wanted.encode(), 0, None))
        wanted = "refused 9\nlive 1 2\nslots 18446744073709551614\nend\n"
        self.assertEqual(run_plus(script, 9, 424), (wanted.encode(), 0, None))

    def test_a_pool_of_one_logs_its_events(self) -> None:
        report, _, _ = run_pool(TREE + b"job 0 0 init 0\njob 0 0 lookup 1 a\nend\n")
        lines = report.decode().splitlines()
        self.assertEqual(lines[0], "log 0 0 Clear = Cleared 1 0")
        self.assertEqual(lines[6], "log 0 6 Insert 1 2 File 5 2 1 1 33188 = Inserted 2")
        self.assertFalse([line for line in lines if "TakeFd" in line])
        for line in (b"job 0 0 root\n", b"edit unlink /a\n", b"fault 3 5\n"):
            self.assertEqual(run_pool(TREE + line + b"end\n")[1:], (4, "bad script at line 3"))


    def test_reports_are_doubted(self) -> None:
        said = [doubted(generate(f"3:{place}"), place) for place in range(40)]
        self.assertIn("yes\n", [verdict for _, verdict in said])
        for data, verdict in said:
            script = data[: data.index(b"\nend\n") + 5] if verdict == "yes\n" else b""
            self.assertEqual(script and run_script(script)[0], script and data[len(script) :])
            if not script:
                self.assertRegex(verdict, "^no [0-9]+ (Text|Event|Host|Entry|Count|Handles|Slots|Tree|Lost)\n$")


class Texts(unittest.TestCase):
    def test_each_byte_has_one_spelling(self) -> None:
        for byte in range(256):
            word = write_bytes(bytes([byte]))
            self.assertEqual(read_bytes(word.encode()), bytes([byte]))
        for word in (b"", b"%", b"%4", b"%41", b"%2F", b"a%-", b"a b"):
            self.assertRaises(BadWord, read_bytes, word)

    def test_numbers_have_no_needless_zero(self) -> None:
        for word, number in ((b"0", 0), (b"0o0", 0), (b"0o17", 15), (b"10", 10)):
            self.assertEqual(read_number(word, 15), number)
        for word in (b"", b"00", b"0o", b"0o07", b"0o8", b"-1", b"+1", b"16", b"0x1", b"1" * 5000):
            self.assertRaises(BadWord, read_number, word, 15)


class Compared(unittest.TestCase):
    def compare(self, lines: str, *words: str) -> subprocess.CompletedProcess[str]:
        """Runs `compare` beside a program that is the model with these lines behind its answer."""
        *options, count, seed = words
        with tempfile.TemporaryDirectory() as folder:
            program = Path(folder, "program")
            program.write_text(
                f"#!{sys.executable}\nimport sys\nsys.path.insert(0, {str(TOOLS)!r})\n"
                "from model.plus import run_plus\nfrom model.pool import run_pool\nfrom model.run import run_script\n"
                "script = sys.stdin.buffer.read()\nreport, status, said = run_script(script)\n"
                f"{lines}\nsys.stdout.buffer.write(report)\nif said:\n    print(said, file=sys.stderr)\n"
                "sys.exit(status)\n"
            )
            program.chmod(0o755)
            return subprocess.run(
                [TOOLS / "model/compare", *options, program, count, seed], capture_output=True, text=True, check=False
            )

    def test_the_same_seed_gives_the_same_script(self) -> None:
        self.assertEqual(generate("7:1"), generate("7:1"))
        self.assertNotEqual(generate("7:1"), generate("7:2"))

    def test_most_scripts_run(self) -> None:
        statuses = [run_script(generate(f"1:{place}"))[1] for place in range(60)]
        self.assertGreater(statuses.count(0), 40)

    def test_a_program_that_agrees(self) -> None:
        ran = self.compare("", "3", "1")
        self.assertEqual((ran.returncode, ran.stdout), (0, "3 scripts: 0 differ\n"))

    def test_other_words_of_the_program(self) -> None:
        for mode, called in (("pool", "run_pool(script)"), ("plus", "run_plus(script, *map(int, sys.argv[2:]))")):
            with self.subTest(mode=mode):
                ran = self.compare(f"report, status, said = {called}", "--as", mode, "2", "1")
                self.assertEqual((ran.returncode, ran.stdout), (0, "2 scripts: 0 differ\n"))

    def test_a_program_that_differs(self) -> None:
        ran = self.compare("report += b'more\\n'", "3", "1")
        lines = ran.stdout.splitlines()
        kept = Path(lines[0].split(": ")[1])
        self.assertEqual((ran.returncode, kept.read_bytes()), (1, generate("1:0")))
        kept.unlink()
        self.assertEqual([line.split(" ")[2] for line in lines[1:4]], ["line", "model:", "program:"])
        self.assertEqual(lines[-1], "3 scripts: 3 differ")


if __name__ == "__main__":
    unittest.main()
