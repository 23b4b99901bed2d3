"""The module over the program: $TDL names it."""
import os
import pickle
import signal
import subprocess
import sys
import tempfile
import threading
import unittest
from pathlib import Path

# (an installed module goes before the sources)
sys.path.append(str(Path(__file__).resolve().parent.parent / "src"))

import tdl  # noqa: E402
from tdl import library  # noqa: E402
from tdl.inspector.reasons import TARGETS  # noqa: E402
from tdl.program import find_program  # noqa: E402

PURE = "urn:epc:id:sgtin:0614141.812345.6789"
LINK = "https://id.gs1.org/01/80614141123458/21/6789"
FORMS = {
    "hex": lambda n: f"{0x3074257BF7194E4000000000 + n:024X}",
    "tag": lambda n: f"urn:epc:tag:sgtin-96:3.0614141.812345.{n}",
    "pure": lambda n: f"urn:epc:id:sgtin:0614141.812345.{n}",
    "raw": lambda n: f"018061414112345821{n}",
    "bracketed": lambda n: f"(01)80614141123458(21){n}",
    "link": lambda n: f"https://shop.example/01/80614141123458/21/{n}",
}
COUNT = 20_000


def printed(text):
    """What the program prints for an answer."""
    return f"no {text.reason}" if isinstance(text, tdl.Rejected) else f"ok {text}"


class OfEngine(unittest.TestCase):
    engine = "pipe"

    def make(self, *forms, **options):
        return tdl.Translator(*forms, engine=self.engine, **options)


class Answers(OfEngine):
    def test_one_text(self):
        self.assertEqual(tdl.canon("pure", PURE), LINK)
        self.assertEqual(tdl.canon("pure", PURE.encode()), LINK)

    def test_options(self):
        with self.make("link", "hex", filter=3, gcp=7) as bits:
            self.assertEqual(bits.translate(LINK), "3074257BF7194E4000001A85")
        with self.make("bracketed", "link", stem="https://r.example/g") as links:
            self.assertEqual(links.translate("(01)09506000134352(21)A\\(B"), "https://r.example/g/01/09506000134352/21/A%28B")

    def test_reasons(self):
        with self.make("link") as links:
            for text, kind, place, character, code in (
                ("https://id.gs1.org/01/09506000134353", "check", 19, None, None),
                ("https://x/01/09506000134352/21/%4", "escape", 28, None, None),
                ("ftp://x/01/09506000134352", "http", None, None, None),
            ):
                with self.assertRaises(tdl.Rejected) as caught:
                    links.translate(text)
                found = caught.exception
                self.assertEqual((found.kind, found.place, found.character, found.code), (kind, place, character, code))
                self.assertEqual(found.text, text.encode())
        with self.make("bracketed") as labels, self.assertRaises(tdl.Rejected) as caught:
            labels.translate("(414)0614141000012(254)4(254)5")
        self.assertEqual((caught.exception.reason, caught.exception.code), ("repeat 254", "254"))
        self.assertNotIsInstance(caught.exception, ValueError)

    def test_sentences(self):
        for translator, text, sentence in (
            (self.make("link"), "https://id.gs1.org/01/09506000134353", "At byte 35: the check digit of (01) GTIN must be 2, not 3."),
            (self.make("link", "hex"), LINK, TARGETS["missing gcp"]),
            (self.make("bracketed", "pure", gcp=7), "(01)80614141123458(21)1(17)261231", "An EPC has no place for (17) USE BY or EXPIRY."),
            (self.make("bracketed", tables=tdl.GS1), "(01)80614141123458(7003)26", "the value of (7003) EXPIRY TIME"),
            (tdl.Classes("uri"), LINK, "No element of this link makes a class."),
            (tdl.Dumps("read"), "30003074257BF7194E40", "announces 6 words of 16 bits, but 64 bits follow"),
        ):
            with translator, self.assertRaises(tdl.Rejected) as caught:
                translator.translate(text)
            self.assertIn(sentence, caught.exception.sentence)
            copied = pickle.loads(pickle.dumps(caught.exception))
            self.assertEqual((copied.sentence, copied.text, copied.place), (caught.exception.sentence, caught.exception.text, caught.exception.place))

    def test_each_reason_has_a_sentence(self):
        for form in FORMS:
            with self.make(form, "hex") as translator:
                for text in ("", "x", "0" * 129, "a" * 3_000, "(01)8", "(99)", "https://x/01/%4", "https://x/01/09506000134352?17=261331", "0109506000134352"):
                    try:
                        translator.translate(text)
                    except tdl.Rejected as rejected:
                        self.assertRegex(rejected.sentence, r"^[A-Z“(].* .*\.$")

    def test_classes_and_dumps(self):
        lot, uri = "https://id.gs1.org/01/80614141123458/10/998877", "urn:epc:class:lgtin:0614141.812345.998877"
        with tdl.Classes("uri", gcp=7) as uris, tdl.Classes("canon") as links:
            self.assertEqual((uris.translate(lot), list(links.translate_all([uri]))), (uri, [lot]))
        dump, shown = "30003074257BF7194E4000001A85", "u0 a00 urn:epc:tag:sgtin-96:3.0614141.812345.6789"
        with tdl.Dumps("read") as reads, tdl.Dumps("write") as writes:
            self.assertEqual((reads.translate(dump), writes.translate(shown)), (shown, dump))

    def test_each_form_as_the_program(self):
        for form, make in FORMS.items():
            texts = [make(number) for number in range(COUNT)] + ["", "x", make(1) + "\r", "a" * 3_000]
            ran = subprocess.run([find_program(), "canon", form], input="".join(f"{it}\r\n" for it in texts).encode(), stdout=subprocess.PIPE)
            with self.make(form) as translator:
                self.assertEqual([printed(it) for it in translator.translate_all(texts)], ran.stdout.decode().splitlines(), form)

    def test_batches(self):
        texts = [FORMS["pure"](number) for number in range(100)]
        with self.make("pure") as translator:
            wanted = [translator.translate(text) for text in texts]
            for batch in (1, 2, 3, 99, 100, 101):
                self.assertEqual(list(translator.translate_all(texts, batch=batch)), wanted)
            self.assertEqual(list(translator.translate_all([])), [])
            self.assertEqual((translator.translate_list(texts), translator.translate_list([])), (wanted, []))
            self.assertEqual([printed(it) for it in translator.translate_list(["x"] * 50_000)], ["no reading"] * 50_000)

    def test_a_batch_of_one_is_answered_before_the_next_is_taken(self):
        taken = []

        def source():
            for number in range(5):
                taken.append(number)
                yield FORMS["pure"](number)

        with self.make("pure") as translator:
            for number, _ in enumerate(translator.translate_all(source(), batch=1)):
                self.assertEqual(len(taken), number + 1)


class Hostile(OfEngine):
    def test_line_feed(self):
        with self.make("pure") as translator:
            for text in ("a\nb", b"\n"):
                self.assertRaises(ValueError, translator.translate, text)
            self.assertEqual(translator.translate(PURE), LINK)

    def test_long_text(self):
        with self.make("pure") as translator:
            with self.assertRaises(tdl.Rejected) as caught:
                translator.translate("a" * 10_000_000)
            self.assertEqual(caught.exception.reason, "long")
            self.assertEqual(translator.translate(PURE), LINK)

    def test_texts_that_are_no_utf8(self):
        with self.make("pure") as translator:
            self.assertRaises(tdl.Rejected, translator.translate, bytes(set(range(256)) - {10}))
            self.assertRaises(tdl.Rejected, translator.translate, "\udc80")

    def test_wrong_options(self):
        for named, name in (
            ({"gcp": 13}, "gcp"), ({"gcp": True}, "gcp"), ({"filter": "3"}, "filter"), ({"filter": -1}, "filter"), ({"encoding": ""}, "encoding"),
            ({"keys_only": "no"}, "keys_only"), ({"stem": "https://a.example/"}, "stem"), ({"stem": f"https://{'a' * 1_020}"}, "stem"),
            ({"tables": 3}, "tables"), ({"target": "pdf"}, "target"),
        ):
            with self.assertRaisesRegex(ValueError, rf"^{name} is .*, not "):
                self.make("pure", **named)
        self.assertRaisesRegex(ValueError, "^source is ", self.make, "canon")
        self.assertRaisesRegex(ValueError, "^target is ", tdl.Classes, "url")
        self.assertRaisesRegex(ValueError, "options of `uri`", tdl.Classes, "canon", gcp=7)
        self.assertRaisesRegex(ValueError, "^action is ", tdl.Dumps, "show")
        self.assertRaisesRegex(FileNotFoundError, "/not/there", self.make, "pure", tables="/not/there")

    def test_options_that_are_right(self):
        others = ({"stem": "http://a"}, {"tables": Path(tdl.GS1)}, {"keys_only": True}, {"encoding": "x"})
        for named in ({"gcp": 1}, {"gcp": 12}, {"filter": 0}, {"filter": 7}, *others):
            with self.make("pure", **named) as translator:
                self.assertEqual(translator.translate(PURE), LINK)

    def test_texts_that_are_none(self):
        with self.make("pure") as translator:
            for texts in ("text", b"text"):
                self.assertRaises(TypeError, translator.translate_all, texts)
                self.assertRaises(TypeError, translator.translate_list, texts)
            for text in (5, None, 1.5):
                self.assertRaises(TypeError, translator.translate, text)
                self.assertRaises(TypeError, list, translator.translate_all([PURE, text]))
            self.assertRaises(ValueError, list, translator.translate_all([PURE, "a\nb"]))
            self.assertEqual(list(translator.translate_all([PURE, PURE.encode()])), [LINK, LINK])

    def test_programs_that_are_none(self):
        for program in ("/not/there", "/bin/true", "/bin/false", "/bin/cat", "/bin/ls", "/bin/sh", "/dev/null"):
            with tdl.Translator("pure", program=program) as translator:
                for call in (lambda: translator.translate(PURE), lambda: list(translator.translate_all([PURE])), lambda: tdl.check(program=program)):
                    with self.assertRaises(tdl.ProgramError, msg=program) as caught:
                        call()
                    self.assertIn(program, str(caught.exception))

    def test_rejected_files(self):
        with tempfile.NamedTemporaryFile(suffix=".json") as file:
            file.write(b"{")
            file.flush()
            with self.assertRaises(tdl.FilesRejected) as caught:
                tdl.check(file.name)
            self.assertEqual((caught.exception.which, caught.exception.reason), ("tables", "json syntax"))
            with self.make("pure", tables=file.name) as translator:
                self.assertRaises(tdl.FilesRejected, translator.translate, PURE)

    def test_closed(self):
        translator = self.make("pure")
        translator.translate(PURE)
        translator.close()
        translator.close()
        self.assertRaises(ValueError, translator.translate, PURE)

    def test_source_that_fails(self):
        def source():
            yield PURE
            raise KeyError("none")

        with self.make("pure") as translator:
            self.assertRaises(KeyError, list, translator.translate_all(source()))


class Processes(unittest.TestCase):
    def process_of(self, translator):
        return translator._engine.run._process

    def test_started_once_more_where_it_was_killed(self):
        with tdl.Translator("pure", engine="pipe") as translator:
            translator.translate(PURE)
            first = self.process_of(translator)
            os.kill(first.pid, signal.SIGKILL)
            first.wait()
            self.assertEqual(translator.translate(PURE), LINK)
            self.assertNotEqual(self.process_of(translator).pid, first.pid)

    def test_an_interrupted_call_leaves_no_answer_behind(self):
        def interrupt(*_):
            raise KeyboardInterrupt

        with tdl.Translator("pure", engine="pipe") as translator:
            translator.translate(PURE)
            os.kill(self.process_of(translator).pid, signal.SIGSTOP)
            before = signal.signal(signal.SIGALRM, interrupt)
            continued = threading.Timer(0.3, os.kill, (self.process_of(translator).pid, signal.SIGCONT))
            continued.start()
            try:
                signal.setitimer(signal.ITIMER_REAL, 0.1)
                self.assertRaises(KeyboardInterrupt, translator.translate, "x")
            finally:
                signal.signal(signal.SIGALRM, before)
                continued.join()
            self.assertEqual(translator.translate(PURE), LINK)

    def test_killed_twice(self):
        with tempfile.NamedTemporaryFile("w", suffix=".sh", delete=False) as file:
            file.write("#!/bin/sh\nread line\nkill -9 $$\n")
        os.chmod(file.name, 0o755)
        try:
            with tdl.Translator("pure", program=file.name) as translator:
                self.assertRaises(tdl.ProgramError, translator.translate, PURE)
        finally:
            os.unlink(file.name)

    def test_threads(self):
        with tdl.Translator("pure", engine="pipe") as translator:
            wrong = []

            def work(first):
                for number in range(first, first + 200):
                    if translator.translate(FORMS["pure"](number)) != f"https://id.gs1.org/01/80614141123458/21/{number}":
                        wrong.append(number)

            threads = [threading.Thread(target=work, args=(1_000 * it,)) for it in range(8)]
            for thread in threads:
                thread.start()
            for thread in threads:
                thread.join()
            self.assertEqual(wrong, [])

    def test_fork(self):
        translator = tdl.Translator("pure", engine="pipe")
        translator.translate(PURE)
        child = os.fork()
        if child == 0:
            try:
                right = translator.translate(PURE) == LINK
                translator.close()
                os._exit(0 if right else 1)
            except BaseException:
                os._exit(2)
        self.assertEqual(os.waitpid(child, 0)[1], 0)
        self.assertEqual(translator.translate(PURE), LINK)
        process = self.process_of(translator)
        translator.close()
        self.assertEqual(process.returncode, 0)

    def test_no_run_is_left(self):
        translator = tdl.Translator("pure", engine="pipe")
        translator.translate(PURE)
        process = self.process_of(translator)
        del translator
        self.assertEqual(process.returncode, 0)
        generator = tdl.Translator("pure", engine="pipe").translate_all(FORMS["pure"](number) for number in range(10_000))
        next(generator)
        generator.close()

    def test_counts(self):
        counts = tdl.check()
        self.assertGreater(counts.ais, 50)
        self.assertEqual(counts.links, 0)


@unittest.skipUnless(library.IS_THERE, "the module has no library")
class AnswersOfTheLibrary(Answers):
    engine = "library"


@unittest.skipUnless(library.IS_THERE, "the module has no library")
class HostileToTheLibrary(Hostile):
    engine = "library"


@unittest.skipUnless(library.IS_THERE, "the module has no library")
class Sessions(unittest.TestCase):
    def test_who_answers(self):
        before = os.environ.pop("TDL", None)
        try:
            self.assertIsInstance(tdl.Translator("pure")._engine, library.Library)
            self.assertNotIsInstance(tdl.Translator("pure", program="/bin/true")._engine, library.Library)
            os.environ["TDL"] = find_program()
            self.assertNotIsInstance(tdl.Translator("pure")._engine, library.Library)
            self.assertIsInstance(tdl.Translator("pure", engine="library")._engine, library.Library)
        finally:
            os.environ.pop("TDL", None)
            if before:
                os.environ["TDL"] = before
        self.assertRaisesRegex(ValueError, "^program is an option of ", tdl.Translator, "pure", engine="library", program="/bin/true")
        self.assertRaisesRegex(ValueError, "^engine is library or pipe, not ", tdl.Translator, "pure", engine="socket")

    def test_files(self):
        texts = {"{": "json syntax", "": "json syntax", "{}": "json lacks ", " " * 2_097_153: "over"}
        for which in ("tables", "prefixes"):
            for text, reason in texts.items():
                with tempfile.NamedTemporaryFile("w", suffix=".json") as file:
                    file.write(text if which == "tables" or reason != "over" else 2 * text)
                    file.flush()
                    said = []
                    for engine in ("library", "pipe"):
                        with tdl.Translator("hex", engine=engine, **{which: file.name}) as translator, self.assertRaises(tdl.FilesRejected) as caught:
                            translator.translate("30")
                        said.append((str(caught.exception), caught.exception.which, caught.exception.reason))
                self.assertEqual(said[0], said[1])
                self.assertTrue(said[0][2].startswith(reason), said)
        file = tempfile.NamedTemporaryFile(suffix=".json", delete=False)
        file.close()
        translator = tdl.Translator("hex", tables=file.name, engine="library")
        os.unlink(file.name)
        self.assertRaises(FileNotFoundError, translator.translate, "30")

    def test_documents(self):
        with tdl.Translator("bracketed", "hex", tables=tdl.GS1, gcp=7, filter=3, engine="library") as bits:
            self.assertEqual(bits.translate("(01)80614141123458(21)6789"), "3074257BF7194E4000001A85")

    def test_the_bytes_of_others(self):
        class Name(str):
            pass

        class Long(bytes):
            pass

        with tdl.Translator("pure", engine="library") as translator:
            for text in (Name(PURE), Long(PURE.encode()), bytearray(PURE.encode())):
                self.assertEqual((translator.translate(text), translator.translate_list([text])), (LINK, [LINK]))
            with self.assertRaises(tdl.Rejected) as caught:
                translator.translate("\u20ac")
            self.assertEqual((caught.exception.text, caught.exception.source), ("\u20ac".encode(), "pure"))

    def test_lines(self):
        lines = f"{PURE}\r\nx\r\n".encode()
        for engine in ("library", "pipe"):
            with tdl.Translator("pure", engine=engine) as translator:
                self.assertEqual(translator.print_answers(lines, 2), f"ok {LINK}\nno reading\n".encode())
                self.assertEqual(translator.print_answers(b"x\r\n" * 30_000, 30_000), b"no reading\n" * 30_000)

    def test_closed_while_it_answers(self):
        translator = tdl.Translator("pure", engine="library")
        answers = translator.translate_all([PURE] * 2_000, batch=100)
        self.assertEqual(next(answers), LINK)
        translator.close()
        self.assertRaises(ValueError, translator.translate, PURE)
        self.assertRaises(ValueError, translator.translate_list, [PURE])
        self.assertEqual(list(answers), [LINK] * 1_999)

    def test_threads_and_batches(self):
        with tdl.Translator("pure", engine="library") as translator:
            wrong = []

            def work(first):
                texts = [FORMS["pure"](number) for number in range(first, first + 300)]
                wanted = [f"https://id.gs1.org/01/80614141123458/21/{number}" for number in range(first, first + 300)]
                for _ in range(5):
                    if translator.translate_list(texts) != wanted or [translator.translate(text) for text in texts] != wanted:
                        wrong.append(first)

            threads = [threading.Thread(target=work, args=(1_000 * it,)) for it in range(8)]
            for thread in threads:
                thread.start()
            for thread in threads:
                thread.join()
            self.assertEqual(wrong, [])

    def test_a_batch_lets_other_threads_run(self):
        with tdl.Translator("pure", engine="library") as translator:
            translator.translate(PURE)
            texts, counted, is_over = [PURE] * 200_000, [0], threading.Event()

            def count():
                while not is_over.wait(0.001):
                    counted[0] += 1

            thread = threading.Thread(target=count)
            thread.start()
            translator.translate_list(texts)
            is_over.set()
            thread.join()
            self.assertGreater(counted[0], 3)

    def test_fork_while_another_thread_asks(self):
        with tdl.Translator("pure", engine="library") as translator:
            translator.translate(PURE)
            is_over = threading.Event()

            def ask():
                while not is_over.is_set():
                    translator.translate_list([PURE] * 2_000)

            thread = threading.Thread(target=ask)
            thread.start()
            try:
                for _ in range(10):
                    child = os.fork()
                    if child == 0:
                        try:
                            right = translator.translate(PURE) == LINK and translator.translate_list([PURE]) == [LINK]
                            os._exit(0 if right else 1)
                        except BaseException:
                            os._exit(2)
                    self.assertEqual(os.waitpid(child, 0)[1], 0)
            finally:
                is_over.set()
                thread.join()

    def test_not_pickled(self):
        with tdl.Translator("pure", engine="library") as translator:
            translator.translate(PURE)
            self.assertRaises(TypeError, pickle.dumps, translator)
            self.assertRaises(TypeError, pickle.dumps, translator._engine._session)

    def test_subclasses(self):
        class Loud(tdl.Translator):
            def translate(self, text):
                return super().translate(text).upper()

        with Loud("pure", engine="library") as loud:
            self.assertEqual([loud.translate(PURE), loud.translate(PURE)], [LINK.upper()] * 2)


if __name__ == "__main__":
    unittest.main()
