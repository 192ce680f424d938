"""The calls of the package, as a user makes them: of wholes, of streams in pieces, and with what they refuse."""

import copy
import enum
import io
import os
import pickle
import pydoc
import re
import subprocess
import sys
import tempfile
import threading
import typing
import unittest

import ansi_proved
from ansi_proved import Csi, Esc, Execute, Hook, Osc, Put, Text, Unhook

STREAM = b"\x1b[31mhi\x1b[0m \xe2\x82\xac<b>\x07\n"
LIGHT = '<span style="color:#cf222e;">hi</span> \u20ac&lt;b&gt;\n'


class Color(str, enum.Enum):
    """A str that says its name where it is formatted."""

    PLAIN, RED = "plain", "\x1b[31mred"
    LONG = "\x1b[31mred" + 3000 * "x"


class Number:
    """A number of another type, as numpy has them."""

    def __init__(self, value):
        self.value = value

    def __index__(self):
        return self.value


def str_of(part):
    return part if isinstance(part, str) else part.decode()


class Calls(unittest.TestCase):
    def test_text(self):
        self.assertEqual(ansi_proved.strip(STREAM), "hi \u20ac<b>\n".encode())
        self.assertEqual(ansi_proved.strip(STREAM.decode()), "hi \u20ac<b>\n")
        for size in range(1, len(STREAM)):
            pieces = [STREAM[at : at + size] for at in range(0, len(STREAM), size)]
            self.assertEqual(b"".join(ansi_proved.text_of(pieces)), "hi \u20ac<b>\n".encode())
        self.assertEqual(list(ansi_proved.text_of(io.BytesIO(b"a\x1b[1m\nb"))), [b"a\nb"])

    def test_pieces_of_str(self):
        pieces = ["\x1b[3", "1mhi\u20ac", "", "\x1b[0m", " <b>\n"]
        for call, wanted in [
            (ansi_proved.text_of, "hi\u20ac <b>\n"),
            (lambda it: ansi_proved.text_of(it, safe=True), "hi\u20ac <b>\n"),
            (lambda it: ansi_proved.text_of(it, lf=True), "hi\u20ac <b>\n"),
            (lambda it: ansi_proved.html_of(it, "light"), '<span style="color:#cf222e;">hi\u20ac</span> &lt;b&gt;\n'),
        ]:
            for given in (pieces, iter(pieces), io.StringIO("".join(pieces))):
                parts = list(call(given))
                self.assertEqual(("".join(parts), {*map(type, parts)}), (wanted, {str}))
            self.assertEqual({*map(type, call([b"\x1b[1ma", bytearray(b"b")]))}, {bytes})
        self.assertEqual(list(ansi_proved.html_of(["\x1b[1ma"], "light")), ['<span style="font-weight:bold;">a', "</span>"])

    def test_an_empty_piece_ends_no_stream(self):
        pieces = [b"a", b"", bytearray(), b"\xe2", b"", b"\x82\xac", "", "\x1b[", "", "1mb"]
        self.assertEqual(b"".join(it if type(it) is bytes else it.encode() for it in ansi_proved.text_of(pieces)), "a\u20acb".encode())
        self.assertEqual("".join(it.text for it in ansi_proved.events(pieces) if type(it) is Text), "a\u20acb")
        self.assertEqual(list(ansi_proved.text_of(iter([b"", b"a"]))), [b"a"])

    def test_files_are_read_in_large_pieces(self):
        class File(io.BytesIO):
            asked = []

            def read1(self, size=-1):
                self.asked.append(size)
                return super().read1(min(size, 7))

            def __iter__(self):
                raise AssertionError("it is read by lines")

        stream = 100 * "\x1b[1ma\n\u20ac".encode()
        words = [lambda it: ansi_proved.text_of(it, safe=True), lambda it: ansi_proved.text_of(it, lf=True)]
        for call in (ansi_proved.text_of, ansi_proved.html_of, ansi_proved.events, *words):
            del File.asked[:]
            found = list(call(File(stream)))
            self.assertEqual({*File.asked}, {65536})
            self.assertEqual(len(File.asked), len(stream) // 7 + 2)
            if call is ansi_proved.text_of:
                self.assertEqual(b"".join(found), ansi_proved.strip(stream))
        with tempfile.TemporaryDirectory() as room:
            with open(room + "/log", "wb") as log:
                log.write(stream * 100)
            for mode, joined in (("rb", b""), ("r", "")):
                with open(room + "/log", mode, encoding=None if mode == "rb" else "utf-8") as log:
                    self.assertEqual(joined.join(ansi_proved.text_of(log)).count(joined[:0] + ("a" if mode == "r" else b"a")), 10_000)
            with open(room + "/log", "rb", buffering=0) as log:
                self.assertEqual(len(b"".join(ansi_proved.text_of(log))), 50_000)

    def test_a_pipe_is_read_as_it_comes(self):
        reader, writer = os.pipe()
        impatient = threading.Timer(20, os.close, [writer])  # (or it would wait for more)
        impatient.start()
        with open(reader, "rb") as log:
            parts = ansi_proved.text_of(log)
            for piece in (b"one", b"two"):
                os.write(writer, piece)
                self.assertEqual(next(parts), piece)
            impatient.cancel()
            os.close(writer)
            self.assertEqual(list(parts), [])

    def test_text_drives_no_terminal(self):
        rows = [("\x9b31mred\x7f", "31mred"), ("\x80\x9f\xa0", "\xa0"), (300 * "a" + "\x9b", 300 * "a"), (300 * "\u20ac" + "\x7f", 300 * "\u20ac")]
        for text, wanted in rows:
            stream = text.encode()
            self.assertEqual((ansi_proved.strip(text), ansi_proved.strip(stream)), (wanted, wanted.encode()))
            for size in (1, 2, 3):
                pieces = [stream[at : at + size] for at in range(0, len(stream), size)]
                self.assertEqual(b"".join(ansi_proved.text_of(pieces)), wanted.encode())

    def test_logs(self):
        rows = [(b"M\xfcller \xa3 5\n", "M\ufffdller \ufffd 5\n"), (b"\x1b_bk;t=17\x07$ make", "$ make"), (b"\xe2\x82\xff\xc3", 3 * "\ufffd")]
        rows += [(b"\x93quoted\x94 \x80 5", "\ufffdquoted\ufffd \ufffd 5"), ("x\x1b_G\u2713y\x1b\\z".encode(), "xz")]
        for stream, wanted in rows:
            wholes = ansi_proved.strip(stream), ansi_proved.strip(stream, safe=True), ansi_proved.to_html(stream)
            self.assertEqual(wholes, 3 * (wanted.encode(),))
            pieces = [stream[at : at + 1] for at in range(len(stream))]
            for parts in (ansi_proved.text_of(pieces), ansi_proved.text_of(pieces, safe=True), ansi_proved.html_of(pieces)):
                self.assertEqual(b"".join(parts), wanted.encode())

    def test_safe_text(self):
        rows = [
            ("\x1b[31ma\u202eb\r\n<U+0041>\x07", "a<U+202E>b\n<U+003C>U+0041><U+0007>"),
            ("\U0001f468\u200d\U0001f469\u200da<U\r", "\U0001f468\u200d\U0001f469<U+200D>a<U<U+000D>"),
            (3000 * "\u202e" + "<", 3000 * "<U+202E>" + "<"),
            ("plain\n", "plain\n"),
            ("a\x1b[8mb\nc", "a<U+hidden>b<U+shown>\n<U+hidden>c<U+shown>"),
            ("a\x1b[30;40mb\x1b[42mc", "a<U+hidden>b<U+shown>c"),
            (3000 * "\x1b[8ma\x1b[mb", 3000 * "<U+hidden>a<U+shown>b"),
        ]
        for text, wanted in rows:
            stream = text.encode()
            self.assertEqual(ansi_proved.strip(text, safe=True), wanted)
            self.assertEqual(ansi_proved.strip(stream, safe=True), wanted.encode())
            self.assertEqual((ansi_proved.safe(text), ansi_proved.safe(stream)), (wanted, wanted.encode()))
            self.assertEqual(ansi_proved.strip(text, safe=True, lf=True), wanted)
            for size in (1, 2, 3, 5000):
                pieces = [stream[at : at + size] for at in range(0, len(stream), size)]
                self.assertEqual(b"".join(ansi_proved.text_of(pieces, safe=True)), wanted.encode())
        self.assertEqual(ansi_proved.strip("a\u202e", safe=False), "a\u202e")
        self.assertEqual(list(ansi_proved.text_of([b"a<", b"b"], safe=True)), [b"a", b"<b"])

    def test_lines(self):
        rows = [("one\r\ntwo\r\n", "one\ntwo\n"), ("a\r\x1b[K\nb\r\r\nc\r", "a\nb\r\nc\r"), ("", ""), ("\r", "\r")]
        rows.append((2000 * "\u20ac\r\n", 2000 * "\u20ac\n"))
        for text, wanted in rows:
            stream = text.encode()
            self.assertEqual((ansi_proved.strip(text, lf=True), ansi_proved.strip(stream, lf=True)), (wanted, wanted.encode()))
            self.assertEqual(ansi_proved.strip(text), text.replace("\x1b[K", ""))
            for size in (1, 2, 3, 5000):
                for whole in (text, stream):
                    pieces = [whole[at : at + size] for at in range(0, len(whole), size)]
                    self.assertEqual("".join(map(str_of, ansi_proved.text_of(pieces, lf=True))), wanted)
                    self.assertLessEqual({*map(type, ansi_proved.text_of(pieces, lf=True))}, {type(whole)})
        self.assertEqual(ansi_proved.strip(b"a\r\xe2\x82", lf=True), "a\r\ufffd".encode())
        parts = ansi_proved.text_of(iter(["one\r", "\ntwo\r", b"three\r"]), lf=True)
        self.assertEqual(list(parts), ["one", "\ntwo", b"\rthree", b"\r"])
        self.assertEqual(list(ansi_proved.text_of(["a", "\r", "\nb"], lf=True)), ["a", "\nb"])
        self.assertEqual(list(ansi_proved.text_of(["a\r", "\nb"])), ["a\r", "\nb"])
        self.assertEqual(list(ansi_proved.text_of(["a\r", "\n\x07"], safe=True, lf=True)), ["a", "\n<U+0007>"])
        clean = "".join(["cle", "an\n"])
        self.assertIs(ansi_proved.strip(clean, lf=True), clean)

    def test_html(self):
        self.assertEqual(ansi_proved.to_html(STREAM, "light"), LIGHT.encode())
        self.assertEqual(ansi_proved.to_html(STREAM.decode(), "light"), LIGHT)
        self.assertEqual(b"".join(ansi_proved.html_of([STREAM[:3], STREAM[3:]], "light")), LIGHT.encode())
        pages = {ansi_proved.to_html("\x1b[31ma", styling) for styling in ansi_proved.STYLINGS}
        self.assertEqual(len(pages), 4)

    def test_what_comes_at_the_end_of_pieces(self):
        hidden = "a\x1b[8mb\x1b[m\u202e\r\n1%\r2%\n"
        line = '<span id="L%d"><a href="#L%d" data-line="%d"></a>%s\n</span>'
        link = '<a rel="nofollow noreferrer" href="http://a.b" style="color:inherit;">http://a.b</a>'
        text_of, html_of = ansi_proved.text_of, ansi_proved.html_of
        rows = [
            (text_of, {"no_hidden": True}, hidden, "a\u202e\r\n1%\r2%\n"),
            (text_of, {"no_hidden": True, "lf": True}, hidden, "a\u202e\n1%\r2%\n"),
            (text_of, {"no_hidden": True, "safe": True}, hidden, "a<U+202E>\n1%<U+000D>2%\n"),
            (text_of, {"no_hidden": True, "safe": True, "lf": True}, hidden, "a<U+202E>\n1%<U+000D>2%\n"),
            (html_of, {"no_hidden": True}, hidden, "a\u202e&#13;\n1%&#13;<br>2%\n"),
            (html_of, {"shown": True}, "1%\r2%\n", "2%\n"),
            (html_of, {"shown": (2, 2)}, "abc\r\x1b[X", "ab\n"),
            (html_of, {"lines": True}, "<\n\nb\n", line % (1, 1, 1, "&lt;") + line % (2, 2, 2, "") + line % (3, 3, 3, "b")),
            (html_of, {"urls": True}, "http://a.b\n", link + "\n"),
            (html_of, {"styling": "classes", "lines": True}, "\x1b[1mb\x1b[m\n", line % (1, 1, 1, '<span class="ansi-bold">b</span>')),
        ]
        for call, words, whole, wanted in rows:
            for given in (whole, whole.encode()):
                for size in (1, 3, 1000):
                    parts = list(call((given[at : at + size] for at in range(0, len(given), size)), **words))
                    self.assertEqual([(type(it), str_of(it)) for it in parts], [(type(given), wanted)])
            self.assertEqual([*call([], **words), *call([b"", "\x1b["], **words)], [])
            self.assertRaisesRegex(TypeError, "^the pieces are a list or a file, and not one str$", call, "a", **words)
            self.assertRaisesRegex(TypeError, "^a piece is str, .* and not int$", list, call([b"a", 5], **words))
        self.assertEqual("".join(html_of(iter(["\x1b[1m1%\r", "2%"]), shown=True)), ansi_proved.to_html("\x1b[1m1%\r2%", shown=True))
        for size in (80, None, "ab", (80,), (80, 24, 1)):
            self.assertRaisesRegex(TypeError, "^shown is .* and not ", html_of, [], shown=size)
            self.assertRaisesRegex(TypeError, "^shown is .* and not ", ansi_proved.to_html, "", shown=size)
        self.assertRaisesRegex(ValueError, "^a screen has .* and not 1x24$", html_of, [], shown=(1, 24))
        self.assertRaises(ValueError, html_of, [], "blue", lines=True)

    def test_events(self):
        stream = "a\n\x1b[38:2:9;1m\x1b(B\x1b]0;one;two\x07\x1bP1qx\x1b\\"
        wanted = [
            *[Text("a"), Execute(10), Csi(((38, 2, 9), (1,)), "", False, "m"), Esc("(", False, "B")],
            *[Osc((b"0", b"one", b"two"), True), Hook(((1,),), "", False, "q"), Put(120), Unhook(), Esc("", False, "\\")],
        ]
        for given in (stream, stream.encode(), list(stream), io.BytesIO(stream.encode())):
            found = list(ansi_proved.events(given))
            self.assertEqual(found, wanted)
            self.assertEqual([type(it) for it in found], [type(it) for it in wanted])
        self.assertEqual(pickle.loads(pickle.dumps(wanted)), wanted)
        for size in (1, 3, len(stream)):
            fed = ansi_proved.Events()
            parts = [fed.feed(stream[at : at + size]) for at in range(0, len(stream), size)]
            self.assertEqual([it for part in parts for it in part], wanted)
            self.assertEqual({type(part) for part in parts}, {list})

    def test_pieces_that_come_one_by_one(self):
        one, other = ansi_proved.Events(), ansi_proved.Events()
        self.assertEqual(one.feed("\x1b[3"), [])
        self.assertEqual(other.feed(b"1m\xe2"), [Text("1m")])
        self.assertEqual((one.feed("1mA"), one.feed(b"")), ([Csi(((31,),), "", False, "m"), Text("A")], []))
        self.assertEqual(other.feed(b"\x82\xac"), [Text("\u20ac")])
        for wrong in (None, 1, ["a"]):
            with self.assertRaisesRegex(TypeError, "^a piece is str, bytes, bytearray or memoryview, and not "):
                one.feed(wrong)
        large = b"\x1b[1mx" * 50_000
        self.assertEqual(one.feed(large), list(ansi_proved.events(large)))
        for begun in (b"\x1b[3", b"\xe2\x82", b"\x1b]0;title", b"\x1bP1q", b""):
            one.feed(begun)
            self.assertIsNone(one.end())
            self.assertEqual(one.feed("1mA"), [Text("1mA")])
        self.assertEqual(typing.get_args(ansi_proved.Event), (Text, Execute, Hook, Put, Unhook, Osc, Csi, Esc))

    def test_what_a_piece_leads_to_comes_before_the_next_is_asked_for(self):
        calls = {
            ansi_proved.text_of: [b"one", b"two"],
            ansi_proved.html_of: [b'<span style="font-weight:bold;">one', b"two", b"</span>"],
            ansi_proved.events: [Csi(((1,),), "", False, "m"), Text("one"), Text("two")],
        }
        for call, wanted in calls.items():
            asked = []
            answers = call(asked.append(it) or it for it in (b"\x1b[1mone", b"two"))
            self.assertEqual((next(answers), asked), (wanted[0], [b"\x1b[1mone"]))
            self.assertEqual(list(answers), wanted[1:])

    def test_a_str_of_another_type_is_its_characters(self):
        for text in Color:
            words = str.__str__(text).replace("\x1b[31m", "")
            page = words if text is Color.PLAIN else '<span style="color:#cf222e;">%s</span>' % words
            found = ansi_proved.strip(text), ansi_proved.to_html(text, "light")
            self.assertEqual((found, {*map(type, found)}), ((words, page), {str}))
            self.assertEqual("".join(it.text for it in ansi_proved.events(text) if isinstance(it, Text)), words)

    def test_a_short_whole_is_as_a_long_one(self):
        rows = ["", "clean", "\x1b[31mred", "\x1b[1ma\u20ac\U0001f600<&>\"'\r\n", "\x1b]0;t", "a\x7f\x9b", "a\x7f", "\x9b"]
        rows += [1024 * "a", 1025 * "a", 511 * "\u20ac"]
        for row in rows * 2:  # (each is a stream of its own, whatever came before)
            for text in (row, row.encode(), row.encode()[:-1]):
                stream = text if type(text) is bytes else text.encode()
                calls = [(ansi_proved.strip(text), ansi_proved.text_of([stream])), (ansi_proved.safe(text), ansi_proved.text_of([stream], safe=True))]
                calls += [(ansi_proved.to_html(text, it), ansi_proved.html_of([stream], it)) for it in ansi_proved.STYLINGS]
                for found, parts in calls:
                    self.assertIs(type(found), type(text))
                    self.assertEqual(found if type(text) is bytes else found.encode(), b"".join(parts))
        clean = "".join(["cle", "an"])
        self.assertIs(ansi_proved.strip(clean), clean)
        self.assertIs(ansi_proved.to_html(clean), clean)

    def test_a_surrogate_is_a_character_that_is_broken(self):
        rows = [("\ud800", "\ufffd"), ("caf\udce9.log", "caf\ufffd.log"), ("\ud83d\ude00 \u20ac", "\ufffd\ufffd \u20ac")]
        rows += [("a\udc9b31mb", "a\ufffd31mb"), (2000 * "\udcff", 2000 * "\ufffd")]
        calls = [ansi_proved.strip, ansi_proved.safe, lambda it: ansi_proved.strip(it, lf=True), ansi_proved.to_html]
        calls += [lambda it, by=by: "".join(by([it])) for by in (ansi_proved.text_of, ansi_proved.html_of)]
        calls += [lambda it: "".join(ansi_proved.text_of([it], safe=True)), lambda it: ansi_proved.shown(it)[:-1]]
        calls += [lambda it: ansi_proved.page(it).partition("<pre>\n")[2].partition("</pre>")[0]]
        calls += [lambda it: "".join(event.text for event in ansi_proved.events(it))]
        calls += [lambda it: "".join(event.text for event in ansi_proved.Events().feed(it))]
        for text, wanted in rows:
            self.assertEqual([call(text) for call in calls], [wanted] * len(calls))
            with ansi_proved.Screen(80, 30) as screen:
                screen.feed(text)
                self.assertEqual(screen.text(joined=True), wanted + "\n")
        self.assertEqual(list(ansi_proved.events("\x1b]0;\ud800\x07")), [Osc((b"0", b"\xef\xbf\xbd"), True)])

    def test_an_unknown_styling_is_refused(self):
        for given in ("plain", "\x1b[1m", b"plain", b"\x1b[1m", bytearray(b"a"), memoryview(b"a"), 2000 * b"a"):
            for styling in ("blue", "", "Both", "both "):
                self.assertRaises(ValueError, ansi_proved.to_html, given, styling)
        for pieces in ([], [b"a"], io.BytesIO(b"a")):
            self.assertRaises(ValueError, ansi_proved.html_of, pieces, "blue")

    def test_pages(self):
        page = ansi_proved.page("\x1b[1mhi", "light", title="<T>", lang="de")
        self.assertTrue(page.startswith('<!DOCTYPE html>\n<html lang="de">\n<head>\n<meta charset="utf-8">\n'))
        self.assertTrue(page.endswith('<pre>\n<span style="font-weight:bold;">hi</span></pre>\n</body>\n</html>\n'))
        self.assertIn("<title>&lt;T&gt;</title>", page)
        self.assertEqual(ansi_proved.page(b"\x1b[1mhi", "light", title="<T>", lang="de"), page.encode())
        self.assertIn("<title>Terminal output</title>", ansi_proved.page("hi"))
        self.assertIn("<title>&amp;&lt;&gt;&quot;&#39;&#13;</title>", ansi_proved.page("hi", title="&<>\"'\r"))
        named = b"caf\xe9.log".decode(errors="surrogateescape")  # (as the name of a file comes)
        self.assertIn("<title>caf\ufffd.log</title>", ansi_proved.page("hi", title=named))
        self.assertIn("<title>caf\ufffd.log</title>", ansi_proved.page(b"hi", title=named).decode())
        self.assertIn('<html lang="%s">' % (64 * "a"), ansi_proved.page("hi", lang=64 * "a"))
        self.assertRaises(ValueError, ansi_proved.page, "hi", lang=65 * "a")
        self.assertEqual(len({ansi_proved.page("\x1b[31mhi", it) for it in ansi_proved.STYLINGS}), 4)
        classes = re.findall(r'class="(.*?)"', ansi_proved.to_html("\x1b[1;31mhi", "classes"))[0].split()
        for rules in (*map(ansi_proved.stylesheet, ("both", "light", "dark")), ansi_proved.stylesheet(), ansi_proved.page("a", "classes")):
            self.assertEqual([it for it in classes if "." + it not in rules], [])
        for error, words, call in [
            (ValueError, "a styling is one of both, light, dark, classes, and not 'red'", lambda: ansi_proved.page("a", "red")),
            (ValueError, "a scheme is one of both, light, dark, and not 'classes'", lambda: ansi_proved.stylesheet("classes")),
            (TypeError, "a scheme is a str, and not int", lambda: ansi_proved.stylesheet(1)),
            (TypeError, "a title is a str, and not bytes", lambda: ansi_proved.page("a", title=b"a")),
            (ValueError, "a language is a tag of letters, digits and hyphens, 64 at most, and not 'd\"e'", lambda: ansi_proved.page("a", lang='d"e')),
            (ValueError, "a language is a tag of letters, digits and hyphens, 64 at most, and not ''", lambda: ansi_proved.page("a", lang="")),
            (TypeError, "a text is str, bytes, bytearray or memoryview, and not int", lambda: ansi_proved.page(5)),
        ]:
            self.assertRaisesRegex(error, "^%s$" % re.escape(words), call)

    def test_what_a_terminal_shows(self):
        rows = [(" 10%\r 50%\r100%\n", "100%\n"), ("a\nb\n", "a\nb\n"), ("", ""), ("a  \x1b[31mb", "a  b\n"), ("a\x1b[2;1Hb\n", "a\nb\n")]
        rows += [("x" * 100 + "\n", "x" * 100 + "\n"), ("%d\n" * 60 % tuple(range(60)),) * 2, ("\x1b[?1049hb", "b\n"), ("a\x1b[?1049h\x1b[1;1Hb", "a\nb\n")]
        rows.append((50_000 * "abc\n",) * 2)  # (the library is given 64 KiB at a time)
        for text, wanted in rows:
            self.assertEqual((ansi_proved.shown(text), ansi_proved.shown(text.encode())), (wanted, wanted.encode()))
        self.assertEqual(ansi_proved.shown("ab\x1b[Hc", 2, 1), "cb\n")
        self.assertEqual(ansi_proved.shown("abc\r\x1b[X", 2, 2), "ab\n")
        self.assertEqual(ansi_proved.shown(100 * "\x1b[24Hx\x1bc"), 100 * (23 * "\n" + "x\n"))
        self.assertEqual(ansi_proved.shown("abc", columns=2, rows=5), "abc\n")
        self.assertRaisesRegex(ValueError, "^a screen has 2 to 1000 columns and 1 to 1000 rows, and not 1x24$", ansi_proved.shown, "a", 1, 24)
        self.assertRaisesRegex(TypeError, "^columns and rows are int, and not int and str$", ansi_proved.shown, "a", 80, "24")
        self.assertRaisesRegex(TypeError, "^columns and rows are int, and not int and NoneType$", ansi_proved.shown, "a", 80)
        self.assertRaises(TypeError, ansi_proved.shown, 5)

    def test_what_is_refused(self):
        for call in (ansi_proved.strip, ansi_proved.safe, ansi_proved.to_html, ansi_proved.text_of, ansi_proved.html_of, ansi_proved.events):
            for given in (None, 5, 1.5):
                self.assertRaisesRegex(TypeError, "^(a text is|the pieces are) .* and not %s$" % type(given).__name__, call, given)

        for call in (ansi_proved.text_of, ansi_proved.html_of):
            for given in ("a", b"a", bytearray(b"a")):
                self.assertRaisesRegex(TypeError, "^the pieces are a list or a file, and not one %s$" % type(given).__name__, call, given)
        for call in (ansi_proved.text_of, ansi_proved.html_of, ansi_proved.events):
            self.assertRaisesRegex(TypeError, "^a piece is str, bytes, bytearray or memoryview, and not int$", list, call([b"a", 5]))

    def test_the_first_page_of_help(self):
        first = pydoc.plain(pydoc.render_doc(ansi_proved)).split("\n")[:24]
        self.assertLessEqual(len(ansi_proved.__doc__.strip().split("\n")), 20)
        names = ["strip", "safe", "shown", "to_html", "page", "stylesheet", "text_of", "html_of", "events", "Screen", "help", "python -m"]
        self.assertEqual([it for it in names if not any(it in line for line in first)], [])
        whole = pydoc.plain(pydoc.render_doc(ansi_proved))
        for name in ansi_proved.__all__:
            self.assertIn(name, whole)
            self.assertTrue(name in ("STYLINGS", "Event") or pydoc.getdoc(getattr(ansi_proved, name)), name)
        self.assertEqual({*ansi_proved.__all__} - {*dir(ansi_proved)}, set())

    def test_programs(self):
        run = [sys.executable, "-m", "ansi_proved"]
        for words, status, said in [(["--help"], 0, "usage: "), (["-h"], 0, "usage: "), ([], 2, "usage: "), (["ls"], 2, "usage: ")]:
            done = subprocess.run(run + words, stdout=subprocess.PIPE, stderr=subprocess.PIPE)
            told = (done.stderr if status else done.stdout).decode()
            self.assertEqual((done.returncode, told.startswith(said)), (status, True), told)
            for name in ("ansi2text", "ansi2html", "ansi2screen", "ansi2svg", "parselog"):
                self.assertIn(name, told)

    def test_a_screen(self):
        with ansi_proved.Screen(10, 3) as screen:
            for piece in (b"\x1b[3", b"1mone\r", "\ntwo\x1b[H1"):
                screen.feed(piece)
            self.assertEqual((screen.text(), screen.display[1]), ("1ne\ntwo\n", "two       "))
            self.assertEqual((screen.cell(0, 0).style.foreground, screen.cursor), (("named", (1,)), (0, 1, True)))
            self.assertEqual((screen.changed(), screen.changed()), ([0, 1], []))
            self.assertEqual((screen.changes(), screen.changes()), ([(row, 0, 10) for row in range(3)], []))
            screen.feed("\x1b[2;6Hx")
            self.assertEqual((screen.changes(), screen.changed()), ([ansi_proved.Change(row=1, first=4, past=7)], [1]))
            self.assertIs(type(screen.cell(0, 0)), ansi_proved.Cell)
            self.assertRaisesRegex(TypeError, "^a row is an int, and not str$", screen.cell, "a", 0)
            self.assertRaisesRegex(TypeError, "^a piece is str, bytes, bytearray or memoryview, and not int$", screen.feed, 3)
            row = Number(1)
            self.assertEqual((screen.cell(row, Number(5)).text, screen.row_text(row), screen.link(row)), ("x", "two  x", ""))
        self.assertRaises(ValueError, screen.feed, b"x")
        with self.assertRaises(KeyError):  # (what goes wrong inside of the block goes on)
            with ansi_proved.Screen(10, 3) as screen:
                raise KeyError
        self.assertRaises(ValueError, screen.feed, b"x")

    def test_copies_of_a_screen(self):
        class Named(ansi_proved.Screen):
            name = "none"

        screen = Named(10, 3, history=2)
        screen.name = "one"
        screen.feed("a\r\nb\x1b[3")
        for other in (copy.copy(screen), copy.deepcopy(screen), screen.copy(), copy.deepcopy([screen])[0]):
            self.assertTrue(other == screen and other is not screen and not other != screen)
            self.assertEqual((type(other), other.name), (Named, "one"))
            other.feed("1mc")
            self.assertTrue(other != screen and other.text() == "a\nbc\n" and screen.text() == "a\nb\n")
            other.close()
        self.assertEqual(screen.text(), "a\nb\n")
        self.assertRaisesRegex(TypeError, "cannot be pickled", pickle.dumps, screen)

    def test_files(self):
        folder = os.path.dirname(ansi_proved.__file__)
        for name in ("py.typed", "__init__.pyi", "libansi.so", "libansi_screen.so"):
            self.assertTrue(os.path.exists(os.path.join(folder, name)), name)


if __name__ == "__main__":
    unittest.main()
