"""What the scripts put-folder, get-folder and census-all make of replies that a test chooses: refusals, limits and
passwords of a gateway, what is kept already, and what no archive says. The tests wait more than they work, so they run
side by side with `-n 8`.
"""
import os
import re
import signal
import subprocess
import time
import urllib.error
from collections.abc import Callable, Iterator

import pytest

import clients
from clients import BLOCKS, GLIDER, certify, check, same
from scripts import (
    EXAMPLES,
    NOT_THERE,
    TOP,
    UNFINISHED,
    Pretender,
    Reply,
    digest,
    is_unanswered,
    needs,
    new_folder,
    script,
    url,
)

pytestmark = pytest.mark.quick


def test_certificate(room: str) -> None:
    """Nothing is sent to a server whose certificate curl doesn't know, and a script says so."""
    needs("openssl")
    folder = new_folder(room, "certificates", {"a.rle": GLIDER})
    key, certificate = os.path.join(room, "key.pem"), os.path.join(room, "certificate.pem")
    certify(certificate, key, "127.0.0.1")
    with Pretender(certificate=(certificate, key)) as server:
        secure = url(server).replace("http:", "https:")
        result = script("put-folder", secure, "ann", folder)
        check(
            "a certificate that curl doesn't know",
            is_unanswered(
                result, "", f"put-folder: {folder}/a.rle: no reply from {secure}; run the same command again\n"
            )
            and result[2].startswith("curl: (60) SSL certificate problem"),
        )
        same("nothing is sent under it", server.sent + server.read, [])


BUSY = (503, b'{"error":"unavailable","refusal":11}')


def test_unavailable_for_a_while(room: str) -> None:
    folder = new_folder(room, "while", {"glider.rle": GLIDER})
    with Pretender(BUSY, BUSY, BUSY, (201, b'{"deposit":7}')) as server:
        same(
            "a file that is unavailable three times",
            script("put-folder", url(server), "ann", folder),
            (0, f"7\t{folder}/glider.rle\n", ""),
        )
        same("what is sent four times", server.sent, [("/deposits", "ann", digest(GLIDER), GLIDER)] * 4)


def test_client_in_python() -> None:
    """The client in Python of docs/API.md waits while the archive is busy, sends the same again, reads all lists."""
    with open(os.path.join(TOP, "docs", "API.md"), encoding="utf-8") as page:
        source = re.findall(r"(?ms)^```python\n(.*?)^```$", page.read())
    same("clients in Python", len(source), 1)
    client: dict[str, Callable[..., object]] = {}
    exec(source[0], client)
    with Pretender(BUSY, (429, b"", "0"), (201, b'{"deposit":7}')) as server:
        same("the number of its deposit", client["deposit"](url(server), "ann", GLIDER), 7)
        same("what it sends", server.sent, [("/deposits", "ann", digest(GLIDER), GLIDER)] * 3)
    with Pretender((409, b'{"error":"full","refusal":10}')) as server:
        with pytest.raises(urllib.error.HTTPError, match="409"):
            client["deposit"](url(server), "ann", GLIDER)
        same("how often it sends what is refused", len(server.sent), 1)
    with Pretender(listed(7), listed(9), NO_DEPOSITS) as server:
        found = client["deposits"](url(server))
        assert isinstance(found, Iterator)
        same("the deposits that it finds", [one["id"] for one in found], [7, 9])
        same("the lists that it reads", server.read, [f"/deposits/after/{number}" for number in (0, 7, 9)])


def test_unavailable_for_good(room: str) -> None:
    """A file that stays unavailable is refused, and the next one is sent."""
    folder = new_folder(room, "good", {"a.rle": GLIDER, "b.rle": BLOCKS})
    with Pretender(BUSY, BUSY, BUSY, BUSY, (201, b'{"deposit":7}')) as server:
        status, printed, refusals = script("put-folder", url(server), "ann", folder)
        check(
            "a file that stays unavailable",
            (status, printed) == (1, f"7\t{folder}/b.rle\n") and refusals.startswith(f"{folder}/a.rle: unavailable: "),
        )
        same("what is sent five times", [body for *_, body in server.sent], [GLIDER] * 4 + [BLOCKS])


def test_no_archive(room: str) -> None:
    """A reply from something else counts neither as a number nor as the end of a list."""
    folder = new_folder(room, "else", {"a.rle": GLIDER})
    page = (200, b"<html>\n</html>\n")
    with Pretender(page, page) as server:
        same(
            "a folder for no archive",
            script("put-folder", url(server), "ann", folder),
            (1, "", f"{folder}/a.rle: a reply of status 200, but not from an archive\n"),
        )
        same(
            "censuses of no archive",
            script("census-all", url(server), "ann", "0", "60"),
            (1, "", "census-all: a reply of status 200, but not from an archive\n"),
        )


def test_bad_words(room: str) -> None:
    """Invalid arguments are reported before anything is sent."""
    folder = new_folder(room, "words", {"a.rle": GLIDER})
    with Pretender() as server:
        for words in (
            ["put-folder", url(server), "ann"],
            ["put-folder", url(server), "Ann", folder],
            ["put-folder", url(server), "", folder],
            ["put-folder", "--name", url(server), "ann"],
            ["put-folder", url(server), "ann", folder, "--name"],
            ["put-folder", "--author", url(server), "ann", folder],
            ["put-folder", "--author"],
            ["put-folder", "--names", url(server), "ann", folder],
            ["put-folder", url(server), "a" * 33, folder],
            ["put-folder", url(server), "ann", folder + "/none"],
            ["census-all", url(server), "ann", "0"],
            ["census-all", url(server), "a b", "0", "60"],
            ["census-all", url(server), "ann", "00", "60"],
            ["census-all", url(server), "ann", "0", "-1"],
        ):
            status, printed, refusals = script(*words)
            same(f"{words[0]} with bad words {words[2:]}", (status, printed, refusals.count("\n")), (2, "", 1))
        same("nothing is sent for bad words", server.sent + server.read, [])
    empty = new_folder(room, "empty", {})
    wanted = f"put-folder: there is no *.rle file in {empty}\n"
    same("an empty folder", script("put-folder", url(server), "ann", empty), (0, "", wanted))
    for name in ("guns", "old\tones"):
        os.mkdir(os.path.join(empty, name))
    wanted += f"put-folder: folders in {empty} are not entered: guns, old\\tones\n"
    same("a folder of folders", script("put-folder", url(server), "ann", empty), (0, "", wanted))


# ---- what is over a limit

MANY = b'{"error":"too-many-requests"}'
GIVEN = (201, b'{"deposit":7}')
DATE = "Wed, 21 Oct 2037 07:28:00 GMT"
NO_DEPOSITS = (200, b'{"deposits":[]}')
TWO_DEPOSITS = (
    200,
    b'{"deposits":[{"id":1,"member":"ann","population":5,"rule":"B3/S23"},'
    b'{"id":2,"member":"ann","population":5,"rule":"B3/S23"}]}',
)


@pytest.mark.parametrize("name", ["put-folder", "census-all"])
@pytest.mark.parametrize(
    "reply, seconds",
    [((429, MANY, "2"), 2), ((429, MANY), 1), ((429, MANY, DATE), 1), ((429, MANY, "0"), 1)],
    ids=["two seconds", "no time", "a date", "no seconds"],
)
def test_limited(name: str, reply: Reply, seconds: int, room: str) -> None:
    """After a reply 429 a script waits as many seconds as the reply says, or one, and sends the same again."""
    folder = new_folder(room, f"limited {name} {''.join(reply[2:])}", {"a.rle": GLIDER})
    first: list[Reply] = []
    words, given, wanted, times_sent = ["ann", folder], GIVEN, f"7\t{folder}/a.rle\n", 2
    if name == "census-all":
        first = [TWO_DEPOSITS, (201, b'{"census":3}')]
        words, given, wanted, times_sent = ["ann", "0", "60"], (201, b'{"census":4}'), "1\t3\n2\t4\n", 3
    with Pretender(*first, reply, given, NO_DEPOSITS) as server:
        result = script(name, url(server), *words)
        same(f"{name} waits for {reply[2:]}", result, (0, wanted, ""))
        waited = server.times[len(first) + 1] - server.times[len(first)]
        check(f"{name} waits {waited:.1f} s for {reply[2:]}", seconds <= waited < seconds + 5)
        check(
            f"{name} sends the same again",
            server.sent[-2] == server.sent[-1] and len(server.sent) == times_sent,
        )


def test_long_waits(room: str) -> None:
    """A long wait says how far the run is."""
    folder = new_folder(room, "long", {"a.rle": GLIDER, "b.rle": BLOCKS, "c.rle": UNFINISHED + b"!"})
    later = (429, MANY, "5")
    with Pretender(GIVEN, NOT_THERE, later, GIVEN, NOT_THERE, GIVEN) as server:
        same(
            "put-folder says how far it is",
            script("put-folder", url(server), "ann", folder),
            (
                0,
                "".join(f"7\t{folder}/{name}.rle\n" for name in "abc"),
                "put-folder: waiting, since the server limits requests; 1 of 3 done\n",
            ),
        )
    with Pretender(TWO_DEPOSITS, (201, b'{"census":3}'), later, (201, b'{"census":4}'), NO_DEPOSITS) as server:
        same(
            "census-all says how far it is",
            script("census-all", url(server), "ann", "0", "60"),
            (0, "1\t3\n2\t4\n", "census-all: waiting, since the server limits requests; 1 of 2 done\n"),
        )


def test_passwords(room: str) -> None:
    """A missing password is said once, and ends the run."""
    folder = new_folder(room, "passwords", {"a.rle": GLIDER, "b.rle": BLOCKS})
    wanted = "password: the club knows its members by passwords; write yours into ~/.netrc\n"
    page = (401, b"<html>\n</html>\n")
    with Pretender(page) as server:
        same(
            "put-folder without a password",
            script("put-folder", url(server), "ann", folder),
            (1, "", "put-folder: " + wanted),
        )
        same("it asks once", len(server.times), 1)
    with Pretender(TWO_DEPOSITS, page) as server:
        same(
            "census-all without a password",
            script("census-all", url(server), "ann", "0", "60"),
            (1, "", "census-all: " + wanted),
        )


# ---- what is kept already


def listed(number: int, member: str = "ann") -> Reply:
    return 200, b'{"deposits":[{"id":%d,"member":"%s","population":5,"rule":"B3/S23"}]}' % (number, member.encode())


@pytest.mark.parametrize(
    "name, replies, times_sent",
    [
        ("confirmed", [listed(7), (200, clients.GLIDER_TEXT)], 1),
        ("of another member", [listed(7, "bob"), GIVEN], 2),
        ("of a number that is not given", [NO_DEPOSITS, GIVEN], 2),
        ("of another number", [listed(8), GIVEN], 2),
        ("with another text", [listed(7), (200, clients.BLOCKS_TEXT), GIVEN], 2),
        ("that is not shown", [listed(7), NOT_THERE, GIVEN], 2),
    ],
)
def test_kept_before(name: str, replies: list[Reply], times_sent: int, room: str) -> None:
    """A file that was kept is not sent again as long as the archive lists the number as the member's and shows the same
    under it."""
    folder = new_folder(room, "before " + name, {"a.rle": GLIDER})
    with Pretender(GIVEN, (200, clients.GLIDER_TEXT), *replies) as server:
        wanted = (0, f"7\t{folder}/a.rle\n", "")
        check(
            f"a deposit {name}",
            script("put-folder", url(server), "ann", folder)
            == wanted
            == script("put-folder", url(server), "ann", folder),
        )
        same(f"how often a deposit {name} is sent", len(server.sent), times_sent)


def test_of_whom(room: str) -> None:
    """If a password may have been sent, it is said once that the deposits are another member's."""
    folder = new_folder(room, "whose", {"a.rle": GLIDER, "b.rle": BLOCKS})
    home = new_folder(room, "home of ann", {".netrc": b"machine 127.0.0.1 login ann password x\n"})
    printed = f"7\t{folder}/a.rle\n8\t{folder}/b.rle\n"
    second = (201, b'{"deposit":8}')
    for given, rest in (
        ("bob", "put-folder: stored for ann, who logged in, not for bob\n"),
        ("ann", ""),
    ):
        environment = os.environ | {"HOME": home, "XDG_STATE_HOME": os.path.join(room, f"state of {given}")}
        with Pretender(GIVEN, NOT_THERE, listed(7), second, NOT_THERE) as server:
            same(
                f"{given} with ann's password",
                script("put-folder", url(server), given, folder, env=environment),
                (0, printed, rest),
            )


@pytest.mark.parametrize(
    "census, deposit, generation, limit, times_sent",
    [(4, 1, 0, 60, 1), (4, 2, 0, 60, 2), (4, 1, 1, 60, 2), (4, 1, 0, 61, 2), (5, 1, 0, 60, 2)],
)
def test_counted_before(census: int, deposit: int, generation: int, limit: int, times_sent: int, room: str) -> None:
    """A census that was kept is not asked for again as long as the archive shows it of the same deposit, generation and
    limit."""
    one, given = listed(1), (201, b'{"census":4}')
    text = '{"census":%d,"clusters":1,"deposit":%d,"generation":%d,"limit":%d,"rows":[],"steady":true,"unresolved":0}'
    values = (census, deposit, generation, limit)
    with Pretender(
        one,
        given,
        NO_DEPOSITS,
        one,
        (200, (text % values).encode()),
        *([given] if times_sent == 2 else []),
        NO_DEPOSITS,
    ) as server:
        wanted = (0, "1\t4\n", "")
        check(
            f"a census {values}",
            script("census-all", url(server), "ann", "0", "60")
            == wanted
            == script("census-all", url(server), "ann", "0", "60"),
        )
        same(f"how often a census {values} is sent", len(server.sent), times_sent)


def test_interrupted(room: str) -> None:
    """A script that is ended by a signal while it waits leaves no file but its record."""
    folder = new_folder(room, "interrupted", {"a.rle": GLIDER, "b.rle": BLOCKS})
    own = os.path.join(room, "own")
    os.mkdir(own)
    with Pretender(GIVEN, NOT_THERE, (429, MANY, "60")) as server:
        process = subprocess.Popen(
            [os.path.join(EXAMPLES, "scripts", "put-folder"), url(server), "ann", folder],
            stdout=subprocess.PIPE,
            stderr=subprocess.PIPE,
            text=True,
            start_new_session=True,
            env=os.environ | {"TMPDIR": own},
        )
        assert process.stderr
        line = process.stderr.readline()
        # By then it waits.
        time.sleep(1)
        there = os.listdir(own)
        os.killpg(process.pid, signal.SIGTERM)
        printed, _ = process.communicate(timeout=30)
    same(
        "how far a script is that is ended",
        line,
        "put-folder: waiting, since the server limits requests; 1 of 2 done\n",
    )
    check(
        "a script that is ended",
        (process.returncode, printed) == (143, f"7\t{folder}/a.rle\n") and len(there) == 1 and os.listdir(own) == [],
    )


# ---- get-folder


def test_not_taken_out(room: str) -> None:
    """What is not an archive, a deposit that is not shown, a wait that the gateway asks for, and bad arguments."""
    folder = os.path.join(room, "not taken")
    with Pretender((200, b"<html>\n</html>\n")) as server:
        same(
            "no archive to take from",
            script("get-folder", url(server), folder),
            (1, "", "get-folder: a reply of status 200, but not from an archive\n"),
        )
    other = (404, b'{"error":"no-such-deposit","refusal":1}')
    with Pretender(TWO_DEPOSITS, other, (200, GLIDER), NO_DEPOSITS) as server:
        same(
            "a deposit that is not shown",
            script("get-folder", url(server), folder),
            (1, f"2\tann\t{folder}/0000002.rle\n", "deposit 1: no-such-deposit\n"),
        )
    with Pretender(TWO_DEPOSITS, (429, MANY, "1"), (200, GLIDER), (200, GLIDER), NO_DEPOSITS) as server:
        same(
            "taking out waits as the gateway asks",
            script("get-folder", url(server), folder),
            (0, f"1\tann\t{folder}/0000001.rle\n2\tann\t{folder}/0000002.rle\n", ""),
        )
    same("the folder's files after all that", sorted(os.listdir(folder)), ["0000001.rle", "0000002.rle"])
    with open(os.path.join(room, "plain file"), "wb"):
        pass
    with Pretender() as server:
        for words in (
            [url(server)],
            [url(server), folder, "Ann"],
            [url(server), folder, ""],
            [url(server), folder, "ann", "bob"],
            [url(server), os.path.join(room, "plain file")],
        ):
            status, printed, refusals = script("get-folder", *words)
            same(f"get-folder with bad words {words[1:]}", (status, printed, refusals.count("\n")), (2, "", 1))
        same("nothing is asked for bad words", server.sent + server.read, [])
