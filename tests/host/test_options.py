"""Options anywhere, the help on each verb, and the version."""
import json

from cases import shipped_case
from expected import place
from program import ANSWERED, FAILED, HostTest, run

# The verbs with the options that not every verb takes.
VERBS = {
    "sheet": {"--pages", "--plain", "--pae", "--cr3", "-o"},
    "resolve": {"--no-pagefile"},
    "page": {"--no-pagefile", "-o"},
    "read": {"--no-pagefile", "-o"},
    "time": {"--no-pagefile"},
    "map": {"--no-pagefile", "-o"},
    "lookup": set(),
    "processor-block": {"--no-pagefile", "--all"},
    "list": {"--no-pagefile"},
    "explain": set(),
    "help": set(),
}
OF_EVERY_VERB = {"--json", "--help", "--version", "--"}


def shown(*words):
    """What is printed, with status 0 and nothing on standard error."""
    done = run(*words)
    assert (done.returncode, done.stderr) == (ANSWERED, b""), done
    return done.stdout.decode()


class Help(HostTest):
    def test_every_verb(self):
        for verb, options in VERBS.items():
            text = shown("help", verb)
            self.assertTrue(text.startswith(f"glintloom {verb} "), text)
            listed = {line.split()[0] for line in text.splitlines() if line.startswith("  -")}
            self.assertEqual(listed, options | OF_EVERY_VERB)
            self.assertEqual("CASE is SHEET IMAGE PAGEFILE" in text, "--no-pagefile" in options)
            self.assertIn("\nExit status: 0 answered; 1 refused", text)
            self.assertEqual(shown(verb, "--help"), text)

    def test_anywhere(self):
        for words in (["--help"], ["help"], ["-h"], ["--json", "help"], ["help", "--json"]):
            text = shown(*words)
            self.assertEqual(json.loads(text)["answers"][0]["text"] if "--json" in words else text, shown("help"))
        for words in (["-h", "read"], ["--no-pagefile", "read", "-h"], ["read", "a", "b", "c", "-o", "d", "--help"]):
            self.assertEqual(shown(*words), shown("help", "read"))

    def test_every_option_is_listed(self):
        listed = {line.split()[0] for line in shown("help").splitlines() if line.startswith("  -")}
        self.assertEqual(listed, set().union(*VERBS.values()) | OF_EVERY_VERB)

    def test_wrong_use(self):
        self.fails(["help", "resolv"], "no verb 'resolv'")
        self.fails(["resolv", "--help"], "no verb 'resolv'")
        self.fails(["help", "-o", "x"], "help takes no -o")
        self.fails(["--helo"], "no option '--helo'")
        done = run("--json")
        self.assertEqual((done.returncode, done.stdout, done.stderr.decode()), (FAILED, b"", shown("help")))


class Version(HostTest):
    def test_anywhere(self):
        text = shown("--version")
        self.assertRegex(text, r"\Aglintloom \d+\.\d+\.\d+\n\Z")
        for words in (["resolve", "--version"], ["--version", "page", "a"], ["help", "--version"]):
            self.assertEqual(shown(*words), text)
        self.assertEqual(json.loads(shown("--version", "--json")), {"verb": "version", "answers": [{"text": text}]})


class Places(HostTest):
    def setUp(self):
        super().setUp()
        self.files = shipped_case(self.directory)
        self.case = self.files.words()

    def test_before_the_verb(self):
        line = [place(0xB37008, 1, 0x5008, 4)]
        self.says(["--no-pagefile", "resolve", *self.case[:2], "0xB37008"], ANSWERED, line)
        self.says(["--", "resolve", *self.case, "0xB37008"], ANSWERED, line)
        self.assertEqual(run("--json", "resolve", *self.case, "0").stdout, run("resolve", *self.case, "0", "--json").stdout)

    def test_file_of_the_output(self):
        content, out = self.files.image.read_bytes()[0x5000:0x6000], self.directory / "out"
        address = "0x777B0000"
        for words in (
            ["page", *self.case, address, "-o", out],
            ["page", *self.case, address, f"-o{out}"],
            ["-o", out, "page", *self.case, address],
            [f"-o{out}", "page", *self.case, address],
            ["page", "-o", out, *self.case, "--", address],
        ):
            self.assertEqual((run(*words).returncode, out.read_bytes()), (ANSWERED, content))
            out.unlink()
        self.fails(["page", *self.case, address, f"-o{out}", "-o", out], "-o takes one file")
        self.fails(["-o"], "-o takes one file")
