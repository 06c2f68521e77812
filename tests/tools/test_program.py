"""dev/program, ./run and tools/install: which program is named, what is run, and what is put on the path."""
import hashlib
import os
import pathlib
import re
import shutil
import subprocess
import unittest
from collections.abc import Callable

from trial import TOP, Trial

COPIED = ["VERSION", "run", "dev", "docs", "tools/install", "tools/clio_tools"]
SAYS = "#!/usr/bin/env bash\necho clio \"$@\"\n"


class Repository(Trial):
    """A repository with the programs of this one, and with a crate and a kept program that are made up."""

    def setUp(self) -> None:
        super().setUp()
        self.top = self.folder / "a clone"
        for name in COPIED:
            (self.top / name).parent.mkdir(parents=True, exist_ok=True)
            if (TOP / name).is_dir():
                shutil.copytree(TOP / name, self.top / name)
            else:
                shutil.copy(TOP / name, self.top / name)
        for path in (TOP / "tools").glob("clio-*"):
            shutil.copy(path, self.top / "tools")
        self.file("a clone/crates.txt", "one:\n")
        self.file("a clone/crates/one/src/lib.rt", "")

    def put(self, name: str, content: str = SAYS) -> pathlib.Path:
        path = self.file(name, content)
        path.chmod(0o755)
        return path

    def run_in(self, *command: str, folder: pathlib.Path | None = None, **places: str) -> tuple[int, str, str]:
        """How a program of the repository ends, which gets these places from its environment."""
        done = subprocess.run([self.top / command[0], *command[1:]], cwd=folder or self.folder,
                              env={**os.environ, **places},
                              stdin=subprocess.DEVNULL, capture_output=True, text=True, check=False)
        return done.returncode, done.stdout, done.stderr

    def named(self, *words: str) -> tuple[str, str]:
        """The path that is printed, below the repository; and what is said."""
        _, printed, said = self.run_in("dev/program", *words)
        return printed.strip().removeprefix(f"{self.top.resolve()}/"), said

    def keep(self) -> pathlib.Path:
        path = self.put("a clone/dist/clio")
        self.file("a clone/dist/sources", self.run_in("dev/dist", "sources")[1])
        self.file("a clone/dist/sum", f"{hashlib.sha256(path.read_bytes()).hexdigest()}  clio\n")
        self.file("a clone/dist/toolchain", "made up\n")
        return path


class Program(Repository):
    def test_none(self) -> None:
        self.assertEqual(self.named("--fresh"), ("", ""))
        self.assertIn("./run --build", self.named()[1])

    def test_kept(self) -> None:
        self.keep()
        self.assertEqual(self.named("--fresh"), ("dist/clio", ""))
        self.file("a clone/crates/one/src/lib.rt", "changed")
        self.assertEqual(self.named("--fresh"), ("", ""))
        self.assertEqual(self.named()[0], "dist/clio")
        self.assertIn("built of other sources", self.named()[1])

    def test_another_in_its_place(self) -> None:
        """A kept program that was exchanged is not taken, whatever its sources are."""
        path = self.keep()
        path.write_text(SAYS + "echo other\n", encoding="utf-8")
        self.assertEqual(self.named("--fresh")[0], "")
        self.assertIn("dist/sum", self.named("--fresh")[1])
        self.assertEqual(self.named()[0], "")
        for wrong in "", "00  clio\n", f"{hashlib.sha256(SAYS.encode()).hexdigest()}  other\n":
            self.keep()
            self.file("a clone/dist/other", SAYS)
            self.file("a clone/dist/sum", wrong)
            self.assertEqual(self.named()[0], "", wrong)
        (self.top / "dist/sum").unlink()
        self.assertEqual(self.named()[0], "")

    def test_built(self) -> None:
        built = self.put("a clone/crates/clio/out/clio")
        self.assertEqual(self.named("--fresh"), ("crates/clio/out/clio", ""))
        os.utime(built, (1, 1))
        self.assertIn("older than its sources", self.named()[1])
        self.keep()
        self.assertEqual(self.named(), ("dist/clio", ""))


class Run(Repository):
    def test_make_data(self) -> None:
        """Only an example of the repository makes its data; the script of another folder is never run."""
        self.keep()
        for name in "a clone/examples/one", "elsewhere":
            self.file(f"{name}/mapping.clio", "")
            self.put(f"{name}/make-data", "#!/usr/bin/env bash\necho made > data.csv\n")
        (self.top / "examples/link").symlink_to(self.folder / "elsewhere")
        for folder in "elsewhere", "a clone/examples/link":
            status, printed, _ = self.run_in("run", folder)
            self.assertEqual((status, printed), (0, "clio exchange\n"))
            self.assertFalse((self.folder / folder / "data.csv").exists())
        self.assertEqual(self.run_in("run", "a clone/examples/one")[0], 0)
        self.assertTrue((self.top / "examples/one/data.csv").exists())

    def test_cdpath(self) -> None:
        self.keep()
        self.file("a clone/examples/people/mapping.clio", "")
        (self.folder / "other/a clone").mkdir(parents=True)
        done = subprocess.run(["a clone/run", "a clone/examples/people"], cwd=self.folder,
                              env={**os.environ, "CDPATH": str(self.folder / "other")},
                              capture_output=True, text=True, check=False)
        self.assertEqual((done.returncode, done.stdout), (0, "clio exchange\n"), done.stderr)


class Install(Repository):
    def setUp(self) -> None:
        super().setUp()
        self.keep()
        self.home = self.folder / "my home"
        self.home.mkdir()

    def install(self, *words: str, **places: str) -> tuple[int, str, str]:
        return self.run_in("tools/install", *words, folder=None, **{"HOME": str(self.home), **places})

    def there(self, prefix: pathlib.Path) -> tuple[list[str], list[str]]:
        """The links and the man pages of a prefix."""
        return sorted(path.name for path in (prefix / "bin").iterdir()), sorted(
            path.name for path in (prefix / "share/man/man1").iterdir())

    def test_whole(self) -> None:
        status, printed, said = self.install()
        self.assertEqual((status, printed.count("is not on the path yet")), (0, 1), said)
        names = ["clio", *sorted(path.name for path in (TOP / "tools").glob("clio-*"))]
        self.assertEqual(self.there(self.home / ".local"), (names, sorted(f"{name}.1" for name in names)))
        self.assertEqual(os.readlink(self.home / ".local/bin/clio"), str(self.top.resolve() / "dist/clio"))
        done = subprocess.run([self.home / ".local/bin/clio-draft", "--help"], capture_output=True, text=True,
                              check=False)
        self.assertEqual((done.returncode, done.stdout[:17]), (0, "usage: clio-draft"), done.stderr)
        self.assertEqual(self.install()[0], 0)  # once more, over its own

    def test_nothing_of_others_is_replaced(self) -> None:
        others: dict[str, Callable[[pathlib.Path], object]] = {
            "bin/clio": lambda path: path.write_text("another program"),
            "bin/clio-sql": lambda path: path.symlink_to("/bin/true"), "bin/clio-draft": lambda path: path.mkdir(),
            "share/man/man1/clio-ids.1": lambda path: path.write_text(".TH OTHER 1\n")}
        for name, make in others.items():
            prefix = self.folder / name.replace("/", " ")
            (prefix / name).parent.mkdir(parents=True)
            make(prefix / name)
            status, _, said = self.install(str(prefix))
            self.assertEqual(status, 1)
            self.assertIn(f"{prefix.name}/{name} is there", said)
            self.assertEqual([path.name for path in (prefix / name).parent.iterdir()], [name.rsplit("/", 1)[1]])

    def test_cdpath_and_a_name_without_a_folder(self) -> None:
        (self.folder / "other/local").mkdir(parents=True)
        status, _, said = self.install("local", CDPATH=str(self.folder / "other"))
        self.assertEqual(status, 0, said)
        self.assertEqual(list((self.folder / "other/local").iterdir()), [])
        self.assertIn("clio", self.there(self.folder / "local")[0])

    def test_umask(self) -> None:
        command = f'umask 077; exec "{self.top}/tools/install" "{self.folder}/for all"'
        done = subprocess.run(["bash", "-c", command], capture_output=True, text=True, check=False)
        self.assertEqual(done.returncode, 0, done.stderr)
        for path in (self.folder / "for all").rglob("*"):
            if not path.is_symlink():
                self.assertEqual(oct(path.stat().st_mode & 0o777), "0o755" if path.is_dir() else "0o644", path)

    def test_version(self) -> None:
        sources = self.run_in("dev/dist", "sources")[1]
        digest = hashlib.sha256(SAYS.encode()).hexdigest()
        wanted = (f"clio {(TOP / 'VERSION').read_text()}program {self.top.resolve()}/dist/clio\nsha-256 {digest}\n"
                  f"sources {sources}toolchain made up\n")
        self.assertEqual(self.install("--version"), (0, wanted, ""))
        place, path = self.top.resolve() / "dist", os.environ["PATH"]
        self.assertEqual(self.run_in("tools/clio-explain", "version", PATH=f"{place}:{path}"), (0, wanted, ""))
        self.put("elsewhere/clio", SAYS + "echo other\n")
        other = self.run_in("tools/clio-explain", "version", PATH=f"{self.folder / 'elsewhere'}:{path}")[1]
        self.assertIn(f"program {self.folder / 'elsewhere/clio'}\n", other)
        self.assertIn("sources unknown", other)

    def test_one_version(self) -> None:
        """The changelog's newest version, the package's and that of the man pages are the one in VERSION."""
        version = (TOP / "VERSION").read_text(encoding="utf-8").strip()
        changes = (TOP / "CHANGELOG.md").read_text(encoding="utf-8")
        self.assertEqual(re.findall(r"^## \[([0-9.]+)\]", changes, re.M)[0], version)
        self.assertIn(f'version = "{version}"\n', (TOP / "tools/pyproject.toml").read_text(encoding="utf-8"))
        self.install()
        for page in (self.home / ".local/share/man/man1").iterdir():
            self.assertIn(f' 1 "" "clio {version}" ', page.read_text(encoding="utf-8").split("\n")[0])


if __name__ == "__main__":
    unittest.main()
