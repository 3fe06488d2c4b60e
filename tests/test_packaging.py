"""Installation, README's first commands, the Debian package and a release."""

import os
import pathlib
import re
import shutil
import subprocess
import sys
import unittest

from support import ROOT, Case, has_virtual_environments, needs, output

BLOCK = re.compile(r"(?:^    .*\n)+", re.M)


class Installed(Case):
    """The installed files, for any way of installing."""

    def check_installed(self, prefix, zsh):
        """The programs and their completions below a prefix."""
        program = prefix / "bin/mosaic"
        self.assertEqual(program.read_bytes(), pathlib.Path(self.program).read_bytes())
        self.assertEqual(output(program, "table", "3", "1", input="count\nquit\n"), "OK 0\nOK\n")
        names = ["mosaic", *["mosaic-tiles"] * bool(self.tiles)]
        places = [f"{folder}/{name}{end}" for name in names for folder, end in (("bash-completion/completions", ""), ("fish/vendor_completions.d", ".fish"))]
        self.assertEqual([place for place in places if not (prefix / "share" / place).is_file()], [])
        self.assertTrue((zsh / "_mosaic").is_file())
        if self.tiles:
            tiles = prefix / "bin/mosaic-tiles"
            self.assertEqual(tiles.read_bytes(), pathlib.Path(self.tiles).read_bytes())
            self.assertEqual(output(tiles, "table", "3", "1", input="levels N00E000\nlevels x\n"), "ERR 5 NoTile\nERR 2 BadName\n")
        self.check_scripts(prefix)
        self.check_pages(prefix, names)

    def check_scripts(self, prefix):
        """Each command other than the program has a help, and completions with its options."""
        scripts = self.scripts(prefix)
        self.assertEqual(scripts, sorted(re.findall(r"^(mosaic-\w+) = ", (ROOT / "python/pyproject.toml").read_text(), re.M)))
        environment = os.environ | {"PATH": f"{prefix / 'bin'}:{os.environ['PATH']}", "PYTHONPATH": str(prefix / "lib/python3/dist-packages")}
        for script in scripts:
            self.assertIn("usage", output(prefix / "bin" / script, "--help", env=environment).lower())
            self.assertLessEqual({"--program", "--version"}, set(self.options(prefix, script)))
            self.assertIn(f"complete -c {script} -l program -r", (prefix / "share/fish/vendor_completions.d" / f"{script}.fish").read_text())

    @staticmethod
    def scripts(prefix):
        return sorted(path.name for path in (prefix / "bin").iterdir() if path.name not in ("mosaic", "mosaic-tiles"))

    @staticmethod
    def options(prefix, script):
        ask = f"source ./{script}; COMP_WORDS=({script} --); COMP_CWORD=1; _{script.replace('-', '_')}; echo ${{COMPREPLY[@]}}"
        return output("bash", "--norc", "-c", ask, cwd=prefix / "share/bash-completion/completions").split()

    def check_pages(self, prefix, names):
        """Each command has a manual page that man has nothing to say against, with all of its options."""
        needs("man", "man-db")
        pages = {name: self.page(prefix, name) for name in [*names, *self.scripts(prefix)]}
        for section in ("SUBCOMMANDS", "LINES", "EXIT STATUS", "MESSAGES", "FILES", "EXAMPLES"):
            self.assertIn(section, pages["mosaic"])
        for script in self.scripts(prefix):
            self.assertEqual([word for word in self.options(prefix, script) if word not in pages[script]], [])

    def page(self, prefix, name):
        path = next((prefix / "share/man/man1").glob(f"{name}.1*"))
        surroundings = os.environ | {"LC_ALL": "C.UTF-8", "MANWIDTH": "200"}
        page = subprocess.run(["man", "--warnings", "-l", path], stdout=subprocess.PIPE, stderr=subprocess.PIPE, text=True, env=surroundings)
        self.assertEqual(page.stderr, "", name)
        return page.stdout


class Install(Installed):
    def test_installed_again_and_removed(self):
        prefix = self.folder / "prefix"
        output(ROOT / "install", prefix)
        installed = sorted(str(path.relative_to(prefix)) for path in prefix.rglob("*") if path.is_file())
        self.assertEqual(sorted((prefix / "share/mosaic/installed").read_text().split("\n")[:-1]), installed)
        earlier = prefix / "bin/of_an_earlier_version"
        earlier.touch()
        with (prefix / "share/mosaic/installed").open("a") as names:
            names.write("bin/of_an_earlier_version\n")
        output(ROOT / "install", prefix, env=os.environ | {"MOSAIC": str(prefix / "bin/mosaic")})
        self.assertFalse(earlier.exists())
        (kept := prefix / "share/mosaic/python/mosaic_store/__pycache__").mkdir()
        (kept / "made_by_a_first_run.pyc").touch()
        output(ROOT / "install", "--remove", prefix)
        self.assertEqual(list(prefix.rglob("*")), [])
        self.refused([ROOT / "install", "--remove", prefix], "nothing was installed")

    def test_what_is_installed(self):
        prefix = self.folder / "all"
        output(ROOT / "install", prefix)
        self.check_installed(prefix, prefix / "share/zsh/site-functions")

    def test_prefix_that_cannot_be_written(self):
        self.refused([ROOT / "install", "/proc/mosaic"], "Choose a PREFIX")


class Readme(Case):
    def test_first_commands(self):
        """README's first commands as they stand there, with the tile that its point lies in. `mosaic-view` would serve on and on."""
        block = next((block for block in BLOCK.findall((ROOT / "README.md").read_text()) if "    mosaic-load " in block), None)
        if block is None:
            self.skipTest("README shows no `mosaic-load`")
        folder, prefix = self.folder / "readme", self.folder / "prefix"
        downloads = folder / re.search(r"mosaic-load \S+ (\S+)", block)[1]
        downloads.mkdir(parents=True)
        output(ROOT / "install", prefix)
        output(self.tool("terrain"), "1", "1201", "1", "1", downloads)
        latitude, longitude = (int(number) // 1200 for number in re.search(r"'fill (\S+) (\S+)'", block).groups())
        (downloads / "N00E000.hgt").rename(downloads / f"{'SN'[latitude >= 0]}{abs(latitude):02}{'WE'[longitude >= 0]}{abs(longitude):03}.hgt")
        environment = os.environ | {"PATH": f"{prefix / 'bin'}:{os.environ['PATH']}", "HOME": str(folder)}
        for line in block.splitlines():
            words = line.partition("#")[0].strip()
            if words.startswith(("mosaic", "echo", "printf")) and not words.startswith("mosaic-view"):
                with self.subTest(words):
                    self.run_line(words, folder, environment)

    def run_line(self, words, folder, environment):
        done = subprocess.run(["sh", "-c", words], cwd=folder, env=environment, stdout=subprocess.PIPE, stderr=subprocess.PIPE, text=True)
        if "isn't installed" in done.stderr:
            self.skipTest(done.stderr.strip())
        self.assertEqual((done.returncode, "ERR" in done.stdout), (0, False), done.stdout + done.stderr)


class Debian(Installed):
    def test_package(self):
        needs("dpkg-deb", "dpkg")
        output(ROOT / "packaging/debian", self.folder)
        package = next(self.folder.glob("mosaic-store_*.deb"))
        fields = dict(line.split(": ", 1) for line in output("dpkg-deb", "--field", package).splitlines() if ": " in line)
        self.assertTrue(fields["Version"].startswith((ROOT / "VERSION").read_text().strip()))
        self.assertTrue("libc6" in fields["Depends"] and "python3 (>= 3.11)" in fields["Depends"])
        self.assertEqual(fields["Recommends"], "python3-numpy, python3-rasterio, python3-matplotlib")
        root = self.folder / "root"
        output("dpkg", "-x", package, root)
        self.assertTrue((root / "usr/share/doc/mosaic-store/copyright").read_text().startswith("MIT"))
        unit = (root / "usr/lib/systemd/system/mosaic-service.service").read_text()
        (service,) = re.findall(r"^ExecStart=/usr/bin/python3 (\S+)", unit, re.M)
        self.assertIn("usage: service.py", output("/usr/bin/python3", root / service[1:], "--help", env=os.environ | {"PYTHONPATH": str(root / "usr/lib/python3/dist-packages")}))
        self.assertEqual((root / "usr/lib/x86_64-linux-gnu/libmosaic.so").is_file(), (root / "usr/include/mosaic.h").is_file())
        sums = output("dpkg-deb", "--info", package, "md5sums")
        self.assertEqual(subprocess.run(["md5sum", "--quiet", "-c"], input=sums, cwd=root, text=True).returncode, 0)
        self.assertEqual(len(sums.splitlines()), sum(path.is_file() for path in root.rglob("*")))
        self.check_installed(root / "usr", root / "usr/share/zsh/vendor-completions")

    def test_folder_that_is_not_there(self):
        self.refused([ROOT / "packaging/debian", "/nowhere"], "no folder")


LEFT_OUT = "packaging/debian: libmosaic is left out, as MOSAIC names a program and MOSAIC_LIBRARY no library\n"


@unittest.skipUnless(shutil.which("dpkg-deb"), "`dpkg-deb` isn't installed: apt-get install dpkg")
class Release(Case):
    @classmethod
    def setUpClass(cls):
        super().setUpClass()
        cls.release = cls.folder / "release"
        cls.told = cls.make(cls.release)

    @staticmethod
    def make(folder):
        done = subprocess.run([ROOT / "packaging/release", folder], stdout=subprocess.PIPE, stderr=subprocess.PIPE, text=True)
        return done.returncode, done.stderr

    def test_files(self):
        """They are the same again, as their checksums say."""
        again = self.folder / "again"
        told = LEFT_OUT if os.environ.get("MOSAIC") and not os.environ.get("MOSAIC_LIBRARY") else ""
        self.assertEqual([self.told, self.make(again)], [(0, told)] * 2)
        self.assertEqual(sorted(path.suffix for path in self.release.iterdir()), ["", ".deb", ".whl", ".zip"])
        self.assertEqual((again / "SHA256SUMS").read_text(), (self.release / "SHA256SUMS").read_text())
        self.assertEqual(subprocess.run(["sha256sum", "--quiet", "-c", "SHA256SUMS"], cwd=self.release).returncode, 0)
        self.refused([ROOT / "packaging/release", self.release], "name a new folder")

    @unittest.skipUnless(has_virtual_environments(), f"{sys.executable} makes no virtual environment: apt-get install python3-venv")
    def test_wheel(self):
        """The wheel, and then the sources, in a bare environment without a network."""
        environment = self.folder / "environment"
        output(sys.executable, "-m", "venv", environment)
        pip = [environment / "bin/pip", "--quiet", "--disable-pip-version-check"]
        for what in (next(self.release.glob("*.whl")), ROOT / "python"):
            output(*pip, "install", "--no-index", what)
            told = output(environment / "bin/mosaic-info", "--version")
            self.assertRegex(told, r"^mosaic-info \d+\.\d+\.\d+, (commit [0-9a-f]{12}|from its sources)$")
            output(*pip, "uninstall", "--yes", "mosaic-store")

    @unittest.skipUnless(shutil.which("lintian"), "`lintian` isn't installed: apt-get install lintian")
    def test_lintian(self):
        told = subprocess.run(["lintian", "--allow-root", next(self.release.glob("*.deb"))], stdout=subprocess.PIPE, text=True).stdout
        self.assertEqual([line for line in told.splitlines() if line.startswith("E:")], [])
