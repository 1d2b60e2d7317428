"""The .deb of tools/release, installed below a folder, run and purged."""

import os
import re
import shutil
import subprocess
import unittest
from pathlib import Path

from packing import DEB, Scratch, proved_program
from whatif_tools.program import ROOT

ROOTED = [] if os.geteuid() == 0 else ["unshare", "--map-root-user"]
DPKG = ("--force-depends", "--force-script-chrootless", "--log=/dev/null")


def may_install() -> bool:
    return all(map(shutil.which, ("dpkg", "dpkg-deb"))) and subprocess.run([*ROOTED, "true"], capture_output=True).returncode == 0


@unittest.skipUnless(may_install(), "dpkg can't install below a folder of ours")
class Installed(Scratch):
    """Where the program under test is proved, it is that which is packed, by the toolchain itself; else a stub that calls it."""

    def test_installed_run_and_purged(self) -> None:
        root = self.place.folder / "root"
        admin = root / "var" / "lib" / "dpkg"
        for name in ("info", "updates"):
            (admin / name).mkdir(parents=True)
        for name in ("status", "available"):
            (admin / name).touch()
        proved = proved_program() if shutil.which("rt") else None
        if proved:
            (self.place.folder / "bin" / "rt").unlink()
        made = self.place.release(proved or self.stub, "packed")
        self.assertEqual(made.returncode, 0, made.stderr)
        before = sorted(it for it in root.rglob("*") if "dpkg" not in it.parts)
        self.dpkg(root, "--install", str(self.place.folder / "packed" / DEB))
        for name in ("whatif", "whatif-check", "ods2whatif"):
            self.assertTrue(os.access(root / "usr" / "bin" / name, os.X_OK), name)
        self.look(root, bool(proved))
        self.dpkg(root, "--purge", "whatif")
        self.assertEqual(sorted(it for it in root.rglob("*") if "dpkg" not in it.parts and it.is_file()), [it for it in before if it.is_file()])
        self.assertFalse((root / "usr" / "share" / "doc" / "whatif").exists())

    def dpkg(self, root: Path, *words: str) -> None:
        done = subprocess.run([*ROOTED, "dpkg", f"--root={root}", *DPKG, *words], capture_output=True, text=True)
        self.assertEqual(done.returncode, 0, done.stdout + done.stderr)

    def look(self, root: Path, is_proved: bool) -> None:
        """What is installed answers: the program, a tool that calls it, the client; the proved program also with the C library alone beside it."""
        with (ROOT / "examples" / "tariff.whatif").open() as script:
            ran = subprocess.run([root / "usr/bin/whatif"], stdin=script, capture_output=True)
        self.assertEqual(ran.stdout, (ROOT / "examples" / "tariff.out").read_bytes())
        modules = f"{root}/usr/lib/python3/dist-packages"
        environment = {**self.place.environment(), "PATH": f"{root}/usr/bin:{os.environ['PATH']}", "PYTHONPATH": modules}
        environment.pop("PYTHONDONTWRITEBYTECODE", None)
        checked = subprocess.run(["whatif-check", str(ROOT / "examples" / "tariff.whatif")], capture_output=True, text=True, env=environment)
        self.assertEqual((checked.returncode, checked.stdout), (0, ""), checked.stderr)
        asks = "import whatif; b = whatif.Workbook(); b.set_formula('A1', '=1/3*3'); print(whatif.__file__, b.value('A1'))"
        asked = subprocess.run(["python3", "-c", asks], capture_output=True, text=True, env=environment, cwd="/")
        self.assertEqual(asked.stdout, f"{modules}/whatif/__init__.py 1\n", asked.stderr)
        self.assertTrue(any(root.rglob("__pycache__")), "what Python keeps is there to be removed")
        if is_proved:
            self.look_alone(root)

    def look_alone(self, root: Path) -> None:
        linked = subprocess.run(["ldd", str(root / "usr/bin/whatif")], capture_output=True, text=True, check=True).stdout
        libraries = [Path(it) for it in re.findall(r"(/\S+) \(", linked)]
        for it in libraries:
            (root / it.relative_to("/")).parent.mkdir(parents=True, exist_ok=True)
            shutil.copy(it, root / it.relative_to("/"))
        ran = subprocess.run([*ROOTED, "chroot", str(root), "/usr/bin/whatif"], input=b"set A1 =1/3*3\nshow A1\n", capture_output=True)
        self.assertEqual(ran.stdout, b'ok\n"1"\r\nok\n', ran.stderr)
        for it in libraries:
            (root / it.relative_to("/")).unlink()


if __name__ == "__main__":
    unittest.main()
