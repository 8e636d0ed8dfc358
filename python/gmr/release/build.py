"""Makes a release: an archive to unpack anywhere, and a package of Debian, both of which need no toolchain."""
import compileall
import gzip
import os
import py_compile
import shutil
import subprocess
import tempfile
from pathlib import Path

from gmr.release.manual import make_page
from gmr.release.proof import Build, tell_proof

OWN = ("README.md", "CHANGES.md", "gmr")
LEFT_OUT = shutil.ignore_patterns("__pycache__", "tests", "*.egg-info", "build", "release", "release.py")
CONTROL = """Package: gmr
Version: {version}
Architecture: amd64
Maintainer: gmr <gmr@localhost>
Installed-Size: {size}
Depends: bash, libc6, python3 (>= 3.11)
Recommends: python3-numpy
Suggests: assimp-utils, gmsh, libjs-three, python3-bottle, python3-matplotlib, python3-meshio
Section: graphics
Priority: optional
Description: proved rule modeller on generalised maps
 It keeps a mesh as a generalised map and takes each operation on it as a rule.
 That an accepted rule leaves a map a map is proved; /usr/share/doc/gmr/PROOF
 says what stands behind this program.
"""


def make_release(top: Path, build: Build, out: Path) -> list[Path]:
    """Writes the archive and the package of a build into a folder, each whole or not at all: their names."""
    version = (top / "python" / "VERSION").read_text(encoding="utf-8").strip()
    label = version if build.is_proved else f"{version}-UNPROVED"
    out.mkdir(parents=True, exist_ok=True)
    made = [out / f"gmr-{label}-x86_64-linux.tar.xz", out / f"gmr_{label.replace('-', '~')}_amd64.deb"]
    with tempfile.TemporaryDirectory(dir=out, prefix=".release-") as room:
        tree, root = Path(room, f"gmr-{label}-x86_64-linux"), Path(room, "root")
        fill_tree(top, tree, build, version)
        fill_root(tree, root, label.replace("-", "~"))
        stamp = {**os.environ, "SOURCE_DATE_EPOCH": commit_time(top)}
        pack(tree, Path(room, "archive"), stamp["SOURCE_DATE_EPOCH"])
        words = ["dpkg-deb", "--root-owner-group", "-Zxz", "--build", str(root), str(Path(room, "package"))]
        subprocess.run(words, check=True, env=stamp, stdout=subprocess.DEVNULL)
        os.replace(Path(room, "archive"), made[0])
        os.replace(Path(room, "package"), made[1])
    return made


def commit_time(top: Path) -> str:
    """The time of the commit, in seconds, which all files of a release have; 0 where there is no commit."""
    told = subprocess.run(["git", "-C", top, "log", "-1", "--format=%ct"], capture_output=True, text=True, check=False)
    return told.stdout.strip() or "0"


def fill_tree(top: Path, tree: Path, build: Build, version: str) -> None:
    """Fills the folder that the archive unpacks to: as the top of the repository, with the program and no crate."""
    tree.mkdir()
    for name in OWN:
        shutil.copy(top / name, tree / name)
    for name in ("docs", "examples", "editors", "python"):
        shutil.copytree(top / name, tree / name, ignore=LEFT_OUT, symlinks=True)
    (tree / "tools").mkdir()
    (tree / "bin").mkdir()
    for tool in tools_of(top):
        shutil.copy(top / "tools" / tool, tree / "tools" / tool)
        (tree / "bin" / f"gmr-{tool}").symlink_to(f"../tools/{tool}")
    (tree / "bin" / "gmr").symlink_to("../gmr")
    shutil.copy(build.program, tree / "program")
    (tree / "program").chmod(0o755)
    (tree / "PROOF").write_text(tell_proof(top, build, version), encoding="utf-8")
    fill_manual(tree, version)


def tools_of(top: Path) -> list[str]:
    """The tools that a release has: all but what makes it."""
    return sorted(path.name for path in (top / "tools").iterdir() if path.is_file() and path.name != "release")


def fill_manual(tree: Path, version: str) -> None:
    """Writes the pages of the manual, from the documents and the program's own help."""
    told = subprocess.run([tree / "gmr", "--help"], capture_output=True, text=True, check=True).stdout
    readme, guide, formats = ((tree / name).read_text(encoding="utf-8")
                              for name in ("README.md", "docs/GUIDE.md", "docs/FORMATS.md"))
    synopsis = "".join(f"    {line}\n" for line in told.splitlines())
    commands = "## Commands" + formats.split("\n## Commands")[1].split("\n## ")[0]
    kept = [part for part in readme.split("\n## ")[1:] if not part.startswith(("Get it", "Where to read on"))]
    whole = "\n## ".join([f"## Synopsis\n\n{synopsis}", *kept]) + "\n\n" + commands
    pages = (("gmr", 1, "proved rule modeller on generalised maps", whole),
             ("gmr-run", 1, "how to write a rule, run it and mend it", guide),
             ("gmr-formats", 5, "texts of gmr, to the byte", formats))
    for name, section, summary, text in pages:
        path = tree / "share" / "man" / f"man{section}" / f"{name}.{section}.gz"
        path.parent.mkdir(parents=True, exist_ok=True)
        page = make_page(name, section, summary, version, text)
        path.write_bytes(gzip.compress(page.encode(), mtime=0))
    completions = tree / "share" / "bash-completion" / "completions"
    completions.mkdir(parents=True)
    shutil.copy(tree / "editors" / "bash" / "gmr", completions / "gmr")
    for path in sorted((tree / "bin").glob("gmr-*")):
        (completions / path.name).symlink_to("gmr")


def pack(tree: Path, archive: Path, time: str) -> None:
    """Packs a folder: in the order of names, with one time and no owner, so that the same release is the same bytes."""
    words = ["tar", "--sort=name", f"--mtime=@{time}", "--owner=0", "--group=0", "--numeric-owner", "--mode=go=rX,u+w"]
    subprocess.run([*words, "-C", tree.parent, "-cJf", archive, tree.name], check=True)


def fill_root(tree: Path, root: Path, version: str) -> None:
    """Fills the folder that the package is made of, from that of the archive."""
    own, shared, documents = root / "usr/lib/gmr", root / "usr/share/gmr", root / "usr/share/doc/gmr"
    for folder in (own, shared, documents, root / "usr/bin", root / "DEBIAN"):
        folder.mkdir(parents=True)
    for name in ("gmr", "program", "PROOF"):
        shutil.copy(tree / name, own / name)
    for name in ("python", "tools"):
        shutil.copytree(tree / name, own / name, symlinks=True)
    for name in ("examples", "editors"):
        shutil.copytree(tree / name, shared / name, symlinks=True)
    shutil.copytree(tree / "share", root / "usr/share", symlinks=True, dirs_exist_ok=True)
    shutil.copytree(tree / "docs", documents / "docs", symlinks=True)
    for name in ("README.md", "CHANGES.md", "PROOF"):
        shutil.copy(tree / name, documents / name)
    for path in sorted((tree / "bin").iterdir()):
        target = "gmr" if path.name == "gmr" else f"tools/{path.name.removeprefix('gmr-')}"
        (root / "usr/bin" / path.name).symlink_to(f"../lib/gmr/{target}")
    compile_tools(own)
    size = sum(path.stat().st_size for path in root.rglob("*") if path.is_file() and not path.is_symlink()) // 1024
    (root / "DEBIAN" / "control").write_text(CONTROL.format(version=version, size=size), encoding="utf-8")
    for path in (root, *root.rglob("*")):
        if not path.is_symlink():
            path.chmod(0o755 if path.is_dir() or os.access(path, os.X_OK) else 0o644)


def compile_tools(own: Path) -> None:
    """Compiles the package of the tools. They themselves write nothing there, which a removal would leave behind."""
    mode = py_compile.PycInvalidationMode.UNCHECKED_HASH
    compileall.compile_dir(own / "python", quiet=1, stripdir=str(own.parents[2]), invalidation_mode=mode)
    for tool in (own / "tools").iterdir():
        lines = tool.read_text(encoding="utf-8").split("\n", 1)
        tool.write_text("#!/usr/bin/python3 -B\n" + lines[1], encoding="utf-8")
