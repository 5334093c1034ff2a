"""The Debian package: its control files, and what they want besides."""
import gzip
import hashlib
import os
import subprocess
import tempfile
from email.utils import formatdate

CONTROL = """\
Package: hpkebatch
Version: {version}
Architecture: amd64
Maintainer: {maintainer}
Installed-Size: {size}
Depends: libc6 (>= {libc})
Recommends: python3 (>= 3.9)
Section: utils
Priority: optional
Description: seals files and messages to a public key (HPKE, NTRU Prime)
 Makes keys, and seals and opens files with HPKE (RFC 9180) over Streamlined
 NTRU Prime; these words need python3. For scripts it seals, opens and exports
 many messages at once, a batch of text at a time, with a journal of each
 context. It is proved in Rattle; /usr/share/doc/hpkebatch/PROVENANCE has the
 revision and all sums.
"""

CHANGELOG = """\
hpkebatch ({version}) unstable; urgency=medium

  * CHANGELOG.md, beside this file, has what changed.

 -- {maintainer}  {date}
"""

COPYRIGHT = """\
The owner of hpkebatch has given no licence yet. So nobody else may copy it,
change it or pass it on. To give one is the owner's.

Revision: {revision}
"""

# Tags of lintian, each with the reason to leave it.
OVERRIDES = """\
# The owner has given no licence yet: the file says so.
hpkebatch: copyright-without-copyright-notice
# The packed file has the sum of the program that the proof builds, or that ./hpkebatch makes.
hpkebatch: unstripped-binary-or-object [usr/lib/hpkebatch/hpkebatch]
"""
OVERRIDES_OF_LIBRARY = """\
# One package has the command, the library and the header: they are of one revision.
hpkebatch: package-name-doesnt-match-sonames libhpkebatch0
hpkebatch: link-to-shared-library-in-wrong-package usr/lib/x86_64-linux-gnu/libhpkebatch.so.0 [usr/lib/x86_64-linux-gnu/libhpkebatch.so]
# The same for the library: its bytes are those of tools/make_library.
hpkebatch: unstripped-binary-or-object [usr/lib/x86_64-linux-gnu/libhpkebatch.so.0]
"""

# What python makes of the modules is made when the package comes, and goes with it.
POSTINST = """\
#!/bin/sh
set -e
if [ "$1" = configure ] && [ -z "$DPKG_ROOT" ] && command -v py3compile >/dev/null; then
    py3compile -p hpkebatch
fi
"""
PRERM = """\
#!/bin/sh
set -e
find "$DPKG_ROOT/usr/lib/python3/dist-packages/hpkebatch" -name __pycache__ -prune -exec rm -rf {} +
"""


def documents(version, maintainer, revision, date, has_library):
    """What each Debian package has below usr: names, bytes and modes."""
    words = {"version": version, "maintainer": maintainer, "revision": revision}
    changes = CHANGELOG.format(**words, date=formatdate(date)).encode()
    overrides = OVERRIDES + OVERRIDES_OF_LIBRARY * has_library
    return [
        ("share/doc/hpkebatch/changelog.gz", gzip.compress(changes, 9, mtime=0), 0o644),
        ("share/doc/hpkebatch/copyright", COPYRIGHT.format(**words).encode(), 0o644),
        ("share/lintian/overrides/hpkebatch", overrides.encode(), 0o644),
    ]


def controls(files, links, version, maintainer, libc, has_library):
    """What stands in DEBIAN: names, bytes and modes."""
    sums = "".join(f"{hashlib.md5(data).hexdigest()}  usr/{name}\n" for name, data, _ in sorted(files))
    size = sum(-(-len(data) // 1024) for _, data, _ in files) + len(links)
    control = CONTROL.format(version=version, maintainer=maintainer, size=size, libc=libc)
    made = [("control", control, 0o644), ("md5sums", sums, 0o644), ("postinst", POSTINST, 0o755), ("prerm", PRERM, 0o755)]
    if has_library:
        made += [("triggers", "activate-noawait ldconfig\n", 0o644), ("shlibs", f"libhpkebatch 0 hpkebatch (>= {version})\n", 0o644)]
    return [(name, text.encode(), mode) for name, text, mode in made]


def write(path, files, links, control, date):
    """Writes the package: `files` and `links` are below usr, and a link has its name and what it leads to."""
    with tempfile.TemporaryDirectory() as root:
        inner = [(f"DEBIAN/{name}", data, mode) for name, data, mode in control]
        for name, data, mode in [*inner, *((f"usr/{name}", data, mode) for name, data, mode in files)]:
            target = os.path.join(root, name)
            os.makedirs(os.path.dirname(target), exist_ok=True)
            with open(target, "wb") as file:
                file.write(data)
            os.chmod(target, mode)
        for name, target in links:
            os.symlink(target, os.path.join(root, "usr", name))
        for at, folders, names in os.walk(root):
            os.chmod(at, 0o755)
            for name in [*names, *folders]:
                os.utime(os.path.join(at, name), (date, date), follow_symlinks=False)
        os.utime(root, (date, date))
        words = ["dpkg-deb", "--root-owner-group", "-Zgzip", "-z9", "--build", root, path]
        subprocess.run(words, env={**os.environ, "SOURCE_DATE_EPOCH": str(date)}, stdout=subprocess.DEVNULL, check=True)
