"""root_of_packages.py ROOT PACKAGE..: makes of this machine's own Debian packages a small system in the folder ROOT: the essential
packages, these ones, and what they depend on, with the notes of dpkg on them. Nothing is fetched."""
import os
import pathlib
import re
import shutil
import subprocess
import sys

NOTES = pathlib.Path("/var/lib/dpkg")
LINKS = {"bin": "usr/bin", "sbin": "usr/sbin", "lib": "usr/lib", "lib64": "usr/lib64", "lib32": "usr/lib32"}
USERS = {"passwd": "root:x:0:0:root:/root:/bin/bash\nman:x:6:12:man:/var/cache/man:/usr/sbin/nologin\n_apt:x:100:65534::/:/usr/sbin/nologin\n",
         "group": "root:x:0:\nadm:x:4:\ntty:x:5:\nman:x:12:\nshadow:x:42:\nutmp:x:43:\nstaff:x:50:\nnogroup:x:65534:\n"}


def stanzas():
    """Of each installed package its stanza in the notes, by its name and by what it provides."""
    found, provided = {}, {}
    for text in (NOTES / "status").read_text(encoding="utf-8").split("\n\n"):
        fields = dict(re.findall(r"^([A-Z][\w-]*): (.*)$", text, re.M))
        if fields.get("Status") == "install ok installed":
            found[fields["Package"]] = (fields, text)
            for name in re.split(r"\s*,\s*", fields.get("Provides", "")):
                provided.setdefault(name.split(" ")[0], fields["Package"])
    return found, provided


def closure(names, found, provided):
    """The packages of these names with all that they depend on."""
    taken, rest = [], list(names)
    while rest:
        name = rest.pop()
        name = name if name in found else provided.get(name)
        if name is None or name in taken:
            continue
        taken.append(name)
        fields = found[name][0]
        for group in re.split(r"\s*,\s*", ", ".join(filter(None, [fields.get("Depends"), fields.get("Pre-Depends")]))):
            choices = [re.match(r"[\w.+-]*", one)[0] for one in group.split("|")]
            there = [one for one in choices if one in found or one in provided]
            rest += there[:1]
    return taken


def copy(path, root):
    """Copies a file, a link or a folder to the same place below the root."""
    to = root + path
    if os.path.lexists(to) or not os.path.lexists(path):
        return
    os.makedirs(os.path.dirname(to), exist_ok=True)
    if os.path.islink(path):
        os.symlink(os.readlink(path), to)
    elif os.path.isdir(path):
        os.makedirs(to, exist_ok=True)
    elif os.path.isfile(path):
        shutil.copy2(path, to)


def copy_package(name, fields, root):
    """Copies the files of a package, and dpkg's notes on it."""
    for key in (name, "%s:%s" % (name, fields["Architecture"])):
        for note in (NOTES / "info").glob(key.replace("[", "[[]") + ".*"):
            if note.name.rpartition(".")[0] == key:
                copy(str(note), root)
                if note.name.endswith(".list"):
                    for path in note.read_text(encoding="utf-8").splitlines():
                        if path != "/.":
                            copy(path, root)


def alternatives(root):
    """The links by which commands are chosen, as awk."""
    shutil.copytree("/etc/alternatives", root + "/etc/alternatives", symlinks=True, dirs_exist_ok=True)
    copy(str(NOTES / "alternatives"), root)
    for folder in ("/usr/bin", "/usr/sbin"):
        for path in pathlib.Path(folder).iterdir():
            if path.is_symlink() and os.readlink(path).startswith("/etc/alternatives/"):
                copy(str(path), root)


def main(root, *names):
    found, provided = stanzas()
    essential = [name for name, (fields, _) in found.items() if fields.get("Essential") == "yes"]
    taken = closure([*essential, *names], found, provided)
    for name, to in LINKS.items():
        os.makedirs(os.path.join(root, to), exist_ok=True)
        os.symlink(to, os.path.join(root, name))
    for name in taken:
        copy_package(name, found[name][0], root)
    alternatives(root)
    copy(str(NOTES / "info" / "format"), root)
    for folder in ("etc", "root", "proc", "dev", "tmp", "var/lib/dpkg/updates", "var/lib/dpkg/info", "var/lib/dpkg/triggers"):
        os.makedirs(os.path.join(root, folder), exist_ok=True)
    for name, text in USERS.items():
        pathlib.Path(root, "etc", name).write_text(text, encoding="utf-8")
    pathlib.Path(root, "var/lib/dpkg/status").write_text("\n\n".join(found[name][1].strip("\n") for name in sorted(taken)) + "\n\n", encoding="utf-8")
    pathlib.Path(root, "var/lib/dpkg/available").touch()
    subprocess.run(["chroot", root, "/sbin/ldconfig"], check=True)
    print(len(taken))


main(*sys.argv[1:])
