"""Fetches packages of Debian into a folder by apt-get, and unpacks them; nothing is installed."""
import os
import subprocess

MIRROR = os.environ.get("DEBIAN_MIRROR") or "http://deb.debian.org/debian"
KEYS = "/usr/share/keyrings/debian-archive-keyring.gpg"


def run(words, what, **options):
    """Runs a command; returns an error in one line, or None."""
    done = subprocess.run(words, capture_output=True, text=True, check=False, **options)
    if not done.returncode:
        return None
    lines = [line for line in (done.stderr + done.stdout).splitlines() if line.strip()]
    return f"{what}: {lines[-1] if lines else f'status {done.returncode}'}"


def apt(folder, kind, suite, words):
    """Runs `apt-get update` and `apt-get WORDS` of a suite, with all state in the folder; kind is deb or deb-src."""
    state = os.path.join(folder, "apt", suite)
    for name in ("lists/partial", "cache/archives/partial"):
        os.makedirs(os.path.join(state, name), exist_ok=True)
    for name, text in (("status", ""), ("sources.list", f"{kind} [signed-by={KEYS}] {MIRROR} {suite} main\n")):
        with open(os.path.join(state, name), "w", encoding="utf-8") as file:
            file.write(text)
    options = {"Dir::Etc::sourcelist": f"{state}/sources.list", "Dir::Etc::sourceparts": "/dev/null",
               "Dir::State::lists": f"{state}/lists", "Dir::State::status": f"{state}/status", "Dir::Cache": f"{state}/cache",
               "Acquire::Languages": "none", "Acquire::Retries": "2", "APT::Sandbox::User": "root"}
    command = ["apt-get", "-qq"] + [word for name, value in options.items() for word in ("-o", f"{name}={value}")]
    return (run([*command, "update"], f"{suite} of {MIRROR}", cwd=folder) or
            run([*command, *words], f"{suite} of {MIRROR}: {' '.join(words)}", cwd=folder))


def unpack(folder, suite, names):
    """Unpacks the packages into FOLDER/SUITE, unless they are there; returns an error, or None."""
    root, done = os.path.join(folder, suite), os.path.join(folder, suite, "unpacked")
    missing = [name for name in names if not os.path.isfile(os.path.join(done, name))]
    if not missing:
        return None
    print(f"fetching {' '.join(missing)} of {suite} from {MIRROR}", flush=True)
    os.makedirs(done, exist_ok=True)
    error = apt(folder, "deb", suite, ["download", *missing])
    if error:
        return error
    for file in sorted(os.listdir(folder)):
        if file.endswith(".deb"):
            path = os.path.join(folder, file)
            error = run(["dpkg-deb", "--extract", path, root], file)
            if error:
                return error
            os.replace(path, os.path.join(done, file.split("_")[0]))
    return None
