"""The crates for Rust and the package for Go, built against what is installed."""
import json
import os
import re
import shutil

from tests.harness import EXAMPLES, TOP, read
from tests.library.library import lrc_embed
from tests.packages.installed import check_worker
from tests.packages.said import ended, left_out

RUST = f"{EXAMPLES}/embed/rust"
LEAST = (1, 77)  # of rustc, as Cargo.toml has it
GO = """package main

import (
	"fmt"
	"os"

	"lrcman/service/book"
)

func check(err error) {
	if err != nil {
		fmt.Println(err)
		os.Exit(1)
	}
}

func main() {
	check(book.Check())
	nodes := ""
	for i := 0; i < 20; i++ {
		nodes += fmt.Sprintf("[[node]]\\nnumber = %d\\nfault = %d\\nupgrade = %d\\nslots = 4\\n", i, i, i%10)
	}
	b, err := book.Open([]byte(nodes))
	check(err)
	defer b.Close()
	fmt.Println("script 1")
	var log []book.Entry
	for _, line := range os.Args[1:] {
		command, err := book.Parse(line)
		check(err)
		entry, err := b.Call(1, command)
		check(err)
		log = append(log, entry)
		fmt.Println(b.Made(), entry.Reply.String())
	}
	again, err := book.Open([]byte(nodes))
	check(err)
	check(again.Replay(nil))
	check(again.Replay(log[:5]))
	check(again.Replay(log[5:]))
	fmt.Println("replayed", again.Made())
	one, err := again.Image()
	check(err)
	other, err := b.Image()
	check(err)
	again.Close()
	if string(one) != string(other) {
		fmt.Println("the images differ")
	}
	log[4].Reply.Lease.Epoch = 1
	changed, err := book.Open([]byte(nodes))
	check(err)
	if fault, is := changed.Replay(log).(*book.Fault); is {
		fmt.Println("different at", fault.Detail)
	}
	changed.Close()
}
"""


def installed_env(prefix, **more):
    return {**os.environ, "PKG_CONFIG_PATH": f"{prefix}/lib/pkgconfig", "LD_LIBRARY_PATH": f"{prefix}/lib", **more}


def why_no_rust():
    if not shutil.which("cargo") or not shutil.which("rustc"):
        return "there is no cargo, or no rustc"
    found = re.search(r"rustc (\d+)\.(\d+)", ended("rustc", "--version").stdout)
    if not found or tuple(map(int, found.groups())) < LEAST:
        return f"rustc is not of {'.'.join(map(str, LEAST))} or later"
    return ""


def test_installed_rust(count, room, prefix, env):
    """A program takes the crates from where they are installed."""
    os.makedirs(f"{room}/crate/src")
    shutil.copy(f"{prefix}/share/lrc_embed/rust/lrc-embed/examples/late_worker.rs", f"{room}/crate/src/main.rs")
    with open(f"{room}/crate/Cargo.toml", "w", encoding="utf-8") as text:
        text.write('[package]\nname = "worker"\nversion = "0.1.0"\nedition = "2021"\n\n[dependencies]\n'
                   f'lrc-embed = {{ path = "{prefix}/share/lrc_embed/rust/lrc-embed" }}\n')
    how = {"cwd": f"{room}/crate", "env": {**env, "CARGO_TARGET_DIR": f"{room}/rust"}}
    if count.run("a program over the installed crates", "cargo", "build", "--offline", **how) is not None:
        check_worker(count, "the program over the installed crates", f"{room}/rust/debug/worker", env=env)


def test_rust(count, room, prefix):
    """The declarations are those of the header; the crates are built with the shared and with the static library, and tested."""
    ran = ended(f"{RUST}/declare", "--check")
    count.check(f"declare --check: {ran.stdout[-2000:]}{ran.stderr[-2000:]}", ran.returncode == 0)
    if why := why_no_rust() or ("" if shutil.which("pkg-config") else "there is no pkg-config"):
        return left_out("the crates for Rust", why)
    how = {"cwd": RUST, "env": installed_env(prefix, CARGO_TARGET_DIR=f"{room}/rust")}
    found = ended("cargo", "metadata", "--offline", "--no-deps", "--format-version=1", **how).stdout
    versions = {it["version"] for it in json.loads(found)["packages"]}
    count.check(f"the versions of the crates: {versions}", versions == {f"{lrc_embed.VERSION}.0.0"})
    for name, static in (("shared", "0"), ("static", "1")):
        own = {**how, "env": {**how["env"], "LRC_EMBED_STATIC": static}}
        build = ["cargo", "build", "--locked", "--offline", "--example=late_worker"]
        if count.run(f"the example with the {name} library", *build, **own) is None:
            continue
        worker = f"{room}/rust/debug/examples/late_worker"
        check_worker(count, f"the example in Rust with the {name} library", worker, env=own["env"])
        needs = f"[liblrc_embed.so.{lrc_embed.VERSION}]" in ended("readelf", "-d", worker).stdout
        count.check(f"the example in Rust with the {name} library needs the shared one: {needs}", needs == (name == "shared"))
    said = count.run("the tests of the crates", "cargo", "test", "--locked", "--offline", **how)
    passed = sum(map(int, re.findall(r"^test result: ok\. (\d+) passed; 0 failed", said or "", re.M)))
    count.check(f"tests of the crates that passed: {passed}", passed >= 12)
    if ended("cargo", "clippy", "--version", **how).returncode == 0:
        count.run("clippy", "cargo", "clippy", "--locked", "--offline", "--all-targets", "--", "-D", "warnings", **how)
    else:
        left_out("what clippy finds in the crates", "it is not there")
    test_installed_rust(count, room, prefix, how["env"])
    env = {**how["env"], "PKG_CONFIG_PATH": room, "CARGO_TARGET_DIR": f"{room}/none"}
    missing = ended("cargo", "check", "--offline", cwd=RUST, env=env)
    count.check(f"no library: {missing.stderr[-500:]}", missing.returncode and "liblrc_embed is not found" in missing.stderr)


def check_go(count, name, folder, env):
    """A program in Go is built in a folder, and prints what the example does."""
    build = ["go", "build", "-tags", "lrc_embed_installed", "-o", f"{folder}/worker", "."]
    if count.run(name, *build, env=env, cwd=folder) is not None:
        bundle = read(f"{EXAMPLES}/late_worker.bundle").decode().partition("%%\n")[2]
        lines = [line for line in bundle.splitlines() if line and line[0] != "#"]
        check_worker(count, f"the program: {name}", f"{folder}/worker", *lines, env=env)


def write_go(folder, *imported):
    """A program in a folder of its own, which takes these packages too."""
    os.makedirs(folder)
    for name, text in (("main", GO), *((it, f'package main\n\nimport _ "lrcman/service/{it}"\n') for it in imported)):
        with open(f"{folder}/{name}.go", "w", encoding="utf-8") as file:
            file.write(text)


def test_go(count, room, prefix):
    """Programs beside the service, and programs that are modules, take the package for Go, which pkg-config finds the library for.
    Those that are modules take it from where it is installed, and the client too; nothing is fetched."""
    for tool in ("go", "pkg-config"):
        if not shutil.which(tool):
            return left_out("the package for Go", f"there is no {tool}")
    shutil.copytree(f"{TOP}/service/book", f"{room}/go/src/lrcman/service/book")
    write_go(f"{room}/go/src/worker")
    env = installed_env(prefix, GOPATH=f"{room}/go", GO111MODULE="off", CGO_ENABLED="1")
    check_go(count, "a program in Go, where Go looks for packages", f"{room}/go/src/worker", env)
    module = f"{room}/module"
    write_go(module, "client")
    env = installed_env(prefix, GOPATH=f"{room}/none", GO111MODULE="on", GOFLAGS="", GOPROXY="off", CGO_ENABLED="1")
    count.run("go mod init", "go", "mod", "init", "worker", env=env, cwd=module)
    for name, path in (("book", f"{prefix}/share/lrc_embed/go/book"), ("client", f"{TOP}/service/client")):
        taken = [f"-require=lrcman/service/{name}@v0.0.0", f"-replace=lrcman/service/{name}={path}"]
        count.run(f"go mod edit: {name}", "go", "mod", "edit", *taken, env=env, cwd=module)
    return check_go(count, "a program in Go that is a module", module, env)


def test(count, room, prefix):
    test_rust(count, room, prefix)
    test_go(count, room, prefix)
