"""Tests of the C interface: the header, the examples, and all scripts of the cases and examples played by calls from C.

usage: tests/c/run [--archive FILE] [--libc FILE] [--jobs N]

The archive is built over what is proved here (tools/wgsim/program/archive.py), or is the one that is named; --libc names what stands for
the heap of the C library in place of the toolchain's. It needs a C compiler and the JSON library Jansson (Debian: libjansson-dev), without
which no script is played, and that is a finding; and it takes clang or gcc, a C++ compiler, valgrind and cargo where they are there.
Prints what it has tested, a line for each finding, and fails if there is one, or if nothing could be tested.
"""

import argparse
import concurrent.futures
import json
import os
import pathlib
import re
import shutil
import subprocess
import sys
import tempfile

import declared
from wgsim.program import archive
from wgsim.reading import rules

TOP = pathlib.Path(__file__).resolve().parents[2]


HERE = pathlib.Path(__file__).resolve().parent
INCLUDE, EXAMPLES = TOP / "include", TOP / "examples/c"
WARNINGS = ["-Wall", "-Wextra", "-Werror"]
C, CXX = ["-std=c99", *WARNINGS], ["-std=c++17", *WARNINGS]
C11 = ["-std=c11", *WARNINGS, "-Wpedantic", "-Wconversion"]
NAMES_DROPPED = 4
SECONDS = 600
# Each allocation is refused on these, and valgrind plays them: a whole frame, a bundle with queries, and callers that race.
CLOSELY = ["examples/realistic-frame", "tests/cases/bundles/bundle-and-occlusion-queries", "examples/submit-races-destroy"]
# So many calls are rounds of 17, of which each makes three objects, one of them a buffer, and records eight clears.
CALLS_OF_THREADS, CALLS_UNDER_VALGRIND = 40_800, 1_360
# The sources of the engine with a software driver, how many frames it runs, and what its driver can be told to leave out.
ENGINE = sorted(EXAMPLES.glob("engine*.c"))
FRAMES = 1000
FORGOTTEN = ("barriers", "clears", "shadow", "zeros")
# The sources of the program that plays scripts. What else lies beside them is a program of its own.
PLAYER = ("play", "calls", "refuse")
# Types with values that they are to take, and with values that they are not to.
FLAGS = [
    ("wethlorn_visibility", "WETHLORN_VISIBILITY_VERTEX | WETHLORN_VISIBILITY_COMPUTE", True),
    ("wethlorn_visibility", "WETHLORN_STAGE_COMPUTE", False),
    ("wethlorn_stage", "WETHLORN_STAGE_COMPUTE", True),
    ("wethlorn_stage", "WETHLORN_VISIBILITY_VERTEX", False),
    ("wethlorn_buffer_usage", "WETHLORN_BUFFER_USAGE_MAP_READ | WETHLORN_BUFFER_USAGE_COPY_DST", True),
    ("wethlorn_buffer_usage", "WETHLORN_TEXTURE_USAGE_COPY_DST", False),
    ("wethlorn_texture_usage", "WETHLORN_BUFFER_USAGE_COPY_DST", False),
    ("wethlorn_map_mode", "WETHLORN_MAP_MODE_READ", True),
    ("wethlorn_map_mode", "WETHLORN_BUFFER_USAGE_MAP_READ", False),
    ("wethlorn_color_write", "WETHLORN_COLOR_WRITE_RED | WETHLORN_COLOR_WRITE_ALPHA", True),
    ("wethlorn_color_write", "WETHLORN_TEXTURE_USAGE_COPY_SRC", False),
    ("wethlorn_color", "WETHLORN_COLOR_INIT", True),
    ("wethlorn_render_desc", "WETHLORN_RENDER_DESC_INIT", True),
    ("wethlorn_target", "WETHLORN_TARGET_INIT", True),
    ("wethlorn_texture_write", "WETHLORN_TEXTURE_WRITE_INIT", True),
    ("wethlorn_iface_entry", "WETHLORN_IFACE_ENTRY_INIT", True),
]
findings = []


def check(is_so, text):
    if not is_so:
        findings.append(text)


def run(words, **how):
    """Runs a command, and returns its status and what it wrote, both streams in one where it is not told otherwise."""
    how = {"stdout": subprocess.PIPE, "stderr": subprocess.STDOUT, "timeout": SECONDS, **how}
    how.update({} if "input" in how else {"stdin": subprocess.DEVNULL})
    ran = subprocess.run([str(word) for word in words], **how)
    return ran.returncode, ran.stdout


def has_library():
    """Whether programs can be built with the JSON library."""
    with tempfile.TemporaryDirectory() as folder:
        source = pathlib.Path(folder) / "has.c"
        source.write_text("#include <jansson.h>\nint main(void) { return json_object() == 0; }\n", encoding="utf-8")
        return run(["cc", source, "-o", f"{folder}/has", "-ljansson"])[0] == 0


def compiles(words, source, name, **how):
    status, said = run([*words, "-fsyntax-only", "-I", INCLUDE, source], **how)
    check(status == 0, f"{name}:\n{said.decode()}")


def test_header():
    """The headers are C99 and C++17, for each compiler that is there, and each program here is C99."""
    header = INCLUDE / "wethlorn.h"
    both = b"#include <wethlorn_rules.h>\n#include <wethlorn.h>\n"
    for compiler in ("gcc", "clang"):
        if shutil.which(compiler):
            compiles([compiler, *C, "-pedantic", "-x", "c"], header, f"the header by {compiler}")
            compiles([compiler, *C, "-pedantic", "-x", "c"], "-", f"the headers by {compiler}", input=both)
            for source in [*sorted(EXAMPLES.glob("*.c")), *(sorted(HERE.glob("*.c")) if has_library() else [])]:
                compiles([compiler, *C, "-pedantic"], source, f"{source.name} by {compiler}")
            for source in ENGINE:
                compiles([compiler, *C11], source, f"{source.name} by {compiler} as C11")
    for compiler in ("g++", "clang++"):
        if shutil.which(compiler):
            compiles([compiler, *CXX, "-pedantic", "-x", "c++"], header, f"the header by {compiler}")
            compiles([compiler, *CXX, "-pedantic", "-x", "c++"], "-", f"the headers by {compiler}", input=both)
            compiles([compiler, *CXX, "-pedantic"], EXAMPLES / "holder.cpp", f"holder.cpp by {compiler}")


def test_types():
    """A compiler tells where a flag or a stage stands for another, and takes what is right. So it is in C and in C++."""
    for compiler, words in (("gcc", C), ("clang", C), ("g++", CXX), ("clang++", CXX)):
        if shutil.which(compiler):
            for name, value, is_right in FLAGS:
                source = f"#include <wethlorn.h>\nvoid f(void); void f(void) {{ {name} it = {value}; (void)it; }}\n"
                language = ["-x", "c" if words is C else "c++", "-"]
                told, _ = run([compiler, *words, "-pedantic", "-fsyntax-only", "-I", INCLUDE, *language], input=source.encode())
                check((told == 0) == is_right, f"{compiler} {'refuses' if is_right else 'takes'} `{value}` as {name}")


def test_declarations():
    """The Rust crate declares what the header does."""
    rust = "".join((TOP / "examples/rust/src" / name).read_text(encoding="utf-8") for name in ("raw.rs", "values.rs", "defaults.rs"))
    findings.extend(declared.differences((INCLUDE / "wethlorn.h").read_text(encoding="utf-8"), rust))


def build(folder, name, sources, linked, *more):
    """Builds a program, and returns its path; where that fails, nothing else can be tested."""
    program = pathlib.Path(folder) / name
    status, said = run(["cc", *C, "-g", "-O1", *more, "-I", INCLUDE, *sources, *linked, "-o", program])
    if status:
        sys.exit(f"tests of the C interface: {name} was not built:\n{said.decode()}")
    return program


def build_player(folder, name, linked, *more):
    sources = [*(HERE / f"{name}.c" for name in PLAYER), EXAMPLES / "report.c"]
    return build(folder, name, sources, [*linked, "-ljansson"], "-Wl,--wrap=malloc,--wrap=realloc", *more)


def test_frame(program):
    status, text = run([program], stderr=subprocess.DEVNULL)
    expected = (TOP / "examples/realistic-frame.report").read_bytes()
    check(
        status == 0 and text == expected,
        f"{program.name}: status {status}, and its report is {'' if text == expected else 'not '}that of the script",
    )


def test_threads(program):
    rounds = CALLS_OF_THREADS // 17
    status, text = run([program, CALLS_OF_THREADS])
    expected = f"threads 8 calls {CALLS_OF_THREADS} objects {3 * rounds} steps {8 * rounds} releases {rounds}\n"
    check(status == 0 and text.decode() == expected, f"{program.name}: status {status}, {text.decode()}")


def test_races(program):
    """No thread reads what another one writes meanwhile: valgrind has two ways to find that."""
    for tool in ("helgrind", "drd"):
        words = ["valgrind", "--quiet", f"--tool={tool}", "--error-exitcode=99", program, CALLS_UNDER_VALGRIND]
        ran = subprocess.run([str(word) for word in words], stdin=subprocess.DEVNULL, capture_output=True, timeout=SECONDS)
        check(ran.returncode == 0, f"{program.name} under {tool}: status {ran.returncode}\n{ran.stderr.decode('utf-8', 'replace')[:4000]}")


def test_engine(program):
    """All is as on a zeroed device, and where the driver leaves something out that is found."""
    status, text = run([program, "--frames", FRAMES])
    told = {name.strip(): int(number) for name, number in re.findall(r"([a-z ]+) (\d+)", text.decode("utf-8", "replace"))}
    check(status == 0 and told.get("frames") == FRAMES, f"{program.name}: status {status}, {text.decode('utf-8', 'replace')}")
    for name in ("submits", "faults", "empty", "late", "clears", "barriers", "releases", "mapped ranges", "resources", "bytes"):
        check(told.get(name), f"{program.name}: the frames have no {name}")
    for forgotten in FORGOTTEN:
        status, text = run([program, "--frames", FRAMES, "--forget", forgotten])
        is_found = status == 1 and re.fullmatch(rb"frame \d+: object \d+ [^\n]* where a zeroed device has \d+\n", text)
        check(is_found, f"{program.name} that forgets {forgotten}: status {status}, {text.decode('utf-8', 'replace')[:2000]}")


def test_edges(program):
    """Null pointers for lists of no elements, the version, and what a close tells; or limits; or what passes are set to; or what pipelines
    and samplers fix."""
    status, said = run([program])
    check(status == 0 and not said, f"{program.name}: status {status}\n{said.decode()}")


def test_rules(folder):
    """What the header tells of each rule is what docs/rules.json has of it."""
    status, text = run([build(folder, "rules", [HERE / "rules.c"], [])])
    wanted = [f"{number}\t{rules.sentence_of(number)}\t{', '.join(rules.sections_of(number))}" for number in rules.numbers()]
    check(status == 0, f"{HERE / 'rules.c'}: status {status}")
    check(text.decode().splitlines() == wanted, f"wethlorn_rules.h: {first_difference(text, chr(10).join(wanted).encode())}")


def test_holder(folder, linked):
    """The program in C++."""
    program = pathlib.Path(folder) / "holder"
    status, said = run(["c++", *CXX, "-g", "-fsanitize=address", "-I", INCLUDE, EXAMPLES / "holder.cpp", *linked, "-o", program])
    check(status == 0, f"holder.cpp: {said.decode()}")
    if status == 0:
        status, text = run([program])
        expected = f"buffer 0, operation 1\nrule 202: {rules.sentence_of(202)}\nstep 2 of operation 1, accesses 1\nno object 1\n"
        expected += "commands 2, operation 2\nstep 8 of operation 2, accesses 1\n"
        check(status == 0 and text.decode() == expected, f"holder.cpp: status {status}, {text.decode('utf-8', 'replace')}")


def scripts():
    """Each script with the reports of which it may have each, an order of turns for each; none of those that are refused."""
    refused = 0
    found = []
    for script in [*sorted(TOP.glob("tests/cases/*/*.json")), *sorted(TOP.glob("examples/*.json"))]:
        reports = [script.with_suffix(".report"), *sorted(script.parent.glob(script.stem + ".alt*.report"))]
        if reports[0].read_bytes().startswith(b"history\n"):
            found.append((script, reports))
        else:
            refused += 1
    return found, refused


def dropped_in(lanes):
    return {call["object"] for lane in lanes for call in lane if call["do"] == "drop"}


def drops_and_names(script):
    """Whether a call of a script names, or records on, what may be dropped before it: of the player's word on those that it plays in
    part."""
    before, passes = set(), {}
    for phase in json.loads(script.read_bytes())["phases"]:
        for lane in phase:
            dropped = before | dropped_in(other for other in phase if other is not lane)
            for call in lane:
                if call["do"] in ("beginComputePass", "beginRenderPass"):
                    passes[call["as"]] = call["on"]
                words = set(json.dumps({key: value for key, value in call.items() if key not in ("do", "as")}).split('"'))
                if words & dropped or passes.get(call.get("on")) in dropped:
                    return True
                if call["do"] == "drop":
                    dropped.add(call["object"])
        before |= dropped_in(phase)
    return False


def begins(whole, part):
    """Whether the history and the trace of one report are beginnings of those of another."""
    halves = [text[: -len(b"end\n")].split(b"trace\n") for text in (whole, part)]
    return all(other.startswith(one) for other, one in zip(*halves)) and part.count(b"\n") > 3


def first_difference(found, wanted):
    lines = zip([*found.splitlines(), b""], [*wanted.splitlines(), b""])
    one, other = next(((one, other) for one, other in lines if one != other), (b"", b""))
    return f"found `{one.decode('utf-8', 'replace')}`, and expected `{other.decode('utf-8', 'replace')}`"


def test_script(player, script, report):
    """Plays a script in the order of turns of a report, and compares. Returns whether it was played to its end."""
    ran = subprocess.run([str(player), str(script), str(report)], stdin=subprocess.DEVNULL, capture_output=True, timeout=SECONDS)
    name, expected = f"{report.relative_to(TOP)} by {player.name}", report.read_bytes()
    if ran.returncode == NAMES_DROPPED:
        check(drops_and_names(script), f"{name}: is not played to its end, and names nothing that was dropped")
        check(
            begins(expected, ran.stdout), f"{name}: what was played is no beginning of the report: {first_difference(ran.stdout, expected)}"
        )
        return False
    check(ran.returncode == 0 and not ran.stderr, f"{name}: status {ran.returncode}, {ran.stderr.decode('utf-8', 'replace')[:2000]}")
    check(ran.returncode != 0 or ran.stdout == expected, f"{name}: the report differs: {first_difference(ran.stdout, expected)}")
    return True


def test_scripts(player, jobs):
    found, refused = scripts()
    pairs = [(script, report) for script, reports in found for report in reports]
    with concurrent.futures.ThreadPoolExecutor(jobs) as pool:
        whole = sum(pool.map(lambda pair: test_script(player, *pair), pairs))
    print(
        (
            f"{whole} reports of {len(found)} scripts by {player.name}, and {len(pairs) - whole} up to the call that names what was"
            f" dropped; {refused} scripts are refused as such"
        ),
        flush=True,
    )
    check(whole > len(pairs) * 3 // 4, f"{player.name}: too few scripts were played")


def test_refusals(player):
    """Memory that is refused at each allocation, one after another."""
    for name in CLOSELY:
        status, said = run([player, "--refuse", TOP / f"{name}.json", TOP / f"{name}.report"])
        print(f"{name} by {player.name}: {said.decode('utf-8', 'replace').strip()}", flush=True)
        check(status == 0, f"{name}: status {status} where memory is refused")
        check(not said.startswith(b"0 "), f"{name}: no allocation was refused")


def test_valgrind(player):
    words = ["valgrind", "--quiet", "--error-exitcode=99", "--leak-check=full", "--errors-for-leak-kinds=all", player]
    for name in CLOSELY:
        script, report = TOP / f"{name}.json", TOP / f"{name}.report"
        ran = subprocess.run(
            [str(word) for word in [*words, script, report]], stdin=subprocess.DEVNULL, capture_output=True, timeout=SECONDS
        )
        check(
            ran.returncode == 0 and ran.stdout == report.read_bytes(),
            f"{name} under valgrind: status {ran.returncode}\n{ran.stderr.decode('utf-8', 'replace')[:4000]}",
        )
    print(f"{len(CLOSELY)} scripts under valgrind", flush=True)


def test_rust(linked):
    """The Rust crate builds without a warning, and its tests pass, with no network."""
    with tempfile.TemporaryDirectory() as folder:
        environment = {
            **os.environ,
            "CARGO_TARGET_DIR": folder,
            "RUSTFLAGS": "-D warnings",
            "WETHLORN_ARCHIVE": str(linked[0]),
            "WETHLORN_HEAP": str(linked[1]),
        }
        crate = TOP / "examples/rust"
        status, said = run(["cargo", "test", "--offline", "--quiet"], cwd=crate, env=environment)
        check(status == 0, f"the Rust crate: status {status}\n{said.decode('utf-8', 'replace')[-4000:]}")
        status, text = run(
            ["cargo", "run", "--offline", "--quiet", "--example", "frame"], cwd=crate, env=environment, stderr=subprocess.DEVNULL
        )
        expected = (crate / "examples/frame.txt").read_bytes()
        check(status == 0 and text == expected, f"the example of the Rust crate: status {status}, {text.decode('utf-8', 'replace')[:2000]}")
    print("the Rust crate, by cargo", flush=True)


def linked_files(words):
    """The archive and the heap that programs are linked with, or an end of the tests that says why there is none."""
    found, why = (pathlib.Path(words.archive).resolve(), None) if words.archive else archive.found()
    if why:
        sys.exit(f"tests of the C interface: nothing could be tested: {why}")
    return [found, pathlib.Path(words.libc).resolve() if words.libc else archive.libc()]


def test_programs(words):
    linked = linked_files(words)
    with tempfile.TemporaryDirectory() as folder:
        asan = ["-fsanitize=address", "-fno-omit-frame-pointer"]
        test_frame(build(folder, "frame", [EXAMPLES / "frame.c", EXAMPLES / "report.c"], linked))
        test_frame(build(folder, "frame-with-asan", [EXAMPLES / "frame.c", EXAMPLES / "report.c"], linked, *asan))
        threads = build(folder, "threads", [EXAMPLES / "threads.c"], linked, "-pthread")
        test_threads(threads)
        if shutil.which("valgrind"):
            test_races(threads)
        test_engine(build(folder, "engine", ENGINE, linked, *C11))
        test_engine(build(folder, "engine-with-sanitizers", ENGINE, linked, *C11, *asan, "-fsanitize=undefined", "-fno-sanitize-recover"))
        test_edges(build(folder, "edges", [HERE / "edges.c"], linked))
        test_edges(build(folder, "edges-with-asan", [HERE / "edges.c"], linked, *asan))
        test_rules(folder)
        test_edges(build(folder, "limits", [HERE / "limits.c"], linked))
        test_edges(build(folder, "limits-with-asan", [HERE / "limits.c"], linked, *asan))
        test_edges(build(folder, "passes", [HERE / "passes.c"], linked))
        test_edges(build(folder, "passes-with-asan", [HERE / "passes.c"], linked, *asan))
        test_edges(build(folder, "fixed", [HERE / "fixed.c"], linked))
        test_edges(build(folder, "fixed-with-asan", [HERE / "fixed.c"], linked, *asan))
        if shutil.which("c++"):
            test_holder(folder, linked)
        if has_library():
            player = build_player(folder, "play", linked)
            test_scripts(player, words.jobs)
            test_scripts(build_player(folder, "play-with-asan", linked, *asan), words.jobs)
            test_refusals(player)
            if shutil.which("valgrind"):
                test_valgrind(player)
        else:
            findings.append("no script is played: there is no Jansson to read them (Debian: apt-get install libjansson-dev)")
        if shutil.which("cargo"):
            test_rust(linked)


def main():
    parser = argparse.ArgumentParser(prog="tests/c/run", description=__doc__.splitlines()[0])
    parser.add_argument("--archive")
    parser.add_argument("--libc")
    parser.add_argument("--jobs", type=int, default=len(os.sched_getaffinity(0)))
    words = parser.parse_args()
    test_header()
    test_types()
    test_declarations()
    if words.archive or archive.is_there():
        test_programs(words)
    else:
        print("there is no crate wg_c yet: the header and what declares it are tested, and no program is linked")
    for finding in findings:
        print(finding)
    print(f"tests of the C interface: {len(findings)} findings")
    sys.exit(1 if findings else 0)


main()
