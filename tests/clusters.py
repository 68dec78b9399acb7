#!/usr/bin/env python3
"""Runs the commands for clusters of docs/SCRIPTS.md with Slurm on this machine, GNU parallel and Dask.

It starts the daemons of Slurm (slurm-wlm and munge of Debian; it must run as the superuser) and ends them. It is no
part of `make test`. It prints one line a test and ends with 'N passed, M failed'. What is not installed is skipped.
"""
import contextlib
import os
import re
import shutil
import signal
import socket
import subprocess
import sys
import time

sys.dont_write_bytecode = True
import common

FILES, TASKS = 40, 8
PAGE = (common.TOP / "docs/SCRIPTS.md").read_text()
CONFIG = """ClusterName=one
SlurmctldHost={host}
SlurmUser=root
AuthType=auth/munge
AuthInfo=socket={folder}/munge.socket
CryptoType=crypto/munge
ProctrackType=proctrack/linuxproc
TaskPlugin=task/none
SelectType=select/cons_tres
SelectTypeParameters=CR_Core
MpiDefault=none
AccountingStorageType=accounting_storage/none
JobAcctGatherType=jobacct_gather/none
StateSaveLocation={folder}/state
SlurmdSpoolDir={folder}/spool
SlurmctldPidFile={folder}/slurmctld.pid
SlurmdPidFile={folder}/slurmd.pid
SlurmctldPort={ports[0]}
SlurmdPort={ports[1]}
NodeName={host} CPUs={cpus} State=UNKNOWN
PartitionName=all Nodes=ALL Default=YES MaxTime=INFINITE State=UP
"""
DASK = """import json, subprocess, sys
from dask.distributed import Client

def check(path):
    ran = subprocess.run(["dwv-check", "--json", path], capture_output=True, text=True)
    return json.loads(ran.stdout)

if __name__ == "__main__":
    with Client(n_workers=2, threads_per_worker=1, dashboard_address=None) as client:
        for row in client.gather(client.map(check, sys.argv[1:])):
            print(row["path"], row["verdict"])
"""
# The same by the Python module, as the page says of files that need not be prepared.
MODULE = """import sys, dwv
from dask.distributed import Client

if __name__ == "__main__":
    with Client(n_workers=2, threads_per_worker=1, dashboard_address=None) as client:
        for path, verdict in zip(sys.argv[1:], client.gather(client.map(dwv.check, sys.argv[1:]))):
            print(path, verdict, bool(verdict))
"""
LIBRARY = os.environ.get("DWV_LIBRARY") or str(common.TOP / "out/lib/libdwv.so.0")
tally = common.Tally(1)


def commands(word):
    """The code on the page of scripts that has a word."""
    found = [it for it in re.findall(r"(?s)```(?:sh|python)\n(.*?)```", PAGE) if word in it]
    return found[0] if len(found) == 1 else ""


def files(folder):
    """Files with odd names, one of which is not sound, and one of which is compressed; the list; dwv-check on PATH."""
    names = [f"file {number}" for number in range(FILES)]
    for name in names:
        (folder / name).write_bytes(common.SAMPLE.read_bytes())
    (folder / "file 7").write_bytes(common.BROKEN)
    (folder / "files.txt").write_text("".join(f"{it}\n" for it in names))
    tools = folder / "tools"
    tools.mkdir()
    (tools / "dwv-check").write_text(f'#!/bin/sh\nexec {common.PYTHON} {common.TOP}/contrib/check "$@"\n')
    (tools / "dwv-check").chmod(0o755)
    return {**os.environ, "PATH": f"{tools}:{os.environ['PATH']}", "DWV": str(common.DWV)}


def free_port():
    with socket.socket() as it:
        it.bind(("", 0))
        return it.getsockname()[1]


@contextlib.contextmanager
def daemons(folder, env):
    """The daemons of Slurm and munge while the block runs. Each is a child of this process."""
    for name in ("state", "spool", "munge"):
        (folder / name).mkdir(mode=0o700)
    host, key = socket.gethostname().split(".")[0], folder / "munge/key"
    key.write_bytes(os.urandom(128))
    key.chmod(0o400)
    config = folder / "slurm.conf"
    ports = free_port(), free_port()
    config.write_text(CONFIG.format(host=host, folder=folder, ports=ports, cpus=os.cpu_count()))
    env["SLURM_CONF"] = str(config)
    words = ["munged", "-F", "--force", f"--socket={folder}/munge.socket", f"--key-file={key}",
             f"--pid-file={folder}/munge/pid", f"--log-file={folder}/munge/log", f"--seed-file={folder}/munge/seed"]
    started = []
    try:
        for command in (words, ["slurmctld", "-D", "-c"], ["slurmd", "-D", "-N", host]):
            with open(folder / f"{command[0]}.out", "wb") as out:
                started.append(subprocess.Popen(command, stdout=out, stderr=out, env=env))
            time.sleep(2)
        yield
    finally:
        for it in reversed(started):
            it.send_signal(signal.SIGTERM)
            try:
                it.wait(20)
            except subprocess.TimeoutExpired:
                it.kill()


def is_ready(env):
    """Whether a node of Slurm is idle within a minute."""
    for _ in range(60):
        if common.run("sinfo", "-h", "-o", "%t", text=True, env=env)[1].strip() == "idle":
            return True
        time.sleep(1)
    return False


def shell(text, folder, env):
    return common.run("bash", "-c", text, text=True, cwd=folder, env=env, timeout=300)


def slurm(folder, env):
    """The array of tasks on the page: it fails as one of its files does, and the logs make one table."""
    text = commands("sbatch -W")
    submit, _, merge = text.replace("1-100", f"1-{TASKS}").replace("/100", f"/{TASKS}").partition("\ndwv-check")
    with daemons(folder, env):
        if not is_ready(env):
            logs = (folder / "slurmctld.out", folder / "slurmd.out")
            tally.add("slurm", common.run("tail", "-n", "3", *logs, text=True)[1])
            return
        status, _, errors = shell(submit, folder, env)
        tally.same("sbatch -W ends with the status of the task that failed", (status, errors), (1, ""))
        merged(folder, env, f"dwv-check{merge}", 1)
        (folder / "file 7").write_bytes(common.SAMPLE.read_bytes())
        status, said, errors = shell(submit.replace("-W", "--parsable -W"), folder, env)
        tally.same("sbatch -W of sound files", (status, errors), (0, ""))
        merged(folder, env, f"dwv-check{merge}", 0)
        after = f"sbatch -W --dependency=afterok:{said.strip()} --wrap 'touch after'"
        tally.same("afterok", (shell(after, folder, env)[0], (folder / "after").exists()), (0, True))
    (folder / "file 7").write_bytes(common.BROKEN)


def merged(folder, env, text, faults):
    """The table of the logs."""
    status, said, errors = shell(text, folder, env)
    rows = [it.split() for it in said.split("\n\n")[0].splitlines()]
    wanted = [[str(FILES - faults), "sound"], *([["1", "G1", "UndeclaredCode"]] if faults else [])]
    tally.same(f"the table of all logs, {faults} faults", (status, rows, errors), (faults, wanted, ""))


def parallel(folder, env):
    """The command for GNU parallel on the page, twice: the second time nothing runs."""
    text = commands("parallel --joblog")
    status, said, errors = shell(text, folder, env)
    rows = [it.split() for it in said.split("\n\n")[0].splitlines()]
    tally.same("parallel", (status, rows), (1, [[str(FILES - 1), "sound"], ["1", "G1", "UndeclaredCode"]]))
    tally.same("its log of jobs", len((folder / "jobs.tsv").read_text().splitlines()), FILES + 1)
    before = (folder / "jobs.tsv").read_text()
    shell(text, folder, env)
    tally.same("nothing runs twice", (folder / "jobs.tsv").read_text(), before)


def dask(folder, env):
    """The program for Dask on the page."""
    tally.same("the page has the program", commands("dask.distributed"), DASK)
    (folder / "dask_check.py").write_text(DASK)
    names = sorted(it.name for it in folder.glob("file *"))
    status, said, errors = common.run("/usr/bin/python3", "dask_check.py", *names, text=True, cwd=folder, env=env,
                                      timeout=300)
    rows = dict(it.rsplit(" ", 1) for it in said.splitlines() if it.endswith("sound"))
    tally.add("dask", None if status == 0 and len(rows) == FILES - 1 and "G1 UndeclaredCode" in said else errors[-500:])


def module(folder, env):
    """The Python module in the workers of Dask: verdicts go from one process to another."""
    if not os.path.exists(LIBRARY):
        tally.skip("the C library is not built (make lib)")
        return
    (folder / "module_check.py").write_text(MODULE)
    names = sorted(it.name for it in folder.glob("file *"))
    env = {**env, "DWV_LIBRARY": LIBRARY, "PYTHONPATH": str(common.TOP / "python")}
    status, said, errors = common.run("/usr/bin/python3", "module_check.py", *names, text=True, cwd=folder, env=env,
                                      timeout=300)
    rows = [line for line in said.splitlines() if line.endswith(" True")]
    faults = [line for line in said.splitlines() if line.startswith("file 7 fault G1 ") and line.endswith(" False")]
    is_right = (status, len(rows), len(faults)) == (0, FILES - 1, 1)
    tally.add("dask, by the Python module", None if is_right else errors[-500:] or said)


@contextlib.contextmanager
def scheduler(folder, env):
    """The address of a scheduler of Dask, which has a worker in another folder. Both are children of this process."""
    port = str(free_port())
    address = f"tcp://127.0.0.1:{port}"
    env = {**env, "PYTHONPATH": os.pathsep.join(str(common.TOP / it) for it in ("contrib", "python"))}
    started = []
    try:
        for command in (["scheduler", "--host", "127.0.0.1", "--port", port],
                        ["worker", address, "--nthreads", "1", "--local-directory", folder / "work"]):
            words = ["/usr/bin/python3", "-m", f"distributed.cli.dask_{command[0]}", *command[1:], "--no-dashboard"]
            with open(folder / f"{command[0]}.out", "wb") as out:
                started.append(subprocess.Popen(words, stdout=out, stderr=out, env=env, cwd="/"))
        yield address
    finally:
        for it in reversed(started):
            it.terminate()
            it.wait(30)


def census(folder, env):
    """The types of all files by contrib/census.py: by workers of its own, once more from its store, and by those of
    another scheduler."""
    if not os.path.exists(LIBRARY):
        tally.skip("the C library is not built (make lib)")
        return
    env = {**env, "DWV_LIBRARY": LIBRARY}
    names = sorted(it.name for it in folder.glob("file *"))

    def runs(title, store, read, *more):
        words = ("/usr/bin/python3", common.TOP / "contrib/census.py", "--store", store, "--sqlite", "census.db", *more)
        status, said, errors = common.run(*words, *names, text=True, cwd=folder, env=env, timeout=300)
        is_right = status == 0 and "G1 UndeclaredCode" in said
        tally.add(title, None if is_right else errors[-500:] or said)
        tally.same(f"{title}: what is read", re.findall(r"\d+ files were read.*", errors),
                   [f"{read} files were read, the store had {FILES - read}"])
        return {it: it.stat().st_mtime_ns for it in (folder / store).glob("*.csv")}

    parts = runs("census", "store", FILES)
    tally.same("a part for each file", len(parts), FILES)
    tally.same("the store is not written again", runs("census, from the store", "store", 0), parts)
    with scheduler(folder, env) as address:
        runs("census, another scheduler", "other", FILES, "--scheduler", address)


def main():
    common.build()
    with common.empty_folder() as folder:
        env = files(folder)
        if os.getuid() or not all(map(shutil.which, ("sbatch", "slurmctld", "slurmd", "munged"))):
            tally.skip("slurm-wlm and munge are not installed, or this is not the superuser")
        else:
            slurm(folder, env)
        if shutil.which("parallel") and b"GNU parallel" in common.run("parallel", "--version")[1]:
            parallel(folder, env)
        else:
            tally.skip("GNU parallel is not installed")
        if common.run("/usr/bin/python3", "-c", "import distributed")[0] == 0:
            dask(folder, env)
            module(folder, env)
            census(folder, env)
        else:
            tally.skip("Dask (python3-distributed) is not installed")
    return tally.end()


sys.exit(main())
