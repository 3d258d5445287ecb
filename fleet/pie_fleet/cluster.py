"""The work on a Dask cluster: batches of histories go to workers with the right `pie`, and their rows return as they are finished."""
import queue
import time
from collections import Counter, defaultdict, namedtuple

import cloudpickle

from . import work

# The functions of `work` are sent to the workers, which therefore need no file of this package.
cloudpickle.register_pickle_by_value(work)

# Some histories for one task. `host` is the machine that has them, or None if every worker sees them.
Batch = namedtuple("Batch", "host files")
TRIES = 3
# The limits of a batch. A batch costs some milliseconds more than its histories, and its rows return together.
MOST_FILES, MOST_BYTES = 64, 2 ** 25


class Workers:
    """The workers of a cluster, with their hosts and versions of `pie`."""

    def __init__(self, client, pie, report):
        self.client, self.pie, self.report = client, pie, report
        self.versions, self.names, self.threads, self.reported = {}, {}, {}, set()
        self.look()
        counted = Counter(version for version in self.versions.values() if version)
        self.wanted = max(sorted(counted), key=lambda version: counted[version]) if counted else None
        self.report_wrong()

    def look(self):
        """Adds new workers, and removes those that are gone."""
        live = self.client.scheduler_info()["workers"]
        self.threads = {at: worker["nthreads"] for at, worker in live.items()}
        self.names = {at: names for at, names in self.names.items() if at in live}
        new = [at for at in live if at not in self.names]
        if new:
            for at, (host, version) in self.client.run(work.host_and_version, self.pie, workers=new, on_error="ignore").items():
                name = str(live[at].get("name", at))
                self.names[at] = {name, host, at.split("://")[-1].rsplit(":", 1)[0]}
                self.versions[at] = version

    def look_again(self):
        """Examines all workers again, because one has another `pie` than before."""
        self.names.clear()
        self.look()
        self.report_wrong()

    def report_wrong(self):
        for at in self.names:
            if self.versions.get(at) != self.wanted and at not in self.reported:
                self.reported.add(at)
                has = self.versions.get(at) or f"no program {self.pie}"
                self.report(f"worker {at} gets no work: it has {has}, and not {self.wanted}")

    def fit(self, host):
        """Returns the workers that a batch may be sent to."""
        return [at for at, names in self.names.items() if self.versions.get(at) == self.wanted and (host is None or host in names)]


def run(client, workers, files, sizes, add, patience):
    """Makes the rows of all files, and passes the rows of each batch to `add`. `sizes` has the known sizes of links. If the machine of a file has no
    suitable worker for `patience` seconds, or its workers died, the row reports that."""
    Run(client, workers, sizes, add, patience).make(files)


class Run:
    """For each host (None: any host) the waiting files, the first one last, and the number of batches at workers; how often a history was tried alone,
    and which have to be tried alone."""

    def __init__(self, client, workers, sizes, add, patience):
        self.client, self.workers, self.sizes, self.add, self.patience = client, workers, sizes, add, patience
        self.waiting, self.under_way, self.ended = defaultdict(list), {}, queue.Queue()
        self.busy, self.unreached, self.tries, self.alone = Counter(), Counter(), Counter(), set()

    def make(self, files):
        for each in reversed(files):
            self.waiting[each[2]].append(each)
        looked = time.monotonic()
        self.submit()
        while self.under_way or any(self.waiting.values()):
            try:
                self.take(self.ended.get(timeout=1))
            except queue.Empty:
                pass
            if time.monotonic() - looked >= 1:
                self.look()
                looked = time.monotonic()
            self.submit()

    def submit(self):
        """Sends batches, such that each thread of a host has one more after its own."""
        for host, waiting in self.waiting.items():
            fit = self.workers.fit(host)
            threads = sum(self.workers.threads[at] for at in fit)
            while threads and waiting and self.busy[host] < 2 * threads:
                batch = Batch(host, self.cut(waiting, threads))
                words = (batch.files, self.workers.pie, self.workers.wanted)
                future = self.client.submit(work.rows_of, *words, workers=fit, allow_other_workers=False, pure=False)
                self.under_way[future.key] = future, batch, fit
                self.busy[host] += 1
                future.add_done_callback(self.ended.put)

    def cut(self, waiting, threads):
        """Takes the files of the next batch: a quarter of a thread's share of the waiting files, so that batches become smaller and the workers end
        together; or one file that has to be tried alone."""
        most, files, held = min(MOST_FILES, max(1, len(waiting) // (4 * threads))), [], 0
        while waiting and len(files) < most:
            link = waiting[-1][0]
            held += self.sizes.get(link, 2 ** 20)
            if files and (held > MOST_BYTES or link in self.alone):
                break
            files.append(waiting.pop())
            if link in self.alone:
                break
        return files

    def take(self, future):
        """Takes the result of a batch."""
        if future.key not in self.under_way:
            return
        _, batch, _ = self.under_way.pop(future.key)
        self.busy[batch.host] -= 1
        try:
            made = future.result() if future.status == "finished" else None
            fault = future.exception() if future.status == "error" else future.status
        except Exception as lost:  # a result can go with its worker
            made, fault = None, lost
        if isinstance(made, list):
            self.add(made)
        elif made:
            self.workers.look_again()
            self.again(batch, f"{made}, and not {self.workers.wanted}")
        else:
            self.again(batch, f"its worker died, or failed: {type(fault).__name__}: {fault}".split("\n")[0])

    def again(self, batch, why):
        """Repeats the histories of a batch whose worker died, one at a time, and each at most a few times."""
        link = batch.files[0][0]
        self.tries[link] += len(batch.files) == 1
        if self.tries[link] < TRIES:
            self.alone.update(each[0] for each in batch.files)
            self.waiting[batch.host].extend(reversed(batch.files))
        else:
            self.give_up(batch.files, why)

    def give_up(self, files, note):
        self.add([{**dict.fromkeys(work.KNOWN, ""), "link": link, "path": path, "host": host, "status": 1, "finding": "unreached", "note": note}
                  for link, path, host, _ in files])

    def look(self):
        """Examines the workers. Batches of lost workers are sent again, and files without a suitable worker for too long are given up."""
        self.workers.look()
        self.workers.report_wrong()
        for key, (future, batch, fit) in list(self.under_way.items()):
            if not self.workers.names.keys() & set(fit):
                del self.under_way[key]
                self.busy[batch.host] -= 1
                future.cancel()
                self.waiting[batch.host].extend(reversed(batch.files))
        for host, waiting in self.waiting.items():
            self.unreached[host] = 0 if self.workers.fit(host) else self.unreached[host] + 1
            if waiting and self.unreached[host] >= self.patience:
                self.give_up(waiting[::-1], f"no worker that fits on {host}" if host else "no worker that fits")
                waiting.clear()
