#!/usr/bin/env python3
"""The links, or the text, of more pages than one machine reads, by Dask's `distributed`.

    links_of_many_pages.py [--text] [--scheduler ADDRESS | --workers N] [--batch N] --into FOLDER PAGE...

A PAGE is a file, a folder whose `.html` and `.htm` files are read, or `@LIST`, a file that names one page a line.
Workers read the pages, so the paths must lead to them there, and so must FOLDER. Without a scheduler a cluster of N
workers is started here.

Each batch of pages makes one part, `part-00000.jsonl` and so on, with a line of JSON for each link
(`{"page": .., "line": .., "link": ..}`) or, with --text, for each page (`{"page": .., "text": ..}`). A part stands under
its name once it is whole. A page that can't be read is named, has no line in its part, and the others go on. Links and
texts are those that firnuubal links and text print.
"""

import argparse
import json
import os
import pathlib
import sys

HERE = pathlib.Path(__file__).resolve().parent
NOT_IN_URLS = str.maketrans("", "", "\t\n\r")


def tokenizer_module():
    """The module firnuubal, wherever this process runs."""
    sys.path.insert(0, str(HERE.parent / "src"))
    import firnuubal

    return firnuubal


def links_of_page(path):
    """The links of a page: for each the number of the line on which its tag ends, and what is written there."""
    with open(path, "rb") as page:
        for link in tokenizer_module().links(page):
            yield link.line, link.address.translate(NOT_IN_URLS)


def text_of_page(path):
    """The text between the tags of a page, without scripts and styles."""
    with open(path, "rb") as page:
        return tokenizer_module().text(page)


def records_of_page(path, is_text):
    """The records of a page, all of them: a page that can't be read to its end has none."""
    if is_text:
        return [{"page": path, "text": text_of_page(path)}]
    return [{"page": path, "line": line, "link": link} for line, link in links_of_page(path)]


def write_part(part, pages, is_text):
    """Writes the records of these pages, and answers for each page that can't be read why."""
    failed = {}
    unfinished = f"{part}.{os.getpid()}"
    with open(unfinished, "w", encoding="utf-8") as out:
        for path in pages:
            try:
                records = records_of_page(path, is_text)
            except Exception as error:  # whatever it is, the other pages are read
                failed[path] = str(error) or type(error).__name__
                continue
            out.writelines(json.dumps(record, ensure_ascii=False) + "\n" for record in records)
    os.replace(unfinished, part)
    return failed


def pages_in(words):
    """The paths of the pages that the words name, each once and absolute."""
    paths = []
    for word in words:
        path = pathlib.Path(word)
        if word.startswith("@"):
            paths += [pathlib.Path(line) for line in pathlib.Path(word[1:]).read_text().splitlines() if line]
        elif path.is_dir():
            paths += sorted(it for it in path.rglob("*") if it.suffix in (".html", ".htm") and it.is_file())
        else:
            paths.append(path)
    return list(dict.fromkeys(str(path.absolute()) for path in paths))


def connect(asked):
    """A client of the scheduler that was named, or of a cluster here."""
    from distributed import Client, LocalCluster

    if asked.scheduler:
        return Client(asked.scheduler)
    return Client(LocalCluster(n_workers=asked.workers, threads_per_worker=1, dashboard_address=None))


def read_all(client, asked, pages):
    """Has the workers read the pages batch by batch, shows how far they are, and answers how many pages failed."""
    from distributed import as_completed

    into = pathlib.Path(asked.into).absolute()
    into.mkdir(parents=True, exist_ok=True)
    batches = [pages[at : at + asked.batch] for at in range(0, len(pages), asked.batch)]
    parts = [str(into / f"part-{number:05}.jsonl") for number in range(len(batches))]
    futures = {
        client.submit(write_part, part, batch, asked.text, pure=False): batch for part, batch in zip(parts, batches)
    }
    done, failures = 0, 0
    for future in as_completed(futures):
        batch = futures[future]
        failed = future.result() if future.status == "finished" else dict.fromkeys(batch, str(future.exception()))
        for path, why in failed.items():
            print(f"{path}: {why}", file=sys.stderr)
        done, failures = done + len(batch), failures + len(failed)
        print(f"{done} of {len(pages)} pages, {failures} failed", file=sys.stderr)
    return failures


def main():
    words = argparse.ArgumentParser(description=__doc__, formatter_class=argparse.RawDescriptionHelpFormatter)
    words.add_argument("--text", action="store_true", help="the text of each page, in place of its links")
    words.add_argument("--scheduler", help="the address of a running scheduler")
    words.add_argument("--workers", type=int, default=2, help="how many workers to start here (2)")
    words.add_argument("--batch", type=int, default=64, help="how many pages make a part (64)")
    words.add_argument("--into", required=True, help="the folder of the parts")
    words.add_argument("pages", nargs="+", metavar="PAGE")
    asked = words.parse_args()
    with connect(asked) as client:
        return 1 if read_all(client, asked, pages_in(asked.pages)) else 0


if __name__ == "__main__":
    sys.exit(main())
