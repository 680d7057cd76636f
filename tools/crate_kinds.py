"""The crates by what they are for, and which of them stands on which."""
import os

ROOT = os.path.dirname(os.path.dirname(os.path.abspath(__file__)))

# What a kind is, its colour in pictures, and its crates.
KINDS = (
    ("definitions and laws", "#dbe7f5", ("system_keys", "model", "endings")),
    ("one proxy, one resolver, no threads", "#dff0dd", (
        "mutation", "dated_owners", "request_builder", "share_judge", "state_memory", "metadata", "proxy_state",
        "turn_world")),
    ("threads, locks and inboxes", "#fbe8cf", (
        "facts", "agreed_ledger", "locked_resolvers", "locked_cluster", "inboxes", "workers", "shared_cluster")),
    ("scripts, texts and the program", "#eadff3", (
        "script_tokens", "scripts", "cluster_lines", "cluster_scripts", "fold_run", "turns_run", "threads_scripts",
        "threads_lines", "threads_run", "command_line", "proxy_run", "script_texts", "session_texts", "session_handle",
        "gakyhera", "pages", "sessions", "session_run", "proxy_session")),
)


def read_crates():
    """For each crate of crates.txt, the lowest first, all that it names, libraries of the kit too."""
    named = {}
    with open(os.path.join(ROOT, "crates.txt")) as listed:
        for line in listed:
            words, colon, rest = line.partition("#")[0].partition(":")
            # (a static library has a word after its name)
            if colon and words.split():
                named[words.split()[0]] = rest.split()
    return named
